/* SPDX-License-Identifier: MIT OR Apache-2.0
 *
 * Converts the recording of a logic analyser, a VCD file or a digital CSV, to a capture. It is for computers without a
 * shell and awk, as Windows. The options, the output and the errors are those of the script tools/to-capture
 * (docs/CAPTURES.md). Nothing here is proved.
 *
 *   cc -O2 -o to_capture examples/c/to_capture.c
 *   to_capture [-c CHANNEL] [FILE] | dcc show --words        without FILE it reads standard input
 */
#include <stdarg.h>
#include <stdbool.h>
#include <stdint.h>
#include <stdio.h>
#include <stdlib.h>
#include <string.h>
#ifdef _WIN32
#include <fcntl.h>
#include <io.h>
#endif

enum { STATUS_REFUSED = 1, STATUS_USAGE = 2 };
/* the most characters of a time, of the unit of a VCD file, and of a quoted text; the most channels in a sentence */
enum { MOST_OF_TIME = 100, MOST_OF_UNIT = 20, MOST_OF_QUOTE = 40, MOST_OF_CHANNELS = 20 };

/* ---- texts ---- */

/* Bytes of another text. */
struct slice {
    const char *at;
    size_t length;
};

/* Bytes that grow. A zero byte always follows them. */
struct text {
    char *at;
    size_t length, room;
};

/* the line that was read last, and its number */
static struct text line;
static unsigned long line_number;

/* Ends the program with status 1 and a sentence on standard error. */
static void refuse(const char *format, ...) {
    va_list values;
    fputs("to-capture: ", stderr);
    va_start(values, format);
    vfprintf(stderr, format, values);
    va_end(values);
    fputs("\n", stderr);
    exit(STATUS_REFUSED);
}

/* Returns memory of `size` bytes in place of `old`. */
static void *resized(void *old, size_t size) {
    void *memory = realloc(old, size);
    if (!memory) refuse("no memory is left");
    return memory;
}

static void append(struct text *text, const char *bytes, size_t length) {
    if (text->room < text->length + length + 1) {
        text->room = 2 * (text->length + length + 1);
        text->at = resized(text->at, text->room);
    }
    if (length) memcpy(text->at + text->length, bytes, length);
    text->length += length;
    text->at[text->length] = '\0';
}

static void set(struct text *text, struct slice value) {
    text->length = 0;
    append(text, value.at, value.length);
}

static struct slice slice_of(const struct text *text) {
    struct slice it = {text->at, text->length};
    return it;
}

static struct slice literal(const char *text) {
    struct slice it = {text, strlen(text)};
    return it;
}

/* Returns the text without its first `count` bytes. */
static struct slice after(struct slice text, size_t count) {
    struct slice it = {text.at + count, text.length - count};
    return it;
}

static bool is_equal(struct slice a, struct slice b) {
    return a.length == b.length && (a.length == 0 || memcmp(a.at, b.at, a.length) == 0);
}

static bool is(struct slice text, const char *other) { return is_equal(text, literal(other)); }

static bool begins_with(struct slice text, const char *begin) {
    size_t length = strlen(begin);
    return text.length >= length && memcmp(text.at, begin, length) == 0;
}

static bool contains(struct slice text, const char *part) {
    for (size_t at = 0; at < text.length; at++)
        if (begins_with(after(text, at), part)) return true;
    return false;
}

static bool is_digit(char c) { return c >= '0' && c <= '9'; }

/* Returns true if a byte, if there is one at this place, is one of `set`. */
static bool is_at(struct slice text, size_t at, const char *set) {
    return at < text.length && text.at[at] != '\0' && strchr(set, text.at[at]) != NULL;
}

/* Returns the number of digits from a place. */
static size_t digits_at(struct slice text, size_t at) {
    size_t end = at;
    while (end < text.length && is_digit(text.at[end])) end++;
    return end - at;
}

/* Returns the place behind the blanks that begin at `at`. */
static size_t behind_blanks(struct slice text, size_t at) {
    while (at < text.length && text.at[at] == ' ') at++;
    return at;
}

/* Returns a number as a double. A processor may calculate with more digits, and then equal times could differ. */
static double rounded(double number) {
    volatile double stored = number;
    return stored;
}

/* Text of the file within a sentence: cut, and without bytes that a terminal would obey. */
struct plain {
    char text[MOST_OF_QUOTE + 3];
};

static struct plain plain(struct slice text) {
    struct plain it;
    size_t length = text.length > MOST_OF_QUOTE ? MOST_OF_QUOTE : text.length;
    for (size_t at = 0; at < length; at++)
        it.text[at] = text.at[at] >= ' ' && text.at[at] <= '~' ? text.at[at] : '?';
    strcpy(it.text + length, text.length > MOST_OF_QUOTE ? ".." : "");
    return it;
}

/* Ends the program with a sentence that begins with a text of the line that was read last. */
static void refuse_text(struct slice text, const char *sentence) {
    struct plain shown = plain(text);
    refuse("line %lu: \"%s\" %s", line_number, shown.text, sentence);
}

/* ---- the channels ---- */

struct channel {
    struct text name, id;
};

/* the requested channel, empty if none is requested */
static struct slice requested;
static struct channel *channels;
/* the selected channel counts from 1. It is 0 before it is known */
static size_t channel_count, picked;

static void add_channel(struct slice name, struct slice id) {
    if ((channel_count & (channel_count + 1)) == 0)
        channels = resized(channels, 2 * (channel_count + 1) * sizeof *channels);
    struct channel *it = &channels[channel_count++];
    memset(it, 0, sizeof *it);
    set(&it->name, name);
    set(&it->id, id);
}

/* Returns a channel as a sentence names it: its name, and its id if it has one. */
static struct plain label(const struct channel *channel) {
    struct text it = {0};
    append(&it, channel->name.at, channel->name.length);
    if (channel->id.length) {
        append(&it, " (", 2);
        append(&it, channel->id.at, channel->id.length);
        append(&it, ")", 1);
    }
    struct plain shown = plain(slice_of(&it));
    free(it.at);
    return shown;
}

/* Returns the end of a sentence that lists the channels, nothing if there is only one. */
static const char *choice(void) {
    static char text[MOST_OF_CHANNELS * (sizeof(struct plain) + 2) + 100];
    size_t end = 0;
    if (channel_count < 2) return "";
    end += (size_t)sprintf(text, "; the channels are ");
    for (size_t at = 0; at < channel_count && at < MOST_OF_CHANNELS; at++) {
        struct plain shown = label(&channels[at]);
        end += (size_t)sprintf(text + end, "%s%s", at ? ", " : "", shown.text);
    }
    if (channel_count > MOST_OF_CHANNELS)
        end += (size_t)sprintf(text + end, " and %lu more", (unsigned long)(channel_count - MOST_OF_CHANNELS));
    sprintf(text + end, ", and -c takes another");
    return text;
}

enum key { BY_NAME, BY_ID, BY_NUMBER, KEYS };

/* Returns true if a channel is the requested one by its name, by its id, or by the number that its name ends in. */
static bool is_called(const struct channel *channel, enum key key) {
    struct slice name = slice_of(&channel->name);
    if (key == BY_NAME) return is_equal(name, requested);
    if (key == BY_ID) return is_equal(slice_of(&channel->id), requested);
    size_t begin = name.length;
    while (begin > 0 && is_digit(name.at[begin - 1])) begin--;
    return begin < name.length && is_equal(after(name, begin), requested);
}

/* Picks the requested channel, or the first one. One wire of a VCD file may have several names. */
static void pick(void) {
    unsigned fits = 0;
    picked = 1;
    if (!requested.length) return;
    for (enum key key = BY_NAME; key < KEYS && !fits; key++)
        for (size_t at = 0; at < channel_count; at++) {
            if (!is_called(&channels[at], key)) continue;
            struct slice id = slice_of(&channels[at].id);
            if (!fits || !id.length || !is_equal(id, slice_of(&channels[picked - 1].id))) fits++;
            picked = at + 1;
        }
    if (fits == 1) return;
    const char *found = fits ? "more than one channel is" : "no channel is";
    struct plain name = plain(requested), first = label(&channels[0]);
    if (channel_count == 1) refuse("%s called \"%s\"; the only one is %s", found, name.text, first.text);
    refuse("%s called \"%s\"%s", found, name.text, choice());
}

/* ---- the half-bits ---- */

/* the edges so far, the level and the time of the last one, and the half-bits */
static unsigned long levels, halves, begins, ones;
static char last_level;
static double last_edge;
static long shortest, longest, last_half;

/* Writes a half-bit at once, since the next one may be long in coming. It counts at most 65535 microseconds, as a
 * capture does. */
static void write_half(double time) {
    long us = time < 65535 ? (long)rounded(time + .5) : 65535;
    if (!halves++ || us < shortest) shortest = us;
    if (us > longest) longest = us;
    last_half = us;
    /* a packet begins after twenty half-bits of ones, with half of a zero */
    if (us >= 90 && us <= 10000 && ones >= 20) begins++;
    ones = us >= 52 && us <= 64 ? ones + 1 : 0;
    if (printf("%ld\n", us) < 0 || fflush(stdout)) refuse("the capture cannot be written");
}

/* Takes the level at a time in microseconds. Only a change of the level is an edge. The first level is the level at the
 * start. */
static void take(double at, char level) {
    if (levels && level == last_level) return;
    if (levels++ > 1) write_half(rounded(at - last_edge));
    last_level = level;
    last_edge = at;
}

/* ---- VCD (IEEE 1364) ---- */

enum section { NO_SECTION, TIMESCALE, VAR, END_OF_DEFINITIONS, OTHER_SECTION };

/* the section that `$end` ends, its words without blanks between them, and its first words */
static enum section section;
static struct text section_text, section_word[5];
static size_t section_words;
/* true after a value of several bits, whose id comes next, with its last bit if that is 0 or 1 */
static bool has_vector;
static char vector_level;
/* the microseconds of a unit, 0 if it is not known, and the time of the last row */
static double unit, now;

/* Returns the section that a word begins. */
static enum section section_of(struct slice word) {
    static const char *const others[] = {"$comment", "$date", "$scope", "$upscope", "$version"};
    if (is(word, "$timescale")) return TIMESCALE;
    if (is(word, "$var")) return VAR;
    if (is(word, "$enddefinitions")) return END_OF_DEFINITIONS;
    for (size_t at = 0; at < sizeof others / sizeof *others; at++)
        if (is(word, others[at])) return OTHER_SECTION;
    return NO_SECTION;
}

static void add_to_section(struct slice word) {
    if (section == TIMESCALE) append(&section_text, word.at, word.length);
    if (section == VAR && section_words < 5) set(&section_word[section_words], word);
    section_words++;
}

static void begin_section(enum section begun) {
    section = begun;
    section_words = 0;
    set(&section_text, literal(""));
    for (size_t at = 0; at < 5; at++) set(&section_word[at], literal(""));
}

/* Returns the microseconds of a time scale, as 100ns, and 0 if the text is none. */
static double unit_of(struct slice text) {
    static const struct { const char *name; double us; } units[] =
        {{"s", 1e6}, {"ms", 1e3}, {"us", 1}, {"ns", 1e-3}, {"ps", 1e-6}, {"fs", 1e-9}};
    size_t digits = digits_at(text, 0);
    if (text.length > MOST_OF_UNIT || !digits) return 0;
    for (size_t at = 0; at < sizeof units / sizeof *units; at++)
        if (is(after(text, digits), units[at].name)) return rounded(strtod(text.at, NULL) * units[at].us);
    return 0;
}

/* the wires by their names and ids: places in `channels`, from 1, and 0 where nothing is */
static size_t *wires, wire_room;

/* Returns where a wire is in `wires`, or where it belongs. */
static size_t place_of_wire(struct slice name, struct slice id) {
    uint32_t sum = 2166136261u;
    for (size_t at = 0; at < name.length + id.length; at++) {
        char byte = at < name.length ? name.at[at] : id.at[at - name.length];
        sum = (sum ^ (unsigned char)byte) * 16777619u;
    }
    for (size_t place = sum & (wire_room - 1);; place = (place + 1) & (wire_room - 1)) {
        if (!wires[place]) return place;
        struct channel *it = &channels[wires[place] - 1];
        if (is_equal(slice_of(&it->name), name) && is_equal(slice_of(&it->id), id)) return place;
    }
}

/* Adds a wire of one bit. A module may have the same wire by the same name. */
static void add_wire(struct slice name, struct slice id) {
    if (wire_room < 2 * (channel_count + 1)) {
        wire_room = 4 * (channel_count + 1);
        while (wire_room & (wire_room - 1)) wire_room &= wire_room - 1;
        wires = resized(wires, wire_room * sizeof *wires);
        memset(wires, 0, wire_room * sizeof *wires);
        for (size_t at = 0; at < channel_count; at++)
            wires[place_of_wire(slice_of(&channels[at].name), slice_of(&channels[at].id))] = at + 1;
    }
    size_t place = place_of_wire(name, id);
    if (wires[place]) return;
    add_channel(name, id);
    wires[place] = channel_count;
}

static void begin_values(void) {
    if (!channel_count) refuse("no $var of one bit stands before the times: there is no channel");
    pick();
}

static void end_section(void) {
    if (section == TIMESCALE) unit = unit_of(slice_of(&section_text));
    if (section == VAR && is(slice_of(&section_word[1]), "1")) {
        struct text *name = &section_word[3];
        append(name, section_word[4].at, section_word[4].length);
        add_wire(slice_of(name), slice_of(&section_word[2]));
    }
    if (section == END_OF_DEFINITIONS) begin_values();
    section = NO_SECTION;
}

static void read_vcd_time(struct slice word) {
    if (!picked) begin_values();
    if (unit == 0) refuse("no $timescale, as $timescale 1 ns $end, stands before the times: they have no unit");
    if (word.length < 2 || word.length > MOST_OF_TIME || digits_at(word, 1) != word.length - 1)
        refuse_text(word, "is no time");
    double time = rounded(strtod(word.at + 1, NULL) * unit);
    if (time < now) refuse("line %lu: its time lies before that of the line above", line_number);
    now = time;
}

static bool is_picked(struct slice id) { return picked && is_equal(id, slice_of(&channels[picked - 1].id)); }

/* Reads a word. The values between $dumpvars, $dumpall and so on are read like all others. The values x and z are no
 * level of a track. */
static void read_vcd_word(struct slice word) {
    char first = word.at[0];
    if (section != NO_SECTION) {
        if (is(word, "$end")) end_section();
        else add_to_section(word);
    } else if (has_vector) {
        if (vector_level && is_picked(word)) take(now, vector_level);
        has_vector = false;
    } else if (first == '#') {
        read_vcd_time(word);
    } else if (first == '0' || first == '1') {
        if (is_picked(after(word, 1))) take(now, first);
    } else if (is_at(word, 0, "bBrRsS")) {
        char last = word.at[word.length - 1];
        has_vector = true;
        vector_level = (first == 'b' || first == 'B') && (last == '0' || last == '1') ? last : '\0';
    } else if (section_of(word) != NO_SECTION) {
        begin_section(section_of(word));
    }
}

static void read_vcd_line(struct slice text) {
    for (size_t at = 0, end; at < text.length; at = end + 1) {
        for (end = at; end < text.length && !is_at(text, end, " \t");) end++;
        struct slice word = {text.at + at, end - at};
        if (word.length) read_vcd_word(word);
    }
}

/* ---- CSV ---- */

/* the columns of the last row, without blanks around them and without quotes */
static struct text row;
static struct slice *field;
static size_t columns, field_room;
static char separator;
/* the sample rate in hertz, the number of channels and their names, if comments tell them */
static double rate, told_channels;
static struct text told;
static size_t told_names;
/* true if the first column is the time, the number of the first line and of its columns, and the rows so far */
static bool is_timed;
static unsigned long header, rows;
static size_t header_columns;

/* Returns a rate as 24 MHz in hertz, and 0 if the text is none. */
static double hertz(struct slice text) {
    size_t at = behind_blanks(text, 0), digits = digits_at(text, at);
    if (!digits) return 0;
    at += digits;
    if (is_at(text, at, ".") && digits_at(text, at + 1)) at += 1 + digits_at(text, at + 1);
    at = behind_blanks(text, at);
    if (at < text.length && !is_at(text, at, "kMGH")) return 0;
    double number = strtod(text.at, NULL);
    return rounded(number * (contains(text, "G") ? 1e9 : contains(text, "M") ? 1e6 : contains(text, "k") ? 1e3 : 1));
}

/* Returns the length of the words `sample rate: ` at the begin of a text, and 0 if it does not begin so. */
static size_t rate_words(struct slice text) {
    if (!is_at(text, 0, "Ss") || !begins_with(after(text, 1), "ample")) return 0;
    size_t at = text.length > 6 && text.at[6] == ' ' ? 7 : 6;
    return begins_with(after(text, at), "rate: ") ? at + strlen("rate: ") : 0;
}

/* Returns the length of the words `Channels (2/8): ` at the begin of a text, and 0 if it does not begin so. */
static size_t channel_words(struct slice text) {
    if (!begins_with(text, "Channels (")) return 0;
    size_t at = strlen("Channels ("), digits = digits_at(text, at);
    if (!digits || !is_at(text, at += digits, "/")) return 0;
    digits = digits_at(text, ++at);
    if (!digits || !begins_with(after(text, at += digits), "):")) return 0;
    return behind_blanks(text, at + 2);
}

/* Returns the length of the next of the names that ", " separates. */
static size_t name_length(struct slice names) {
    size_t at = 0;
    while (at < names.length && !begins_with(after(names, at), ", ")) at++;
    return at;
}

/* Returns name number `place`, from 0, of the comment. */
static struct slice told_name(size_t place) {
    struct slice names = slice_of(&told);
    for (; place; place--) names = after(names, name_length(names) + 2);
    names.length = name_length(names);
    return names;
}

/* Reads a comment. sigrok gives the sample rate there, and the number of channels and their names between commas and
 * blanks, without quotes. */
static void read_comment(struct slice text) {
    size_t at = 0;
    while (at < text.length && !rate_words(after(text, at))) at++;
    if (at < text.length) rate = hertz(after(text, at + rate_words(after(text, at))));
    for (at = 0; at < text.length && !channel_words(after(text, at));) at++;
    if (at == text.length) return;
    told_channels = strtod(text.at + at + strlen("Channels ("), NULL);
    set(&told, after(text, at + channel_words(after(text, at))));
    struct slice names = slice_of(&told);
    for (told_names = names.length > 0; name_length(names) < names.length; told_names++)
        names = after(names, name_length(names) + 2);
}

/* Returns what separates the columns, by a first line. What stands in quotes does not count. */
static char separator_of(struct slice text) {
    bool is_quoted = false, has_tab = false;
    for (size_t at = 0; at < text.length; at++) {
        if (text.at[at] == '"')
            is_quoted = !is_quoted && memchr(text.at + at + 1, '"', text.length - at - 1) != NULL;
        if (!is_quoted && text.at[at] == ';') return ';';
        has_tab |= !is_quoted && text.at[at] == '\t';
    }
    return has_tab ? '\t' : ',';
}

/* Adds the bytes of `row` from `begin` as a field, without the blanks around them. */
static void add_field(size_t begin) {
    struct slice it = {row.at + begin, row.length - begin};
    it = after(it, behind_blanks(it, 0));
    while (it.length && it.at[it.length - 1] == ' ') it.length--;
    if (columns == field_room) {
        field_room = 2 * field_room + 16;
        field = resized(field, field_room * sizeof *field);
    }
    field[columns++] = it;
}

/* Splits a line into fields. A quote at the begin of a field opens it, and the next one closes it; of two within it one
 * remains. */
static void split_row(struct slice text) {
    bool is_quoted = false, is_closed = false;
    size_t begin = 0;
    /* the fields point into `row`, which must not move */
    set(&row, text);
    row.length = columns = 0;
    for (size_t at = 0; at < text.length; at++) {
        char c = text.at[at];
        if (c == '"' && is_quoted && is_at(text, at + 1, "\"")) {
            append(&row, text.at + at++, 1);
        } else if (c == '"' && is_quoted) {
            is_quoted = false;
            is_closed = true;
        } else if (c == '"' && !is_closed && behind_blanks(slice_of(&row), begin) == row.length) {
            is_quoted = true;
        } else if (c == separator && !is_quoted) {
            add_field(begin);
            begin = row.length;
            is_closed = false;
        } else {
            append(&row, &c, 1);
        }
    }
    if (is_quoted) refuse("line %lu: a quote is not closed", line_number);
    add_field(begin);
}

/* Returns true if a text is a number, as -1.5e-03. Its exponent has at most two digits after a 0. */
static bool is_number(struct slice text) {
    size_t at = is_at(text, 0, "-+"), digits = digits_at(text, at);
    at += digits;
    if (is_at(text, at, ".")) digits = digits_at(text, ++at), at += digits;
    if (!digits) return false;
    if (is_at(text, at, "eE")) {
        at += is_at(text, at + 1, "-+") ? 2 : 1;
        digits = digits_at(text, at);
        if (!digits || digits > 3 || (digits == 3 && text.at[at] != '0')) return false;
        at += digits;
    }
    return at == text.length;
}

/* Reads a date and a time of day, as 2026-11-25T18:00:00.000200000+00:00, as the seconds of a month. Returns false if
 * the text is none. */
static bool read_date(struct slice text, double *seconds) {
    static const char *const behind[6] = {"-", "-", "T ", ":", ":", ""};
    double part[6];
    size_t at = 0;
    for (int i = 0; i < 6; i++) {
        size_t digits = digits_at(text, at);
        if (!digits) return false;
        part[i] = strtod(text.at + at, NULL);
        at += digits;
        if (i < 5 && !is_at(text, at++, behind[i])) return false;
    }
    if (is_at(text, at, ".")) {
        if (!digits_at(text, at + 1)) return false;
        at += 1 + digits_at(text, at + 1);
    }
    if (is_at(text, at, "Z")) {
        at++;
    } else if (at < text.length) {
        at += text.at[at] == ' ';
        if (!is_at(text, at, "-+") || at + 1 == text.length) return false;
        for (at++; at < text.length && is_at(text, at, "0123456789:");) at++;
    }
    if (at != text.length) return false;
    *seconds = rounded(((part[2] * 24 + part[3]) * 60 + part[4]) * 60 + part[5]);
    return true;
}

/* Reads a time in the unit of its column. Returns false if the text is none. */
static bool read_time(struct slice text, double *time) {
    char copy[MOST_OF_TIME + 1];
    if (text.length > MOST_OF_TIME) return false;
    memcpy(copy, text.at, text.length);
    copy[text.length] = '\0';
    struct slice it = {copy, text.length};
    char *comma = memchr(copy, ',', text.length);
    if (comma && separator != ',') *comma = '.';
    if (!is_number(it)) return read_date(it, time);
    *time = rounded(strtod(copy, NULL));
    return true;
}

/* Returns true if `unit_name`, as ns, comes behind a byte that is no letter. */
static bool has_unit(struct slice text, const char *unit_name) {
    for (size_t at = 1; at < text.length; at++)
        if (begins_with(after(text, at), unit_name) && (text.at[at - 1] < 'a' || text.at[at - 1] > 'z')) return true;
    return false;
}

/* Returns true if an s comes behind a byte that is not ASCII, as in the unit of microseconds with its Greek letter. */
static bool has_greek_unit(struct slice text) {
    for (size_t at = 1; at < text.length; at++)
        if (text.at[at] == 's' && (text.at[at - 1] < ' ' || text.at[at - 1] > '~')) return true;
    return false;
}

/* Returns the microseconds of the unit of a first column, as Time [s], Time(ms) or nanoseconds, and 0 if the column is
 * no time. */
static double microseconds_of(struct slice name) {
    struct text small = {0};
    append(&small, name.at, name.length);
    for (size_t at = 0; at < small.length; at++)
        if (small.at[at] >= 'A' && small.at[at] <= 'Z') small.at[at] = (char)(small.at[at] - 'A' + 'a');
    struct slice text = slice_of(&small);
    double us = 1e6;
    if (!begins_with(text, "time") && !contains(text, "seconds")) us = 0;
    else if (contains(text, "pico") || has_unit(text, "ps")) us = 1e-6;
    else if (contains(text, "nano") || has_unit(text, "ns")) us = 1e-3;
    else if (contains(text, "micro") || has_unit(text, "us") || has_greek_unit(text)) us = 1;
    else if (contains(text, "milli") || has_unit(text, "ms")) us = 1e3;
    free(small.at);
    return us;
}

static bool is_time_word(struct slice text) {
    return text.length == 4 && is_at(text, 0, "tT") && is_at(text, 1, "iI") && is_at(text, 2, "mM") &&
           is_at(text, 3, "eE");
}

static void read_csv_row(void) {
    double time = (double)rows;
    if (columns != header_columns) {
        struct slice between = {&separator, 1};
        struct plain shown = plain(between);
        refuse("line %lu: it has %lu column%s, and line %lu has %lu: a name or value with \"%s\" in it needs quotes",
               line_number, (unsigned long)columns, columns == 1 ? "" : "s", header, (unsigned long)header_columns,
               shown.text);
    }
    if (is_timed && !read_time(field[0], &time)) refuse_text(field[0], "is no time");
    time = rounded(time * unit);
    if (rows++ && time < now) refuse("line %lu: its time lies before that of the line above", line_number);
    now = time;
    struct slice level = field[picked - 1 + is_timed];
    if (!is(level, "0") && !is(level, "1"))
        refuse_text(level, "is no level 0 or 1: export the digital channel, not its voltage");
    take(now, level.at[0]);
}

/* Adds the channels of the columns. The channels without names are called 0, 1 and so on. */
static void add_columns(bool is_row) {
    char number[24];
    /* a name with a comma and a blank in it would be taken for two: then no name is known */
    if (told_names != columns - is_timed) told_names = 0;
    for (size_t place = 0; place < columns - is_timed; place++) {
        sprintf(number, "%lu", (unsigned long)place);
        struct slice name = is_row ? literal(number) : field[place + is_timed];
        if (is(name, "logic")) name = told_names ? told_name(place) : literal(number);
        add_channel(name, literal(""));
    }
}

/* Reads the columns from the first line, which may be a row already. */
static void read_csv_columns(struct slice text) {
    double time;
    bool is_row = read_time(field[0], &time);
    unit = is_row ? 1e6 : microseconds_of(field[0]);
    is_timed = unit != 0 && !(is_row && rate != 0);
    if (!is_timed && rate != 0) unit = rounded(1e6 / rate);
    if (unit == 0 || (is_timed && columns == 1))
        refuse_text(text, "begins neither a VCD file nor a digital CSV with a time in its first column: "
                          "export one of these");
    /* sigrok tells the unit in the header, or not at all */
    if (rate != 0 && (is_time_word(field[0]) || (is_row && (double)columns > told_channels)))
        refuse_text(text, "tells no unit of time: let sigrok-cli write -O csv:time=true:dedup=true, without label");
    header = line_number;
    header_columns = columns;
    add_columns(is_row);
    pick();
    if (is_row) read_csv_row();
}

static void read_csv_line(struct slice text) {
    if (is_at(text, 0, ";#")) {
        read_comment(text);
        return;
    }
    if (!separator) separator = separator_of(text);
    split_row(text);
    if (picked) read_csv_row();
    else read_csv_columns(text);
}

/* ---- the file ---- */

enum form { UNKNOWN, VCD, CSV };
static enum form form;

/* Reads a line without its line feed. Returns false at the end of the input. */
static bool next_line(FILE *input, const char *name) {
    int c;
    line.length = 0;
    while ((c = getc(input)) != EOF && c != '\n') {
        char byte = (char)c;
        append(&line, &byte, 1);
    }
    if (c == EOF && ferror(input)) refuse("%s cannot be read", name);
    append(&line, "", 0);
    line_number += line.length || c != EOF;
    return line.length || c != EOF;
}

/* Ends the program at the first bytes of a file that is no text. Returns the length of a byte order mark. */
static size_t read_mark(struct slice text) {
    if (begins_with(text, "PK"))
        refuse("this is a zip archive, as .sr of sigrok and PulseView, .sal of Logic 2 and .dsl of DSView are: "
               "export it as VCD or CSV, as by sigrok-cli -i track.sr -O vcd");
    if (begins_with(text, "\377\376") || begins_with(text, "\376\377"))
        refuse("this text is UTF-16, as PowerShell writes it behind >: let sigrok-cli write the file, by -o track.vcd");
    return begins_with(text, "\357\273\277") ? 3 : 0;
}

/* Reads a line in the form that the first line without a mark of its own begins. */
static void read_line(struct slice text) {
    size_t at = 0;
    if (line_number == 1) text = after(text, read_mark(text));
    if (text.length && text.at[text.length - 1] == '\r') line.at[line.length - 1] = '\0', text.length--;
    while (is_at(text, at, " \t")) at++;
    if (at == text.length) return;
    /* sigrok-cli may write this before the file */
    if (form == UNKNOWN && begins_with(text, "META ")) return;
    if (form == UNKNOWN) form = text.at[at] == '$' ? VCD : CSV;
    if (form == VCD) read_vcd_line(text);
    else read_csv_line(text);
}

/* Ends the capture. The end of the last level is unknown. It gets the length of the half-bit before it, since it can be
 * the second half of a bit. So a packet that ends there is kept. */
static void finish(void) {
    if (form == UNKNOWN) refuse("the input is empty");
    if (!picked) refuse("the input ends before its first level");
    if (halves) write_half((double)last_half);
    struct plain name = label(&channels[picked - 1]);
    if (!halves) refuse("the channel \"%s\" has no two edges%s", name.text, choice());
    if (!begins)
        refuse("the channel \"%s\" has no packet: %lu halves, of %ld to %ld microseconds, and nowhere "
               "20 halves of ones (52 to 64) before a half of a zero (90 to 10000)%s",
               name.text, halves, shortest, longest, choice());
}

static void misused(void) {
    fputs("usage: to_capture [-c CHANNEL] [FILE]\n", stderr);
    exit(STATUS_USAGE);
}

/* Reads the options, and returns the number of the first word behind them. */
static int read_options(int argc, char **argv) {
    int at = 1;
    for (; at < argc && argv[at][0] == '-' && argv[at][1]; at++) {
        if (!strcmp(argv[at], "--")) return at + 1;
        if (argv[at][1] != 'c' || (!argv[at][2] && at + 1 == argc)) misused();
        requested = literal(argv[at][2] ? argv[at] + 2 : argv[++at]);
    }
    return at;
}

int main(int argc, char **argv) {
#ifdef _WIN32
    for (int stream = 0; stream < 3; stream++) _setmode(stream, _O_BINARY);
#endif
    int at = read_options(argc, argv);
    if (argc - at > 1) misused();
    const char *name = at < argc ? argv[at] : "standard input";
    FILE *input = at < argc ? fopen(name, "rb") : stdin;
    if (!input) refuse("%s cannot be read", name);
    while (next_line(input, name)) read_line(slice_of(&line));
    finish();
    return 0;
}
