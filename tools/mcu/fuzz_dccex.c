/* Sequences of random and mutated commands for the command station of examples/firmware/command_station, with
 * sanitizers. The commands come to two ports. Half of the sequences begin with a new station. The program compares each
 * answer with that of a second writing of the commands and of their states, which is written with the C library, and
 * each packet on both tracks with the packets that the station may send.
 *
 *     fuzz_dccex COUNT [SEED]        so many sequences of 1 to 7 commands
 */
#include "dccex.h"
#include <ctype.h>
#include <stdarg.h>
#include <stdio.h>
#include <stdlib.h>
#include <string.h>
#include <strings.h>

enum { PORTS = 2, CABS = 16, TURNOUTS = 16, QUEUE = 16 };

typedef struct {
    char text[50000];
    uint32_t len;
} log_of_port;

static dccex station;
static log_of_port answers[PORTS], wanted[PORTS];
static uint32_t seed = 1;
static unsigned long refused, accepted, dropped, on_main, on_programming, values, known;

static void check(bool is_right, const char *what, const char *command) {
    if (is_right) return;
    printf("%s: <%s> was answered\n%s1 %s", what, command, answers[0].text, answers[1].text);
    printf("and not\n%s1 %s", wanted[0].text, wanted[1].text);
    exit(1);
}

static void append(log_of_port *to, const char *text) {
    uint32_t len = (uint32_t)strlen(text);
    if (to->len + len + 1 > sizeof to->text) exit(2);
    memcpy(to->text + to->len, text, len + 1);
    to->len += len;
}

static void forget_answers(void) {
    for (int port = 0; port < PORTS; port++) {
        answers[port].len = wanted[port].len = 0;
        answers[port].text[0] = wanted[port].text[0] = 0;
    }
}

/* The command for the programming track that is not finished: what its answer has before the value. */
static struct {
    bool is_there;
    int port;
    long most;
    char begin[40];
} task;

/* Takes the answer of the programming track, whose value the decoder decides. Returns false if it is another answer. */
static bool take_value(int port, const char *text) {
    char *end;
    size_t len = strlen(task.begin);
    if (!task.is_there || port != task.port || strncmp(text, task.begin, len) != 0) return false;
    long value = strtol(text + len, &end, 10);
    if (strcmp(end, ">\n") != 0 || value < -1 || value > task.most) return false;
    task.is_there = false;
    values++;
    known += value >= 0;
    return true;
}

static void take_answer(int port, const char *text) {
    size_t len = strlen(text);
    check(len > 3 && text[0] == '<' && text[len - 2] == '>' && text[len - 1] == '\n', "a form", text);
    for (size_t i = 0; i < len - 1; i++) check(isprint((unsigned char)text[i]), "a byte", text);
    if (!take_value(port, text)) append(&answers[port], text);
}

/* Lets the main loop run some rounds, and takes what the station gives. */
static void process(uint32_t rounds) {
    char line[200], c;
    for (; rounds > 0; rounds--) {
        dccex_process(&station);
        for (int port = 0; port < PORTS; port++) {
            uint32_t len = 0;
            while (dccex_give(&station, (uint8_t)port, &c)) {
                line[len++] = c;
                line[len] = 0;
                if (c == '\n') take_answer(port, line);
                if (c == '\n') len = 0;
                check(len < sizeof line - 1, "a long answer", "");
            }
            check(len == 0, "a part of an answer", "");
        }
    }
}

static uint32_t random_below(uint32_t limit) {
    seed ^= seed << 13;
    seed ^= seed >> 17;
    seed ^= seed << 5;
    return seed % limit;
}

/* ---- the second writing ---- */

/* What the commands have done. */
static struct {
    struct { int cab, speed; unsigned long long functions; } cabs[CABS];
    struct { bool is_there; long id, board, pair, thrown; } turnouts[TURNOUTS];
    bool main, programming, joined;
} model;

/* The command that is modelled: its port, its numbers in both bases, and its words. A word is in `words` only. */
enum { MOST = 6 };
static int asker, count;
static long n[MOST], hex[MOST];
static char words[MOST][60];
static bool is_number[MOST], is_hex[MOST];

static void want(int port, const char *format, ...) {
    char text[200];
    va_list given;
    va_start(given, format);
    vsnprintf(text, sizeof text, format, given);
    va_end(given);
    append(&wanted[port], text);
    append(&wanted[port], ">\n");
}

#define WANT_ALL(...) \
    for (int port = 0; port < PORTS; port++) want(port, __VA_ARGS__)

static bool is_between(long number, long least, long most) {
    return number >= least && number <= most;
}

/* Whether the values of the command are numbers in these ranges, which end with a least number that is greater than the
 * most: a word is WORD. */
#define WORD 1, 0
static bool are(int given, ...) {
    va_list ranges;
    bool good = count == given;
    va_start(ranges, given);
    for (int i = 0; i < given && good; i++) {
        long least = va_arg(ranges, int), most = va_arg(ranges, int);
        good = least > most ? !is_number[i] : is_number[i] && is_between(n[i], least, most);
    }
    va_end(ranges);
    return good;
}

static bool is_word(int i, const char *word) {
    return i < count && strcasecmp(words[i], word) == 0;
}

/* (-0 is 0 in both bases) */
static bool is_hex_number(const char *token) {
    const char *digits = token + (*token == '-');
    size_t len = strlen(digits);
    return len > 0 && len <= 5 && strspn(digits, "0123456789abcdefABCDEF") == len &&
        is_between(strtol(token, NULL, 16), 0, 32767);
}

/* Reads the values of a command. Returns false if there are too many. */
static bool read_values(const char *text) {
    char copy[256];
    count = 0;
    snprintf(copy, sizeof copy, "%s", text);
    for (char *token = strtok(copy, " "); token; token = strtok(NULL, " ")) {
        const char *digits = token + (*token == '-');
        if (count == MOST) return false;
        snprintf(words[count], sizeof words[count], "%s", token);
        n[count] = strtol(token, NULL, 10);
        hex[count] = strtol(token, NULL, 16);
        is_hex[count] = is_hex_number(token);
        is_number[count] = *digits && strlen(digits) <= 5 && strspn(digits, "0123456789") == strlen(digits) &&
            is_between(n[count], -999, 32767);
        count++;
    }
    return true;
}

/* The place of a locomotive, or -1. */
static int find(long cab) {
    for (int i = 0; i < CABS; i++) {
        if (model.cabs[i].cab == cab) return i;
    }
    return -1;
}

/* The place of a locomotive that a command drives, which can be a new one, or -1. */
static int take_place(long cab) {
    int place = find(cab) >= 0 ? find(cab) : find(0);
    if (place < 0 || model.cabs[place].cab == cab) return place;
    model.cabs[place].cab = (int)cab;
    model.cabs[place].speed = 128;
    model.cabs[place].functions = 0;
    return place;
}

static bool has_room(void) {
    return dcc_station_waiting(&station.station) < QUEUE;
}

static void want_cab(int to, int place) {
    for (int port = 0; port < PORTS; port++) {
        if (to >= 0 && port != to) continue;
        want(port, "<l %d %d %d %llu", model.cabs[place].cab, place, model.cabs[place].speed,
            model.cabs[place].functions % (1 << 29));
    }
}

static void stop_all(int speed) {
    for (int i = 0; i < CABS; i++) {
        if (model.cabs[i].cab == 0) continue;
        model.cabs[i].speed = model.cabs[i].speed / 128 * 128 + speed;
        want_cab(-1, i);
    }
}

static const char *power(void) {
    if (model.joined) return "<p1 JOIN";
    if (model.main) return model.programming ? "<p1" : "<p1 MAIN";
    return model.programming ? "<p1 PROG" : "<p0";
}

static bool throttle(long cab, long speed, long forward) {
    if (!is_between(cab, 0, 10239) || !is_between(speed, -1, 126) || !is_between(forward, 0, 1)) return false;
    if (cab == 0) {
        if (speed > 0 || (speed == 0 && !has_room())) return false;
        stop_all(speed < 0);
        return true;
    }
    if (!has_room() || (find(cab) < 0 && find(0) < 0)) return false;
    int place = take_place(cab);
    model.cabs[place].speed = (int)(forward * 128 + (speed < 0 ? 1 : speed > 0 ? speed + 1 : 0));
    want_cab(-1, place);
    return true;
}

/* <1 ..> and <0 ..> */
static bool switch_power(bool is_on) {
    bool all = count == 0, join = is_on && is_word(0, "JOIN");
    if (count > 1 || (!all && !join && !is_word(0, "MAIN") && !is_word(0, "PROG"))) return false;
    model.joined = join;
    if (!is_word(0, "PROG")) model.main = is_on;
    if (!is_word(0, "MAIN")) model.programming = is_on;
    if (!is_on && !is_word(0, "MAIN") && task.is_there) {
        want(task.port, "%s-1", task.begin);
        task.is_there = false;
    }
    WANT_ALL("%s", power());
    return true;
}

/* The turnout with a number, or -1. */
static int find_turnout(long id) {
    for (int i = 0; i < TURNOUTS; i++) {
        if (model.turnouts[i].is_there && model.turnouts[i].id == id) return i;
    }
    return -1;
}

static bool define(long board, long pair) {
    int at = find_turnout(n[0]);
    for (int i = TURNOUTS - 1; i >= 0 && find_turnout(n[0]) < 0; i--) {
        if (!model.turnouts[i].is_there) at = i;
    }
    if (at < 0) return false;
    if (!model.turnouts[at].is_there) model.turnouts[at].thrown = 0;
    model.turnouts[at].is_there = true;
    model.turnouts[at].id = n[0];
    model.turnouts[at].board = board;
    model.turnouts[at].pair = pair;
    want(asker, "<O");
    return true;
}

static bool list_turnouts(void) {
    bool has_one = false;
    for (int i = 0; i < TURNOUTS; i++) {
        if (!model.turnouts[i].is_there) continue;
        has_one = true;
        want(asker, "<H %ld DCC %ld %ld %ld", model.turnouts[i].id, model.turnouts[i].board, model.turnouts[i].pair,
            model.turnouts[i].thrown);
    }
    return has_one;
}

static bool turnout(void) {
    if (count == 0) return list_turnouts();
    if (are(3, 0, 32767, 0, 511, 0, 3)) return define(n[1], n[2]);
    if (are(4, 0, 32767, WORD, 0, 511, 0, 3) && is_word(1, "DCC")) return define(n[2], n[3]);
    if (are(3, 0, 32767, WORD, 1, 2040) && is_word(1, "DCC")) return define((n[2] + 3) / 4, (n[2] + 3) % 4);
    int at = is_number[0] ? find_turnout(n[0]) : -1;
    if (at < 0) return false;
    if (count == 1) {
        model.turnouts[at].is_there = false;
        want(asker, "<O");
        return true;
    }
    bool closes = is_word(1, "C") || (is_number[1] && n[1] == 0);
    bool throws = is_word(1, "T") || (is_number[1] && n[1] == 1);
    if (count != 2 || (!closes && !throws) || !has_room()) return false;
    model.turnouts[at].thrown = throws;
    WANT_ALL("<H %ld %d", n[0], throws);
    return true;
}

static bool list(void) {
    char text[200] = "<jT";
    if (count == 1 && is_word(0, "A")) want(asker, "<jA");
    else if (count == 1 && is_word(0, "R")) want(asker, "<jR");
    else if (count == 1 && is_word(0, "T")) {
        for (int i = 0; i < TURNOUTS; i++) {
            size_t len = strlen(text);
            if (model.turnouts[i].is_there) snprintf(text + len, sizeof text - len, " %ld", model.turnouts[i].id);
        }
        want(asker, "%s", text);
    } else if (are(2, WORD, 0, 32767) && is_word(0, "T")) {
        int at = find_turnout(n[1]);
        want(asker, "<jT %ld %s", n[1], at < 0 ? "X" : model.turnouts[at].thrown ? "T \"\"" : "C \"\"");
    } else {
        return false;
    }
    return true;
}

/* Whether a new station takes the packet of <M ..>. */
static bool packet(void) {
    static dcc_station other;
    uint8_t bytes[6] = {0};
    if (count < 3 || !is_hex[0]) return false;
    for (int i = 1; i < count; i++) {
        if (!is_hex[i] || hex[i] > 255) return false;
        bytes[i - 1] = (uint8_t)hex[i];
        bytes[count - 1] ^= (uint8_t)hex[i];
    }
    dcc_station_new(&other, 1, 1, 1);
    return has_room() && dcc_station_command(&other, bytes, (uint64_t)count) == 0;
}

/* A command for the programming track begins, if no other one runs. */
static bool begins(long most, const char *format, ...) {
    va_list given;
    if (task.is_there) return false;
    va_start(given, format);
    vsnprintf(task.begin, sizeof task.begin, format, given);
    va_end(given);
    task.is_there = true;
    task.port = asker;
    task.most = most;
    return true;
}

static bool service(char letter) {
    switch (letter) {
    case 'R':
        if (count == 0) return begins(10239, "<r ");
        if (are(1, 1, 1024)) return begins(255, "<v %ld ", n[0]);
        return are(3, 1, 1024, 0, 32767, 0, 32767) && begins(255, "<r%ld|%ld|%ld ", n[1], n[2], n[0]);
    case 'W':
        if (are(1, 1, 10239)) return begins(n[0], "<w ");
        if (are(2, 1, 1024, 0, 255)) return begins(n[1], "<r %ld ", n[0]);
        return are(4, 1, 1024, 0, 255, 0, 32767, 0, 32767) && begins(n[1], "<r%ld|%ld|%ld ", n[2], n[3], n[0]);
    case 'V':
        if (are(2, 1, 1024, 0, 255)) return begins(255, "<v %ld ", n[0]);
        return are(3, 1, 1024, 0, 7, 0, 1) && begins(1, "<v %ld %ld ", n[0], n[1]);
    default:
        if (are(3, 1, 1024, 0, 7, 0, 1)) return begins(n[2], "<r %ld %ld ", n[0], n[1]);
        return are(5, 1, 1024, 0, 7, 0, 1, 0, 32767, 0, 32767) &&
            begins(n[2], "<r%ld|%ld|%ld %ld ", n[3], n[4], n[0], n[1]);
    }
}

static bool forget(void) {
    if (count > 0 && !are(1, 1, 10239)) return false;
    for (int i = 0; i < CABS; i++) {
        if (count == 0 || model.cabs[i].cab == n[0]) model.cabs[i].cab = 0;
    }
    return true;
}

static bool function(void) {
    if (!are(3, 1, 10239, 0, 68, 0, 1) || !has_room() || (find(n[0]) < 0 && find(0) < 0)) return false;
    int place = take_place(n[0]);
    if (n[1] < 64) {
        model.cabs[place].functions &= ~(1ull << n[1]);
        model.cabs[place].functions |= (unsigned long long)n[2] << n[1];
    }
    want_cab(-1, place);
    return true;
}

static bool status(void) {
    if (count > 0) return false;
    want(asker, "<iDCC-EX V-5.0.0 / MCU / Kogreffyn G-%s", DCC_VERSION);
    want(asker, "%s", power());
    for (int i = 0; i < TURNOUTS; i++) {
        if (model.turnouts[i].is_there) want(asker, "<H %ld %ld", model.turnouts[i].id, model.turnouts[i].thrown);
    }
    return true;
}

static bool state(void) {
    if (!are(1, 1, 10239)) return false;
    if (find(n[0]) < 0) want(asker, "<l %ld -1 128 0", n[0]);
    else want_cab(asker, find(n[0]));
    return true;
}

static bool old_throttle(void) {
    if (!are(4, 0, 32767, 0, 10239, -1, 126, 0, 1) || !throttle(n[1], n[2], n[3])) return false;
    want(asker, "<T %ld %ld %ld", n[0], n[2], n[3]);
    return true;
}

/* Writes the answers to a command, without that of the programming track. Returns false for <X>. */
static bool modelled(const char *command) {
    while (*command == ' ') command++;
    char letter = *command;
    if (!letter || !read_values(command + 1)) return false;
    switch (letter) {
    case 's': return status();
    case '#': if (count == 0) want(asker, "<# 16"); return count == 0;
    case '=':
        if (count > 0) return false;
        want(asker, "<= A MAIN");
        want(asker, "<= B PROG");
        return true;
    case 'Q': return count == 0;
    case '0': case '1': return switch_power(letter == '1');
    case '!': if (count == 0) stop_all(1); return count == 0;
    case '-': return forget();
    case 't': return count == 1 ? state() : count == 4 ? old_throttle() : are(3, 0, 10239, -1, 126, 0, 1) &&
        throttle(n[0], n[1], n[2]);
    case 'F': return function();
    case 'a': return (are(2, 1, 2040, 0, 1) || are(3, 0, 511, 0, 3, 0, 1)) && has_room();
    case 'T': return turnout();
    case 'J': return list();
    case 'w': return are(3, 1, 10239, 1, 1024, 0, 255) && has_room();
    case 'b': return are(4, 1, 10239, 1, 1024, 0, 7, 0, 1) && has_room();
    case 'M': return packet();
    case 'R': case 'W': case 'V': case 'B': return service(letter);
    default: return false;
    }
}

/* After commands that the model has not followed, it takes the state of the station. */
static void follow(void) {
    for (int i = 0; i < CABS; i++) {
        model.cabs[i].cab = station.cabs[i].cab;
        model.cabs[i].speed = station.cabs[i].speed;
        model.cabs[i].functions = station.cabs[i].functions.on[0];
    }
    for (int i = 0; i < TURNOUTS; i++) {
        model.turnouts[i].is_there = station.turnouts[i].is_defined;
        model.turnouts[i].id = station.turnouts[i].id;
        model.turnouts[i].board = station.turnouts[i].board;
        model.turnouts[i].pair = station.turnouts[i].pair;
        model.turnouts[i].thrown = station.turnouts[i].is_thrown;
    }
    model.main = station.is_on;
    model.programming = station.programming_is_on;
    model.joined = station.is_joined;
}

/* ---- the tracks ---- */

static dcc_framer main_track;
/* The programming track, and what the decoder on it draws. */
static struct {
    dcc_framer framer;
    bool draws;
    uint32_t left, joined;
} programming;

static bool is_of_main(const dcc_frame *frame) {
    char line[DCC_LINE];
    return dcc_line(frame->bytes, frame->len, line) == 0 && (strncmp(line, "loco ", 5) == 0 ||
        strncmp(line, "accessory ", 10) == 0 || strncmp(line, "signal ", 7) == 0 || strcmp(line, "idle") == 0);
}

static void check_main(const dcc_outcome *outcome) {
    check(outcome->refusal == 0, "a refusal on the main track", "");
    check(is_of_main(&outcome->frame), "a packet on the main track", "");
    on_main++;
}

/* The parameter is_joined is true if the tracks are joined, or were when the packet began. */
static void check_programming(const dcc_outcome *outcome, bool is_joined) {
    dcc_service_packet packet;
    static const uint8_t reset[3];
    const dcc_frame *frame = &outcome->frame;
    check(outcome->refusal == 0, "a refusal on the programming track", "");
    check((frame->len == 3 && memcmp(frame->bytes, reset, 3) == 0) ||
        dcc_service_read(frame->bytes, frame->len, &packet) == 0 || (is_joined && is_of_main(frame)),
        "a packet on the programming track", "");
    on_programming++;
}

/* Lets half-bits pass. The decoder on the programming track draws its current at random. */
static void pass(uint32_t halves) {
    dcc_outcome outcome;
    for (; halves > 0; halves--) {
        if (dcc_push(&main_track, dccex_half(&station), &outcome)) check_main(&outcome);
        if (programming.left-- == 0) {
            programming.draws = !programming.draws;
            programming.left = random_below(120);
        }
        uint16_t us = dccex_programming_half(&station, programming.draws);
        if (us == 0) programming.framer = dcc_framer_new();
        if (station.programming.is_joined) programming.joined = 2 * DCC_HALVES;
        else if (programming.joined > 0) programming.joined--;
        if (us > 0 && dcc_push(&programming.framer, us, &outcome)) check_programming(&outcome, programming.joined > 0);
        if (halves % 8 == 0) process(1);
    }
    process(1);
    check(answers[0].len == 0 && answers[1].len == 0, "answers that nobody asked for", "");
}

/* ---- commands ---- */

static const char *const models[] = {"s", "t 3 10 1", "t 1 3 10 1", "t 0 -1 1", "F 3 0 1", "F 10239 68 0", "a 511 3 1",
    "a 2040 0", "w 3 1024 255", "b 3 29 7 0", "R 1", "W 1 255", "V 1024 0", "0", "1", "!", "- 3", "t0 0 0", "t 3",
    "#", "=", "1 MAIN", "1 PROG", "1 JOIN", "0 MAIN", "0 PROG", "-", "T", "T 1", "T 1 0", "T 1 T", "T 1 C", "T 1 12 2",
    "T 2 DCC 12 2", "T 3 DCC 7", "J T", "JT 1", "J A", "J R", "Q", "M 0 3 3F 8B", "M 0 C3 E8 80", "M 0 8C F9",
    "M 0 C3 E8 EC 6 7", "R", "R 1 2 3", "W 3", "W 1000", "W 1 2 3 4", "V 1 5 1", "B 1 5 1", "B 1 5 1 2 3", "c", "S",
    "D CABS"};

/* A model with numbers in place of its numbers, or with changed bytes. */
static void write_command(char *command, uint32_t room) {
    static const char bytes[] = "0123456789 -<>stFawbRWVBTJMCQ#=!X\n\r\t\"\\";
    static const long numbers[] = {-32768, -2, -1, 0, 1, 3, 7, 8, 68, 69, 126, 127, 128, 255, 256, 511, 512, 1024, 1025,
        2040, 2041, 10239, 10240, 32767, 32768, 65537, 99999, 100000, 4294967};
    uint32_t kind = random_below(8);
    snprintf(command, room, "%s", models[random_below(sizeof models / sizeof *models)]);
    if (kind < 3) {
        char letter = command[0];
        int len = snprintf(command, room, "%c", letter);
        for (uint32_t count = random_below(6); count > 0; count--) {
            long number = numbers[random_below(sizeof numbers / sizeof *numbers)];
            if (random_below(3)) number = random_below(130);
            len += snprintf(command + len, room - (uint32_t)len, " %ld", number);
        }
    } else if (kind < 6) {
        for (uint32_t count = random_below(4); count > 0; count--) {
            uint32_t len = (uint32_t)strlen(command), at = random_below(len + 1);
            char c = random_below(20) ? bytes[random_below(sizeof bytes - 1)] : (char)(1 + random_below(255));
            if (random_below(2) || at == len) {
                memmove(command + at + 1, command + at, len - at + 1);
                command[at] = c;
            } else if (random_below(2)) {
                command[at] = c;
            } else {
                memmove(command + at, command + at + 1, len - at);
            }
        }
    } else if (kind == 6) {
        uint32_t len = random_below(room - 1);
        for (uint32_t i = 0; i < len; i++) command[i] = (char)(1 + random_below(255));
        command[len] = 0;
    }
}

static void take(int port, const char *bytes) {
    for (; *bytes; bytes++) dccex_take(&station, (uint8_t)port, *bytes);
}

/* Returns what stands between the last < and the first > behind it, or null if there is no such text. */
static char *command_in(char *typed) {
    char *end = strchr(typed, '>'), *begin;
    if (!end) return NULL;
    *end = 0;
    begin = strrchr(typed, '<');
    return begin ? begin + 1 : NULL;
}

/* A command comes, and runs at once. */
static void try_command(void) {
    char inner[120], typed[140], *command;
    write_command(inner, sizeof inner - 8);
    snprintf(typed, sizeof typed, "%s<%s>", random_below(9) ? "" : "x <0", inner);
    char *end = strchr(typed, '>');
    end[1] = 0; /* one command */
    asker = (int)random_below(PORTS);
    take(asker, typed);
    command = command_in(typed);
    check(command != NULL, "a command", typed);
    if (strlen(command) > DCCEX_COMMAND) {
        dropped++;
    } else if (modelled(command)) {
        accepted++;
    } else {
        want(asker, "<X");
        refused++;
    }
    process(1);
    for (int port = 0; port < PORTS; port++) {
        check(strcmp(answers[port].text, wanted[port].text) == 0, "an answer", command);
    }
    check(task.is_there == (station.task.kind != 0), "a command for the programming track", command);
    forget_answers();
}

static bool are_empty(void) {
    for (int port = 0; port < PORTS; port++) {
        if (station.lines[port].read != station.lines[port].written) return false;
    }
    return true;
}

/* Many commands come while the main loop computes, then <!> and <0>, and then commands that let nothing move. */
static void flood(void) {
    static const uint8_t stop[3] = {0x00, 0x71, 0x71};
    char inner[120], typed[140];
    dcc_outcome outcome;
    uint32_t packets = 0;
    int port = (int)random_below(PORTS);
    for (uint32_t commands = random_below(60); commands > 0; commands--) {
        write_command(inner, sizeof inner - 8);
        snprintf(typed, sizeof typed, "<%s>", inner);
        take((int)random_below(PORTS), random_below(3) ? typed : "<t 3 40 1><1>");
        if (random_below(8) == 0) process(1);
    }
    take(port, random_below(2) ? "<t 3 40 1><1><!><0>" : "<1><0><t 3 40 1><!>");
    process(1);
    check(!station.is_on, "a power that is off", "0");
    for (uint32_t commands = random_below(60); commands > 0; commands--) {
        take((int)random_below(PORTS), random_below(2) ? "<F 3 1 1>" : "<x>");
    }
    for (uint32_t halves = 0; !are_empty() || halves < 1000; halves++) {
        bool is_packet = dcc_push(&main_track, dccex_half(&station), &outcome);
        const uint8_t *bytes = outcome.frame.bytes;
        if (is_packet && packets < 4) packets = memcmp(bytes, stop, 3) == 0 ? 4 : packets + 1;
        check(packets != 3, "a stop within three packets", "!");
        if (is_packet && packets == 4 && bytes[0] < 0x80 && bytes[1] == 0x3f) {
            check((bytes[2] & 0x7f) < 2, "a locomotive that stands", "!");
        }
        process(1);
        check(!station.is_on, "a power that stays off", "0");
    }
    take(port, "<0>"); /* no command for the programming track is left */
    process(1);
    task.is_there = false;
    take(0, "<s>"); /* what was dropped is told now */
    take(1, "<s>");
    process(2);
    follow();
    forget_answers();
}

/* A new station, and a second writing without commands. */
static void begin(void) {
    memset(&station, 0, sizeof station);
    memset(&model, 0, sizeof model);
    memset(&task, 0, sizeof task);
    memset(&programming, 0, sizeof programming);
    main_track = dcc_framer_new();
    dccex_begin(&station);
}

int main(int argc, char **argv) {
    unsigned long sequences = argc > 1 ? strtoul(argv[1], NULL, 10) : 100000, times = 0;
    if (argc > 2) seed = (uint32_t)strtoul(argv[2], NULL, 10);
    begin();
    for (unsigned long i = 0; i < sequences; i++) {
        if (random_below(2)) begin();
        for (uint32_t left = 1 + random_below(7); left > 0; left--) {
            try_command();
            times++;
            if (random_below(8) == 0) pass(random_below(4000));
        }
        if (random_below(50) == 0) pass(100000);
        if (random_below(40) == 0) flood();
    }
    check(accepted > times / 9 && refused > times / 9 && dropped > times / 40 && values > times / 400 && known > 0,
        "a mix", "");
    printf("%lu right, %lu wrong, %lu long, %lu values, %lu of them known, %lu and %lu packets\n", accepted, refused,
        dropped, values, known, on_main, on_programming);
    return 0;
}
