# The common part of vcd.awk and csv.awk: it detects the form of a file and the channel to read, and turns levels into a
# capture with a word for each time between two edges, in whole microseconds. -v channel=.. chooses a channel, otherwise
# it is the first. tools/to-capture calls the three scripts.

# the name of a channel is text, even if it is a number. A time or unit has at most so many characters
BEGIN {
    channel = channel ""
    MOST_OF_TIME = 100
    MOST_OF_UNIT = 20
}

# ends the reading: status 1, and on standard error what was found and what to write
function refuse(text) {
    print "to-capture: " text > "/dev/stderr"
    refused = 1
    exit 1
}

# the number that digits spell in decimal. busybox awk reads digits behind a 0 as octal
function decimal(text) {
    sub(/^0+/, "", text)
    return text + 0
}

# text of the file within such a sentence: cut, and without bytes that a terminal would obey
function plain(text) {
    gsub(/[^ -~]/, "?", text)
    return length(text) > 40 ? substr(text, 1, 40) ".." : text
}

function quoted(text) { return "\"" plain(text) "\"" }

function refuse_line(text) { refuse("line " NR ": " text) }

# a channel of the file; in a VCD file it has an id. An id is text, even if it is a number: 1 and 01 are two ids
function add_channel(name, id) {
    name_of[++channels] = name
    id_of[channels] = id ""
}

function label(place) { return name_of[place] (id_of[place] == "" ? "" : " (" id_of[place] ")") }

# the channels, where there is a choice
function choice(    place, text) {
    if (channels < 2) return ""
    for (place = 1; place <= channels && place <= 20; place++) text = text (place > 1 ? ", " : "") plain(label(place))
    return "; the channels are " text (channels > 20 ? " and " channels - 20 " more" : "") ", and -c takes another"
}

function is_called(place, how) {
    if (how == 1) return name_of[place] == channel
    if (how == 2) return id_of[place] == channel
    return match(name_of[place], /[0-9]+$/) && substr(name_of[place], RSTART) == channel
}

# picks the channel that is asked for: by its name, else by its id, else by the number that its name ends in
function pick(    how, place, fits) {
    picked = 1
    if (channel == "") return
    for (how = 1; how <= 3 && !fits; how++)
        for (place = 1; place <= channels; place++)
            if (is_called(place, how)) {
                # one wire of a VCD file may have several names
                if (!fits || id_of[place] == "" || id_of[place] != id_of[picked]) fits++
                picked = place
            }
    if (fits == 1) return
    refuse((fits ? "more than one channel is" : "no channel is") " called " quoted(channel) \
        (channels == 1 ? "; the only one is " plain(label(1)) : choice()))
}

# takes a level at a time in microseconds. Only a change of it is an edge; the first level is that at the start. A
# half-bit is written at once, since the next may be long in coming
function take(at, level) {
    if (levels && level == last_level) return
    if (levels++ > 1) {
        print half(at - last_edge)
        fflush()
    }
    last_level = level
    last_edge = at
}

# counts a half-bit, and returns its microseconds: the nearest number, and at most 65535, as a capture counts longer
# ones too
function half(us) {
    us = us < 65535 ? int(us + .5) : 65535
    if (!halves++ || us < shortest) shortest = us
    if (us > longest) longest = us
    last_half = us
    # a packet begins behind twenty halves of ones, with a half of a zero
    if (us >= 90 && us <= 10000 && ones >= 20) begins++
    ones = us >= 52 && us <= 64 ? ones + 1 : 0
    return us
}

# writes the last bytes. busybox awk does not notice a failed write, so there `cat` writes them, and its status
# counts. It is the one awk that can close what was never opened
function finish(text) {
    if (close("never opened")) {
        printf "%s", text
        return
    }
    fflush()
    printf "%s", text | "cat"
    if (close("cat")) refuse("the capture cannot be written")
}

NR == 1 {
    if (index($0, "PK") == 1)
        refuse("this is a zip archive, as .sr of sigrok and PulseView, .sal of Logic 2 and .dsl of DSView are: " \
            "export it as VCD or CSV, as by sigrok-cli -i track.sr -O vcd")
    if (index($0, "\377\376") == 1 || index($0, "\376\377") == 1)
        refuse("this text is UTF-16, as PowerShell writes it behind >: let sigrok-cli write the file, by -o track.vcd")
    # a byte order mark
    sub(/^\357\273\277/, "")
}
{ sub(/\r$/, "") }
# sigrok-cli may write this before the file
form == "" && /^META / { next }
form == "" && /[^ \t]/ { form = /^[ \t]*\$/ ? "vcd" : "csv" }

END {
    if (refused) exit 1
    if (form == "") refuse("the input is empty")
    if (!picked) refuse("the input ends before its first level")
    # The end of the last level is unknown. It gets the length of the half-bit before it, since it can be the second
    # half of a bit. So a packet that ends there is kept.
    if (halves) finish(half(last_half) "\n")
    if (refused) exit 1
    name = "the channel " quoted(label(picked))
    if (!halves) refuse(name " has no two edges" choice())
    if (!begins)
        refuse(name " has no packet: " halves " halves, of " shortest " to " longest + 0 " microseconds, and nowhere " \
            "20 halves of ones (52 to 64) before a half of a zero (90 to 10000)" choice())
}
