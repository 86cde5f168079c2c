# Reads the levels of a VCD file (IEEE 1364), after edges.awk. Each word can have a line of its own, as Icarus,
# Verilator and GTKWave write it, or the values can be on the line of their time, as sigrok writes them.

BEGIN {
    microseconds["s"] = 1e6
    microseconds["ms"] = 1e3
    microseconds["us"] = 1
    microseconds["ns"] = 1e-3
    microseconds["ps"] = 1e-6
    microseconds["fs"] = 1e-9
}

form == "vcd" { for (i = 1; i <= NF; i++) vcd_word($i) }

# The values between $dumpvars, $dumpall and so on are read like all others. The values x and z are no level of a track
function vcd_word(word,    first) {
    first = substr(word, 1, 1)
    if (command != "") {
        if (word == "$end") end_command()
        else text = text " " word
    } else if (vector != "") {
        # behind a value of several bits stands its id; a single bit may be written so too
        if (picked && word == id_of[picked] && vector ~ /^[bB].*[01]$/) take(at, substr(vector, length(vector)))
        vector = ""
    } else if (first == "#") {
        vcd_time(word)
    } else if (first == "0" || first == "1") {
        # a digit before the channel is known is the word of an extension, as $attrbegin of GTKWave
        if (picked && substr(word, 2) == id_of[picked]) take(at, first)
    } else if (first ~ /[bBrRsS]/) {
        vector = word
    } else if (word ~ /^\$(comment|date|enddefinitions|scope|timescale|upscope|var|version)$/) {
        command = word
        text = ""
    }
}

# what stands from such a word to $end
function end_command(    part) {
    split(text, part, " ")
    if (command == "$timescale") {
        gsub(/ /, "", text)
        unit = 0
        if (length(text) <= MOST_OF_UNIT && text ~ /^[0-9]+[a-z]+$/)
            unit = decimal(text) * microseconds[substr(text, match(text, /[a-z]/))]
    }
    # a module may have the same wire by the same name
    if (command == "$var" && part[2] == "1" && !known[part[4] part[5], part[3]]++) add_channel(part[4] part[5], part[3])
    if (command == "$enddefinitions") begin_values()
    command = ""
}

function begin_values() {
    if (!channels) refuse("no $var of one bit stands before the times: there is no channel")
    pick()
}

function vcd_time(word,    time) {
    if (!picked) begin_values()
    if (!unit) refuse("no $timescale, as $timescale 1 ns $end, stands before the times: they have no unit")
    if (word !~ /^#[0-9]+$/ || length(word) > MOST_OF_TIME) refuse_line(quoted(word) " is no time")
    time = decimal(substr(word, 2)) * unit
    if (time < at) refuse_line("its time lies before that of the line above")
    at = time
}
