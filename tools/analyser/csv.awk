# Reads the levels of a digital CSV, after edges.awk: the time and a column for each channel, a row for each edge of
# any of them or for each sample, as Saleae Logic, DSView and others write it. sigrok may leave out the times and give
# the sample rate in a comment.

# comments stand above the header. sigrok gives the number of channels there, and their names between commas and
# blanks, without quotes
form == "csv" && /^[;#]/ {
    if (match($0, /[Ss]ample ?rate: /)) rate = hertz(substr($0, RSTART + RLENGTH))
    if (match($0, /Channels \([0-9]+\/[0-9]+\): */)) {
        told_names = split(substr($0, RSTART + RLENGTH), told_name, ", ")
        told_channels = decimal(substr($0, RSTART + length("Channels (")))
    }
    next
}

form == "csv" && /[^ \t]/ {
    if (separator == "") separator = separator_of($0)
    split_row($0)
    if (picked) csv_row()
    else csv_columns()
}

# what stands between the columns, by a first line: what stands in quotes does not count
function separator_of(row) {
    gsub(/"[^"]*"/, "", row)
    return row ~ /;/ ? ";" : row ~ /\t/ ? "\t" : ","
}

# splits a row into field[1] to field[columns], without the blanks around them
function split_row(row,    i) {
    if (row ~ /"/) split_quoted(row)
    else columns = split(row, field, separator)
    for (i = 1; i <= columns; i++) if (field[i] ~ /^ | $/) gsub(/^ +| +$/, "", field[i])
}

# splits a row with quotes. A quote at the begin of a field opens it, and the next one closes it; of two within it one
# remains
function split_quoted(row,    pieces, piece, parts, part, i, j, text, is_quoted, is_closed) {
    columns = 0
    pieces = split(row, piece, "\"")
    for (i = 1; i <= pieces; i++) {
        if (i > 1 && is_quoted && piece[i] == "" && i < pieces) {
            text = text "\""
            i++
        } else if (i > 1 && is_quoted) {
            is_quoted = 0
            is_closed = 1
        } else if (i > 1 && !is_closed && text ~ /^ *$/) {
            is_quoted = 1
        } else if (i > 1) {
            text = text "\""
        }
        if (is_quoted) {
            text = text piece[i]
            continue
        }
        parts = split(piece[i], part, separator)
        text = text part[1]
        for (j = 2; j <= parts; j++) {
            field[++columns] = text
            text = part[j]
            is_closed = 0
        }
    }
    if (is_quoted) refuse_line("a quote is not closed")
    field[++columns] = text
}

# reads the columns from the first line. If the first line is already a row, the channels are called 0, 1 and so on
function csv_columns(    is_row, place, name) {
    is_row = time_of(field[1]) != ""
    unit = is_row ? 1e6 : microseconds_of(field[1])
    timed = unit && !(is_row && rate)
    if (!timed && rate) unit = 1e6 / rate
    if (!unit || timed && columns == 1)
        refuse_line(quoted($0) " begins neither a VCD file nor a digital CSV with a time in its first column:" \
            " export one of these")
    # sigrok tells the unit in the header, or not at all
    if (rate && (tolower(field[1]) == "time" || is_row && columns > told_channels))
        refuse_line(quoted($0) " tells no unit of time: let sigrok-cli write -O csv:time=true:dedup=true," \
            " without label")
    header = NR
    header_columns = columns
    # a name with a comma and a blank in it would be taken for two: then no name is known
    if (told_names != columns - timed) told_names = 0
    for (place = 1; place <= columns - timed; place++) {
        name = is_row ? place - 1 : field[place + timed]
        if (name == "logic") name = told_names ? told_name[place] : place - 1
        add_channel(name)
    }
    pick()
    if (is_row) csv_row()
}

function csv_row(    time, level) {
    if (columns != header_columns)
        refuse_line("it has " columns_of(columns) ", and line " header " has " header_columns \
            ": a name or value with " quoted(separator) " in it needs quotes")
    time = timed ? time_of(field[1]) : rows + 0
    if (time == "") refuse_line(quoted(field[1]) " is no time")
    time *= unit
    if (rows++ && time < at) refuse_line("its time lies before that of the line above")
    at = time
    level = field[picked + timed]
    if (level !~ /^[01]$/) refuse_line(quoted(level) " is no level 0 or 1: export the digital channel, not its voltage")
    take(at, level)
}

function columns_of(n) { return n " column" (n == 1 ? "" : "s") }

# a time in the unit of its column, nothing where it is none
function time_of(text,    part) {
    if (length(text) > MOST_OF_TIME) return ""
    if (separator != ",") sub(/,/, ".", text)
    if (text ~ /^[-+]?[0-9]*\.?[0-9]+([eE][-+]?0?[0-9][0-9]?)?$/) return decimal(text)
    # a date and a time of day, as 2026-11-25T18:00:00.000200000+00:00, are the seconds of a month
    if (text !~ /^[0-9]+-[0-9]+-[0-9]+[T ][0-9]+:[0-9]+:[0-9]+(\.[0-9]+)?(Z| ?[-+][0-9:]+)?$/) return ""
    split(text, part, /[-T:+Z ]/)
    return ((decimal(part[3]) * 24 + decimal(part[4])) * 60 + decimal(part[5])) * 60 + decimal(part[6])
}

# of the unit of the first column, as Time [s], Time(ms) or nanoseconds; 0 where it is no time
function microseconds_of(text) {
    text = tolower(text)
    if (text !~ /^time|seconds/) return 0
    if (text ~ /pico|[^a-z]ps/) return 1e-6
    if (text ~ /nano|[^a-z]ns/) return 1e-3
    if (text ~ /micro|[^a-z]us|[^ -~]s/) return 1
    return text ~ /milli|[^a-z]ms/ ? 1e3 : 1e6
}

# of a rate as 24 MHz, 0 where it is none
function hertz(text) {
    if (text !~ /^ *[0-9]+(\.[0-9]+)? *([kMGH]|$)/) return 0
    return decimal(text) * (text ~ /G/ ? 1e9 : text ~ /M/ ? 1e6 : text ~ /k/ ? 1e3 : 1)
}
