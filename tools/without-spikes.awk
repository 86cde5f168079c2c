# Removes the spikes of a capture: awk -f tools/without-spikes.awk CAPTURE
# A spike is a half-bit shorter than 5 microseconds (-v least=.. sets another bound). A spike, the half-bit before it
# and the half-bit after it become one half-bit of their sum. A run is read as its half-bits, one by one. All other
# text stays as it is: half-bits and runs without a spike, comments, and each line with a word that is no duration, as
# `---` and the lines of a decoder text.
BEGIN { least = least == "" ? 5 : decimal(least) }

# the number that digits spell in decimal. busybox awk reads digits behind a 0 as octal
function decimal(text) {
    sub(/^0+/, "", text)
    return text + 0
}

# returns true if a word is a duration or a run, and sets its digits, microseconds and count: spelled, us, n
function is_duration(word,    part, parts) {
    if (word !~ /^[0-9]+(\*[0-9]+)?$/) return 0
    parts = split(word, part, "*")
    spelled = part[1]
    us = decimal(spelled)
    n = parts == 2 ? decimal(part[2]) : 1
    return length(part[1]) <= 10 && n >= 1 && n <= 16777216 && (parts == 1 || length(part[2]) <= 8)
}

function run(spelled, n) { return n == 1 ? spelled : spelled "*" n }

# keeps text that follows the last word until that word is written
function hold(text) {
    if (is_open) held[++holds] = text
    else printf "%s", text
}

# writes the last word and the text after it
function write_last(    i) {
    if (!is_open) return
    printf "%s", last_word
    for (i = 1; i <= holds; i++) printf "%s", held[i]
    holds = is_open = 0
}

function set_last(word, spelled, us, n) {
    last_word = word
    last_spelled = spelled
    last_us = us
    last_n = n
    is_open = 1
}

# adds a sum of durations to the last half-bit. A capture counts more than 65535 microseconds as 65535
function join(sum) {
    if (last_n > 1) printf "%s ", run(last_spelled, last_n - 1)
    sum += last_us
    if (sum > 65535) sum = 65535
    set_last(sum "", sum "", sum, 1)
}

# takes n half-bits of us microseconds. The first half-bit of a capture has none before it, so it stays
function take(word, spelled, us, n,    joined) {
    if (!is_open) {
        set_last(word, spelled, us, us < least ? 1 : n)
        if (us >= least) return
        last_word = spelled
        if (!--n) return
    }
    # the half-bits of the word that the last half-bit takes in
    joined = us < least ? n : joins
    joins = us < least ? (n - joins) % 2 : 0
    if (joined) join(us * joined)
    if (joined == n) {
        # the blanks before the word go with it
        if (holds && held[holds] ~ /^[ \t\r]+$/) holds--
        return
    }
    write_last()
    set_last(joined ? run(spelled, n - joined) : word, spelled, us, n - joined)
}

# ends a capture
function end_capture() {
    write_last()
    joins = 0
}

# writes the last bytes. busybox awk does not notice a failed write, so there `cat` writes them, and its status
# counts. It is the one awk that can close what was never opened
function finish(text) {
    if (close("never opened")) {
        printf "%s", text
        return
    }
    fflush()
    printf "%s", text | "cat"
    if (close("cat")) exit 1
}

{
    # each line ends when the next begins, and comes out at once
    if (NR > 1) hold("\n")
    fflush()
    at = index($0, "#")
    text = at ? substr($0, 1, at - 1) : $0
    comment = at ? substr($0, at) : ""
    if (text ~ /[^0-9* \t\r]/) {
        end_capture()
        printf "%s", $0
        next
    }
    # of a line without a number below 10 only the last word is looked at
    if (least <= 10 && !joins && text !~ /(^|[^0-9])0*[0-9]([^0-9]|$)/ && match(text, /[0-9*]+[ \t\r]*$/)) {
        write_last()
        printf "%s", substr(text, 1, RSTART - 1)
        text = substr(text, RSTART)
    }
    # words, and the blanks between them
    gsub(/[ \t\r]+/, "\n&\n", text)
    pieces = split(text, piece, "\n")
    for (i = 1; i <= pieces; i++) {
        if (i % 2 == 0) hold(piece[i])
        else if (is_duration(piece[i])) take(piece[i], spelled, us, n)
        else if (piece[i] != "") {
            # a star at a wrong place, or too many digits
            end_capture()
            printf "%s", piece[i]
        }
    }
    hold(comment)
}

END {
    end_capture()
    if (NR) finish("\n")
}
