# Writes a capture, as `dcc encode` writes it, as a VCD file in whole microseconds: the level turns at each half-bit.
# A word that is no duration ends the script with status 1 and a sentence.
BEGIN {
    print "$timescale 1 us $end"
    print "$scope module dcc $end"
    print "$var wire 1 ! track $end"
    print "$upscope $end"
    print "$enddefinitions $end"
    print "#0 0!"
    at = 10
    level = 1
    print "#" at " 1!"
}

# writes the last bytes. busybox awk does not notice a failed write, so there `cat` writes them, and its status
# counts. It is the one awk that can close what was never opened
function finish(text) {
    if (close("never opened")) {
        printf "%s", text
        return
    }
    fflush()
    printf "%s", text | "cat"
    if (close("cat")) exit 1
}

# the number that digits spell in decimal. busybox awk reads digits behind a 0 as octal
function decimal(text) {
    sub(/^0+/, "", text)
    return text + 0
}

{
    sub(/#.*/, "")
    words = split($0, word, /[ \t\r]+/)
    for (i = 1; i <= words; i++) {
        if (word[i] == "") continue
        parts = split(word[i], run, "*")
        if (word[i] !~ /^[0-9]+(\*[0-9]+)?$/ || length(run[1]) > 10 ||
            parts > 1 && (length(run[2]) > 8 || decimal(run[2]) < 1)) {
            gsub(/[^ -~]/, "?", word[i])
            print "capture-to-vcd: line " NR ": \"" substr(word[i], 1, 40) "\" is no duration" > "/dev/stderr"
            refused = 1
            exit 1
        }
        us = decimal(run[1])
        for (n = parts > 1 ? decimal(run[2]) : 1; n > 0; n--) {
            at += us
            level = 1 - level
            printf "#%.0f %d!\n", at, level
        }
    }
}

END {
    if (refused) exit 1
    finish(sprintf("#%.0f\n", at + 10))
}
