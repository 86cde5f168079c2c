# Spoils packets, so that some of them are lost: dcc encode < LINES | awk -f tools/faulty-packets.awk
# Each line has the half-bits of a packet, after 14 ones. By the number of its line modulo 7, a packet has this fault:
#   1  a preamble that is too short
#   2  ones of 66 microseconds
#   3  zeros of 85 to 89 microseconds
#   4  a short preamble, after a refusal that uses the half-bits before it
#   5  a half-bit that is too short
#   6  a short preamble and ones of 66 microseconds
#   0  no fault
{
    kind = NR % 7
    if (kind == 4) {
        for (i = 1; i <= 20; i++) printf "58 "
        printf "100 70 "
    }
    for (i = kind == 1 || kind == 4 || kind == 6 ? 13 + kind : 1; i <= NF; i++) {
        us = $i
        if (us == 58 && (kind == 2 || kind == 6)) us = 66
        if (us == 100 && kind == 3) us = 85 + i % 5
        if (kind == 5 && i == 60) us = 20
        printf "%d ", us
    }
    print ""
}
