# Writes 10,000 packet lines of all kinds, the same lines in each run: to the locomotive and the board of
# examples/c/decoder.c, to all decoders, and to other decoders. A line that writes a CV comes twice, since a decoder
# writes at the second copy.
function below(n) { return int(rand() * n) }
function x(a, b,  bit, sum) {
    for (bit = 1; bit < 256; bit *= 2) if (int(a / bit) % 2 != int(b / bit) % 2) sum += bit
    return sum + 0
}
BEGIN {
    srand(20261123)
    split("s3 s3 s3 all l1000 s4", whom); split("0 5 9 13 21 29 37 45 53 61", group); split("31 15 15", most)
    for (i = 0; i < 10000; i++) {
        to = "loco " whom[1 + below(6)]; kind = below(12)
        if (kind == 0) line = to " speed28 " (below(2) ? "f " : "r ") below(32)
        else if (kind == 1) line = to " speed128 " (below(2) ? "f " : "r ") below(128)
        else if (kind == 2 || kind == 3) {
            g = 1 + below(10)
            line = to " functions " group[g] " " below(g <= 3 ? most[g] + 1 : 256)
        }
        else if (kind == 4) line = to " state " below(128) (below(2) ? " on" : " off")
        else if (kind == 5) line = to " cv write " (below(4) ? 1 + below(1024) : 29) " " below(256)
        else if (kind == 6) line = to " cv bitwrite " (below(4) ? 1 + below(1024) : 29) " " below(8) " " below(2)
        else if (kind == 7 && below(2)) line = to " cv verify " 1 + below(1024) " " below(256)
        else if (kind == 7) line = to " cv bitverify 29 " below(8) " " below(2)
        else if (kind == 8) line = "accessory " (below(3) ? 12 : below(512)) " " below(8) (below(2) ? " on" : " off")
        else if (kind == 9) line = "signal " (below(3) ? 48 + below(4) : below(2048)) " " below(256)
        else if (kind == 10) line = below(40) ? "idle" : to " reset"
        else line = sprintf("frame %02x%02x%02x%02x", a = below(256), b = below(256), c = below(256), x(x(a, b), c))
        print line
        if (kind == 5 || kind == 6) print line
    }
}
