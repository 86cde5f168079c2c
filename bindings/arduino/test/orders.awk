# The orders, packet lines and `send 1`, by which a station sends what the sketch Station sent: of the lines that the
# sketch was given, with `wait N` among them, and then of the listing of what it sent.
#   awk -f orders.awk GIVEN LISTING
# The sketch asks for a packet in setup(), and from then on in the loop after the first half-bit of each packet. It
# takes the lines of a loop first.
function take() {
    for (; line <= lines && given[line] !~ /^wait /; line++) print given[line]
    due = line > lines ? -1 : due + substr(given[line++], 6)
}
FNR == NR { given[++lines] = $0; next }
FNR == 1 { print "send 1"; line = 1; take() }
{
    while (due >= 0 && due <= begin) take()
    print "send 1"
    begin = $1
}
# (the packet that the end of the input cuts has begun, so one more was asked for)
END {
    while (due >= 0 && due <= begin) take()
    print "send 1"
    while (due >= 0) take()
}
