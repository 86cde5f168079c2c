# Makes a capture of 4.2 seconds of a station that drives several decoders, and whose packets to locomotive 3 have a
# fault from the end of second 2 on: dcc encode < LINES | awk -v fault=preamble -f tools/faulty-station.awk
# The lines are packets to encode; of the seven packets in half-bits, the first and the fourth are to locomotive 3. The
# faults:
#   preamble  the preamble has 8 ones
#   ones      each half-bit of a one is 8 microseconds longer
#   silent    idle packets, of the third line, stand in place of the packets
#   none      no fault
# Each half-bit is up to 1 microsecond longer or shorter than the nominal one. Two spikes of 1 microsecond fall into
# zeros of packets to locomotive 3 before second 2.
{ packet[NR] = $0 }

# returns a number from 0 to n - 1
function random(n) {
    seed = (seed * 1103515245 + 12345) % 2147483648
    return int(seed / 65536) % n
}

function put(us) {
    printf "%d ", us
    time += us
}

# writes a packet. The first half-bits, as many as skipped, are left out, and ones are longer by slower
function send(text, skipped, slower, is_spiked,    half, n, i, us) {
    n = split(text, half, " ")
    for (i = skipped + 1; i <= n; i++) {
        us = half[i] + random(3) - 1
        if (half[i] < 70) put(us + slower)
        else if (is_spiked && i > n / 2) {
            put(int(us * 0.4))
            put(1)
            put(us - int(us * 0.4) - 1)
            is_spiked = 0
        }
        else put(us)
    }
    print ""
}

END {
    seed = 1
    split("700000 1500000", spike, " ")
    spikes = 1
    while (time < 4200000) {
        at = turn++ % 6 + 1
        is_3 = at == 1 || at == 4
        is_late = is_3 && time >= 2000000
        is_spiked = is_3 && spikes <= 2 && time >= spike[spikes]
        if (is_spiked) spikes++
        if (is_late && fault == "silent") send(packet[3], 0, 0, 0)
        else send(packet[at], is_late && fault == "preamble" ? 12 : 0, is_late && fault == "ones" ? 8 : 0, is_spiked)
    }
}
