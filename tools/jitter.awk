# Turns a capture of `dcc encode` into a recording of a simulated logic analyser. Each edge comes up to `jitter`
# microseconds early or late, and is seen at the next of `rate` samples per microsecond. The output is VCD, or a digital
# CSV as Saleae writes it with -v csv=1. -v seed=.. chooses the noise: equal seeds give equal edges.
function noise() { seed = (seed * 16807) % 2147483647; return 2 * seed / 2147483647 - 1 }
function edge(at, level,    sample) {
    sample = int(at * rate) + 1
    if (csv) printf "%.9f,%d\n", sample / rate / 1e6, level
    else printf "#%.0f %d!\n", sample * unit / rate, level
}
BEGIN {
    if (!rate) rate = 8
    if (!seed) seed = 1
    # a sample takes a whole number of these units: 1 us at 1 MHz, 1 ns at 8 MHz, else 100 ps
    unit = rate == 1 ? 1 : rate == 8 ? 1000 : 10000
    name = rate == 1 ? "1 us" : rate == 8 ? "1 ns" : "100 ps"
    if (csv) print "Time [s],Channel 0\n0.000000000,0"
    else {
        printf "$timescale %s $end\n$scope module dcc $end\n$var wire 1 ! track $end\n", name
        printf "$upscope $end\n$enddefinitions $end\n#0 0!\n"
    }
    at = 37.3
    level = 1
    edge(at, level)
}
{
    sub(/#.*/, "")
    for (i = 1; i <= NF; i++) {
        parts = split($i, run, "*")
        for (n = parts > 1 ? run[2] : 1; n > 0; n--) {
            at += run[1]
            level = 1 - level
            edge(at + jitter * noise(), level)
        }
    }
}
END { if (!csv) printf "#%.0f\n", (int(at * rate) + 200 * rate) * unit / rate }
