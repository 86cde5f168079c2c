/* A first program: the packets and refusals in a capture on standard input, as `dcc show --words` lists them. */
#include "capture.h"
#include <dcc.h>
int main(void) {
    dcc_framer framer = dcc_framer_new();
    dcc_outcome seen;
    char line[DCC_LINE];
    uint32_t n;
    unsigned place = 0;
    for (uint16_t us; next_run(&us, &n); place += n) {
        if (!dcc_push_run(&framer, us, n, &seen)) continue;
        printf("%u ", place + (unsigned)seen.at);
        if (dcc_line(seen.frame.bytes, seen.frame.len, line) == 0) {
            printf("%s\n", line);
        } else {
            printf("refused H%u%s", seen.refusal, seen.frame.len ? " " : "");
            for (int i = 0; i < seen.frame.len; i++) printf("%02x", seen.frame.bytes[i]);
            printf("\n");
        }
    }
    return 0;
}
