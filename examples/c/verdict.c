/* Judges the sheet on standard input: prints `open NAMING TYPE`, `unsatisfiable` or `refused NUMBER`. */
#include "lockgraph.h"

#include <inttypes.h>
#include <stdio.h>

int main(void)
{
    /* A sheet has at most 1,024 bytes: a byte more is enough to have a longer one refused. */
    uint8_t sheet[1025];
    size_t n = fread(sheet, 1, sizeof sheet, stdin);
    if (ferror(stdin)) {
        fputs("verdict: standard input cannot be read\n", stderr);
        return 1;
    }
    /* A refusal leaves this as it is, so `unsatisfiable` is never said of a sheet that was not judged. */
    uint64_t out[3] = {0, 0, 0};
    uint8_t refusal = lockgraph_verdict(sheet, n, out);
    if (refusal != 0) {
        printf("refused %d\n", refusal);
    } else if (out[0] == 1) {
        printf("open %" PRIu64 " %" PRIu64 "\n", out[1], out[2]);
    } else if (out[0] == 2) {
        printf("unsatisfiable\n");
    }
    return 0;
}
