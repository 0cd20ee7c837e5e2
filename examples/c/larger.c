/* Judges the sheet on standard input, also one that is too large for the usual limits. Where these refuse it with 9 or 10 it is judged again within the largest, and ` within 12 128`
 * stands behind the answer. */
#include "lockgraph.h"

#include <inttypes.h>
#include <stdio.h>

int main(void)
{
    /* A sheet has at most 1,024 bytes, whatever the limits are: a byte more is enough to have a longer one refused. */
    uint8_t sheet[1025];
    size_t n = fread(sheet, 1, sizeof sheet, stdin);
    if (ferror(stdin)) {
        fputs("larger: standard input cannot be read\n", stderr);
        return 1;
    }
    /* A refusal leaves this as it is, so `unsatisfiable` is never said of a sheet that was not judged. */
    uint64_t out[3] = {0, 0, 0};
    const char *within = "";
    uint8_t refusal = lockgraph_verdict(sheet, n, out);
    /* Larger limits take back these two refusals alone. */
    if (refusal == 9 || refusal == 10) {
        refusal = lockgraph_verdict_within(12, 128, sheet, n, out);
        within = " within 12 128";
    }
    if (refusal != 0) {
        printf("refused %d%s\n", refusal, within);
    } else if (out[0] == 1) {
        printf("open %" PRIu64 " %" PRIu64 "%s\n", out[1], out[2], within);
    } else if (out[0] == 2) {
        printf("unsatisfiable%s\n", within);
    }
    return 0;
}
