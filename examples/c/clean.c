/* Writes the sheet on standard input clean to standard output, or says on standard error why it is refused. */
#include "lockgraph.h"

#include <stdio.h>

int main(void)
{
    /* A sheet has at most 1,024 bytes: a byte more is enough to have a longer one refused. A clean sheet has as many at most. */
    uint8_t sheet[1025], store[1024];
    size_t n = fread(sheet, 1, sizeof sheet, stdin);
    if (ferror(stdin)) {
        fputs("clean: standard input cannot be read\n", stderr);
        return 1;
    }
    uint64_t out[1] = {0};
    uint8_t refusal = lockgraph_clean(sheet, n, store, sizeof store, out);
    if (refusal != 0) {
        fprintf(stderr, "refused %d\n", refusal);
        return 1;
    }
    return fwrite(store, 1, out[0], stdout) == out[0] ? 0 : 1;
}
