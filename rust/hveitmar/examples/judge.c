/* Judges each file: `judge FILE..` prints the verdict's numbers, and the digest of eight steps of thread 0. */
#include "hveitmar.h"

#include <inttypes.h>
#include <stdio.h>

/* One byte more than any bundle: what fills it is refused. */
static uint8_t bytes[65536];

static const uint8_t steps[8];

static int judge(const char *name)
{
    FILE *file = fopen(name, "rb");
    if (!file) {
        perror(name);
        return 2;
    }
    size_t length = fread(bytes, 1, sizeof bytes, file);
    fclose(file);
    uint64_t verdict = hveitmar_verdict(bytes, length);
    printf("verdict %u class %u address %u why %u digest %" PRIu64 "\n",
           hveitmar_number(verdict), hveitmar_class(verdict), hveitmar_address(verdict),
           hveitmar_why(verdict), hveitmar_digest(bytes, length, steps, sizeof steps));
    return hveitmar_number(verdict) != 0;
}

int main(int argc, char **argv)
{
    int worst = 0;
    for (int i = 1; i < argc; i++) {
        int status = judge(argv[i]);
        if (status > worst)
            worst = status;
    }
    return worst;
}
