/* Fills in the pairs of each file's bundle: `fills FILE..` prints the verdict before, the answer's
   numbers, how many bytes have changed, and the verdict after. */
#include "hveitmar.h"

#include <stdio.h>
#include <string.h>

/* One byte more than any bundle: what fills it is refused. */
static uint8_t before[65536], after[65536];

static int fill(const char *name)
{
    FILE *file = fopen(name, "rb");
    if (!file) {
        perror(name);
        return 2;
    }
    size_t length = fread(before, 1, sizeof before, file);
    fclose(file);
    memcpy(after, before, length);
    uint64_t answer = hveitmar_fill(after, length);
    size_t changed = 0;
    for (size_t at = 0; at < length; at++)
        changed += before[at] != after[at];
    printf("verdict %u fill %u class %u address %u changed %zu verdict %u\n",
           hveitmar_number(hveitmar_verdict(before, length)), hveitmar_number(answer),
           hveitmar_class(answer), hveitmar_address(answer), changed,
           hveitmar_number(hveitmar_verdict(after, length)));
    return hveitmar_number(answer) != 0;
}

int main(int argc, char **argv)
{
    int worst = 0;
    for (int i = 1; i < argc; i++) {
        int status = fill(argv[i]);
        if (status > worst)
            worst = status;
    }
    return worst;
}
