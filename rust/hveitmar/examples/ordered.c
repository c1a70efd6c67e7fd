/* Judges each file under two lock orders: `ordered FILE..` prints the verdict's numbers. */
#include "hveitmar.h"

#include <stdio.h>

/* One byte more than any bundle: what fills it is refused. */
static uint8_t bytes[65536];

/* Class 0 above class 1, and the other way round; the levels of other classes do not matter here. */
static const uint8_t orders[2][8] = {{1, 0}, {0, 1}};

static int judge(const char *name, const uint8_t levels[8])
{
    FILE *file = fopen(name, "rb");
    if (!file) {
        perror(name);
        return 2;
    }
    size_t length = fread(bytes, 1, sizeof bytes, file);
    fclose(file);
    uint64_t verdict = hveitmar_ordered(bytes, length, levels, 8);
    printf("levels %u %u verdict %u class %u address %u\n", levels[0], levels[1],
           hveitmar_number(verdict), hveitmar_class(verdict), hveitmar_address(verdict));
    return hveitmar_number(verdict) != 0;
}

int main(int argc, char **argv)
{
    int worst = 0;
    for (int i = 1; i < argc; i++) {
        for (int order = 0; order < 2; order++) {
            int status = judge(argv[i], orders[order]);
            if (status > worst)
                worst = status;
        }
    }
    return worst;
}
