/* Reads each word as a usage: `usages TEXT..` prints the numbers of the answer. */
#include "hveitmar.h"

#include <stdio.h>
#include <string.h>

int main(int argc, char **argv)
{
    int refused = 0;
    for (int i = 1; i < argc; i++) {
        uint64_t usage = hveitmar_usage((const uint8_t *)argv[i], strlen(argv[i]));
        printf("number %u dip %u end %d reliable %d\n", hveitmar_number(usage),
               hveitmar_dip(usage), hveitmar_end(usage), hveitmar_reliable(usage));
        refused |= hveitmar_number(usage) != 0;
    }
    return refused;
}
