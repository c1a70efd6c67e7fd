/* Takes the method of a file, a Code attribute: `takes FILE INDEX..` prints its instructions, or why it
   is not taken, with no class listed, then with the first index, and so on to all of them. */
#include "hveitmar.h"

#include <inttypes.h>
#include <stdio.h>
#include <stdlib.h>

enum { MOST_CLASSES = 8, MOST_INSTRUCTIONS = 256 };

/* Enough for a method that is taken and has few handlers. */
static uint8_t attribute[65536];

static int take(size_t length, const uint8_t *classes, size_t count)
{
    uint8_t out[4 * MOST_INSTRUCTIONS];
    uint64_t taken = hveitmar_take(attribute, length, classes, 2 * count, out, sizeof out);
    uint32_t number = hveitmar_take_number(taken);
    if (hveitmar_take_answer(taken) != 0) {
        printf("answer %u offset %" PRIu32 "\n", hveitmar_take_answer(taken), number);
        return 1;
    }
    printf("taken %" PRIu32 ":", number);
    for (uint32_t i = 0; i < 4 * number; i++)
        printf("%s%02x", i % 4 ? "" : " ", out[i]);
    printf("\n");
    return 0;
}

int main(int argc, char **argv)
{
    uint8_t classes[2 * MOST_CLASSES];
    FILE *file = argc < 2 ? NULL : fopen(argv[1], "rb");
    if (!file) {
        perror("takes");
        return 2;
    }
    size_t length = fread(attribute, 1, sizeof attribute, file);
    fclose(file);
    int status = take(length, classes, 0);
    for (int i = 0; i < argc - 2 && i < MOST_CLASSES; i++) {
        int index = atoi(argv[i + 2]);
        classes[2 * i] = (uint8_t)(index >> 8);
        classes[2 * i + 1] = (uint8_t)index;
        status = take(length, classes, (size_t)i + 1);
    }
    return status;
}
