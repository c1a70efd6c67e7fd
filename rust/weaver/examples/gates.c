/* Hands a method that locks an object to the gate: as it is, with its release jumped over, with too
   little room for it, and with a slice cut short; prints what is answered, and how many bytes of the
   output have changed. */
#include "hveitmar_gate.h"

#include <stdio.h>
#include <string.h>

/* One variable, one stack place, seven instructions. */
static const uint8_t directory[6] = {0, 1, 1, 0, 0, 7};

/* new 0, store 0, monitorenter 0, push0, if 6, monitorexit 0, return; the second one goes to 7, past
   the release. */
static const uint8_t good[28] = {9, 0, 0, 0, 5, 0, 0, 0, 7, 0, 0, 0, 3, 0,
                                 0, 0, 6, 0, 0, 6, 8, 0, 0, 0, 12, 0, 0, 0};
static const uint8_t bad[28] = {9, 0, 0, 0, 5, 0, 0, 0, 7, 0, 0, 0, 3, 0,
                                0, 0, 6, 0, 0, 7, 8, 0, 0, 0, 12, 0, 0, 0};

/* Of each row the variable (2 is Top, 3 a reference) and the stack place (1 is an integer). */
static const uint8_t kinds[28] = {2, 0, 0, 0, 2, 0, 3, 0, 3, 0, 0, 0, 3, 0,
                                  0, 0, 3, 0, 1, 0, 3, 0, 0, 0, 3, 0, 0, 0};
static const uint8_t depths[7] = {0, 1, 0, 0, 1, 0, 0};

static void weave(const char *name, const uint8_t *instructions, size_t length, size_t room)
{
    static uint8_t out[256];
    memset(out, 0xA5, sizeof out);
    /* There is no descriptor: whatever is pointed at is not read. */
    uint64_t gate = hveitmar_gate(1, 0, directory, sizeof directory, directory, 0, instructions, length,
                                  kinds, sizeof kinds, depths, sizeof depths, out, room);
    size_t changed = 0;
    for (size_t at = 0; at < sizeof out; at++)
        changed += out[at] != 0xA5;
    printf("%s: number %u class %u address %u length %zu changed %zu\n", name, hveitmar_gate_number(gate),
           hveitmar_gate_class(gate), hveitmar_gate_address(gate), hveitmar_gate_length(gate), changed);
}

int main(void)
{
    weave("good", good, sizeof good, 256);
    weave("just enough room", good, sizeof good, 107);
    weave("a byte too little", good, sizeof good, 106);
    weave("release jumped over", bad, sizeof bad, 256);
    weave("a byte cut off", good, sizeof good - 1, 256);
    return 0;
}
