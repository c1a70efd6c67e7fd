/* Runs each file: `runs FILE..` takes eight steps of thread 0 and prints what they came to, and how
   many threads live and how many objects there are at the end. */
#include "hveitmar.h"

#include <inttypes.h>
#include <stdio.h>

/* One byte more than any bundle: what fills it is refused. */
static uint8_t bytes[65536];

static const uint8_t steps[8];

/* A state begins with its threads, each of so many bytes and with its live flag first; behind their
   counts stands the number of objects. */
enum { THREADS = 8, THREAD_BYTES = 165, OBJECTS_AT = THREADS * THREAD_BYTES + 512 };

static void print_state(const uint8_t *state)
{
    unsigned live = 0;
    for (int i = 0; i < THREADS; i++)
        live += state[i * THREAD_BYTES];
    printf(" live %u objects %u\n", live, state[OBJECTS_AT]);
}

static int run(const char *name)
{
    uint8_t state[HVEITMAR_STATE_BYTES];
    FILE *file = fopen(name, "rb");
    if (!file) {
        perror(name);
        return 2;
    }
    size_t length = fread(bytes, 1, sizeof bytes, file);
    fclose(file);
    uint64_t run = hveitmar_run(bytes, length, steps, sizeof steps, state, sizeof state);
    if (hveitmar_run_answer(run) == 0) {
        printf("ran %" PRIu64, hveitmar_run_steps(run));
    } else {
        uint64_t verdict = hveitmar_run_verdict(run);
        printf("answer %u verdict %u class %u address %u why %u", hveitmar_run_answer(run),
               hveitmar_number(verdict), hveitmar_class(verdict), hveitmar_address(verdict),
               hveitmar_why(verdict));
    }
    print_state(state);
    return hveitmar_run_answer(run) != 0;
}

int main(int argc, char **argv)
{
    int worst = 0;
    for (int i = 1; i < argc; i++) {
        int status = run(argv[i]);
        if (status > worst)
            worst = status;
    }
    return worst;
}
