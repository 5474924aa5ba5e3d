/* digest COUNT: gives COUNT inputs of a fixed generator to the harness; prints a digest of all answers and of all that the calls
   wrote, and how often each call answered each number. */
#include "sequences.h"
#include <inttypes.h>
#include <stdio.h>
#include <stdlib.h>
#include <string.h>

int LLVMFuzzerTestOneInput(const uint8_t *bytes, size_t size);

enum { MOST_BYTES = 704 };

static uint64_t next_word(void) {
    static uint64_t state = 0x9e3779b97f4a7c15;
    state ^= state << 13;
    state ^= state >> 7;
    state ^= state << 17;
    return state;
}

static void run_one(void) {
    uint8_t bytes[MOST_BYTES];
    const size_t size = next_word() % MOST_BYTES;
    for (size_t at = 0; at < MOST_BYTES; at += sizeof(uint64_t)) {
        const uint64_t word = next_word();
        memcpy(bytes + at, &word, sizeof word);
    }
    LLVMFuzzerTestOneInput(bytes, size);
}

int main(int argc, char **argv) {
    char *end = NULL;
    const unsigned long long count = argc == 2 ? strtoull(argv[1], &end, 10) : 0;
    if (count == 0 || *end != '\0') {
        fprintf(stderr, "digest: give one argument, how many inputs to run\n");
        return 2;
    }
    for (unsigned long long i = 0; i < count; i++)
        run_one();
    for (int id = 0; id < CALLS; id++) {
        printf("%s", call_name((enum call_id)id));
        for (unsigned number = 0; number < NUMBERS; number++)
            if (times_answered((enum call_id)id, number) > 0)
                printf(" %u:%" PRIu64, number, times_answered((enum call_id)id, number));
        printf("\n");
    }
    printf("%llu inputs, digest %016" PRIx64 "\n", count, digest_now());
    return 0;
}
