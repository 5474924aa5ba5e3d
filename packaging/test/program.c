/* Prints the gains of three equal levels, the version of the library it runs with, and whether that is the header's. */
#include <masoritun.h>
#include <stdio.h>

int main(void) {
    const float levels[3] = {0.0f, 0.0f, 0.0f};
    uint16_t gains[3] = {0, 0, 0};
    const mst_guard guard = mst_guard_enter();
    const uint64_t answer = mst_split(levels, 3, gains, 3);
    const unsigned version = mst_version();
    mst_guard_leave(guard);
    if (mst_number(answer) != MST_DONE) {
        fprintf(stderr, "program: mst_split: %s\n", mst_text(mst_number(answer)));
        return 1;
    }
    printf("%u %u %u\n", (unsigned)gains[0], (unsigned)gains[1], (unsigned)gains[2]);
    printf("version %u.%u.%u\n", version / 10000, version / 100 % 100, version % 100);
    printf("%s\n", version == MST_VERSION ? "as the header" : "unlike the header");
    return 0;
}
