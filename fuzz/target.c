/* The function that libFuzzer, or main.c, gives each input. */
#include "masoritun.h"
#include "sequences.h"

int LLVMFuzzerTestOneInput(const uint8_t *bytes, size_t size);

/* Weak: an archive without it links too. */
#pragma weak mst_version

static void open_once(void) {
    static bool opened;
    if (opened)
        return;
    opened = true;
    catch_signals();
    word_set_plain();
    if (mst_version && mst_version() != MST_VERSION)
        fail("the library's mst_version is %u, the header's %d", mst_version(), MST_VERSION);
}

int LLVMFuzzerTestOneInput(const uint8_t *bytes, size_t size) {
    static void (*const checks[])(struct input *) = {
        check_operators, check_operators, check_sums,  check_extremes, check_softmax, check_normalize,
        check_quantize,  check_split,     check_meter, check_table,    check_damaged, check_bytes,
    };
    struct input in;
    open_once();
    input_open(&in, bytes, size);
    checks[input_below(&in, sizeof checks / sizeof *checks)](&in);
    return 0;
}
