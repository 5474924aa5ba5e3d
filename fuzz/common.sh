# For run, planted and digest, which set `top` and then read this file.

. "$top/tools/archive"

sources="check folds input lend model operators quantize split_meter table_calls tables target weights word"
# Contraction would round a product and a sum once where the rules round twice.
flags="-std=c11 -O2 -g -ffp-contract=off -Wall -Wextra -pedantic -Werror"

# find_clang FOLDER: sets `clang`; it must be able to build with libFuzzer.
find_clang() {
    clang=${CC:-clang}
    [ -n "${CC:-}" ] || command -v clang >/dev/null || clang=clang-14
    needs="install clang and its runtime (Debian: apt-get install clang-14 libclang-rt-14-dev), or name a clang by CC"
    command -v "$clang" >/dev/null || die "there is no $clang: $needs"
    cat >"$1/probe.c" <<'PROBE'
#include <stddef.h>
#include <stdint.h>
int LLVMFuzzerTestOneInput(const uint8_t *bytes, size_t size) { return bytes == NULL && size > 0; }
PROBE
    "$clang" -fsanitize=fuzzer "$1/probe.c" -o "$1/probe" >/dev/null 2>&1 ||
        die "$clang does not build with -fsanitize=fuzzer, which is libFuzzer: $needs"
    rm -f "$1/probe" "$1/probe.c"
}

# compile_harness FOLDER: the harness as objects with clang's coverage, one for each source.
compile_harness() {
    for source in $sources; do
        # shellcheck disable=SC2086 # the flags are words
        "$clang" $flags -fsanitize=fuzzer-no-link -I "$top/include" -c "$top/fuzz/$source.c" -o "$1/$source.o"
    done
}
