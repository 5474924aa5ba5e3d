/* The C functions of the kit's library `os` that tabulate and lister reach through std, by that library's contracts: the kit has them
   compiled for x86-64 alone. */
#include <errno.h>
#include <stddef.h>
#include <stdint.h>

static size_t count;
static char **words;

/* glibc gives a constructor what main is given. */
__attribute__((constructor)) static void keep(int argc, char **argv) {
    count = argc < 0 ? 0 : (size_t)argc;
    words = argv;
}

/* The length of argument i, which is put at the start of buf; -1 where there is none, -2 where it does not fit: buf is full then. */
intptr_t rattle_arg(size_t i, uint8_t *buf, size_t n) {
    if (i >= count)
        return -1;
    size_t k = 0;
    for (; words[i][k] != 0; k++) {
        if (k == n)
            return -2;
        buf[k] = (uint8_t)words[i][k];
    }
    return (intptr_t)k;
}

int rattle_errno(void) { return errno; }

void rattle_set_errno(int error) { errno = error; }
