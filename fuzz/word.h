/* The thread's float control word, MXCSR or FPCR with FPSR, and the guard under words that a host may have set. */
#ifndef FUZZ_WORD_H
#define FUZZ_WORD_H

#include "input.h"

typedef uint64_t (*make_call)(const void *args);

/* Round to nearest, nothing flushed, nothing trapped. */
void word_set_plain(void);
/* Whether the control bits are those; exception flags may differ. */
bool word_is_plain(void);
/* Makes the call between mst_guard_enter and mst_guard_leave under a word that the input chooses. Fails where the word or its
   flags are not as the host left them; the word is plain again after it. */
uint64_t word_under_host(struct input *in, make_call make, const void *args);

#endif
