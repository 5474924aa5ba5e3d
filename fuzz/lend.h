/* Lent buffers. Each ends at a page without access, or starts after one, as the input chooses; canary bytes lie on the other
   side. The archive has no sanitizer inside: the pages do that work. */
#ifndef FUZZ_LEND_H
#define FUZZ_LEND_H

#include "input.h"

enum lent_kind {
    SOURCE, /* no call changes it */
    LENT,   /* kept by a refusal */
    RESULT  /* an f32 that is part of the answer: +0 on a refusal */
};

/* Takes all lent buffers back. */
void lend_none(void);
/* Lends `bytes` bytes with a copy of `contents`, or with a pattern where that is NULL. NULL at times where `bytes` is 0. */
void *lend(struct input *in, enum lent_kind kind, const void *contents, size_t bytes);
/* An address that no call may follow. */
const void *lend_no_access(void);

/* Notes all contents before a call. */
void lent_before(void);
/* After it: sources, canaries and, on a refusal, all the rest must be as promised. */
void lent_judge(bool refused);
/* Notes the contents that the call left, and puts those before it back. */
void lent_rewind(void);
/* Whether the contents are those noted by lent_rewind. */
bool lent_as_noted(void);
/* Adds all that a call may write to the digest. */
void lent_digest(void);

#endif
