#define _DEFAULT_SOURCE
#include "lend.h"
#include "check.h"
#include <stdlib.h>
#include <string.h>
#include <sys/mman.h>

/* PAGE is a multiple of every page size that Linux has on the two processors. */
enum { PAGE = 65536, ROOM = 4 * PAGE, SLOTS = 8, EDGE = 256, CANARY = 0xA5 };

struct slot {
    uint8_t *room, *at;
    uint8_t *before, *after;
    size_t bytes;
    enum lent_kind kind;
    bool at_start;
};

static struct slot slots[SLOTS];
static int used;

static void open_slot(struct slot *s) {
    uint8_t *pages = mmap(NULL, ROOM + 2 * PAGE, PROT_NONE, MAP_PRIVATE | MAP_ANONYMOUS, -1, 0);
    if (pages == MAP_FAILED || mprotect(pages + PAGE, ROOM, PROT_READ | PROT_WRITE) != 0)
        fail("no memory for lent buffers");
    s->room = pages + PAGE;
    s->before = malloc(ROOM);
    s->after = malloc(ROOM);
    if (s->before == NULL || s->after == NULL)
        fail("no memory for lent buffers");
}

void lend_none(void) {
    for (int i = 0; i < SLOTS && slots[i].room == NULL; i++)
        open_slot(&slots[i]);
    used = 0;
}

static uint8_t *edge(const struct slot *s) { return s->at_start ? s->at + s->bytes : s->at - EDGE; }

void *lend(struct input *in, enum lent_kind kind, const void *contents, size_t bytes) {
    if (used == SLOTS || bytes + EDGE > ROOM)
        fail("the harness lends too much");
    struct slot *s = &slots[used++];
    s->kind = kind;
    s->bytes = bytes;
    s->at_start = input_rarely(in, 128);
    s->at = s->at_start ? s->room : s->room + ROOM - bytes;
    memset(edge(s), CANARY, EDGE);
    if (contents != NULL)
        memcpy(s->at, contents, bytes);
    else
        for (size_t i = 0; i < bytes; i++)
            s->at[i] = (uint8_t)(37 * i + 11);
    return bytes == 0 && s->at_start ? NULL : s->at;
}

const void *lend_no_access(void) { return slots[0].room - PAGE; }

void lent_before(void) {
    for (int i = 0; i < used; i++)
        memcpy(slots[i].before, slots[i].at, slots[i].bytes);
}

static void judge_edge(const struct slot *s) {
    const uint8_t *canary = edge(s);
    for (int i = 0; i < EDGE; i++)
        if (canary[i] != CANARY)
            fail("wrote outside of a lent buffer of %zu bytes", s->bytes);
}

static void judge_slot(const struct slot *s, bool refused) {
    static const uint8_t zero[4];
    judge_edge(s);
    if (s->kind == RESULT) {
        if (refused && memcmp(s->at, zero, sizeof zero) != 0)
            fail("refused, and a result is not +0");
        return;
    }
    if (s->kind == LENT && !refused)
        return;
    if (memcmp(s->before, s->at, s->bytes) != 0)
        fail(s->kind == SOURCE ? "changed a source of %zu bytes" : "refused, and changed a lent buffer of %zu bytes", s->bytes);
}

void lent_judge(bool refused) {
    for (int i = 0; i < used; i++)
        judge_slot(&slots[i], refused);
}

void lent_rewind(void) {
    for (int i = 0; i < used; i++) {
        memcpy(slots[i].after, slots[i].at, slots[i].bytes);
        memcpy(slots[i].at, slots[i].before, slots[i].bytes);
    }
}

bool lent_as_noted(void) {
    for (int i = 0; i < used; i++)
        if (memcmp(slots[i].after, slots[i].at, slots[i].bytes) != 0)
            return false;
    return true;
}

void lent_digest(void) {
    for (int i = 0; i < used; i++)
        if (slots[i].kind != SOURCE)
            digest_add(slots[i].at, slots[i].bytes);
}
