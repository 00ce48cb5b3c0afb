/* A table of either form lent between two guards, for the tests that compare every word after a call: what the words must be, and the words themselves. */
#ifndef LENT_H
#define LENT_H

#include "check.h"

static uint32_t due[COLUMN_WORDS], lent[GUARD + COLUMN_WORDS + GUARD], copy[GUARD + COLUMN_WORDS + GUARD];
static size_t due_words = WORDS; /* those of them that are the table; what stands behind it is guarded too */

static uint32_t *lend(void) {
    for (size_t i = 0; i < LENGTH(lent); i++) lent[i] = 0xA5A5A5A5u ^ (uint32_t)(i * 0x01000193u);
    memcpy(lent + GUARD, due, due_words * sizeof *due);
    memcpy(copy, lent, sizeof copy);
    return lent + GUARD;
}

static void words_stand(const char *about) {
    memcpy(copy + GUARD, due, due_words * sizeof *due);
    expect(memcmp(copy, lent, sizeof copy) == 0, about, "the words");
}

#endif
