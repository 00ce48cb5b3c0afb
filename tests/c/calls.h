/* The calls on a lent table, for the tests of either form: each made on a copy of the table that is due, its answer and its counts compared. */
#ifndef CALLS_H
#define CALLS_H

#include "lent.h"

static uint32_t any(void) {
    static uint64_t x = 88172645463325252u;
    x ^= x << 13;
    x ^= x >> 7;
    x ^= x << 17;
    return (uint32_t)(x >> 16);
}

static unsigned long met[4][7], met_delivering[27];

/* A call: its kind, 0 to 3, and its fields. */
enum { FRESH, WRITE, SESSION, PURGE };
struct call {
    int kind;
    uint32_t f[5];
};

#define FRESH_OF(n) ((struct call){FRESH, {n}})
#define WRITE_OF(...) ((struct call){WRITE, {__VA_ARGS__}})
#define SESSION_OF(...) ((struct call){SESSION, {__VA_ARGS__}})
#define PURGE_OF(n) ((struct call){PURGE, {n}})

/* Makes the call on a copy of the table that is due and compares its answer and its counts. */
static void answers(const char *about, struct call c, size_t len, uint32_t number, uint32_t count, uint32_t count_b) {
    uint32_t *w = lend(), x = UNSET, y = UNSET, r = UNSET;
    const uint32_t *f = c.f;
    switch (c.kind) {
    case FRESH: r = pollencart_fresh(w, len, f[0]); break;
    case WRITE: r = pollencart_write(w, len, (uint8_t)f[0], f[1], f[2], (uint8_t)f[3]); break;
    case SESSION: r = pollencart_session(w, len, (uint8_t)f[0], (uint8_t)f[1], f[2], f[3], (uint8_t)f[4], &x, &y); break;
    default: r = pollencart_purge(w, len, (uint8_t)f[0], &x, &y); break;
    }
    expect(r == number, about, "the number");
    expect(x == (c.kind < SESSION ? UNSET : count) && y == (c.kind < SESSION ? UNSET : count_b), about, "the counts");
    met[c.kind][r < 7 ? r : 0]++;
}

/* Refused: the number, zero counts, and no word changed. */
static void refused(const char *about, struct call c, size_t len, uint32_t number) {
    answers(about, c, len, number, 0, 0);
    words_stand(about);
}

/* A delivery into the first `many` words of a list between guards, on a copy of the table that is due: its answer, how many it delivers, and
 * that no word of the list but those of the delivered records changes. The answer is the list. */
static const uint32_t *delivers(const char *about, uint8_t node, size_t len, size_t many, uint32_t number, uint32_t count) {
    static uint32_t list[GUARD + LIST + 8 + GUARD], list_copy[LENGTH(list)];
    uint32_t delivered = UNSET;
    for (size_t i = 0; i < LENGTH(list); i++) list[i] = 0x5A5A5A5Au ^ (uint32_t)(i * 0x01000193u);
    memcpy(list_copy, list, sizeof list);
    uint32_t r = pollencart_deliver(lend(), len, node, list + GUARD, many, &delivered);
    expect(r == number, about, "the number");
    expect(delivered == count, about, "the count");
    size_t end = GUARD + RECORD * (size_t)count;
    expect(memcmp(list, list_copy, GUARD * sizeof *list) == 0, about, "the words before the list");
    expect(memcmp(list + end, list_copy + end, sizeof list - end * sizeof *list) == 0, about, "the rest of the list and the words after it");
    met_delivering[r < 27 ? r : 0]++;
    return list + GUARD;
}

/* Refused: nothing is delivered, and no word of the table changed. */
static void undelivered(const char *about, uint8_t node, size_t len, size_t many, uint32_t number) {
    delivers(about, node, len, many, number, 0);
    words_stand(about);
}

#endif
