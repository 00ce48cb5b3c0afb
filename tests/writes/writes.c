/* The stores of each step into its table, counted (watch.h). Of a purge: none before the first record that leaves, each later row of a record that stays
 * once, one after the other, each freed row once, the held number once; none at all where nothing leaves. The same count has to find planted purges that
 * leave the right words by too many stores. Of a delivery: the mark once where it rises, and nothing else. Of a session: a side that does not finish its own
 * entry of each row once and nothing else, one that finishes its rows, its held number and the rows of the records that come, each word at most once; planted
 * sessions that store more are found. Of the other steps: the words stored beside the words that change.
 * All this on tables of vectors and of columns: there a side that does not finish stores one word, and one that finishes no more than the n times n entries of
 * its columns, each once, those of its own column, which takes more, at most three times; a delivery, refused, nothing. */
#define _GNU_SOURCE
#include "watch.h"

typedef uint32_t purge_call(uint32_t *, size_t, uint8_t, uint32_t *, uint32_t *);
typedef uint32_t session_call(uint32_t *, size_t, uint8_t, uint8_t, uint32_t, uint32_t, uint8_t, uint32_t *, uint32_t *);

enum { NODE = 1, LIMIT = 1000 };

static int columns(void) { return table_words == COLUMN_WORDS; }
static size_t summary(uint32_t p, uint32_t o) { return columns() ? column_at(p, p, o) : summary_at(p, o); }
static size_t held_of(uint32_t p) { return held_at(p) + (table_words - WORDS); }
static size_t mark_of(uint32_t p) { return mark_at(p) + (table_words - WORDS); }
static size_t row_of(uint32_t p, uint32_t row, uint32_t word) { return record_at(p, row, word) + (table_words - WORDS); }

static unsigned long freed, freed_again; /* bytes of freed rows that were stored to, and those of them stored to more than once */

#ifdef OWN_MEMSET
/* The library clears freed rows by one call of memset. This one stores each byte once; a C library's may store a byte twice where its wide stores overlap. */
void *memset(void *to, int value, size_t many) {
    volatile uint8_t *at = to;
    for (size_t i = 0; i < many; i++) at[i] = (uint8_t)value;
    return to;
}
#endif

/* Planted purges, right in every word that they leave. */
static uint32_t planted(uint32_t *t, uint8_t node, uint32_t *removed, int early, int twice, int anew, int cleared) {
    volatile uint32_t *log = t + row_of(node, 0, 0);
    uint32_t held = t[held_of(node)], left = 0, first = 0;
    while (first < held && log[4 * first + 1] > LIMIT) first++;
    for (uint32_t i = 0; i < held; i++) {
        uint32_t row[4] = {log[4 * i], log[4 * i + 1], log[4 * i + 2], log[4 * i + 3]};
        if (row[1] <= LIMIT) continue;
        if (early ? i + 1 >= first : i > first)
            for (int again = 0; again <= twice; again++)
                for (int w = 0; w < 4; w++) log[4 * left + (uint32_t)w] = row[w];
        left++;
    }
    for (int again = 0; again <= cleared; again++)
        for (uint32_t i = 4 * left; i < 4 * held; i++) log[i] = 0;
    if (anew || left < held) *(volatile uint32_t *)(t + held_of(node)) = left;
    *removed = held - left;
    return 0;
}
#define PLANTED(name, ...) \
    static uint32_t name(uint32_t *t, size_t len, uint8_t node, uint32_t *removed, uint32_t *lags) { \
        return (void)len, (void)lags, planted(t, node, removed, __VA_ARGS__); \
    }
PLANTED(sparing, 0, 0, 0, 0)
PLANTED(one_early, 1, 0, 0, 0)
PLANTED(rows_twice, 0, 1, 0, 0)
PLANTED(held_anew, 0, 0, 1, 0)
PLANTED(cleared_twice, 0, 0, 0, 1)

static const char *const kinds[] = {"none", "the first", "the last", "every second", "every second but the first", "all"};

static int leaves(unsigned kind, uint32_t row, uint32_t held) {
    switch (kind) {
    case 0: return 0;
    case 1: return row == 0;
    case 2: return row + 1 == held;
    case 3: return row % 2 == 0;
    case 4: return row % 2 == 1;
    default: return 1;
    }
}

/* A sound table of three nodes whose node NODE holds so many records; `alike`: all that stay have the same words, so that a move changes nothing. */
static void fill(unsigned kind, uint32_t held, int alike) {
    for (size_t i = 0; i < watched; i++) region[i] = (uint8_t)(i * 37 + 11);
    memset(table, 0, table_words * 4);
    table[COUNT] = 3;
    for (uint32_t p = 0; p < 3; p++) {
        for (uint32_t q = 0; q < 3 && !columns(); q++) table[acknowledgement_at(p, q)] = LIMIT + (p + q) % 2, table[summary(p, q)] = 5000 + p;
        for (uint32_t k = 0; k < 9 && columns(); k++) table[column_at(p, k / 3, k % 3)] = LIMIT + (p + k) % 2 + k % 3;
        uint32_t rows = p == NODE ? held : ROOM / 2;
        table[held_of(p)] = rows;
        for (uint32_t r = 0; r < rows; r++) {
            int go = p == NODE ? leaves(kind, r, held) : 1;
            table[row_of(p, r, 0)] = alike ? 1 : r % 3;
            table[row_of(p, r, 1)] = go ? LIMIT - (alike ? 0 : r) : LIMIT + 1 + (alike ? 0 : r);
            table[row_of(p, r, 2)] = alike ? 7 : 100 + r;
            table[row_of(p, r, 3)] = alike ? 0x20 : r;
        }
    }
    for (uint32_t o = 0; o < 3 && columns(); o++) table[column_at(NODE, 2 - o, o)] = LIMIT; /* the smallest for each origin, each in another column */
    if (!columns()) table[acknowledgement_at(NODE, 0)] = LIMIT, table[mark_of(NODE)] = LIMIT; /* as a delivery left it */
    for (uint32_t r = held; r < ROOM; r++)
        for (uint32_t w = 0; w < 4; w++) table[row_of(NODE, r, w)] = 0xABCD0000u + r; /* past the held rows anything may stand */
}

/* How many of the rules a purge breaks. */
static unsigned purged(purge_call *purge, unsigned kind, uint32_t held, int alike, unsigned *total) {
    static uint8_t before[REGION_MOST];
    fill(kind, held, alike);
    memcpy(before, region, watched);
    uint32_t removed = UNSET, lags = UNSET, left = 0, first = held;
    watch_begin();
    uint32_t answer = purge(table, table_words, NODE, &removed, &lags);
    watch_end();
    *total += stores;
    uint32_t *due_words = (uint32_t *)(before + EDGE);
    for (uint32_t r = 0; r < held; r++) {
        if (leaves(kind, r, held)) {
            first = r < first ? r : first;
            continue;
        }
        memmove(due_words + row_of(NODE, left++, 0), due_words + row_of(NODE, r, 0), 16);
    }
    memset(due_words + row_of(NODE, left, 0), 0, (size_t)16 * (held - left));
    due_words[held_of(NODE)] = left;
    unsigned broken = answer != 0 || removed != held - left || memcmp(before, region, watched) != 0;
    /* every byte, the words around the table with it */
    size_t log = EDGE + 4 * row_of(NODE, 0, 0), own = EDGE + 4 * held_of(NODE);
    for (size_t i = 0; i < watched; i++) {
        int row = i >= log + (size_t)16 * first && i < log + (size_t)16 * held, cleared = row && i >= log + (size_t)16 * left;
        unsigned allowed = first < held && (row || (i >= own && i < own + 4));
        freed += cleared, freed_again += cleared && times[i] > 1;
#ifndef OWN_MEMSET
        if (cleared) continue; /* how often the C library's memset stores a byte is its own */
#endif
        broken += times[i] > allowed;
    }
    if (first == held) broken += stores != 0;
    /* the rows of records that stay are stored one after the other */
    size_t last = 0;
    for (unsigned s = 0; s < stores; s++) {
        size_t at = EDGE + first_byte[s];
        if (at < log || at >= log + (size_t)16 * left) continue;
        broken += at < last;
        last = at;
    }
    return broken;
}

static unsigned all_purges(purge_call *purge, const char *told_of, unsigned *runs, unsigned *total) {
    static const uint32_t held[] = {0, 1, 63, 64};
    unsigned broken = 0;
    for (size_t h = 0; h < LENGTH(held); h++)
        for (unsigned kind = 0; kind < LENGTH(kinds); kind++)
            for (int alike = 0; alike < 2; alike++) {
                unsigned b = purged(purge, kind, held[h], alike, total);
                if (b && told_of) printf("FAILED: %s: a purge of %s of %u held%s: %u bytes or stores too many\n", told_of, kinds[kind], held[h], alike ? ", all alike" : "", b);
                broken += b != 0;
                (*runs)++;
            }
    return broken;
}

/* A delivery, of node NODE's records up to LIMIT from a mark of so much: how many words of the table it stores to that it should not, or not once. */
static unsigned delivered(unsigned kind, uint32_t held, uint32_t mark, size_t room, uint32_t number) {
    static uint32_t before[COLUMN_WORDS], list[LIST];
    uint32_t many = UNSET;
    fill(kind, held, 0);
    table[mark_of(NODE)] = mark, table[summary(NODE, 0)] = LIMIT;
    memcpy(before, table, table_words * 4);
    watch_begin();
    uint32_t answer = pollencart_deliver(table, table_words, NODE, list, room, &many);
    watch_end();
    unsigned broken = answer != number, rises = number == 0 && mark < LIMIT;
    if (rises) before[mark_of(NODE)] = LIMIT;
    broken += memcmp(before, table, table_words * 4) != 0;
    for (size_t i = 0; i < watched; i++) {
        size_t at = EDGE + 4 * mark_of(NODE);
        broken += times[i] != (rises && i >= at && i < at + 4);
    }
    return broken;
}

static void all_deliveries(void) {
    static const uint32_t held[] = {0, 1, 63, 64}, marks[] = {0, LIMIT - 1, LIMIT, LIMIT + 1};
    for (size_t h = 0; h < LENGTH(held); h++)
        for (unsigned kind = 0; kind < LENGTH(kinds); kind++)
            for (size_t m = 0; m < LENGTH(marks); m++) expect(delivered(kind, held[h], marks[m], LIST, 0) == 0, "a delivery", "the mark where it rises, once, and nothing else");
    expect(delivered(5, 64, 0, LIST - 1, 7) == 0, "a delivery refused with 7", "nothing");
    watch_form(COLUMN_WORDS);
    for (size_t h = 0; h < LENGTH(held); h++) expect(delivered(5, held[h], 0, LIST, 26) == 0, "a delivery refused with 26", "nothing");
    watch_form(WORDS);
}

/* The other steps: words stored, those stored more than once, words that change, and stores. */
static void beside(const char *what, uint32_t (*step)(void)) {
    static uint32_t before[COLUMN_WORDS];
    memcpy(before, table, table_words * 4);
    watch_begin();
    uint32_t answer = step();
    watch_end();
    unsigned words = 0, again = 0, partly = 0, changed = 0;
    for (size_t w = 0; w < table_words; w++) {
        words += most(w) > 0, again += most(w) > 1, partly += least(w) != most(w);
        changed += before[w] != table[w];
        expect(most(w) > 0 || before[w] == table[w], what, "a word changed without a store");
    }
    expect(answer == 0 && partly == 0, what, "accepted, whole words");
    printf("| %s | %u | %u | %u |\n", what, words, again, changed);
}

static uint32_t counts[2];
static uint32_t write_step(void) { return pollencart_write(table, table_words, 0, 9000, 7, 0x20); }
static uint32_t session_0(void) { return pollencart_session(table, table_words, 0, 1, 9000, 9001, 0, counts, counts + 1); }
static uint32_t session_1(void) { return pollencart_session(table, table_words, 0, 1, 9000, 9001, 1, counts, counts + 1); }
static uint32_t session_2(void) { return pollencart_session(table, table_words, 0, 1, 9000, 9001, 2, counts, counts + 1); }
static uint32_t session_3(void) { return pollencart_session(table, table_words, 0, 1, 9000, 9001, 3, counts, counts + 1); }
static uint32_t purge_step(void) { return pollencart_purge(table, table_words, 0, counts, counts + 1); }
static uint32_t deliver_step(void) {
    static uint32_t list[LIST];
    return pollencart_deliver(table, table_words, 0, list, LIST, counts);
}
static uint32_t refused_step(void) { return pollencart_write(table, table_words, 0, 1, 7, 0x20) == 5 ? 0 : 1; }

/* Two of n nodes with eight records each, half of them new to the other; every other record of node 0 is acknowledged by all. */
static void meeting(uint32_t n) {
    memset(table, 0, table_words * 4);
    table[COUNT] = n;
    for (uint32_t p = 0; p < n; p++) {
        for (uint32_t q = 0; q < n && columns(); q++)
            for (uint32_t o = 0; o < n; o++) table[column_at(p, q, o)] = 40 + (p + q + o) % 3;
        for (uint32_t q = 0; q < n; q++) {
            table[summary(p, q)] = p < 2 && q == p ? 108 : 104;
            if (!columns()) table[acknowledgement_at(p, q)] = 50 + (p + q) % 2;
        }
        table[held_of(p)] = 8, table[mark_of(p)] = 40; /* what is acknowledged was delivered */
        for (uint32_t r = 0; r < 8; r++) {
            table[row_of(p, r, 0)] = p % n, table[row_of(p, r, 1)] = p == 0 && r % 2 == 1 && r < 4 ? 40 : 101 + r;
            table[row_of(p, r, 2)] = r, table[row_of(p, r, 3)] = 0x20;
        }
    }
}

/* Planted sessions that neither side finishes, right in every word that they leave: the own entries, or also the other entries of b's acknowledgements or own
 * column, or the own entries twice. */
static void planted_side(volatile uint32_t *t, uint8_t p, uint32_t reading, int whole, int again) {
    uint32_t low = reading;
    for (uint32_t q = 0; columns() && whole && q < t[COUNT]; q++)
        if (q != p) t[summary(p, q)] = t[summary(p, q)];
    for (int turn = 0; columns() && turn <= again; turn++) t[summary(p, p)] = reading;
    if (columns()) return;
    for (uint32_t q = 0; q < t[COUNT]; q++)
        if (q != p && t[summary(p, q)] < low) low = t[summary(p, q)];
    for (uint32_t q = 0; whole && q < t[COUNT]; q++)
        if (q != p) t[acknowledgement_at(p, q)] = t[acknowledgement_at(p, q)];
    for (int turn = 0; turn <= again; turn++) t[summary(p, p)] = reading, t[acknowledgement_at(p, p)] = low;
}
#define PLANTED_SESSION(name, whole, again) \
    static uint32_t name(uint32_t *t, size_t len, uint8_t a, uint8_t b, uint32_t ca, uint32_t cb, uint8_t outcome, uint32_t *to_a, uint32_t *to_b) { \
        if (outcome != 0) return pollencart_session(t, len, a, b, ca, cb, outcome, to_a, to_b); \
        planted_side(t, a, ca, 0, again), planted_side(t, b, cb, whole, 0); \
        return *to_a = *to_b = 0; \
    }
PLANTED_SESSION(own_entries, 0, 0)
PLANTED_SESSION(row_whole, 1, 0)
PLANTED_SESSION(entries_twice, 0, 1)

/* One that stores a word of a column beyond n, as it was, after the library's own. */
static uint32_t beyond_n(uint32_t *t, size_t len, uint8_t a, uint8_t b, uint32_t ca, uint32_t cb, uint8_t outcome, uint32_t *to_a, uint32_t *to_b) {
    volatile uint32_t *word = t + (columns() ? column_at(a, t[COUNT] % NODES, 0) : summary(a, t[COUNT] % NODES));
    uint32_t answer = pollencart_session(t, len, a, b, ca, cb, outcome, to_a, to_b);
    return *word = *word, answer;
}

/* How often a session may store byte i of the table for its side p, that finishes and takes so many, or does not. */
static unsigned side_allows(size_t i, uint32_t n, uint8_t p, int finishes, uint32_t held, uint32_t taken) {
    size_t w = i / 4, of = w - column_at(p, 0, 0);
    if (!finishes) return w == summary(p, p) || (!columns() && w == acknowledgement_at(p, p));
    if (w == held_of(p) || (taken > 0 && w >= row_of(p, held, 0) && w < row_of(p, held, 0) + 4 * (size_t)taken)) return 1;
    if (columns()) return w < column_at(p, 0, 0) || of >= NODES * NODES || of / NODES >= n || of % NODES >= n ? 0 : of / NODES == p ? 3 : 1;
    return (w >= summary(p, 0) && w < summary(p, 0) + n) || (w >= acknowledgement_at(p, 0) && w < acknowledgement_at(p, 0) + n);
}

/* A session between a and b of n nodes with these readings: how many bytes it stores to too often, or of a side that does not finish not once. */
static unsigned met(session_call *session, uint32_t n, uint8_t a, uint8_t b, uint32_t ca, uint32_t cb, uint8_t outcome) {
    static uint32_t before[COLUMN_WORDS];
    uint32_t to_a = UNSET, to_b = UNSET;
    meeting(n);
    memcpy(before, table, table_words * 4);
    watch_begin();
    uint32_t answer = session(table, table_words, a, b, ca, cb, outcome, &to_a, &to_b);
    watch_end();
    unsigned broken = answer != 0 || table[summary(a, a)] != ca || table[summary(b, b)] != cb;
    for (size_t i = 0; i < watched; i++) {
        unsigned inside = i >= EDGE && i < EDGE + 4 * table_words;
        unsigned of_a = !inside ? 0 : side_allows(i - EDGE, n, a, outcome & 1, before[held_of(a)], to_a);
        unsigned of_b = !inside ? 0 : side_allows(i - EDGE, n, b, outcome & 2, before[held_of(b)], to_b);
        broken += times[i] > of_a + of_b;
        broken += (of_a && !(outcome & 1) && times[i] != 1) || (of_b && !(outcome & 2) && times[i] != 1);
    }
    return broken;
}

static unsigned all_sessions(session_call *session, const char *told_of, unsigned *many) {
    static const uint32_t n[] = {2, 3, 16}, readings[] = {108, 9000, 0xFFFFFFFF};
    unsigned broken = 0;
    for (size_t i = 0; i < LENGTH(n); i++)
        for (uint8_t a = 0; a < n[i]; a++)
            for (uint8_t b = 0; b < n[i]; b++)
                for (uint8_t outcome = 0; outcome < 4; outcome++) {
                    if (a == b || (a > 2 && b > 2 && a + 1u < n[i] && b + 1u < n[i])) continue;
                    uint32_t ca = readings[(a + outcome) % 3], cb = readings[(b + outcome) % 3];
                    unsigned bytes = met(session, n[i], a, b, ca, cb, outcome);
                    if (bytes && told_of) printf("FAILED: %s: nodes %u and %u of %u, outcome %u: %u bytes\n", told_of, a, b, n[i], outcome, bytes);
                    broken += bytes != 0, (*many)++;
                }
    return broken;
}

#ifdef OWN_MEMSET
/* The counts have to find what is planted. */
static void planted_found(void) {
    unsigned none = 0, ignored = 0;
    expect(all_sessions(own_entries, "a sparing session in C", &ignored) == 0, "the count", "lets a sparing session pass");
    expect(all_sessions(row_whole, NULL, &ignored) > 0, "planted", "a row stored whole by a side that does not finish");
    expect(all_sessions(entries_twice, NULL, &ignored) > 0, "planted", "the own entries stored twice");
    expect(all_sessions(beyond_n, NULL, &ignored) > 0, "planted", "a word beyond n stored as it was");
    expect(all_purges(sparing, "a sparing purge in C", &ignored, &none) == 0, "the count", "lets a sparing purge pass");
    expect(all_purges(one_early, NULL, &ignored, &none) > 0, "planted", "a row stored before the first that leaves");
    expect(all_purges(rows_twice, NULL, &ignored, &none) > 0, "planted", "each moved row stored twice");
    expect(all_purges(held_anew, NULL, &ignored, &none) > 0, "planted", "the held number stored where nothing leaves");
    expect(all_purges(cleared_twice, NULL, &ignored, &none) > 0, "planted", "the freed rows cleared twice");
}

static void told_words(uint32_t n) {
    printf("| %u nodes, %s | words stored | of them more than once | words that change |\n|---|---:|---:|---:|\n", n, columns() ? "columns" : "vectors");
    meeting(n), beside("a write", write_step);
    meeting(n), beside("a refused write", refused_step);
    meeting(n), beside("a session, neither side finishes", session_0);
    meeting(n), beside("a session, only a finishes", session_1);
    meeting(n), beside("a session, only b finishes", session_2);
    meeting(n), beside("a session, both finish", session_3);
    meeting(n), beside("a purge of two of eight", purge_step), beside("a purge of none", purge_step);
    if (!columns()) meeting(n), beside("a delivery of some", deliver_step), beside("a delivery of none", deliver_step);
}
#endif

int main(void) {
    static const size_t forms[] = {WORDS, COLUMN_WORDS};
    watch_open();
    unsigned runs = 0, total = 0, sessions = 0;
    for (size_t f = 0; f < LENGTH(forms); f++) {
        watch_form(forms[f]);
        expect(all_purges(pollencart_purge, "the library", &runs, &total) == 0, "purges", "within their bounds");
        expect(all_sessions(pollencart_session, "the library", &sessions) == 0, "sessions", "within their bounds");
#ifdef OWN_MEMSET
        planted_found();
        told_words(2), told_words(16);
#endif
    }
    watch_form(WORDS);
    all_deliveries();
#ifdef OWN_MEMSET
    printf("writes: %u purges by %u stores and %u sessions within their bounds on both forms, 7 planted faults found on each, %lu checks, %lu failed\n", runs, total, sessions, checks, failures);
#else
    (void)sparing, (void)one_early, (void)rows_twice, (void)held_anew, (void)cleared_twice, (void)beside, (void)own_entries, (void)row_whole, (void)entries_twice, (void)beyond_n;
    (void)deliver_step, (void)write_step, (void)session_0, (void)session_1, (void)session_2, (void)session_3, (void)purge_step, (void)refused_step, (void)least, (void)most;
    printf("writes: with the C library's memset: %u purges by %u stores, %lu of %lu freed bytes stored more than once by it, %u sessions, %lu failed\n", runs, total, freed_again, freed, sessions,
           failures);
#endif
    return failures != 0;
}
