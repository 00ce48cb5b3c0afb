/* The verdict counts of pollencart.h on lists of records and on a node's log, each between guard words that no call may touch. */
#include "check.h"

static uint32_t all[GUARD + COLUMN_WORDS + GUARD], copy[GUARD + COLUMN_WORDS + GUARD], *const lent = all + GUARD;

static void right_at(int right, const char *what, unsigned long at) {
    char about[24];
    sprintf(about, "%lu", at);
    expect(right, what, about);
}

/* Arbitrary words everywhere. */
static void fill(void) {
    for (size_t i = 0; i < sizeof all / sizeof *all; i++) all[i] = 0xFFFFFFFFu - (uint32_t)(i * 0x01000193u);
}

/* What the three words hold after a call: scrubbed, touched and the gap between them; zeros with a refusal. */
static int stored(const uint32_t *w, uint32_t number, uint32_t scrubbed, uint32_t touched) {
    return number ? w[0] == 0 && w[1] == 0 && w[2] == 0 : w[0] == scrubbed && w[1] == touched && w[2] == scrubbed - touched;
}

/* The words that a call stores to stand between guards as well. */
static int only_three(const uint32_t *w) { return w[0] == UNSET && w[4] == UNSET; }

static void counts(size_t len, uint32_t number, uint32_t scrubbed, uint32_t touched, unsigned long about) {
    uint32_t w[5] = {UNSET, UNSET, UNSET, UNSET, UNSET};
    memcpy(copy, all, sizeof all);
    right_at(pollencart_count(lent, len, w + 1, w + 2, w + 3) == number, "count", about);
    right_at(stored(w + 1, number, scrubbed, touched), "the counts and the gap", about);
    right_at(only_three(w), "what stands beside them", about);
    right_at(memcmp(copy, all, sizeof all) == 0, "the words", about);
}

static void node_counts(size_t len, uint8_t node, uint32_t number, uint32_t scrubbed, uint32_t touched, unsigned long about) {
    uint32_t w[5] = {UNSET, UNSET, UNSET, UNSET, UNSET};
    memcpy(copy, all, sizeof all);
    right_at(pollencart_count_node(lent, len, node, w + 1, w + 2, w + 3) == number, "count_node", about);
    right_at(stored(w + 1, number, scrubbed, touched), "the node's counts and the gap", about);
    right_at(only_three(w), "what stands beside them", about);
    right_at(memcmp(copy, all, sizeof all) == 0, "the table's words", about);
}

/* A record of the list. */
static void put(uint32_t row, uint32_t origin, uint32_t timestamp, uint32_t block, uint32_t verdict) {
    const uint32_t words[RECORD] = {origin, timestamp, block, verdict};
    memcpy(lent + RECORD * row, words, sizeof words);
}

/* One to three records of given pairs and verdicts, with what they count: other timestamps make no other pair. */
static void few_records(void) {
    static const struct { uint32_t many, r[3][3], scrubbed, touched; } rows[] = {
        {2, {{0, 7, 0x20}, {0, 7, 0x20}}, 1, 1},                        /* a block read twice is one block */
        {3, {{0, 7, 0x20}, {0, 7, 0x30}, {0, 7, 0x40}}, 1, 1},          /* thrice, whatever was found */
        {3, {{0, 7, 0x10}, {0, 7, 0x1F}, {0, 7, 0x10}}, 1, 0},          /* thrice from page cache */
        {2, {{0, 7, 0x20}, {1, 7, 0x20}}, 2, 2},                        /* one number at two origins is two blocks */
        {2, {{0, 7, 0x20}, {0, 8, 0x20}}, 2, 2},
        {2, {{7, 0, 0x20}, {0, 7, 0x20}}, 2, 2},                        /* origin and block are not exchanged */
        {2, {{0, 7, 0x10}, {0, 7, 0x20}}, 1, 1},                        /* page cache, then platter */
        {2, {{0, 7, 0x20}, {0, 7, 0x10}}, 1, 1},                        /* platter, then page cache */
        {2, {{0, 7, 0x10}, {1, 7, 0x20}}, 2, 1},                        /* the platter of another origin */
        {2, {{0, 7, 0x0F}, {0, 7, 0x20}}, 1, 1},                        /* not read, then read */
        {2, {{0, 7, 0x20}, {0, 7, 0x50}}, 1, 1},                        /* read, then reserved */
        {2, {{0, 7, 0x00}, {0, 7, 0xFF}}, 0, 0},
        {3, {{0, 7, 0x20}, {0, 8, 0x20}, {0, 7, 0x20}}, 2, 2},          /* equal ones that are no neighbours */
        {3, {{0, 7, 0x10}, {0, 8, 0x10}, {0, 7, 0x20}}, 2, 1},
        {3, {{16, 7, 0x20}, {0, 7, 0x20}, {32, 7, 0x20}}, 3, 3},        /* origins that are no nodes */
        {3, {{UINT32_MAX, 7, 0x20}, {0, UINT32_MAX, 0x20}, {UINT32_MAX, UINT32_MAX, 0x10}}, 3, 2},
        {2, {{0, 0, 0x20}, {0, 0, 0x20}}, 1, 1},
        {2, {{0, 0x80000007, 0x20}, {0, 7, 0x20}}, 2, 2},
    };
    for (uint32_t row = 0; row < LENGTH(rows); row++) {
        fill();
        for (uint32_t i = 0; i < rows[row].many; i++) put(i, rows[row].r[i][0], 9 - i, rows[row].r[i][1], rows[row].r[i][2]);
        counts(RECORD * rows[row].many, 0, rows[row].scrubbed, rows[row].touched, row);
    }
}

/* Full lists: 64 pairs, one pair, 16 pairs four times each, and 64 whose last repeats another, for each other. */
static void full_lists(void) {
    static const uint32_t steps[] = {1, 2, 16, 64, 128, 4096, 65536, 0x01000000, 0x9E3779B1};
    for (uint32_t k = 0; k < LENGTH(steps); k++) {
        for (uint32_t i = 0; i < 64; i++) put(i, i % 4, i, i / 4 * steps[k], 0x20);
        counts(256, 0, 64, 64, k);
        for (uint32_t i = 0; i < 64; i++) put(i, i * steps[k], 5, 3, i % 2 ? 0x10 : 0x20);
        counts(256, 0, 64, 32, k);
        for (uint32_t i = 0; i < 64; i++) put(i, 3, i, i % 16 * steps[k], i < 48 || i % 2 ? 0x10 : 0x40);
        counts(256, 0, 16, 8, k);
    }
    for (uint32_t i = 0; i < 64; i++) put(i, 3, i, 77, i == 40 ? 0x20 : 0x10);
    counts(256, 0, 1, 1, 64);
    put(40, 3, 40, 77, 0x10);
    counts(256, 0, 1, 0, 65);
    for (uint32_t other = 0; other < 63; other++) {
        for (uint32_t i = 0; i < 64; i++) put(i, i % 16, i, i * 7, 0x10);
        put(63, other % 16, 99, other * 7, 0x20);
        counts(256, 0, 63, 1, other);
    }
}

/* 64 different blocks, and then each twice, that a slot function by a product of the block puts into one of 64 slots: the library's own, the golden
 * ratio in 32 bits and in 64. */
static void one_slot(void) {
    static const struct { uint64_t by; uint32_t from; } products[] = {{67915001u, 26}, {2654435761u, 26}, {0x9E3779B97F4A7C15u, 58}, {1, 0}};
    for (uint32_t k = 0; k < LENGTH(products); k++) {
        uint32_t block = 0, many = 0;
        for (; many < 64; block++)
            if ((products[k].by * block >> products[k].from) % 64 == 5) put(many++, 0, block, block, 0x20);
        counts(256, 0, 64, 64, k);
        for (uint32_t i = 0; i < 32; i++) memcpy(lent + RECORD * (63 - i), lent + RECORD * i, 4 * RECORD), lent[RECORD * i + 3] = 0x10;
        counts(256, 0, 32, 32, k);
    }
}

int main(void) {
    /* each verdict alone: 10 to 4F is scrubbed, 20 to 4F touched */
    for (uint32_t v = 0; v < 300; v++) {
        fill();
        lent[3] = v;
        counts(4, v > 255, v >= 0x10 && v <= 0x4F, v >= 0x20 && v <= 0x4F, v);
    }
    few_records();
    full_lists();
    one_slot();
    /* every length: whole records, at most 64, no two of one block; the verdicts go round 0, 16, 32, .. 240 */
    fill();
    for (uint32_t i = 0; i < 80; i++) lent[4 * i + 3] = i % 16 * 16;
    for (size_t len = 0; len < 300; len++) {
        uint32_t s = 0, t = 0, bad = len % RECORD != 0 || len > RECORD * ROOM;
        for (size_t i = 0; !bad && i < len / 4; i++) s += i % 16 >= 1 && i % 16 <= 4, t += i % 16 >= 2 && i % 16 <= 4;
        counts(len, bad, s, t, (unsigned long)len);
    }
    /* one verdict above 255 anywhere refuses all */
    for (uint32_t i = 0; i < 64; i++) {
        lent[4 * i + 3] = 256;
        counts(256, 1, 0, 0, i);
        lent[4 * i + 3] = i % 16 * 16;
    }
    counts(256, 0, 16, 12, 64);
    /* a log of a table */
    right_at(pollencart_fresh(lent, WORDS, 3) == 0, "fresh", 3);
    for (uint32_t i = 0; i < 64; i++) {
        right_at(pollencart_write(lent, WORDS, 1, i + 1, i, (uint8_t)(i % 16 * 16)) == 0, "write", i);
        uint32_t s = (i + 1) / 16 * 4, t = (i + 1) / 16 * 3, rest = (i + 1) % 16;
        node_counts(WORDS, 1, 0, s + (rest > 5 ? 4 : rest > 1 ? rest - 1 : 0), t + (rest > 5 ? 3 : rest > 2 ? rest - 2 : 0), i);
    }
    node_counts(WORDS, 0, 0, 0, 0, 0);
    /* the log again with every block number twice, first from page cache: the numbers below 32 are then 32 blocks, all touched */
    for (uint32_t i = 0; i < 64; i++) lent[record_at(1, i, 2)] = i % 32, lent[record_at(1, i, 3)] = i < 32 ? 0x10 : 0x20;
    node_counts(WORDS, 1, 0, 32, 32, 64);
    for (uint32_t i = 32; i < 64; i++) lent[record_at(1, i, 0)] = 2; /* of another origin they are others */
    node_counts(WORDS, 1, 0, 64, 32, 65);
    for (uint32_t node = 3; node < 256; node++) node_counts(WORDS, (uint8_t)node, POLLENCART_NODE, 0, 0, node);
    for (size_t len = WORDS - 2; len < WORDS + 3; len++) {
        if (len == WORDS) continue;
        node_counts(len, 1, POLLENCART_UNSOUND, 0, 0, (unsigned long)len);
        node_counts(len, 3, POLLENCART_UNSOUND, 0, 0, (unsigned long)len);
    }
    lent[0] = 17;
    node_counts(WORDS, 1, POLLENCART_UNSOUND, 0, 0, 17);
    /* a log of a column table: the same records, FURTHER words further */
    fill();
    right_at(pollencart_fresh(lent, COLUMN_WORDS, 3) == 0, "fresh", 3);
    for (uint32_t i = 0; i < 64; i++) right_at(pollencart_write(lent, COLUMN_WORDS, 1, i + 1, i % 32, i < 32 ? 0x10 : 0x20) == 0, "write", i);
    node_counts(COLUMN_WORDS, 1, 0, 32, 32, 66);
    for (uint32_t i = 32; i < 64; i++) lent[FURTHER + record_at(1, i, 0)] = 2;
    node_counts(COLUMN_WORDS, 1, 0, 64, 32, 67);
    node_counts(COLUMN_WORDS, 0, 0, 0, 0, 68);
    node_counts(COLUMN_WORDS, 3, POLLENCART_NODE, 0, 0, 69);
    node_counts(COLUMN_WORDS - 1, 1, POLLENCART_UNSOUND, 0, 0, 70);
    node_counts(COLUMN_WORDS + 1, 3, POLLENCART_UNSOUND, 0, 0, 71);
    lent[FURTHER + HELD + 2] = 65;
    node_counts(COLUMN_WORDS, 1, POLLENCART_UNSOUND, 0, 0, 72);
    return told("counts");
}
