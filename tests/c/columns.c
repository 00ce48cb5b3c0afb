/* The table functions of pollencart.h on column tables: examples of each action with every changed word written out, each refusal number that a call can
 * give and which of two comes first, 26 among them, tables that are not sound, wrong lengths, the readers at every place and beyond, and lines.
 * Around the three nodes every word is any word, and none of those may change. */
#include "calls.h"

static size_t held(uint32_t p) { return held_at(p) + FURTHER; }
static size_t mark(uint32_t p) { return mark_at(p) + FURTHER; }
static size_t record(uint32_t p, uint32_t row, uint32_t word) { return record_at(p, row, word) + FURTHER; }

static void set_column(uint32_t p, uint32_t q, uint32_t x, uint32_t y, uint32_t z) {
    size_t at = column_at(p, q, 0);
    due[at] = x, due[at + 1] = y, due[at + 2] = z;
}

static void set_record(uint32_t p, uint32_t row, uint32_t origin, uint32_t timestamp, uint32_t block, uint32_t verdict) {
    due[record(p, row, 0)] = origin, due[record(p, row, 1)] = timestamp;
    due[record(p, row, 2)] = block, due[record(p, row, 3)] = verdict;
    due[held(p)] = row + 1;
}

/* A table of three among words of any kind: node 0 holds two records, node 1 one, node 2 sixty-four. Marks are 0, so that on vectors nothing would leave. */
static void fill(void) {
    static const uint32_t columns[3][3][3] = {{{5, 3, 9}, {2, 6, 9}, {1, 1, 90}}, {{4, 3, 8}, {2, 7, 9}, {1, 2, 99}}, {{4, 2, 50}, {1, 7, 60}, {1, 1, 100}}};
    for (size_t i = 0; i < COLUMN_WORDS; i++) due[i] = any();
    due[COUNT] = 3;
    for (uint32_t p = 0; p < 3; p++) {
        due[mark(p)] = 0;
        for (uint32_t q = 0; q < 3; q++) set_column(p, q, columns[p][q][0], columns[p][q][1], columns[p][q][2]);
    }
    set_record(0, 0, 0, 4, 40, 16), set_record(0, 1, 0, 5, 50, 32), set_record(1, 0, 1, 7, 70, 255);
    for (uint32_t i = 0; i < ROOM; i++) set_record(2, i, 2, 37 + i, 500 + i, i);
}

/* A write; then sessions of 0 and 1 at 6 and 8, of each outcome. Whatever comes of them, both have their readings; a side that finishes has the other's
 * records and in each column the greater of both, its own column also the other's own. */
static void writes_and_meets(void) {
    for (uint32_t outcome = 0; outcome < 4; outcome++) {
        fill();
        answers("a write", WRITE_OF(1, 8, 11, 12), COLUMN_WORDS, 0, 0, 0);
        set_record(1, 1, 1, 8, 11, 12);
        due[column_at(1, 1, 1)] = 8;
        words_stand("a write");
        answers("a session", SESSION_OF(0, 1, 6, 8, outcome), COLUMN_WORDS, 0, outcome & 1 ? 2 : 0, outcome & 2 ? 2 : 0);
        due[column_at(0, 0, 0)] = 6;
        if (outcome & 1) {
            set_record(0, 2, 1, 7, 70, 255), set_record(0, 3, 1, 8, 11, 12);
            set_column(0, 0, 6, 8, 9), set_column(0, 1, 2, 8, 9), set_column(0, 2, 1, 2, 99);
        }
        if (outcome & 2) {
            set_record(1, 2, 0, 4, 40, 16), set_record(1, 3, 0, 5, 50, 32);
            set_column(1, 0, 6, 3, 9), set_column(1, 1, 6, 8, 9), set_column(1, 2, 1, 2, 99);
        }
        words_stand("a session");
    }
    /* the partner's column for it has more than both own columns, as no run of steps leads to */
    fill();
    set_column(1, 0, 4, 90, 8);
    answers("a session, a column for it", SESSION_OF(0, 1, 6, 8, 1), COLUMN_WORDS, 0, 1, 0);
    set_record(0, 2, 1, 7, 70, 255);
    set_column(0, 0, 6, 90, 9), set_column(0, 1, 2, 8, 9), set_column(0, 2, 1, 2, 99);
    due[column_at(1, 1, 1)] = 8;
    words_stand("a session, a column for it");
}

/* What a purge of node 2 must leave once its first `many` records have left. */
static void shorter(uint32_t many) {
    for (uint32_t i = 0; i < ROOM; i++)
        for (uint32_t word = 0; word < RECORD; word++) due[record(2, i, word)] = i + many < ROOM ? due[record(2, i + many, word)] : 0;
    due[held(2)] = ROOM - many;
}

/* Of node 2's columns the smallest entry for itself is 50, 60 or 100, wherever it stands: 37 to it leave. No mark is read, of 0 or of the greatest. */
static void purges(void) {
    for (uint32_t which = 0; which < 3; which++)
        for (uint32_t low = 35; low <= 101; low++) {
            fill();
            for (uint32_t q = 0; q < 3; q++) due[column_at(2, q, 2)] = q == which ? low : 101, due[mark(q)] = low % 2 ? UINT32_MAX : 0;
            uint32_t many = low < 37 ? 0 : low > 100 ? 64 : low - 36;
            answers("a purge", PURGE_OF(2), COLUMN_WORDS, 0, many, 1); /* column 1 begins with 1 */
            shorter(many);
            words_stand("a purge");
        }
    /* who lags: the first column with the smallest of nine entries, whether a record waits for it or not; entries and columns beyond n are any words */
    static const uint32_t columns[][9] = {{5, 5, 5, 5, 5, 5, 5, 5, 5}, {5, 5, 5, 5, 5, 4, 4, 5, 5}, {5, 5, 5, 5, 5, 5, 5, 4, 5}, {4, 5, 5, 5, 4, 5, 5, 5, 4}, {9, 3, 9, 9, 9, 2, 9, 9, 9}};
    static const uint32_t lags[] = {0, 1, 2, 0, 1};
    for (uint32_t i = 0; i < LENGTH(lags); i++)
        for (int beyond = 0; beyond < 2; beyond++) {
            fill();
            for (uint32_t q = 0; q < 3; q++) set_column(0, q, columns[i][3 * q], columns[i][3 * q + 1], columns[i][3 * q + 2]);
            for (uint32_t o = 3; beyond && o < NODES; o++) due[column_at(0, 0, o)] = due[column_at(0, o, 0)] = 0;
            set_record(0, 0, 0, 100, 1, 1), set_record(0, 1, 2, 100, 1, 1);
            answers("who lags", PURGE_OF(0), COLUMN_WORDS, 0, 0, lags[i]);
            words_stand("who lags");
        }
    /* records of several origins, some of which leave: what stays closes up */
    fill();
    for (uint32_t i = 0; i < 6; i++) set_record(0, i, i % 3, 10 + i, i, i);
    set_column(0, 0, 13, 11, 15), set_column(0, 1, 10, 90, 90), set_column(0, 2, 90, 90, 12);
    answers("a purge of some", PURGE_OF(0), COLUMN_WORDS, 0, 3, 1); /* 0 at 10, 1 at 11 and 2 at 12 leave */
    for (uint32_t i = 0; i < 6; i++) {
        uint32_t from = i + 3;
        const uint32_t words[RECORD] = {from % 3, 10 + from, from, from};
        for (uint32_t word = 0; word < RECORD; word++) due[record(0, i, word)] = from < 6 ? words[word] : 0;
    }
    due[held(0)] = 3;
    words_stand("a purge of some");
}

/* Each number, and which of two comes first. */
static void refusals(void) {
    fill();
    refused("write: node", WRITE_OF(3, 8, 1, 1), COLUMN_WORDS, 3);
    refused("write: node, and the clock", WRITE_OF(255, 0, 1, 1), COLUMN_WORDS, 3);
    refused("write: at the own entry", WRITE_OF(0, 5, 1, 1), COLUMN_WORDS, 5);
    refused("write: a full log", WRITE_OF(2, 101, 1, 1), COLUMN_WORDS, 6);
    refused("write: a full log and a clock gone back", WRITE_OF(2, 100, 1, 1), COLUMN_WORDS, 5);
    refused("session: outcome, and nodes", SESSION_OF(3, 3, 0, 0, 255), COLUMN_WORDS, 2);
    refused("session: node a", SESSION_OF(3, 1, 6, 8, 3), COLUMN_WORDS, 3);
    refused("session: node b", SESSION_OF(0, 3, 6, 8, 3), COLUMN_WORDS, 3);
    refused("session: one node twice, and its clock", SESSION_OF(1, 1, 0, 0, 0), COLUMN_WORDS, 4);
    refused("session: a's clock", SESSION_OF(0, 1, 4, 8, 0), COLUMN_WORDS, 5);
    refused("session: b's clock, and no room at a", SESSION_OF(2, 0, 100, 4, 1), COLUMN_WORDS, 5);
    due[column_at(2, 2, 0)] = 1;
    refused("session: no room at a", SESSION_OF(2, 0, 100, 5, 1), COLUMN_WORDS, 6);
    refused("session: no room at a, both", SESSION_OF(2, 0, 100, 5, 3), COLUMN_WORDS, 6);
    refused("session: no room at b", SESSION_OF(2, 0, 100, 5, 2), COLUMN_WORDS, 6);
    refused("purge: node", PURGE_OF(3), COLUMN_WORDS, 3);
    refused("purge: node 255", PURGE_OF(255), COLUMN_WORDS, 3);
    for (size_t many = 0; many <= LIST; many += LIST) {
        for (uint8_t p = 0; p < 3; p++) undelivered("deliver: columns", p, COLUMN_WORDS, many, 26);
        undelivered("deliver: node 3", 3, COLUMN_WORDS, many, 3);
        undelivered("deliver: node 255", 255, COLUMN_WORDS, many, 3);
    }
    answers("session: room asked of none", SESSION_OF(2, 0, 100, 5, 0), COLUMN_WORDS, 0, 0, 0);
}

/* Every reader at every place of the table that is due, and beyond; `n` is 0 for one that is not sound. */
static void look(size_t len, uint32_t n) {
    static const uint32_t beyond[] = {17, 128, 254, 255};
    const uint32_t *w = lend();
    for (uint32_t i = 0; i < 21; i++) {
        uint32_t p = i < 17 ? i : beyond[i - 17], many = p < n ? due[held(p)] : 0;
        expect(pollencart_held(w, len, (uint8_t)p) == many, "held", "the number");
        expect(pollencart_mark(w, len, (uint8_t)p) == (p < n ? due[mark(p)] : 0), "mark", "the number");
        for (uint32_t j = 0; j < 21; j++) {
            uint32_t q = j < 17 ? j : beyond[j - 17];
            expect(pollencart_summary(w, len, (uint8_t)p, (uint8_t)q) == (p < n && q < n ? due[column_at(p, p, q)] : 0), "summary", "the entry");
            expect(pollencart_acknowledgement(w, len, (uint8_t)p, (uint8_t)q) == 0, "acknowledgement", "none in a column table");
            for (uint32_t k = 0; k < 21; k++) {
                uint32_t o = k < 17 ? k : beyond[k - 17];
                expect(pollencart_column(w, len, (uint8_t)p, (uint8_t)q, (uint8_t)o) == (p < n && q < n && o < n ? due[column_at(p, q, o)] : 0), "column", "the entry");
            }
        }
        for (uint32_t row = 0; row < 67; row++)
            for (uint32_t word = 0; word < 6; word++)
                expect(pollencart_record(w, len, (uint8_t)p, row, word) == (row < many && word < RECORD ? due[record(p, row, word)] : 0), "record", "the word");
    }
    words_stand("the readers");
}

/* Each action, whatever else is wrong with it, is refused with 1. */
static void unsound(const char *about, size_t len) {
    refused(about, WRITE_OF(0, UINT32_MAX, 1, 2), len, 1);
    refused(about, SESSION_OF(0, 1, UINT32_MAX, UINT32_MAX, 3), len, 1);
    refused(about, SESSION_OF(0, 0, 0, 0, 4), len, 1);
    refused(about, PURGE_OF(1), len, 1);
    refused(about, PURGE_OF(255), len, 1);
    undelivered(about, 1, len, LIST, 1);
    undelivered(about, 255, len, 0, 1);
}

static void spoiled(const char *about, size_t at, uint32_t value) {
    uint32_t right = due[at];
    due[at] = value;
    unsound(about, COLUMN_WORDS);
    due[at] = right;
}

static void soundness(void) {
    static const uint32_t counts[] = {0, 1, 17, UINT32_MAX}, helds[] = {65, UINT32_MAX};
    static const size_t lengths[] = {0, 1, WORDS - 1, WORDS + 1, COLUMN_WORDS - 16, COLUMN_WORDS - 1, COLUMN_WORDS + 1, COLUMN_WORDS + GUARD};
    fill();
    look(COLUMN_WORDS, 3);
    for (size_t i = 0; i < LENGTH(counts); i++) spoiled("the count", COUNT, counts[i]);
    for (uint32_t p = 0; p < 3; p++) {
        for (size_t i = 0; i < LENGTH(helds); i++) spoiled("a held number", held(p), helds[i]);
        for (uint32_t row = 0; row < due[held(p)]; row++) {
            spoiled("an origin", record(p, row, 0), 3);
            spoiled("a verdict", record(p, row, 3), 256);
        }
    }
    for (size_t i = 0; i < LENGTH(lengths); i++) {
        unsound("the length", lengths[i]);
        refused("fresh: the length", FRESH_OF(2), lengths[i], 1);
        look(lengths[i], 0);
    }
    due[mark(0)] = UINT32_MAX, due[held(3)] = 65, due[record(3, 0, 0)] = 99, due[record(0, 2, 0)] = 99, due[column_at(0, 1, 1)] = UINT32_MAX; /* nothing is asked of these */
    look(COLUMN_WORDS, 3);
}

static void freshes(void) {
    for (uint32_t n = 2; n <= NODES; n++) {
        fill();
        answers("fresh", FRESH_OF(n), COLUMN_WORDS, 0, 0, 0);
        memset(due, 0, sizeof due);
        due[COUNT] = n;
        words_stand("fresh");
    }
    fill();
    refused("fresh: few", FRESH_OF(1), COLUMN_WORDS, 1);
    refused("fresh: many", FRESH_OF(17), COLUMN_WORDS, 1);
}

/* The lines of a small run: a write at 5, a session at 6 and 4 that both finish, a delivery (26), another session at 7 and 7, a purge, which removes without
 * a delivery, and a delivery of node 2 (3). */
static void lines(void) {
    static const char all[] = "0100000000050000001010DA\n020001000000060000000403F0\n0500FB\n020001000000070000000703EC\n0300FD\n0502F9\n";
    static uint32_t t[COLUMN_WORDS];
    uint32_t x = UNSET, y = UNSET;
    size_t applied, refused_steps, stopped, place = UNSET;
    expect(pollencart_fresh(t, COLUMN_WORDS, 2) == 0, "lines", "fresh");
    expect(pollencart_apply_line(t, COLUMN_WORDS, (const uint8_t *)"0500FB", 6, &x, &y, &place) == 26 && x == 0 && y == 0 && place == 0, "lines", "a delivery's line gives 26");
    expect(pollencart_apply_line(t, COLUMN_WORDS, (const uint8_t *)"0502F9", 6, &x, &y, &place) == 3 && place == 0, "lines", "3 before 26");
    expect(pollencart_apply_line(t, COLUMN_WORDS, (const uint8_t *)"0500FC", 6, &x, &y, &place) == 13 && place == 4, "lines", "the line's own refusal first");
    expect(pollencart_apply_lines(t, COLUMN_WORDS, (const uint8_t *)all, sizeof all - 1, &applied, &refused_steps, &stopped, &place) == 0, "lines", "the number");
    expect(applied == 6 && refused_steps == 2 && stopped == sizeof all - 1 && place == 0, "lines", "what is stored");
    static const uint32_t columns[2][2][2] = {{{7, 7}, {6, 7}}, {{7, 4}, {7, 7}}};
    for (uint8_t p = 0; p < 2; p++)
        for (uint8_t q = 0; q < 2; q++)
            for (uint8_t o = 0; o < 2; o++) expect(pollencart_column(t, COLUMN_WORDS, p, q, o) == columns[p][q][o], "lines", "a column's entry");
    expect(pollencart_held(t, COLUMN_WORDS, 0) == 0 && pollencart_held(t, COLUMN_WORDS, 1) == 1, "lines", "held");
    expect(pollencart_mark(t, COLUMN_WORDS, 0) == 0, "lines", "the mark");
    expect(pollencart_apply_line(t, COLUMN_WORDS, (const uint8_t *)"0301FC", 6, &x, &y, &place) == 0 && x == 1 && y == 0, "lines", "a purge's line");
}

int main(void) {
    static const int possible[4][7] = {{1, 1}, {1, 1, 0, 1, 0, 1, 1}, {1, 1, 1, 1, 1, 1, 1}, {1, 1, 0, 1}};
    due_words = COLUMN_WORDS;
    writes_and_meets();
    purges();
    refusals();
    freshes();
    soundness();
    lines();
    for (int f = 0; f < 4; f++)
        for (int k = 0; k < 7; k++) expect(!!met[f][k] == possible[f][k], "refusals", "each that a call can give was met, and no other");
    for (int k = 0; k < 27; k++) expect(!!met_delivering[k] == (k == 1 || k == 3 || k == 26), "refusals", "each that a delivery can give was met, and no other");
    return told("columns");
}
