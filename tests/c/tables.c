/* The table functions of pollencart.h as a caller meets them, on vector tables: examples of each action with every changed word written out, each
 * refusal number that a call can give and which of two comes first, tables that are not sound, wrong lengths, and the readers at
 * every place and beyond. A table stands between guard words that no call may touch, and after each call every word is compared.
 * No action is worked out here: tests/rust compares what steps do with an independent implementation. */
#include "calls.h"

typedef char same_words[POLLENCART_TABLE == WORDS && POLLENCART_COLUMN_TABLE == COLUMN_WORDS && POLLENCART_LIST == LIST && POLLENCART_TEXT == TEXT && POLLENCART_JOURNAL == JOURNAL ? 1 : -1];

/* A table of three among words of any kind: node 0 holds two records, node 1 one, node 2 sixty-four. */
static void fill(void) {
    static const uint32_t summary[3][3] = {{5, 3, 9}, {2, 7, 9}, {1, 1, 100}}, acks[3][3] = {{1, 2, 3}, {4, 1, 2}, {50, 60, 70}};
    static const uint32_t marks[3] = {7, 7, 60}, held[3] = {2, 1, 64}, records[3][4] = {{0, 4, 40, 16}, {0, 5, 50, 32}, {1, 7, 70, 255}};
    for (size_t i = 0; i < WORDS; i++) due[i] = any();
    due[COUNT] = 3;
    for (uint32_t p = 0; p < 3; p++) {
        due[held_at(p)] = held[p], due[mark_at(p)] = marks[p];
        for (uint32_t o = 0; o < 3; o++) due[summary_at(p, o)] = summary[p][o], due[acknowledgement_at(p, o)] = acks[p][o];
    }
    for (uint32_t word = 0; word < RECORD; word++) {
        due[record_at(0, 0, word)] = records[0][word];
        due[record_at(0, 1, word)] = records[1][word];
        due[record_at(1, 0, word)] = records[2][word];
    }
    for (uint32_t i = 0; i < ROOM; i++) {
        due[record_at(2, i, 0)] = 2, due[record_at(2, i, 1)] = 37 + i, due[record_at(2, i, 3)] = i;
    }
}

static void set_row(size_t at, uint32_t x, uint32_t y, uint32_t z) { due[at] = x, due[at + 1] = y, due[at + 2] = z; }

static void set_record(uint32_t p, uint32_t row, uint32_t origin, uint32_t timestamp, uint32_t block, uint32_t verdict) {
    due[record_at(p, row, 0)] = origin, due[record_at(p, row, 1)] = timestamp;
    due[record_at(p, row, 2)] = block, due[record_at(p, row, 3)] = verdict;
    due[held_at(p)] = row + 1;
}

/* A write on the table of three; then sessions of 0 and 1 at 6 and 8, of each outcome: whatever comes of them, both have their
 * starting values, and a side that finishes has the other's records and the greater of both. */
static void writes_and_meets(void) {
    for (uint32_t outcome = 0; outcome < 4; outcome++) {
        fill();
        answers("a write", WRITE_OF(1, 8, 11, 12), WORDS, 0, 0, 0);
        set_record(1, 1, 1, 8, 11, 12);
        due[summary_at(1, 1)] = 8;
        words_stand("a write");
        answers("a session", SESSION_OF(0, 1, 6, 8, outcome), WORDS, 0, outcome & 1 ? 2 : 0, outcome & 2 ? 2 : 0);
        set_row(summary_at(0, 0), 6, 3, 9), set_row(acknowledgement_at(0, 0), 3, 2, 3);
        set_row(summary_at(1, 0), 2, 8, 9), set_row(acknowledgement_at(1, 0), 4, 2, 2);
        if (outcome & 1) {
            set_record(0, 2, 1, 7, 70, 255), set_record(0, 3, 1, 8, 11, 12);
            set_row(summary_at(0, 0), 6, 8, 9), set_row(acknowledgement_at(0, 0), 4, 2, 3);
        }
        if (outcome & 2) {
            set_record(1, 2, 0, 4, 40, 16), set_record(1, 3, 0, 5, 50, 32);
            set_row(summary_at(1, 0), 6, 8, 9), set_row(acknowledgement_at(1, 0), 4, 2, 3);
        }
        words_stand("a session");
    }
}

/* What a purge of node 2 must leave once its first `many` records have left. */
static void shorter(uint32_t many) {
    for (uint32_t i = 0; i < ROOM; i++)
        for (uint32_t word = 0; word < RECORD; word++) due[record_at(2, i, word)] = i + many < ROOM ? due[record_at(2, i + many, word)] : 0;
    due[held_at(2)] = ROOM - many;
}

/* Node 2's smallest acknowledgement is 50 and its mark 60: 37 to 50 leave, 51 to 100 close up, fourteen rows become zero. With a mark of 45 only 37 to 45
 * leave, with one of 36 none. Node 0's smallest acknowledgement is 1: none leave; so is node 1's, its own. Who lags is told, also where the mark keeps
 * the records. */
static void purges(void) {
    fill();
    answers("a purge of none", PURGE_OF(0), WORDS, 0, 0, 0);
    words_stand("a purge of none");
    answers("a purge of none, node 1 lags", PURGE_OF(1), WORDS, 0, 0, 1);
    words_stand("a purge of none, node 1 lags");
    due[mark_at(2)] = 36, set_row(acknowledgement_at(2, 0), 60, 50, 50);
    answers("a purge before the delivery", PURGE_OF(2), WORDS, 0, 0, 1);
    words_stand("a purge before the delivery");
    due[mark_at(2)] = 45;
    answers("a purge up to the mark", PURGE_OF(2), WORDS, 0, 9, 1);
    shorter(9);
    words_stand("a purge up to the mark");
    fill();
    answers("a purge", PURGE_OF(2), WORDS, 0, 14, 0);
    shorter(14);
    words_stand("a purge");
    set_row(acknowledgement_at(0, 0), 2, 3, 1);
    answers("the last node lags", PURGE_OF(0), WORDS, 0, 0, 2);
    set_row(acknowledgement_at(0, 0), 3, 1, 1);
    answers("two nodes lag", PURGE_OF(0), WORDS, 0, 0, 1);
    set_row(acknowledgement_at(0, 0), 1, 1, 1);
    answers("all are equal", PURGE_OF(0), WORDS, 0, 0, 0);
    words_stand("who lags");
}

/* Records of three origins at node 0, whose mark is 4 and whose smallest summary entry 7: of the blocks 0 to 5 those at 5, 7, 7 and 7 are due. Records of one
 * timestamp and origin, which no run of steps leads to, come in the order of the log. */
static void waiting(void) {
    static const uint32_t records[6][2] = {{2, 7}, {1, 8}, {1, 7}, {0, 4}, {2, 5}, {1, 7}};
    fill();
    for (uint32_t i = 0; i < 6; i++) set_record(0, i, records[i][0], records[i][1], i, 0x20 + i);
    set_row(summary_at(0, 0), 9, 7, 8);
    due[mark_at(0)] = 4;
}

static void deliveries(void) {
    static const uint32_t order[] = {4, 2, 5, 0};
    for (size_t many = 0; many <= LIST + 8; many++) {
        waiting();
        if (many < 16) {
            undelivered("deliver: a list too short", 0, WORDS, many, 7);
            continue;
        }
        const uint32_t *list = delivers("deliver", 0, WORDS, many, 0, 4);
        for (uint32_t i = 0; i < 4; i++)
            for (uint32_t word = 0; word < RECORD; word++) expect(list[RECORD * i + word] == due[record_at(0, order[i], word)], "deliver", "the list");
        due[mark_at(0)] = 7;
        words_stand("deliver");
        delivers("deliver: again", 0, WORDS, many, 0, 0);
        words_stand("deliver: again");
    }
    /* the mark above the smallest entry, and at it: none is due and the mark stays; a list of no word is enough */
    for (uint32_t mark = 7; mark < 12; mark++) {
        waiting();
        due[mark_at(0)] = mark;
        delivers("deliver: none", 0, WORDS, 0, 0, 0);
        words_stand("deliver: none");
    }
    /* none held between the mark and the smallest entry: the mark rises all the same */
    waiting();
    due[held_at(0)] = 2, due[mark_at(0)] = 5, set_row(summary_at(0, 0), 6, 90, 91);
    delivers("deliver: the mark alone", 0, WORDS, 0, 0, 0);
    due[mark_at(0)] = 6;
    words_stand("deliver: the mark alone");
    /* a full log: 37 to 100, of which 61 to 100 are above the mark; then all of it */
    waiting();
    set_row(summary_at(2, 0), UINT32_MAX, 100, 101);
    undelivered("deliver: a full log, one word short", 2, WORDS, 159, 7);
    const uint32_t *list = delivers("deliver: a full log", 2, WORDS, LIST, 0, 40);
    expect(memcmp(list, due + record_at(2, 24, 0), 160 * sizeof *list) == 0, "deliver: a full log", "the list");
    due[mark_at(2)] = 100;
    words_stand("deliver: a full log");
    due[mark_at(2)] = 0;
    list = delivers("deliver: all of a full log", 2, WORDS, LIST, 0, ROOM);
    expect(memcmp(list, due + record_at(2, 0, 0), LIST * sizeof *list) == 0, "deliver: all of a full log", "the list");
    due[mark_at(2)] = 100;
    words_stand("deliver: all of a full log");
    /* which comes first */
    waiting();
    undelivered("deliver: node 3", 3, WORDS, LIST, 3);
    undelivered("deliver: node 255, and no list", 255, WORDS, 0, 3);
    due[held_at(1)] = 65;
    undelivered("deliver: not sound, and no list", 0, WORDS, 0, 1);
    undelivered("deliver: not sound, and node 3", 3, WORDS, LIST, 1);
}

/* Each number on the table of three, and which of two comes first. */
static void refusals(void) {
    fill();
    refused("write: node", WRITE_OF(3, 8, 1, 1), WORDS, 3);
    refused("write: node, and the clock", WRITE_OF(255, 0, 1, 1), WORDS, 3);
    refused("write: at the own entry", WRITE_OF(0, 5, 1, 1), WORDS, 5);
    refused("write: below it", WRITE_OF(0, 0, 1, 1), WORDS, 5);
    refused("write: a full log", WRITE_OF(2, 101, 1, 1), WORDS, 6);
    refused("write: a full log and a clock gone back", WRITE_OF(2, 100, 1, 1), WORDS, 5);
    refused("session: outcome", SESSION_OF(0, 1, 6, 8, 4), WORDS, 2);
    refused("session: outcome, and nodes", SESSION_OF(3, 3, 0, 0, 255), WORDS, 2);
    refused("session: node a", SESSION_OF(3, 1, 6, 8, 3), WORDS, 3);
    refused("session: node b", SESSION_OF(0, 3, 6, 8, 3), WORDS, 3);
    refused("session: node, twice", SESSION_OF(3, 3, 6, 8, 3), WORDS, 3);
    refused("session: one node twice", SESSION_OF(1, 1, 9, 9, 3), WORDS, 4);
    refused("session: one node twice, and its clock", SESSION_OF(1, 1, 0, 0, 0), WORDS, 4);
    refused("session: a's clock", SESSION_OF(0, 1, 4, 8, 0), WORDS, 5);
    refused("session: b's clock", SESSION_OF(0, 1, 6, 6, 3), WORDS, 5);
    refused("session: b's clock, and no room at a", SESSION_OF(2, 0, 100, 4, 1), WORDS, 5);
    refused("session: no room at a", SESSION_OF(2, 0, 100, 5, 1), WORDS, 6);
    refused("session: no room at a, both", SESSION_OF(2, 0, 100, 5, 3), WORDS, 6);
    refused("session: no room at b", SESSION_OF(2, 0, 100, 5, 2), WORDS, 6);
    refused("purge: node", PURGE_OF(3), WORDS, 3);
    refused("purge: node 255", PURGE_OF(255), WORDS, 3);
    answers("session: room asked of none", SESSION_OF(2, 0, 100, 5, 0), WORDS, 0, 0, 0);
}

/* A fresh table, from 2 nodes to 16; every other count and every wrong length is refused. */
static void freshes(void) {
    static const uint32_t counts[] = {17, 18, 256, 258, 0x10002u, 0x80000002u, UINT32_MAX};
    for (uint32_t n = 2; n <= NODES; n++) {
        fill();
        answers("fresh", FRESH_OF(n), WORDS, 0, 0, 0);
        memset(due, 0, sizeof due);
        due[COUNT] = n;
        words_stand("fresh");
    }
    fill();
    for (uint32_t n = 0; n < 2; n++) refused("fresh: few", FRESH_OF(n), WORDS, 1);
    for (size_t i = 0; i < LENGTH(counts); i++) refused("fresh: many", FRESH_OF(counts[i]), WORDS, 1);
}

/* Every reader at every place of the table that is due, and beyond; `n` is 0 for one that is not sound. */
static void look(size_t len, uint32_t n) {
    static const uint32_t beyond[] = {17, 128, 254, 255, 256, 0x40000000u, 0x80000000u, UINT32_MAX - 3, UINT32_MAX};
    const uint32_t *w = lend();
    for (uint32_t i = 0; i < 21; i++) {
        uint32_t p = i < 17 ? i : beyond[i - 17];
        uint32_t held = p < n ? due[held_at(p)] : 0, s = UNSET, t = UNSET, gap = UNSET;
        expect(pollencart_held(w, len, (uint8_t)p) == held, "held", "the number");
        expect(pollencart_mark(w, len, (uint8_t)p) == (p < n ? due[mark_at(p)] : 0), "mark", "the number");
        uint32_t number = pollencart_count_node(w, len, (uint8_t)p, &s, &t, &gap);
        expect(number == (p < n ? 0 : n ? 3 : 1) && t <= s && s <= held && gap == s - t, "count_node", "the number, the counts and the gap");
        for (uint32_t j = 0; j < 21; j++) {
            uint32_t o = j < 17 ? j : beyond[j - 17];
            int entry = p < n && o < n;
            expect(pollencart_summary(w, len, (uint8_t)p, (uint8_t)o) == (entry ? due[summary_at(p, o)] : 0), "summary", "the entry");
            expect(pollencart_acknowledgement(w, len, (uint8_t)p, (uint8_t)o) == (entry ? due[acknowledgement_at(p, o)] : 0), "acknowledgement", "the entry");
            for (uint32_t q = 0; q < 17; q++) expect(pollencart_column(w, len, (uint8_t)p, (uint8_t)q, (uint8_t)o) == 0, "column", "none in a vector table");
        }
        for (uint32_t j = 0; j < 67 + LENGTH(beyond); j++)
            for (uint32_t k = 0; k < 6 + LENGTH(beyond); k++) {
                uint32_t at = j < 67 ? j : beyond[j - 67], word = k < 6 ? k : beyond[k - 6];
                if (k > 5 && j > 2 && j < 62) continue;
                expect(pollencart_record(w, len, (uint8_t)p, at, word) == (at < held && word < RECORD ? due[record_at(p, at, word)] : 0), "record", "the word");
            }
    }
    words_stand("the readers");
}

/* Each action, whatever else is wrong with it, is refused with 1. */
static void unsound(const char *about, size_t len) {
    refused(about, WRITE_OF(0, UINT32_MAX, 1, 2), len, 1);
    refused(about, WRITE_OF(255, 0, 1, 2), len, 1);
    refused(about, SESSION_OF(0, 1, UINT32_MAX, UINT32_MAX, 3), len, 1);
    refused(about, SESSION_OF(0, 0, 0, 0, 4), len, 1);
    refused(about, PURGE_OF(1), len, 1);
    refused(about, PURGE_OF(255), len, 1);
    undelivered(about, 1, len, LIST, 1);
    undelivered(about, 255, len, 0, 1);
}

/* One word of a sound table is another value. */
static void spoiled(const char *about, size_t at, uint32_t value) {
    uint32_t right = due[at];
    due[at] = value;
    unsound(about, WORDS);
    due[at] = right;
}

/* Tables that are not sound, one thing wrong at a time; and what lies beyond the nodes or beyond the held rows is nothing to them. */
static void soundness(void) {
    static const uint32_t counts[] = {0, 1, 17, 256, 0x80000000u, UINT32_MAX}, helds[] = {65, 256, 0x40000000u, UINT32_MAX};
    static const size_t lengths[] = {0, 1, MARK, WORDS - 1, WORDS + 1, WORDS + GUARD, COLUMN_WORDS - 1, COLUMN_WORDS + 1};
    fill();
    look(WORDS, 3);
    for (size_t i = 0; i < LENGTH(counts); i++) spoiled("the count", COUNT, counts[i]);
    for (uint32_t p = 0; p < 3; p++) {
        for (size_t i = 0; i < LENGTH(helds); i++) spoiled("a held number", held_at(p), helds[i]);
        for (uint32_t row = 0; row < due[held_at(p)]; row++) {
            spoiled("an origin", record_at(p, row, 0), 3);
            spoiled("a verdict", record_at(p, row, 3), 256);
        }
    }
    for (size_t i = 0; i < LENGTH(lengths); i++) {
        unsound("the length", lengths[i]);
        refused("fresh: the length", FRESH_OF(2), lengths[i], 1);
        look(lengths[i], 0);
    }
    due[mark_at(0)] = UINT32_MAX, due[mark_at(3)] = UINT32_MAX; /* of marks nothing is asked */
    due[held_at(3)] = 65, due[record_at(3, 0, 0)] = 99, due[record_at(0, 2, 0)] = 99, due[record_at(1, 1, 3)] = 256;
    look(WORDS, 3);
    due[held_at(2)] = 65;
    look(WORDS, 0);
}

/* The example of the frames and journals: its lines, a delivery before the last, and what they leave. */
static void example(void) {
    static const uint32_t entries[] = {8, 8, 7, 6};
    static uint32_t t[WORDS];
    uint32_t x = UNSET, y = UNSET, list[RECORD];
    memset(t, 0x55, sizeof t);
    expect(pollencart_fresh(t, WORDS, 2) == 0 && pollencart_write(t, WORDS, 0, 5, 16, 16) == 0, "example", "begins");
    expect(pollencart_session(t, WORDS, 0, 1, 6, 4, 3, &x, &y) == 0 && x == 0 && y == 1, "example", "the first session");
    expect(pollencart_session(t, WORDS, 0, 1, 7, 7, 1, &x, &y) == 0 && x == 0 && y == 0, "example", "the second, which b does not finish");
    expect(pollencart_purge(t, WORDS, 0, &x, &y) == 0 && x == 0 && y == 0, "example", "a purge of none");
    expect(pollencart_session(t, WORDS, 0, 1, 8, 8, 3, &x, &y) == 0 && x == 0 && y == 0, "example", "the third session");
    expect(pollencart_purge(t, WORDS, 0, &x, &y) == 0 && x == 0 && y == 1, "example", "a purge before the delivery");
    expect(pollencart_deliver(t, WORDS, 0, list, RECORD, &x) == 0 && x == 1, "example", "the delivery");
    expect(list[0] == 0 && list[1] == 5 && list[2] == 16 && list[3] == 16, "example", "the delivered record");
    expect(pollencart_mark(t, WORDS, 0) == 8 && pollencart_mark(t, WORDS, 1) == 0, "example", "the marks");
    expect(pollencart_purge(t, WORDS, 0, &x, &y) == 0 && x == 1 && y == 1, "example", "a purge of one");
    for (uint8_t p = 0; p < 2; p++) {
        for (uint8_t o = 0; o < 2; o++) {
            expect(pollencart_summary(t, WORDS, p, o) == entries[o], "example", "summary");
            expect(pollencart_acknowledgement(t, WORDS, p, o) == entries[2 + o], "example", "acknowledgement");
        }
        expect(pollencart_held(t, WORDS, p) == p, "example", "held");
    }
    expect(pollencart_record(t, WORDS, 1, 0, 1) == 5 && pollencart_record(t, WORDS, 1, 0, 3) == 16, "example", "record");
}

int main(void) {
    static const int possible[4][7] = {{1, 1}, {1, 1, 0, 1, 0, 1, 1}, {1, 1, 1, 1, 1, 1, 1}, {1, 1, 0, 1}}, delivering[27] = {1, 1, 0, 1, 0, 0, 0, 1};
    example();
    writes_and_meets();
    purges();
    deliveries();
    refusals();
    freshes();
    soundness();
    for (int f = 0; f < 4; f++)
        for (int k = 0; k < 7; k++) expect(!!met[f][k] == possible[f][k], "refusals", "each that a call can give was met, and no other");
    for (int k = 0; k < 27; k++) expect(!!met_delivering[k] == delivering[k], "refusals", "each that a delivery can give was met, and no other");
    return told("tables");
}
