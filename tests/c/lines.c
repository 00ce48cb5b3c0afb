/* The two calls that take lines as a caller meets them: an example of each with every changed word written out, each number that they
 * can give, which of two comes first, lines of every shape and place, and going on after a refused line. A table stands between guard
 * words and lines between guard bytes that no call may touch, and after each call every word is compared.
 * What many steps do is compared with an independent implementation in tests/rust. */
#include "lent.h"

#define WRITE_05 "0100000000050000001010DA" /* node 0 at 5, block 16, verdict 10 */
#define SESSION_6_4 "020001000000060000000403F0" /* 0 with 1 at 6 and 4, both finish */
#define PURGE_0 "0300FD"
#define DELIVER_0 "0500FB"
#define START_2 "0002FE"

static uint8_t bytes[GUARD + 4096 + GUARD], kept[sizeof bytes];
static unsigned long met[2][21];

/* The text between guard bytes: digits, so that a reader that goes too far finds a frame. */
static const uint8_t *text(const char *s, size_t len) {
    memset(bytes, '0', sizeof bytes);
    memcpy(bytes + GUARD, s, len);
    memcpy(kept, bytes, sizeof kept);
    return bytes + GUARD;
}

static void stands(const char *about) {
    words_stand(about);
    expect(memcmp(kept, bytes, sizeof kept) == 0, about, "the bytes");
}

/* One line that is refused on a copy of the table that is due, of so many words: the number and its place in the line. */
static void line(const char *about, const char *s, size_t words, uint32_t number, size_t where) {
    uint32_t *w = lend(), x = UNSET, y = UNSET;
    size_t place = UNSET;
    const uint8_t *at = text(s, strlen(s));
    uint32_t r = pollencart_apply_line(w, words, at, strlen(s), &x, &y, &place);
    expect(r == number, about, "the number");
    expect(x == 0 && y == 0, about, "the counts");
    expect(place == where, about, "the place in the line");
    met[0][r < 21 ? r : 0]++;
    stands(about);
}

/* Many lines, of which `len` bytes are given: where the reading stops, and where in the line there the fault is. */
static void lines_of(const char *about, const char *s, size_t len, size_t words, uint32_t number, size_t steps, size_t bad, size_t stop, size_t where) {
    uint32_t *w = lend();
    size_t applied = UNSET, refused = UNSET, stopped = UNSET, place = UNSET;
    const uint8_t *at = text(s, len);
    uint32_t r = pollencart_apply_lines(w, words, at, len, &applied, &refused, &stopped, &place);
    expect(r == number, about, "the number");
    expect(applied == steps && refused == bad, about, "the steps and those refused");
    expect(stopped == stop, about, "where the reading stopped");
    expect(place == where, about, "the place in the line");
    met[1][r < 21 ? r : 0]++;
    stands(about);
}

static void lines(const char *about, const char *s, uint32_t number, size_t steps, size_t bad, size_t stop, size_t where) {
    lines_of(about, s, strlen(s), WORDS, number, steps, bad, stop, where);
}

static void set(size_t at, uint32_t value) { due[at] = value; }

/* A fresh table of 2 nodes. */
static void fresh(void) {
    memset(due, 0, sizeof due);
    due[COUNT] = 2;
}

/* What the write at 5 leaves, and what the session at 6 and 4 leaves after it. */
static void after_write(void) {
    set(summary_at(0, 0), 5), set(held_at(0), 1);
    set(record_at(0, 0, 1), 5), set(record_at(0, 0, 2), 16), set(record_at(0, 0, 3), 0x10);
}

static void after_session(void) {
    set(summary_at(0, 0), 6), set(summary_at(0, 1), 4), set(summary_at(1, 0), 6), set(summary_at(1, 1), 4);
    set(held_at(1), 1);
    set(record_at(1, 0, 1), 5), set(record_at(1, 0, 2), 16), set(record_at(1, 0, 3), 0x10);
}

/* The example's words after the call, not before it: `due` is set between the call and the comparison. */
static void example(void) {
    fresh();
    uint32_t *w = lend(), x = UNSET, y = UNSET;
    size_t place = UNSET;
    const uint8_t *at = text(WRITE_05, 24);
    expect(pollencart_apply_line(w, WORDS, at, 24, &x, &y, &place) == 0 && place == 0 && x == 0 && y == 0, "a write's line", "the answer");
    after_write(), stands("a write's line");
    w = lend(), x = y = UNSET, place = UNSET, at = text(SESSION_6_4, 26);
    expect(pollencart_apply_line(w, WORDS, at, 26, &x, &y, &place) == 0 && place == 0 && x == 0 && y == 1, "a session's line", "the answer");
    after_session(), stands("a session's line");
    w = lend(), x = y = UNSET, place = UNSET, at = text(PURGE_0, 6);
    expect(pollencart_apply_line(w, WORDS, at, 6, &x, &y, &place) == 0 && place == 0 && x == 0 && y == 0, "a purge's line", "the answer");
    stands("a purge's line");
    for (uint32_t q = 0; q < 2; q++) set(acknowledgement_at(0, q), 6 - q);
    w = lend(), x = y = UNSET, place = UNSET, at = text(PURGE_0, 6);
    expect(pollencart_apply_line(w, WORDS, at, 6, &x, &y, &place) == 0 && place == 0 && x == 0 && y == 1, "a purge before the delivery", "the answer");
    stands("a purge before the delivery");
    set(summary_at(0, 1), 5); /* all up to 5 has come */
    w = lend(), x = y = UNSET, place = UNSET, at = text(DELIVER_0, 6);
    expect(pollencart_apply_line(w, WORDS, at, 6, &x, &y, &place) == 0 && place == 0 && x == 1 && y == 0, "a delivery's line", "the answer");
    set(mark_at(0), 5), stands("a delivery's line");
    w = lend(), x = y = UNSET, place = UNSET, at = text(DELIVER_0, 6);
    expect(pollencart_apply_line(w, WORDS, at, 6, &x, &y, &place) == 0 && place == 0 && x == 0 && y == 0, "a delivery of none", "the answer");
    stands("a delivery of none");
    w = lend(), x = y = UNSET, place = UNSET, at = text(PURGE_0, 6);
    expect(pollencart_apply_line(w, WORDS, at, 6, &x, &y, &place) == 0 && place == 0 && x == 1 && y == 1, "a purge of one", "the answer");
    set(held_at(0), 0);
    for (uint32_t word = 1; word < RECORD; word++) set(record_at(0, 0, word), 0);
    stands("a purge of one");

    fresh();
    static const char all[] = WRITE_05 "\n" WRITE_05 "\n" SESSION_6_4 "\n";
    size_t applied = UNSET, refused = UNSET, stopped = UNSET;
    w = lend(), place = UNSET, at = text(all, sizeof all - 1);
    expect(pollencart_apply_lines(w, WORDS, at, sizeof all - 1, &applied, &refused, &stopped, &place) == 0, "three lines", "the number");
    expect(applied == 3 && refused == 1 && stopped == sizeof all - 1 && place == 0, "three lines", "what is stored");
    after_write(), after_session(), stands("three lines");
}

/* A refused line, and each order of two refusals; no word changes, so the table that is due stays the fresh one. */
static void refusals(void) {
    fresh();
    line("a start", START_2, WORDS, 15, 0);
    line("a start of 1", "0001FF", WORDS, 15, 0);
    line("an empty line", "", WORDS, 18, 0);
    line("an odd line", "0300F", WORDS, 18, 5);
    line("an unknown kind", "0400FC", WORDS, 11, 0);
    line("a purge cut", "0300", WORDS, 19, 4);
    line("two purges joined", PURGE_0 PURGE_0, WORDS, 19, 6);
    line("an outcome of 4", "020001000000060000000404EF", WORDS, 20, 22);
    line("a lowercase digit", "0300fd", WORDS, 12, 4);
    line("a line with its LF", PURGE_0 "\n", WORDS, 12, 6);
    line("a wrong sum", "0300FE", WORDS, 13, 4);
    line("a purge of node 2", "0302FB", WORDS, 3, 0);
    line("a delivery of node 2", "0502F9", WORDS, 3, 0);
    line("a delivery cut", "0500", WORDS, 19, 4);
    line("0 with 0", "020000000000060000000403F1", WORDS, 4, 0);
    line("a write at 0", "0100000000000000001010DF", WORDS, 5, 0);
    set(held_at(0), 64);
    line("a full log", WRITE_05, WORDS, 6, 0);
    fresh();
    for (int wrong = 0; wrong < 3; wrong++) {
        size_t words = wrong == 0 ? WORDS - 1 : WORDS;
        fresh();
        if (wrong) set(wrong == 1 ? COUNT : held_at(1), wrong == 1 ? 17 : 65);
        line("a step on no sound table", WRITE_05, words, 1, 0);
        line("a start before 1", START_2, words, 15, 0);
        line("a wrong sum before 1", "0300FE", words, 13, 4);
        line("1 before 3", "0302FB", words, 1, 0);
        lines_of("lines on no sound table", WRITE_05 "\n", 25, words, 1, 0, 0, 0, 0);
        lines_of("1 before a wrong line", "0300FE\n", 7, words, 1, 0, 0, 0, 0);
        lines_of("1 with no line", "", 0, words, 1, 0, 0, 0, 0);
    }
}

/* Where the reading stops, on a table that no step of these changes. */
static void places(void) {
    fresh();
    lines("no line", "", 0, 0, 0, 0, 0);
    lines("a purge", PURGE_0 "\n", 0, 1, 0, 7, 0);
    lines("a delivery of none", DELIVER_0 "\n", 0, 1, 0, 7, 0);
    lines("deliveries, one refused", DELIVER_0 "\n0502F9\n" DELIVER_0 "\n", 0, 3, 1, 21, 0);
    lines("a delivery's wrong sum", PURGE_0 "\n0500FC\n", 13, 1, 0, 7, 4);
    lines("no LF", PURGE_0, 14, 0, 0, 0, 6);
    lines("no LF after a line", PURGE_0 "\n" PURGE_0, 14, 1, 0, 7, 6);
    lines("an empty line", "\n" PURGE_0 "\n", 18, 0, 0, 0, 0);
    lines("an empty line later", PURGE_0 "\n\n", 18, 1, 0, 7, 0);
    lines("an odd line", PURGE_0 "\n030\n", 18, 1, 0, 7, 3);
    lines("an unknown kind", PURGE_0 "\n0400FC\n", 11, 1, 0, 7, 0);
    lines("a write's length of a purge", PURGE_0 "\n030000000005000000101010\n", 19, 1, 0, 7, 6);
    lines("a write cut", PURGE_0 "\n01000000\n", 19, 1, 0, 7, 8);
    lines("an outcome of 4", PURGE_0 "\n020001000000060000000404EF\n", 20, 1, 0, 7, 22);
    lines("a start first", START_2 "\n" PURGE_0 "\n", 15, 0, 0, 0, 0);
    lines("a start later", PURGE_0 "\n" PURGE_0 "\n" START_2 "\n" PURGE_0 "\n", 15, 2, 0, 14, 0);
    lines("a start of 1", "0001FF\n", 15, 0, 0, 0, 0);
    lines("a wrong digit", PURGE_0 "\n0300fd\n", 12, 1, 0, 7, 4);
    lines("a wrong sum", PURGE_0 "\n0300FE\n" PURGE_0 "\n", 13, 1, 0, 7, 4);
    lines("a write's wrong sum", PURGE_0 "\n0100000000050000001010DB\n", 13, 1, 0, 7, 22);
    lines("a session's wrong sum", PURGE_0 "\n020001000000060000000403F1\n", 13, 1, 0, 7, 24);
    lines("CR LF", PURGE_0 "\r\n", 12, 0, 0, 0, 6);
    lines("refused steps", "0302FB\n" PURGE_0 "\n0302FB\n", 0, 3, 2, 21, 0);
    lines("refused steps before a refused line", "0302FB\n0302FB\n00\n", 19, 2, 2, 14, 2);
    static const char some[] = PURGE_0 "\n" PURGE_0 "\n" PURGE_0 "\n";
    for (size_t len = 0; len <= 21; len++) lines_of("cut", some, len, WORDS, len % 7 ? 14 : 0, len / 7, 0, len / 7 * 7, len % 7);
}

/* Going on after a refused line, as the header says it. */
static void going_on(void) {
    static const char all[] = PURGE_0 "\n0300FE\n" PURGE_0 "\n" START_2 "\n\n" PURGE_0 "\n0302FB\n030";
    static const uint32_t numbers[] = {13, 15, 18, 14};
    size_t at = 0, len = sizeof all - 1, steps = 0, bad = 0, calls = 0, applied, refused, stopped, place;
    uint32_t number;
    fresh();
    uint32_t *w = lend();
    const uint8_t *s = text(all, len);
    while ((number = pollencart_apply_lines(w, WORDS, s + at, len - at, &applied, &refused, &stopped, &place)) != 0) {
        expect(calls < 4 && number == numbers[calls], "going on", "the number");
        calls++, steps += applied, bad += refused;
        const uint8_t *lf = memchr(s + at + stopped, '\n', len - at - stopped);
        if (number == POLLENCART_UNSOUND || lf == NULL) break;
        at = (size_t)(lf - s) + 1;
    }
    expect(calls == 4 && steps == 4 && bad == 1 && at + stopped == len - 3, "going on", "what was done");
    stands("going on");
}

int main(void) {
    static const uint32_t one[] = {1, 3, 4, 5, 6, 11, 12, 13, 15, 18, 19, 20}, many[] = {0, 1, 11, 12, 13, 14, 15, 18, 19, 20};
    example();
    refusals();
    places();
    going_on();
    for (size_t i = 0; i < LENGTH(one); i++) expect(met[0][one[i]] > 0, "apply_line", "a number that was not met");
    for (size_t i = 0; i < LENGTH(many); i++) expect(met[1][many[i]] > 0, "apply_lines", "a number that was not met");
    return told("lines");
}
