/* pollencart_replay on whole, empty, refused and too long journals and on lent words and bytes of the wrong length, each between
 * guards that no call may touch. */
#include "check.h"

/* The lent words and bytes between guards, and a copy of each. */
static uint32_t words[GUARD + COLUMN_WORDS + 1 + GUARD], words_copy[GUARD + COLUMN_WORDS + 1 + GUARD], *const table = words + GUARD;
static uint8_t bytes[GUARD + TEXT + 1000 + GUARD], bytes_copy[GUARD + TEXT + 1000 + GUARD];
static uint8_t journal[JOURNAL + 1], journal_copy[JOURNAL + 1];

static void lend(void) {
    for (size_t i = 0; i < sizeof words / sizeof words[0]; i++) words[i] = 0xA5A50000u ^ (uint32_t)(i * 7);
    for (size_t i = 0; i < sizeof bytes; i++) bytes[i] = (uint8_t)(0xA5 ^ (i * 7));
    memcpy(words_copy, words, sizeof words);
    memcpy(bytes_copy, bytes, sizeof bytes);
    memcpy(journal_copy, journal, sizeof journal);
}

/* One call. The text is the first bytes of out, and no other byte of it is changed; a table is kept, or lies within its guards. */
static void replays(const char *about, size_t journal_len, size_t table_len, size_t out_len, const char *text, int kept) {
    size_t n = strlen(text), after = GUARD + n, end = GUARD + table_len;
    lend();
    expect(pollencart_replay(journal, journal_len, table, table_len, bytes + GUARD, out_len) == n, about, "length");
    expect(memcmp(bytes + GUARD, text, n) == 0, about, "text");
    expect(memcmp(bytes, bytes_copy, GUARD) == 0, about, "bytes before the text");
    expect(memcmp(bytes + after, bytes_copy + after, sizeof bytes - after) == 0, about, "bytes after the text");
    expect(memcmp(words, words_copy, GUARD * sizeof words[0]) == 0, about, "words before the table");
    expect(memcmp(words + end, words_copy + end, sizeof words - end * sizeof words[0]) == 0, about, "words after the table");
    expect((memcmp(words, words_copy, sizeof words) == 0) == kept, about, "table");
    expect(memcmp(journal, journal_copy, sizeof journal) == 0, about, "journal");
}

static size_t say(const char *lines) {
    memset(journal, 0, sizeof journal);
    memcpy(journal, lines, strlen(lines));
    return strlen(lines);
}

#define START "0002FE\n"
#define WRITE "0100000000050000001010DA\n"
#define REST "020001000000060000000403F0\n020001000000070000000701EE\n0300FD\n020001000000080000000803EA\n"
#define DELIVER "0500FB\n"
#define PURGE "0300FD\n"

int main(void) {
    const char *undelivered = "N 2 STEPS 6 REFUSED 0\n0 S 8 8 K 7 6 L 1\n1 S 8 8 K 7 6 L 1\n";
    const char *whole = "N 2 STEPS 7 REFUSED 0\n0 S 8 8 K 7 6 L 0\n1 S 8 8 K 7 6 L 1\n";
    size_t n = say(START WRITE REST PURGE);
    replays("the example, nothing delivered", n, WORDS, TEXT, undelivered, 0);
    expect(table[held_at(0)] == 1 && table[mark_at(0)] == 0, "the example, nothing delivered", "held number and mark in the table");
    n = say(START WRITE REST DELIVER PURGE);
    replays("the example", n, WORDS, TEXT, whole, 0);
    replays("the example, more room", n, WORDS, TEXT + 1000, whole, 0);
    expect(table[COUNT] == 2, "the example", "count in the table");
    expect(table[summary_at(0, 0)] == 8 && table[summary_at(0, 1)] == 8 && table[summary_at(0, 2)] == 0, "the example", "summary in the table");
    expect(table[held_at(0)] == 0 && table[held_at(1)] == 1, "the example", "held numbers in the table");
    expect(table[mark_at(0)] == 8 && table[mark_at(1)] == 0, "the example", "marks in the table");
    expect(table[record_at(1, 0, 1)] == 5 && table[record_at(1, 0, 3)] == 16, "the example", "record in the table");
    replays("out one byte short", n, WORDS, TEXT - 1, "", 1);
    replays("out of no byte", n, WORDS, 0, "", 1);
    replays("a table one word short", n, WORDS - 1, TEXT, "", 1);
    replays("a table one word long", n, WORDS + 1, TEXT, "", 1);
    replays("a table of no word", n, 0, TEXT, "", 1);
    for (size_t len = COLUMN_WORDS - 1; len <= COLUMN_WORDS + 1; len++) replays("a column table, and one word beside it", n, len, TEXT, "", 1);
    replays("an empty journal", 0, WORDS, TEXT, "BAD 1 15 0\n", 1);
    replays("no LF", 6, WORDS, TEXT, "BAD 1 14 6\n", 1);
    replays("no LF after the last line", n - 1, WORDS, TEXT, "BAD 8 14 6\n", 0);
    n = say(WRITE);
    replays("no start", n, WORDS, TEXT, "BAD 1 15 0\n", 1);
    n = say(START WRITE "0002FF\n" WRITE);
    replays("a sum that is not zero", n, WORDS, TEXT, "BAD 3 13 4\n", 0);
    expect(table[COUNT] == 2 && table[summary_at(0, 0)] == 5 && table[held_at(0)] == 1, "a sum that is not zero", "the steps before it");
    n = say(START WRITE WRITE);
    replays("a write refused", n, WORDS, TEXT, "N 2 STEPS 2 REFUSED 1\n0 S 5 0 K 0 0 L 1\n1 S 0 0 K 0 0 L 0\n", 0);
    memset(journal, '\n', sizeof journal);
    replays("the longest journal", JOURNAL, WORDS, TEXT, "BAD 1 18 0\n", 1);
    replays("a journal one byte too long", JOURNAL + 1, WORDS, TEXT, "BAD 0 16\n", 1);
    return told("replay");
}
