/* Each call of pollencart.h with a null pointer of length 0, and with a pointer that is not null and length 0: the header promises both the same. */
#include <inttypes.h>
#include <stdio.h>
#include <string.h>

#include "pollencart.h"

#define UNSET 0xDEADBEEFu

static unsigned long checks, failures;

static void expect(const char *what, uint32_t got, uint32_t wanted) {
    checks++;
    if (got != wanted) {
        failures++;
        printf("FAILED: %s: %" PRIu32 ", not %" PRIu32 "\n", what, got, wanted);
    }
}

/* Lines, frames and records: bytes or words of length 0. */
static void lists(uint8_t *bytes, uint32_t *words) {
    size_t place = UNSET;
    expect("check_line", pollencart_check_line(bytes, 0, &place), POLLENCART_ODD);
    expect("its place", (uint32_t)place, 0);
    place = UNSET;
    expect("read_line", pollencart_read_line(bytes, 0, words, 0, &place), POLLENCART_ODD);
    expect("its place", (uint32_t)place, 0);
    place = UNSET;
    expect("read_line into no words", pollencart_read_line((const uint8_t *)"0300FD", 6, words, 0, &place), POLLENCART_ROOM);
    expect("its place", (uint32_t)place, 0);
    expect("kind", pollencart_kind(bytes, 0), 0);
    for (uint32_t i = 0; i < 6; i++) expect("field", pollencart_field(bytes, 0, i), 0);
    expect("field", pollencart_field(bytes, 0, UINT32_MAX), 0);

    uint32_t length = UNSET;
    expect("frame_start", pollencart_frame_start(bytes, 0, 2, &length), POLLENCART_ROOM);
    expect("its length", length, 0);
    length = UNSET;
    expect("frame_start of 1", pollencart_frame_start(bytes, 0, 1, &length), POLLENCART_START);
    expect("its length", length, 0);
    length = UNSET;
    expect("frame_write", pollencart_frame_write(bytes, 0, 0, 5, 16, POLLENCART_VERDICT_CACHE, &length), POLLENCART_ROOM);
    expect("its length", length, 0);
    length = UNSET;
    expect("frame_session", pollencart_frame_session(bytes, 0, 0, 1, 6, 4, POLLENCART_FINISH_BOTH, &length), POLLENCART_ROOM);
    expect("its length", length, 0);
    length = UNSET;
    expect("frame_session, outcome 4", pollencart_frame_session(bytes, 0, 0, 1, 6, 4, 4, &length), POLLENCART_OUTCOME);
    expect("its length", length, 0);
    length = UNSET;
    expect("frame_purge", pollencart_frame_purge(bytes, 0, 0, &length), POLLENCART_ROOM);
    expect("its length", length, 0);
    length = UNSET;
    expect("frame_deliver", pollencart_frame_deliver(bytes, 0, 0, &length), POLLENCART_ROOM);
    expect("its length", length, 0);

    uint32_t scrubbed = UNSET, touched = UNSET, gap = UNSET;
    expect("count", pollencart_count(words, 0, &scrubbed, &touched, &gap), 0);
    expect("scrubbed of none", scrubbed, 0);
    expect("touched of none", touched, 0);
    expect("the gap of none", gap, 0);
}

/* Tables of length 0. */
static void tables(uint32_t *table) {
    expect("fresh", pollencart_fresh(table, 0, 2), POLLENCART_UNSOUND);
    expect("write", pollencart_write(table, 0, 0, 5, 16, POLLENCART_VERDICT_CACHE), POLLENCART_UNSOUND);
    uint32_t to_a = UNSET, to_b = UNSET, removed = UNSET, lags = UNSET, scrubbed = UNSET, touched = UNSET, gap = UNSET;
    expect("session", pollencart_session(table, 0, 0, 1, 6, 4, POLLENCART_FINISH_BOTH, &to_a, &to_b), POLLENCART_UNSOUND);
    expect("to a", to_a, 0);
    expect("to b", to_b, 0);
    expect("purge", pollencart_purge(table, 0, 0, &removed, &lags), POLLENCART_UNSOUND);
    expect("removed", removed, 0);
    expect("lags", lags, 0);
    uint32_t delivered = UNSET, list[POLLENCART_LIST] = {UNSET};
    expect("deliver", pollencart_deliver(table, 0, 0, list, POLLENCART_LIST, &delivered), POLLENCART_UNSOUND);
    expect("delivered", delivered, 0);
    delivered = UNSET;
    expect("deliver, no list either", pollencart_deliver(table, 0, 0, table, 0, &delivered), POLLENCART_UNSOUND);
    expect("delivered", delivered, 0);
    expect("the list", list[0], UNSET);
    expect("mark", pollencart_mark(table, 0, 0), 0);
    expect("summary", pollencart_summary(table, 0, 0, 0), 0);
    expect("acknowledgement", pollencart_acknowledgement(table, 0, 0, 0), 0);
    expect("column", pollencart_column(table, 0, 0, 0, 0), 0);
    expect("held", pollencart_held(table, 0, 0), 0);
    expect("record", pollencart_record(table, 0, 0, 0, 0), 0);
    expect("count_node", pollencart_count_node(table, 0, 0, &scrubbed, &touched, &gap), POLLENCART_UNSOUND);
    expect("scrubbed", scrubbed, 0);
    expect("touched", touched, 0);
    expect("the gap", gap, 0);
}

/* Lists of length 0: enough where nothing is due, too short where something is. */
static void deliveries(uint32_t *list) {
    static uint32_t table[POLLENCART_TABLE];
    uint32_t delivered = UNSET, x = UNSET, y = UNSET;
    expect("fresh", pollencart_fresh(table, POLLENCART_TABLE, 2), 0);
    expect("deliver none", pollencart_deliver(table, POLLENCART_TABLE, 0, list, 0, &delivered), 0);
    expect("delivered", delivered, 0);
    expect("write", pollencart_write(table, POLLENCART_TABLE, 0, 5, 16, POLLENCART_VERDICT_CACHE), 0);
    expect("session", pollencart_session(table, POLLENCART_TABLE, 0, 1, 6, 6, POLLENCART_FINISH_BOTH, &x, &y), 0);
    delivered = UNSET;
    expect("deliver one", pollencart_deliver(table, POLLENCART_TABLE, 0, list, 0, &delivered), POLLENCART_LIST_SHORT);
    expect("delivered", delivered, 0);
    expect("the mark", pollencart_mark(table, POLLENCART_TABLE, 0), 0);
    static uint32_t columns[POLLENCART_COLUMN_TABLE];
    delivered = UNSET;
    expect("fresh columns", pollencart_fresh(columns, POLLENCART_COLUMN_TABLE, 2), 0);
    expect("deliver on columns", pollencart_deliver(columns, POLLENCART_COLUMN_TABLE, 0, list, 0, &delivered), POLLENCART_ON_COLUMNS);
    expect("delivered", delivered, 0);
    delivered = UNSET;
    expect("deliver at node 2", pollencart_deliver(table, POLLENCART_TABLE, 2, list, 0, &delivered), POLLENCART_NODE);
    expect("delivered", delivered, 0);
}

/* Lines and tables of length 0, each with the other there and both. */
static void lines(uint8_t *bytes, uint32_t *words) {
    static const uint8_t write[] = "0100000000050000001010DA\n";
    static uint32_t table[POLLENCART_TABLE];
    uint32_t first = UNSET, second = UNSET;
    size_t applied = UNSET, refused = UNSET, stopped = UNSET, place = UNSET;
    expect("fresh", pollencart_fresh(table, POLLENCART_TABLE, 2), 0);
    expect("apply_line of no line", pollencart_apply_line(table, POLLENCART_TABLE, bytes, 0, &first, &second, &place), POLLENCART_ODD);
    expect("its counts and place", first == 0 && second == 0 && place == 0, 1);
    first = second = UNSET, place = UNSET;
    expect("apply_line, no table", pollencart_apply_line(words, 0, write, 24, &first, &second, &place), POLLENCART_UNSOUND);
    expect("its counts and place", first == 0 && second == 0 && place == 0, 1);
    first = second = UNSET, place = UNSET;
    expect("apply_line of nothing", pollencart_apply_line(words, 0, bytes, 0, &first, &second, &place), POLLENCART_ODD);
    expect("its counts and place", first == 0 && second == 0 && place == 0, 1);
    place = UNSET;
    expect("apply_lines of no lines", pollencart_apply_lines(table, POLLENCART_TABLE, bytes, 0, &applied, &refused, &stopped, &place), 0);
    expect("what is stored", applied == 0 && refused == 0 && stopped == 0 && place == 0, 1);
    applied = refused = stopped = place = UNSET;
    expect("apply_lines, no table", pollencart_apply_lines(words, 0, write, 25, &applied, &refused, &stopped, &place), POLLENCART_UNSOUND);
    expect("what is stored", applied == 0 && refused == 0 && stopped == 0 && place == 0, 1);
    applied = refused = stopped = place = UNSET;
    expect("apply_lines of nothing", pollencart_apply_lines(words, 0, bytes, 0, &applied, &refused, &stopped, &place), POLLENCART_UNSOUND);
    expect("what is stored", applied == 0 && refused == 0 && stopped == 0 && place == 0, 1);
    expect("the table", pollencart_held(table, POLLENCART_TABLE, 0), 0);
}

/* The replay with each of its three lists of length 0, and with all of them so. */
static void replays(uint8_t *bytes, uint32_t *words) {
    static const uint8_t journal[] = "0002FE\n";
    static uint32_t table[POLLENCART_TABLE];
    static uint8_t out[POLLENCART_TEXT];
    const char *bad = "BAD 1 15 0\n";
    memset(out, 0, sizeof out);
    uint32_t length = pollencart_replay(bytes, 0, table, POLLENCART_TABLE, out, sizeof out);
    expect("replay of no journal", length, (uint32_t)strlen(bad));
    expect("its text", memcmp(out, bad, strlen(bad)) == 0, 1);
    expect("replay, no table", pollencart_replay(journal, sizeof journal - 1, words, 0, out, sizeof out), 0);
    expect("replay, no out", pollencart_replay(journal, sizeof journal - 1, table, POLLENCART_TABLE, bytes, 0), 0);
    expect("its table", table[0], 0);
    expect("replay of nothing", pollencart_replay(bytes, 0, words, 0, bytes, 0), 0);
    expect("the text is left", memcmp(out, bad, strlen(bad)) == 0, 1);
}

int main(void) {
    static uint8_t byte = 'A';
    static uint32_t word = 7;
    lists(NULL, NULL);
    lists(&byte, &word);
    tables(NULL);
    tables(&word);
    deliveries(NULL);
    deliveries(&word);
    lines(NULL, NULL);
    lines(&byte, &word);
    replays(NULL, NULL);
    replays(&byte, &word);
    expect("the lent byte", byte, 'A');
    expect("the lent word", word, 7);
    printf("nulls: %lu checks, %lu failed\n", checks, failures);
    return failures != 0;
}
