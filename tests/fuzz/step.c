/* Write, session, purge and delivery, by their fields and as lines, the count and the looks, on an arbitrary table: one of either form or of any length
 * whose words come from the data, then steps; the same replies, counts and words as the plain version. */
#include "fuzz.h"

static struct part table_part, text_part, list_part;
static uint32_t plain[12288], listed[300];
static uint8_t made[512];

/* The data, read as numbers from its front; zero when it is used up. */
static const uint8_t *data_at;
static size_t data_left;

static uint32_t number(size_t bytes)
{
    uint32_t x = 0;
    while (bytes--) {
        x = x << 8 | (data_left ? *data_at : 0);
        if (data_left)
            data_at++, data_left--;
    }
    return x;
}

/* Columns by which records leave: entries at the timestamp of one of the node's records, a little more or one less. */
static void know(uint32_t n)
{
    for (uint32_t p = 0; p < n; p++)
        for (uint32_t o = 0; o < n; o++) {
            uint32_t about = plain[FURTHER + record_at(p, number(1) % ROOM, 1)];
            for (uint32_t q = 0; q < n; q++)
                plain[column_at(p, q, o)] = about + (plain[column_at(p, q, o)] & 7) - 1;
        }
}

/* Fills a table: most often a right length, a right count and sound rows, then a few words at will. */
static size_t fill(void)
{
    uint32_t how = number(1), state = number(4) | 1, form = number(1);
    size_t length = how % 32 == 31 ? number(2) % 12288 : form & 1 ? POLLENCART_COLUMN_TABLE : POLLENCART_TABLE;
    for (size_t i = 0; i < length; i++) {
        state = state * 1664525u + 1013904223u;
        plain[i] = how & 32 ? state >> 28 : state;
    }
    if (length != POLLENCART_TABLE && length != POLLENCART_COLUMN_TABLE)
        return length;
    uint32_t n = plain[COUNT] = 2 + number(1) % (NODES - 1), *behind = plain + (length - POLLENCART_TABLE);
    for (uint32_t p = 0; p < n; p++) {
        uint32_t held = behind[held_at(p)] = number(1) % (ROOM + 1);
        for (uint32_t i = 0; i < held; i++) {
            uint32_t *verdict = behind + record_at(p, i, 3);
            behind[record_at(p, i, 0)] %= n, *verdict = how & 32 ? *verdict << 4 : *verdict & 255; /* every class either way */
            if (how & 128)
                behind[record_at(p, i, 2)] &= 7; /* blocks that were read often */
        }
    }
    if ((form & 3) == 3 && length == POLLENCART_COLUMN_TABLE)
        know(n);
    for (uint32_t many = number(1) % 8; many; many--) {
        uint32_t at = number(2) % (uint32_t)length;
        plain[at] = how & 64 ? number(4) : number(1);
    }
    return length;
}

/* A line of the data with its LF: a step's, rarely a start's or a damaged one. */
static size_t put_line(uint8_t *out)
{
    static const uint8_t fields[6] = { 1, 10, 11, 1, 0, 1 }, steps[4] = { 1, 2, 3, 5 };
    uint32_t how = number(1);
    uint8_t line[13] = { (uint8_t)(how % 32 == 0 ? 0 : steps[how % 4]) }, sum = 0;
    size_t many = 1u + fields[line[0]], at = 0;
    for (size_t i = 1; i < many; i++)
        line[i] = (uint8_t)(i < 3 || i + 1 == many ? number(1) : i % 4 ? 0 : number(1));
    if (how & 128)
        line[1] &= 3, line[2] = line[0] == 2 ? line[2] & 3 : line[2];
    if (line[0] == 2 && how & 64)
        line[11] &= 3;
    for (size_t i = 0; i < many; i++)
        sum = (uint8_t)(sum + line[i]);
    line[many++] = (uint8_t)(0u - sum);
    for (size_t i = 0; i < many; i++)
        out[at++] = (uint8_t)"0123456789ABCDEF"[line[i] >> 4], out[at++] = (uint8_t)"0123456789ABCDEF"[line[i] & 15];
    out[at++] = '\n';
    if (how % 32 == 5)
        out[number(1) % at] = (uint8_t)number(1);
    return at;
}

/* One line or many on both tables. */
static void text(uint32_t *table, size_t length, uint32_t op)
{
    size_t size = 0, s[8] = { 7, 7, 7, 7, 7, 7, 7, 7 };
    uint32_t w[4] = { 7, 7, 7, 7 };
    for (uint32_t lines = op & 32 ? 1 : number(1) % 16; lines; lines--)
        size += put_line(made + size);
    if (op & 32 || op % 8 == 4)
        size -= size != 0;
    uint8_t *at = lend(&text_part, sizeof made, size, (int)(op & 1));
    memcpy(at, made, size);
    if (op & 32) {
        same(pollencart_apply_line(table, length, at, size, w, w + 1, s) == plain_apply_line(plain, length, made, size, w + 2, w + 3, s + 4), "apply_line");
        same(w[0] == w[2] && w[1] == w[3] && s[0] == s[4], "what a line counts, and its place");
    } else {
        same(pollencart_apply_lines(table, length, at, size, s, s + 1, s + 2, s + 3) == plain_apply_lines(plain, length, made, size, s + 4, s + 5, s + 6, s + 7), "apply_lines");
        same(s[0] == s[4] && s[1] == s[5] && s[2] == s[6] && s[3] == s[7], "how far lines came, and the place");
    }
    same(!memcmp(at, made, size), "the lines' bytes");
}

/* A delivery on both tables, into lists of any length: most often one that is long enough. */
static void deliver(uint32_t *table, size_t length, uint8_t node)
{
    uint32_t how = number(1), w[2] = { 7, 7 };
    size_t many = how % 4 ? POLLENCART_LIST : number(1) % (sizeof listed / sizeof *listed);
    uint32_t *list = (uint32_t *)(void *)lend(&list_part, sizeof listed, 4 * many, (int)(how & 4));
    for (size_t i = 0; i < many; i++)
        listed[i] = list[i] = 0xA5A5A5A5u ^ (uint32_t)i;
    same(pollencart_deliver(table, length, node, list, many, w) == plain_deliver(plain, length, node, listed, many, w + 1), "deliver");
    same(w[0] == w[1], "the delivered count");
    same(!memcmp(list, listed, 4 * many), "the list's words");
}

/* One call on both tables. */
static void call(uint32_t *table, size_t length)
{
    uint32_t op = number(1), w[4] = { 7, 7, 7, 7 };
    if ((op & 24) == 24)
        return text(table, length, op);
    uint8_t p = (uint8_t)number(1), q = (uint8_t)number(1);
    if (op & 128)
        p &= 15, q &= 15;
    uint32_t x = op & 64 ? number(4) : number(1), y = op & 64 ? number(4) : number(1);
    if (op % 8 < 2) {
        same(pollencart_write(table, length, p, x, y, q) == plain_write(plain, length, p, x, y, q), "write");
    } else if (op % 8 < 5) {
        uint8_t outcome = (uint8_t)(op & 32 ? op % 8 : 3 - number(1) % 4);
        same(pollencart_session(table, length, p, q, x, y, outcome, w, w + 1) == plain_session(plain, length, p, q, x, y, outcome, w + 2, w + 3), "session");
        same(w[0] == w[2] && w[1] == w[3], "the carried counts");
    } else if (op % 8 == 5 && op & 32) {
        deliver(table, length, p);
    } else if (op % 8 == 5) {
        same(pollencart_purge(table, length, p, w, w + 1) == plain_purge(plain, length, p, w + 2, w + 3), "purge");
        same(w[0] == w[2] && w[1] == w[3], "the removed count, and the node that lags");
    } else if (op % 8 == 6) {
        uint32_t c[6] = { 7, 7, 7, 7, 7, 7 };
        same(pollencart_count_node(table, length, p, c, c + 1, c + 2) == plain_count_node(plain, length, p, c + 3, c + 4, c + 5), "count_node");
        same(!memcmp(c, c + 3, 12), "the counts and the gap");
    } else {
        same(pollencart_summary(table, length, p, q) == plain_summary(plain, length, p, q), "summary");
        same(pollencart_acknowledgement(table, length, p, q) == plain_acknowledgement(plain, length, p, q), "acknowledgement");
        same(pollencart_column(table, length, p, q, (uint8_t)y) == plain_column(plain, length, p, q, (uint8_t)y), "column");
        same(pollencart_held(table, length, p) == plain_held(plain, length, p), "held");
        same(pollencart_mark(table, length, p) == plain_mark(plain, length, p), "mark");
        same(pollencart_record(table, length, p, x, y % 6) == plain_record(plain, length, p, x, y % 6), "record");
        if (op & 32 && x == 0)
            same(pollencart_fresh(table, length, y) == plain_fresh(plain, length, y), "fresh");
    }
}

/* A list of records of the data, most often whole ones: few pairs of origin and block, any origin, any verdict and now and then one that is none. */
static size_t records(void)
{
    uint32_t how = number(1);
    size_t words = how < 240 ? how % (ROOM + 2) * RECORD : number(1) + 10u;
    for (size_t i = 0; i < words; i += RECORD) {
        uint32_t pair = number(1), verdict = number(1);
        plain[i] = pair >> 4 & 3 ? pair >> 6 : pair << 24, plain[i + 1] = (uint32_t)i, plain[i + 2] = pair & 15;
        plain[i + 3] = verdict == 0x7F ? 256 : verdict & 0x7F;
    }
    return words;
}

/* The count of a list of words that is lent, and of the same in `plain`. */
static void count(const uint32_t *list, const uint32_t *other, size_t words)
{
    uint32_t c[6] = { 7, 7, 7, 7, 7, 7 };
    same(pollencart_count(list, words, c, c + 1, c + 2) == plain_count(other, words, c + 3, c + 4, c + 5), "count");
    same(!memcmp(c, c + 3, 12), "the counts and the gap of a list");
    same(!memcmp(list, other, 4 * words), "the list's words");
}

int LLVMFuzzerTestOneInput(const uint8_t *data, size_t size)
{
    data_at = data, data_left = size;
    if (size % 4 == 3) {
        size_t words = records();
        uint32_t *list = (uint32_t *)(void *)lend(&table_part, sizeof plain, 4 * words, size % 8 == 3);
        memcpy(list, plain, 4 * words);
        count(list, plain, words);
    }
    size_t length = fill();
    uint32_t *table = (uint32_t *)(void *)lend(&table_part, sizeof plain, 4 * length, size % 2);
    memcpy(table, plain, 4 * length);
    for (int steps = 0; data_left && steps < 64; steps++) {
        call(table, length);
        same(!memcmp(table, plain, 4 * length), "the table's words");
    }
    size_t words = length < 300 ? length : number(1) + 10;
    if (words <= length)
        count(table + length - words, plain + length - words, words);
    return 0;
}
