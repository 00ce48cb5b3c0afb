/* The line reader on any bytes: the same answers as the plain version, the line left as it is, and
 * a frame that is read is written back to the same line. The bytes are also applied to a fresh table, as one line and as many. */
#include "fuzz.h"

static struct part line_part, out_part, table_part;
static uint32_t plain[POLLENCART_TABLE];

static void apply(const uint8_t *line, const uint8_t *data, size_t size, int low)
{
    uint32_t *table = (uint32_t *)(void *)lend(&table_part, sizeof plain, sizeof plain, low), w[4] = { 7, 7, 7, 7 };
    size_t s[8] = { 7, 7, 7, 7, 7, 7, 7, 7 };
    same(pollencart_fresh(table, POLLENCART_TABLE, 3) == plain_fresh(plain, POLLENCART_TABLE, 3), "fresh");
    same(pollencart_apply_line(table, POLLENCART_TABLE, line, size, w, w + 1, s) == plain_apply_line(plain, POLLENCART_TABLE, data, size, w + 2, w + 3, s + 4), "apply_line");
    same(w[0] == w[2] && w[1] == w[3] && s[0] == s[4], "what a line counts, and its place");
    same(pollencart_apply_lines(table, POLLENCART_TABLE, line, size, s, s + 1, s + 2, s + 3) == plain_apply_lines(plain, POLLENCART_TABLE, data, size, s + 4, s + 5, s + 6, s + 7), "apply_lines");
    same(s[0] == s[4] && s[1] == s[5] && s[2] == s[6] && s[3] == s[7], "how far lines came, and the place");
    same(!memcmp(table, plain, sizeof plain), "the table's words");
}

static void write_back(const uint8_t *line, size_t size, int low)
{
    uint32_t kind = pollencart_kind(line, size), f[5], length = 0, answer = 0;
    for (uint32_t i = 0; i < 5; i++)
        f[i] = pollencart_field(line, size, i);
    uint8_t *out = lend(&out_part, 64, size + 1, low);
    if (kind == 0)
        answer = pollencart_frame_start(out, size + 1, (uint8_t)f[0], &length);
    else if (kind == 1)
        answer = pollencart_frame_write(out, size + 1, (uint8_t)f[0], f[1], f[2], (uint8_t)f[3], &length);
    else if (kind == 2)
        answer = pollencart_frame_session(out, size + 1, (uint8_t)f[0], (uint8_t)f[1], f[2], f[3], (uint8_t)f[4], &length);
    else if (kind == 5)
        answer = pollencart_frame_deliver(out, size + 1, (uint8_t)f[0], &length);
    else
        answer = pollencart_frame_purge(out, size + 1, (uint8_t)f[0], &length);
    same(answer == 0 && length == size + 1 && !memcmp(out, line, size) && out[size] == '\n', "a frame written back");
}

/* read_line into five, six and seven words. */
static void values(const uint8_t *line, const uint8_t *data, size_t size)
{
    for (size_t many = 5; many <= 7; many++) {
        uint32_t mine[8] = { 1, 2, 3, 4, 5, 6, 7, 8 }, its[8] = { 1, 2, 3, 4, 5, 6, 7, 8 };
        size_t place = 7, beside = 8;
        same(pollencart_read_line(line, size, mine, many, &place) == plain_read_line(data, size, its, many, &beside), "read_line");
        same(place == beside && !memcmp(mine, its, sizeof mine), "its place or words");
    }
}

int LLVMFuzzerTestOneInput(const uint8_t *data, size_t size)
{
    int low = size % 2;
    uint8_t *line = lend(&line_part, 65536, size, low);
    if (size > 65536)
        return 0;
    memcpy(line, data, size);
    size_t place = 7, beside = 8;
    uint32_t answer = pollencart_check_line(line, size, &place);
    same(answer == plain_check_line(data, size, &beside), "check_line");
    same(place == beside && place <= size, "its place");
    values(line, data, size);
    same(pollencart_kind(line, size) == plain_kind(data, size), "kind");
    for (uint32_t i = 0; i < 7; i++)
        same(pollencart_field(line, size, i) == plain_field(data, size, i), "field");
    if (answer == 0)
        write_back(line, size, low);
    apply(line, data, size, low);
    same(!memcmp(line, data, size), "the line's bytes");
    return 0;
}
