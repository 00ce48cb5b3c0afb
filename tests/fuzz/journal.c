/* The run of a journal: any bytes (first byte odd), or frames with right sums made of them (even);
 * the same text and the same table as the plain version. */
#include "fuzz.h"

static struct part journal_part, table_part, out_part;
static uint8_t made[1 << 17], text[POLLENCART_TEXT];
static uint32_t table[POLLENCART_TABLE];

/* Makes a journal of frames: each 12 bytes of data are a kind's fields; a rare one is left damaged. */
static size_t frames(const uint8_t *data, size_t size)
{
    static const uint8_t fields[6] = { 1, 10, 11, 1, 0, 1 };
    static const char digits[] = "0123456789ABCDEF";
    size_t many = 0;
    for (size_t at = 0; at < size && many < 66000; at += 12) {
        uint8_t bytes[13] = { 0 }, sum = 0;
        memcpy(bytes, data + at, size - at < 12 ? size - at : 12);
        uint8_t damage = bytes[0] >> 2;
        bytes[0] = at == 0 ? 0 : bytes[0] & 3;
        if (bytes[0] == 0 && damage < 60)
            bytes[0] = at ? 1 : 0, bytes[1] = at ? bytes[1] : (uint8_t)(2 + bytes[1] % 15);
        if (damage < 60)
            bytes[1] &= 15, bytes[2] = bytes[0] == 2 ? bytes[2] & 15 : bytes[2], bytes[11] &= 3;
        if (bytes[0] == 3 && bytes[2] & 1) /* half of the purges are deliveries */
            bytes[0] = 5;
        uint32_t length = 1u + fields[bytes[0]];
        for (uint32_t i = 0; i < length; i++)
            sum = (uint8_t)(sum + bytes[i]);
        bytes[length] = (uint8_t)(damage == 63 ? sum : 0u - sum);
        for (uint32_t i = 0; i <= length; i++)
            made[many++] = (uint8_t)digits[bytes[i] >> 4], made[many++] = (uint8_t)digits[bytes[i] & 15];
        if (damage != 62)
            made[many++] = '\n';
    }
    return many;
}

int LLVMFuzzerTestOneInput(const uint8_t *data, size_t size)
{
    if (size == 0 || size > 70000)
        return 0;
    size_t many = size - 1;
    if (data[0] % 2)
        memcpy(made, data + 1, many);
    else
        many = frames(data + 1, many);
    int low = many % 2;
    uint8_t *journal = lend(&journal_part, sizeof made, many, low);
    uint32_t *words = (uint32_t *)(void *)lend(&table_part, sizeof table, sizeof table, low);
    uint8_t *out = lend(&out_part, POLLENCART_TEXT, POLLENCART_TEXT, low);
    memcpy(journal, made, many);
    memset(words, 0xA5, sizeof table), memset(table, 0xA5, sizeof table);
    uint32_t length = pollencart_replay(journal, many, words, POLLENCART_TABLE, out, POLLENCART_TEXT);
    same(length == plain_replay(made, many, table, POLLENCART_TABLE, text, POLLENCART_TEXT), "the length of the text");
    same(!memcmp(out, text, length), "the text");
    same(!memcmp(journal, made, many), "the journal's bytes");
    same(!memcmp(words, table, sizeof table), "the table");
    return 0;
}
