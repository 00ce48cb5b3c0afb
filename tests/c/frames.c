/* The frame functions of pollencart.h on good, damaged and empty buffers, each between guard bytes that no call may touch. */
#include <inttypes.h>

#include "check.h"

#define MOST 64

/* Lent bytes between two guards, and a copy of all of it. */
struct lent {
    uint8_t all[GUARD + MOST + GUARD], copy[GUARD + MOST + GUARD];
    size_t len;
};

static void lend(struct lent *b, const void *from, size_t len) {
    for (size_t i = 0; i < sizeof b->all; i++) b->all[i] = (uint8_t)(0xA5 ^ (i * 7));
    if (from) memcpy(b->all + GUARD, from, len);
    memcpy(b->copy, b->all, sizeof b->all);
    b->len = len;
}

static uint8_t *bytes(struct lent *b) { return b->all + GUARD; }

/* Nothing changed but the first n lent bytes. */
static int untouched(const struct lent *b, size_t n) {
    return memcmp(b->all, b->copy, GUARD) == 0 && memcmp(b->all + GUARD + n, b->copy + GUARD + n, sizeof b->all - GUARD - n) == 0;
}

/* The number of a line's refusal; its place is stored in `place`. */
static size_t place;

static uint32_t check(const char *line, size_t len) {
    struct lent b;
    lend(&b, line, len);
    place = (size_t)-1;
    uint32_t r = pollencart_check_line(bytes(&b), len, &place);
    expect(untouched(&b, 0), line, "check_line left the line alone");
    expect(place <= len && (r || place == 0), line, "a place in the line, 0 for a frame");
    return r;
}

/* read_line into every number of words up to eight: the kind and the fields in the first six, and no other word is written. */
static void values(const char *line, uint32_t refusal, size_t at, uint32_t kind, const uint32_t *fields, uint32_t count) {
    struct lent b;
    size_t len = strlen(line);
    lend(&b, line, len);
    for (size_t many = 0; many <= 8; many++) {
        uint32_t words[8], due = refusal ? refusal : many < POLLENCART_VALUES ? POLLENCART_ROOM : 0;
        size_t where = (size_t)-1;
        for (uint32_t i = 0; i < 8; i++) words[i] = UNSET + i;
        expect(pollencart_read_line(bytes(&b), len, words, many, &where) == due, line, "read_line");
        expect(where == (refusal ? at : 0), line, "its place");
        for (uint32_t i = 0; i < 8; i++) {
            uint32_t value = i == 0 ? kind : i <= count ? fields[i - 1] : 0;
            expect(words[i] == (due || i >= POLLENCART_VALUES ? UNSET + i : value), line, "its words");
        }
    }
    expect(untouched(&b, 0), line, "read_line left the line alone");
}

static void reads(const char *line, uint32_t refusal, size_t at, uint32_t kind, const uint32_t *fields, uint32_t count) {
    struct lent b;
    size_t len = strlen(line);
    lend(&b, line, len);
    expect(check(line, len) == refusal, line, "check_line");
    expect(place == at, line, "its place");
    values(line, refusal, at, kind, fields, count);
    expect(pollencart_kind(bytes(&b), len) == kind, line, "kind");
    for (uint32_t i = 0; i < count; i++) expect(pollencart_field(bytes(&b), len, i) == fields[i], line, "field");
    for (uint32_t i = count; i < count + 8; i++) expect(pollencart_field(bytes(&b), len, i) == 0, line, "no such field");
    expect(pollencart_field(bytes(&b), len, UINT32_MAX) == 0, line, "no such field");
    expect(pollencart_field(bytes(&b), len, UINT32_MAX - 1) == 0, line, "no such field");
    expect(untouched(&b, 0), line, "kind and field left the line alone");
}

static void refused(const char *line, uint32_t number, size_t at) { reads(line, number, at, 0, NULL, 0); }

/* No frame stays one when one of its characters becomes another byte, or when it is cut or made longer. */
static void damaged(const char *line) {
    size_t len = strlen(line);
    char wrong[MOST];
    for (size_t at = 0; at < len; at++)
        for (int c = 0; c < 256; c++) {
            memcpy(wrong, line, len);
            wrong[at] = (char)c;
            int digit = (c >= '0' && c <= '9') || (c >= 'A' && c <= 'F');
            uint32_t r = check(wrong, len);
            if (c == (uint8_t)line[at]) expect(r == 0, line, "the frame itself");
            else if (!digit) expect(r == POLLENCART_DIGIT && place == at, line, "a character that is no digit");
            else if (at < 2) expect(r == POLLENCART_KIND || r == POLLENCART_LENGTH || r == POLLENCART_SUM || r == POLLENCART_START, line, "another kind");
            else if (r == POLLENCART_LINE_OUTCOME) expect(place == 22 && (at == 22 || at == 23), line, "another outcome");
            else expect(r == POLLENCART_SUM && place == len - 2, line, "another digit");
        }
    for (size_t n = 0; n < len; n++) expect(check(line, n) == (n % 2 || n == 0 ? POLLENCART_ODD : POLLENCART_LENGTH) && place == n, line, "cut");
    memcpy(wrong, line, len);
    wrong[len] = '\n';
    expect(check(wrong, len + 1) == POLLENCART_DIGIT && place == len, line, "with its LF");
    wrong[len] = '0';
    expect(check(wrong, len + 1) == POLLENCART_ODD && place == len + 1, line, "one digit more");
    wrong[len + 1] = '0';
    expect(check(wrong, len + 2) == POLLENCART_LENGTH && place == len, line, "one byte more");
}

/* One frame to write: its kind and fields. */
struct frame {
    unsigned kind;
    uint32_t f[5];
};

static uint32_t put(const struct frame *x, uint8_t *out, size_t len, uint32_t *length) {
    const uint32_t *f = x->f;
    switch (x->kind) {
    case 0: return pollencart_frame_start(out, len, (uint8_t)f[0], length);
    case 1: return pollencart_frame_write(out, len, (uint8_t)f[0], f[1], f[2], (uint8_t)f[3], length);
    case 2: return pollencart_frame_session(out, len, (uint8_t)f[0], (uint8_t)f[1], f[2], f[3], (uint8_t)f[4], length);
    case 3: return pollencart_frame_purge(out, len, (uint8_t)f[0], length);
    default: return pollencart_frame_deliver(out, len, (uint8_t)f[0], length);
    }
}

/* The frame by the C library's own hexadecimal, its check added up here. */
static size_t spell(const struct frame *x, char *text) {
    const uint32_t *f = x->f;
    switch (x->kind) {
    case 0:
    case 3:
    case 5: sprintf(text, "%02X%02" PRIX32, x->kind, f[0]); break;
    case 1: sprintf(text, "01%02" PRIX32 "%08" PRIX32 "%08" PRIX32 "%02" PRIX32, f[0], f[1], f[2], f[3]); break;
    default: sprintf(text, "02%02" PRIX32 "%02" PRIX32 "%08" PRIX32 "%08" PRIX32 "%02" PRIX32, f[0], f[1], f[2], f[3], f[4]); break;
    }
    unsigned sum = 0, byte;
    for (const char *p = text; sscanf(p, "%2X", &byte) == 1; p += 2) sum += byte;
    sprintf(text + strlen(text), "%02X\n", (256 - sum % 256) % 256);
    return strlen(text);
}

/* Writes it into every length of lent bytes; what should be refused with `before` is, however few the bytes. */
static void writes(const struct frame *x, uint32_t before) {
    static const uint32_t counts[] = {1, 4, 5, 1, 0, 1};
    char text[MOST];
    size_t need = spell(x, text);
    for (size_t len = 0; len <= MOST; len++) {
        struct lent b;
        uint32_t length = UNSET;
        lend(&b, NULL, len);
        uint32_t r = put(x, bytes(&b), len, &length);
        uint32_t due = before ? before : len < need ? POLLENCART_ROOM : 0;
        expect(r == due, text, "the writer's answer");
        expect(length == (due ? 0 : need), text, "the length stored");
        expect(untouched(&b, due ? 0 : need), text, "nothing else is written");
        if (!due) expect(memcmp(bytes(&b), text, need) == 0, text, "the frame");
    }
    if (!before) {
        text[need - 1] = '\0';
        reads(text, 0, 0, x->kind, x->f, counts[x->kind]);
    }
}

int main(void) {
    refused("", POLLENCART_ODD, 0);
    refused("0", POLLENCART_ODD, 1);
    refused("000", POLLENCART_ODD, 3);
    refused("04000", POLLENCART_ODD, 5);
    refused("04", POLLENCART_KIND, 0);
    refused("0400FC", POLLENCART_KIND, 0);
    refused("0400FF", POLLENCART_KIND, 0);
    refused("06", POLLENCART_KIND, 0);
    refused("0600FA", POLLENCART_KIND, 0);
    refused("FF0001", POLLENCART_KIND, 0);
    refused("00", POLLENCART_LENGTH, 2);
    refused("0300", POLLENCART_LENGTH, 4);
    refused("0500", POLLENCART_LENGTH, 4);
    refused("0500FB00", POLLENCART_LENGTH, 6);
    refused("0002FE00", POLLENCART_LENGTH, 6);
    refused("0100000000050000001010", POLLENCART_LENGTH, 22);
    refused("0100000000050000001010DA00", POLLENCART_LENGTH, 24);
    refused("020001000000060000000404EF", POLLENCART_LINE_OUTCOME, 22);
    refused("02000100000006000000040400", POLLENCART_LINE_OUTCOME, 22);
    refused("0002FF", POLLENCART_SUM, 4);
    refused("0001FE", POLLENCART_SUM, 4);
    refused("0500FC", POLLENCART_SUM, 4);
    refused("020001000000060000000403F1", POLLENCART_SUM, 24);
    refused("0001FF", POLLENCART_START, 0);
    refused("0011EF", POLLENCART_START, 0);
    refused("000000", POLLENCART_START, 0);
    refused("0002fe", POLLENCART_DIGIT, 4);
    refused("g", POLLENCART_DIGIT, 0);
    refused("04000G", POLLENCART_DIGIT, 5);
    refused("0002FE\n", POLLENCART_DIGIT, 6);
    refused("0002FE ", POLLENCART_DIGIT, 6);
    reads("0002FE", 0, 0, 0, (const uint32_t[]){2}, 1);
    reads("0010F0", 0, 0, 0, (const uint32_t[]){16}, 1);
    reads("0100000000050000001010DA", 0, 0, 1, (const uint32_t[]){0, 5, 16, 16}, 4);
    reads("020001000000060000000403F0", 0, 0, 2, (const uint32_t[]){0, 1, 6, 4, 3}, 5);
    reads("0300FD", 0, 0, 3, (const uint32_t[]){0}, 1);
    reads("0500FB", 0, 0, POLLENCART_KIND_DELIVER, (const uint32_t[]){0}, 1);
    damaged("0002FE");
    damaged("0100000000050000001010DA");
    damaged("020001000000060000000403F0");
    damaged("0300FD");
    damaged("0500FB");
    for (uint32_t n = 0; n < 256; n++) {
        writes(&(struct frame){0, {n}}, n < 2 || n > NODES ? POLLENCART_START : 0);
        writes(&(struct frame){1, {255 - n, n * 0x01020304u, 0xFFFFFFFFu - n * 0x00010001u, n}}, 0);
        writes(&(struct frame){2, {n, 255 - n, 0x80000000u + n, n * 0x01000001u, n}}, n > 3 ? POLLENCART_OUTCOME : 0);
        writes(&(struct frame){2, {n, n, n * 0x10010000u, 0xFFFFFFFFu - n, n % 4}}, 0);
        writes(&(struct frame){3, {n}}, 0);
        writes(&(struct frame){5, {n}}, 0);
    }
    return told("frames");
}
