/* Runs a list of calls of the C interface, given as words, and writes down every answer, every word
 * of the table after each step and every byte of each frame and text. It is the one place where the
 * tests meet the library. Each lent part ends where a page begins that nothing may touch, so that a
 * call that reads or writes beyond it is killed. It is a program of its own, so that a call
 * that is killed ends it alone, and takes the calls from a shared file. */
#include "pollencart.h"

/* Declared here, so that no header of the C library is needed. */
void *mmap(void *, size_t, int, int, int, long);
int mprotect(void *, size_t, int);
int open(const char *, int, ...);
long read(int, void *, size_t);
long write(int, const void *, size_t);
void abort(void);

enum { PAGE = 65536, READ_WRITE = 3, PRIVATE = 2, SHARED = 1, ANONYMOUS = 32, OPEN_READ_WRITE = 2 };
enum { END, TABLE, FRESH, WRITE, SESSION, PURGE, LINE, FRAME, REPLAY, COUNT, COUNT_NODE, LOOK, POKE, APPLY_LINE, APPLY_LINES, DELIVER };

/* A part that callers lend: `size` bytes that end at the guard. */
struct lent { uint8_t *guard; };

static struct lent the_table, the_bytes, the_list, the_out;
static uint32_t *table;
static uint32_t length;

static void prepare(struct lent *part, size_t most)
{
    size_t size = (most + PAGE - 1) / PAGE * PAGE;
    uint8_t *at = mmap(0, size + PAGE, READ_WRITE, PRIVATE | ANONYMOUS, -1, 0);
    if (at == (void *)-1 || mprotect(at + size, PAGE, 0))
        abort();
    part->guard = at + size;
}

static uint8_t *lend(struct lent *part, const void *from, size_t size)
{
    uint8_t *at = part->guard - size;
    if (from)
        __builtin_memcpy(at, from, size);
    return at;
}

/* Copies word by word where it can. */
static uint32_t *put(uint32_t *out, const void *from, size_t bytes)
{
    const uint32_t *words = from;
    if ((uintptr_t)from % 4) {
        __builtin_memcpy(out, from, bytes);
        return out + (bytes + 3) / 4;
    }
    for (size_t i = 0; i < bytes / 4; i++)
        out[i] = words[i];
    if (bytes % 4)
        __builtin_memcpy(out + bytes / 4, words + bytes / 4, bytes % 4);
    return out + (bytes + 3) / 4;
}

/* The answers of read into this many words: number, place, and the words, which begin as A5A5A5A5. */
static uint32_t *values(const uint8_t *at, uint32_t size, uint32_t many, uint32_t *out)
{
    size_t place = 0xFFFFFFFF;
    uint32_t *words = (uint32_t *)(void *)lend(&the_list, 0, 4 * (size_t)many);
    __builtin_memset(words, 0xA5, 4 * (size_t)many);
    *out++ = pollencart_read_line(at, size, words, many, &place);
    *out++ = (uint32_t)place;
    return put(out, words, 4 * (size_t)many);
}

/* The answers to a line: check and its place, kind, fields 0 to 5, a field far out, what read gives into seven words, its number and place
 * with five and whether those stayed, and whether the line stayed. */
static uint32_t *line(const uint32_t *bytes, uint32_t size, uint32_t *out)
{
    const uint8_t *at = lend(&the_bytes, bytes, size);
    size_t place = 0xFFFFFFFF;
    *out++ = pollencart_check_line(at, size, &place);
    *out++ = (uint32_t)place;
    *out++ = pollencart_kind(at, size);
    for (uint32_t i = 0; i < 6; i++)
        *out++ = pollencart_field(at, size, i);
    *out++ = pollencart_field(at, size, 0xFFFFFFFF);
    out = values(at, size, 7, out);
    uint32_t *few = out;
    out = values(at, size, 5, out);
    uint32_t stayed = 1;
    for (uint32_t i = 2; i < 7; i++)
        stayed = stayed && few[i] == 0xA5A5A5A5;
    few[2] = stayed;
    out = few + 3;
    *out++ = __builtin_memcmp(at, bytes, size) == 0;
    return out;
}

/* The answers to a frame's writer: refusal, length, and all the bytes that it was lent. */
static uint32_t *frame(const uint32_t *c, uint32_t *out)
{
    uint32_t size = c[0], reported = 0xFFFFFFFF, answer = 0;
    uint8_t *at = lend(&the_out, 0, size);
    __builtin_memset(at, 0xA5, size);
    if (c[1] == 0)
        answer = pollencart_frame_start(at, size, (uint8_t)c[2], &reported);
    else if (c[1] == 1)
        answer = pollencart_frame_write(at, size, (uint8_t)c[2], c[3], c[4], (uint8_t)c[5], &reported);
    else if (c[1] == 2)
        answer = pollencart_frame_session(at, size, (uint8_t)c[2], (uint8_t)c[3], c[4], c[5], (uint8_t)c[6], &reported);
    else if (c[1] == 3)
        answer = pollencart_frame_purge(at, size, (uint8_t)c[2], &reported);
    else
        answer = pollencart_frame_deliver(at, size, (uint8_t)c[2], &reported);
    *out++ = answer;
    *out++ = reported;
    return put(out, at, size);
}

/* The answers to a replay: length, the text, and the table's words. */
static uint32_t *replay(const uint32_t *c, uint32_t *out)
{
    uint32_t size = c[0], words = c[1], room = c[2];
    const uint8_t *journal = lend(&the_bytes, c + 3, size);
    uint32_t *scratch = (uint32_t *)(void *)lend(&the_list, 0, 4 * (size_t)words);
    __builtin_memset(scratch, 0xA5, 4 * (size_t)words);
    uint8_t *text = lend(&the_out, 0, room);
    __builtin_memset(text, 0xA5, room);
    *out++ = pollencart_replay(journal, size, scratch, words, text, room);
    out = put(out, text, room);
    return put(out, scratch, 4 * (size_t)words);
}

/* One step on the table; then the table's words. */
static uint32_t *step(uint32_t op, const uint32_t *c, uint32_t *out)
{
    uint32_t x = 0xFFFFFFFF, y = 0xFFFFFFFF, answer;
    if (op == FRESH)
        answer = pollencart_fresh(table, length, c[0]);
    else if (op == WRITE)
        answer = pollencart_write(table, length, (uint8_t)c[0], c[1], c[2], (uint8_t)c[3]);
    else if (op == SESSION)
        answer = pollencart_session(table, length, (uint8_t)c[0], (uint8_t)c[1], c[2], c[3], (uint8_t)c[4], &x, &y);
    else
        answer = pollencart_purge(table, length, (uint8_t)c[0], &x, &y);
    *out++ = answer;
    *out++ = x;
    *out++ = y;
    return put(out, table, 4 * (size_t)length);
}

/* A delivery into a list of these words; then the list's words and the table's. */
static uint32_t *deliver(uint32_t node, uint32_t many, const uint32_t *words, uint32_t *out)
{
    uint32_t *list = (uint32_t *)(void *)lend(&the_list, words, 4 * (size_t)many), delivered = 0xFFFFFFFF;
    *out++ = pollencart_deliver(table, length, (uint8_t)node, list, many, &delivered);
    *out++ = delivered;
    *out++ = 0xFFFFFFFF;
    out = put(out, list, 4 * (size_t)many);
    return put(out, table, 4 * (size_t)length);
}

/* One line on the table, or many: the number, what is stored, the table's words, and whether the bytes stayed. */
static uint32_t *apply(uint32_t op, const uint32_t *bytes, uint32_t size, uint32_t *out)
{
    const uint8_t *at = lend(&the_bytes, bytes, size);
    uint32_t first = 0xFFFFFFFF, second = 0xFFFFFFFF;
    size_t applied = (size_t)-1, refused = (size_t)-1, stopped = (size_t)-1, place = (size_t)-1;
    if (op == APPLY_LINE) {
        *out++ = pollencart_apply_line(table, length, at, size, &first, &second, &place);
        *out++ = first, *out++ = second, *out++ = (uint32_t)place;
    } else {
        *out++ = pollencart_apply_lines(table, length, at, size, &applied, &refused, &stopped, &place);
        *out++ = (uint32_t)applied, *out++ = (uint32_t)refused, *out++ = (uint32_t)stopped, *out++ = (uint32_t)place;
        *out++ = (uint32_t)((applied | refused | stopped | place) >> 32);
    }
    *out++ = __builtin_memcmp(at, bytes, size) == 0;
    return put(out, table, 4 * (size_t)length);
}

/* The count of a list of words, or of a node's log: the number, scrubbed, touched, the gap, and whether the words counted stayed. */
static uint32_t *count(uint32_t op, const uint32_t *c, uint32_t *out)
{
    uint32_t number, scrubbed = 0xFFFFFFFF, touched = 0xFFFFFFFF, gap = 0xFFFFFFFF, stayed = 1;
    if (op == COUNT) {
        const uint32_t *list = (const uint32_t *)(const void *)lend(&the_list, c + 1, 4 * (size_t)c[0]);
        number = pollencart_count(list, c[0], &scrubbed, &touched, &gap);
        stayed = __builtin_memcmp(list, c + 1, 4 * (size_t)c[0]) == 0;
    } else {
        number = pollencart_count_node(table, length, (uint8_t)c[0], &scrubbed, &touched, &gap);
    }
    *out++ = number, *out++ = scrubbed, *out++ = touched, *out++ = gap, *out++ = stayed;
    return out;
}

static uint32_t *look(const uint32_t *c, uint32_t *out)
{
    *out++ = pollencart_summary(table, length, (uint8_t)c[0], (uint8_t)c[2]);
    *out++ = pollencart_acknowledgement(table, length, (uint8_t)c[0], (uint8_t)c[2]);
    *out++ = pollencart_column(table, length, (uint8_t)c[0], (uint8_t)c[1], (uint8_t)c[2]);
    *out++ = pollencart_held(table, length, (uint8_t)c[0]);
    *out++ = pollencart_mark(table, length, (uint8_t)c[0]);
    *out++ = pollencart_record(table, length, (uint8_t)c[0], c[3], c[4]);
    return put(out, table, 4 * (size_t)length);
}

/* Runs the calls and gives the number of words of answers. */
static size_t execute(const uint32_t *c, uint32_t *answers)
{
    uint32_t *out = answers;
    if (!the_table.guard) {
        prepare(&the_table, 4 * 12288), prepare(&the_bytes, 262144), prepare(&the_list, 4 * 12288), prepare(&the_out, 65536);
    }
    for (;; ) {
        uint32_t op = *c++;
        switch (op) {
        case TABLE:
            length = *c++;
            table = (uint32_t *)(void *)lend(&the_table, c, 4 * (size_t)length);
            c += length;
            break;
        case FRESH: out = step(op, c, out), c += 1; break;
        case WRITE: out = step(op, c, out), c += 4; break;
        case SESSION: out = step(op, c, out), c += 5; break;
        case PURGE: out = step(op, c, out), c += 1; break;
        case DELIVER: out = deliver(c[0], c[1], c + 2, out), c += 2 + c[1]; break;
        case LINE: out = line(c + 1, c[0], out), c += 1 + (c[0] + 3) / 4; break;
        case FRAME: out = frame(c, out), c += 7; break;
        case REPLAY: out = replay(c, out), c += 3 + (c[0] + 3) / 4; break;
        case COUNT:
        case COUNT_NODE: out = count(op, c, out), c += op == COUNT ? 1 + c[0] : 1; break;
        case LOOK: out = look(c, out), c += 5; break;
        case APPLY_LINE:
        case APPLY_LINES: out = apply(op, c + 1, c[0], out), c += 1 + (c[0] + 3) / 4; break;
        case POKE:
            if (c[0] < length)
                table[c[0]] = c[1];
            c += 2;
            break;
        default: return (size_t)(out - answers);
        }
    }
}

/* The shared file has the calls in its first half and the answers in its second; a byte of standard
 * input asks, eight bytes of standard output answer. */
int main(int argc, char **argv)
{
    unsigned char ask;
    size_t half = (size_t)16 << 20;
    int file = argc == 2 ? open(argv[1], OPEN_READ_WRITE) : -1;
    uint8_t *shared = mmap(0, 2 * half, READ_WRITE, SHARED, file, 0);
    if (file < 0 || shared == (void *)-1)
        return 2;
    while (read(0, &ask, 1) == 1) {
        uint64_t many = execute((const uint32_t *)(const void *)shared, (uint32_t *)(void *)(shared + half));
        if (write(1, &many, sizeof many) != sizeof many)
            return 2;
    }
    return 0;
}
