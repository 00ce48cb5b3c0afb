/* What the three fuzz targets share: the library, the plain C version beside it, lent parts between
 * two guard pages, and the end of a run whose two sides differ. */
#include "layout.h"
#include "pollencart.h"

#include <stdio.h>
#include <stdlib.h>
#include <string.h>
#include <sys/mman.h>

uint32_t plain_check_line(const uint8_t *, size_t, size_t *);
uint32_t plain_read_line(const uint8_t *, size_t, uint32_t *, size_t, size_t *);
uint32_t plain_kind(const uint8_t *, size_t);
uint32_t plain_field(const uint8_t *, size_t, uint32_t);
uint32_t plain_count(const uint32_t *, size_t, uint32_t *, uint32_t *, uint32_t *);
uint32_t plain_count_node(const uint32_t *, size_t, uint8_t, uint32_t *, uint32_t *, uint32_t *);
uint32_t plain_fresh(uint32_t *, size_t, uint32_t);
uint32_t plain_write(uint32_t *, size_t, uint8_t, uint32_t, uint32_t, uint8_t);
uint32_t plain_session(uint32_t *, size_t, uint8_t, uint8_t, uint32_t, uint32_t, uint8_t, uint32_t *, uint32_t *);
uint32_t plain_purge(uint32_t *, size_t, uint8_t, uint32_t *, uint32_t *);
uint32_t plain_deliver(uint32_t *, size_t, uint8_t, uint32_t *, size_t, uint32_t *);
uint32_t plain_apply_line(uint32_t *, size_t, const uint8_t *, size_t, uint32_t *, uint32_t *, size_t *);
uint32_t plain_apply_lines(uint32_t *, size_t, const uint8_t *, size_t, size_t *, size_t *, size_t *, size_t *);
uint32_t plain_summary(const uint32_t *, size_t, uint8_t, uint8_t);
uint32_t plain_acknowledgement(const uint32_t *, size_t, uint8_t, uint8_t);
uint32_t plain_column(const uint32_t *, size_t, uint8_t, uint8_t, uint8_t);
uint32_t plain_held(const uint32_t *, size_t, uint8_t);
uint32_t plain_mark(const uint32_t *, size_t, uint8_t);
uint32_t plain_record(const uint32_t *, size_t, uint8_t, uint32_t, uint32_t);
uint32_t plain_replay(const uint8_t *, size_t, uint32_t *, size_t, uint8_t *, size_t);

int LLVMFuzzerTestOneInput(const uint8_t *data, size_t size);

enum { PAGE = 65536 };

/* A part of memory with a page before it and one after it that nothing may touch. */
struct part { uint8_t *first; size_t size; };

/* Lends `size` bytes of the part, at its end, or at its beginning where `low` says so. */
static inline uint8_t *lend(struct part *part, size_t most, size_t size, int low)
{
    if (!part->first) {
        part->size = (most + PAGE - 1) / PAGE * PAGE;
        uint8_t *at = mmap(NULL, part->size + 2 * PAGE, PROT_READ | PROT_WRITE, MAP_PRIVATE | MAP_ANONYMOUS, -1, 0);
        if (at == MAP_FAILED || mprotect(at, PAGE, PROT_NONE) || mprotect(at + PAGE + part->size, PAGE, PROT_NONE))
            abort();
        part->first = at + PAGE;
    }
    return low ? part->first : part->first + part->size - size;
}

/* Ends the run, which libFuzzer then reports with its input. */
static inline void same(int it_is, const char *what)
{
    if (!it_is) {
        fprintf(stderr, "the library and the plain version differ: %s\n", what);
        abort();
    }
}
