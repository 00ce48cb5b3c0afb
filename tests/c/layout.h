/* Where the parts of a table stand, in both forms, and how large things are: the one file of the C programs (these
 * tests, the fuzz targets, bench/plain.c) that knows it. It takes nothing from pollencart.h, whose
 * numbers tests/c/tables.c compares with these. */
#ifndef LAYOUT_H
#define LAYOUT_H

#include <stddef.h>
#include <stdint.h>

/* Each part begins where the one before it ends. A column table has its columns from word 1 on, and what stands behind the rows
 * FURTHER words further than in a vector table. */
enum {
    NODES = 16,
    ROOM = 64,   /* records in a log */
    RECORD = 4,  /* words of a record: origin, timestamp, block, verdict */
    COUNT = 0,
    SUMMARY = COUNT + 1,
    ACKNOWLEDGEMENT = SUMMARY + NODES * NODES,
    HELD = ACKNOWLEDGEMENT + NODES * NODES,
    LOG = HELD + NODES,
    MARK = LOG + NODES * ROOM * RECORD,
    WORDS = MARK + NODES,
    COLUMN = COUNT + 1,
    FURTHER = NODES * NODES * NODES - 2 * NODES * NODES,
    COLUMN_WORDS = WORDS + FURTHER,
    LIST = ROOM * RECORD, /* words of a list that every delivery fits in */
    TEXT = 12288,    /* bytes that a replay's text has room in */
    JOURNAL = 65536  /* bytes of a journal at most */
};

static inline size_t summary_at(uint32_t p, uint32_t o) { return SUMMARY + (size_t)NODES * p + o; }
static inline size_t acknowledgement_at(uint32_t p, uint32_t q) { return ACKNOWLEDGEMENT + (size_t)NODES * p + q; }
static inline size_t column_at(uint32_t p, uint32_t q, uint32_t o) { return COLUMN + (size_t)NODES * ((size_t)NODES * p + q) + o; }
static inline size_t held_at(uint32_t p) { return HELD + (size_t)p; }
static inline size_t mark_at(uint32_t p) { return MARK + (size_t)p; }
static inline size_t record_at(uint32_t p, uint32_t row, uint32_t word) { return LOG + (size_t)RECORD * ((size_t)ROOM * p + row) + word; }

#endif
