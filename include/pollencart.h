/* pollencart.h: the proved exchange of scrubber findings, for C. docs/PROTOCOL.md says what tables, steps, frames and journals are.
 *
 * No call keeps state, allocates, or looks at anything but what it is lent. Every input, however wrong, gets a definite answer;
 * a call that refuses answers one of the numbers below. What C must keep, since no call can test it:
 *   - each pointer is valid for as many elements as its length says, those that counts, lengths and places are stored to for one;
 *   - each length is the true one;
 *   - what one call is lent does not overlap, and no other thread writes to it during the call.
 *
 * Fields are as wide as in the frame: a node, an outcome, a verdict and the n of a start's frame are one byte, all else is 32 bits.
 * C cuts a wider number to that before the library sees it: an int of 256 for a node arrives as node 0 and is not refused.
 * Compare wider numbers yourself first; -Wconversion shows where C would cut one.
 *
 * A null pointer is allowed where its length is 0, and gets what any list of length 0 gets:
 *   check_line and read_line 18 at place 0 (read_line of a frame into no words 17); kind and field 0; the frame writers 17 (after 15 for n and 2 for the outcome) and the length 0;
 *   fresh, write, session, purge, deliver and count_node 1, and counts of 0; summary, acknowledgement, column, held, mark and record 0;
 *   deliver into no list 0 where nothing is due, else 7, and counts of 0;
 *   apply_line 18 at place 0 and counts of 0 for no line, whatever the table, and 1 for a step's line and no table;
 *   apply_lines 0, counts of 0 and the places 0 for no lines on a sound table, and 1 with the same zeros for no table;
 *   count 0, and counts of 0; replay the text `BAD 1 15 0` for no journal, and the answer 0 for no table or no out.
 */
#ifndef POLLENCART_H
#define POLLENCART_H

#include <stddef.h>
#include <stdint.h>

#ifdef __cplusplus
extern "C" {
#endif

/* The version of this header, generated: version */
#define POLLENCART_VERSION "0.2.0"
#define POLLENCART_VERSION_MAJOR 0
#define POLLENCART_VERSION_MINOR 2
#define POLLENCART_VERSION_PATCH 0
/* end of version */

/* The version of the library that is linked, as POLLENCART_VERSION is that of the header. It ends in a zero byte and is never null. */
const char *pollencart_version(void);

/* Refusal numbers; 0 is none. generated: refusals */
#define POLLENCART_UNSOUND 1       /* the table is not sound, or a fresh table's count or length, or the records to count, are wrong */
#define POLLENCART_OUTCOME 2       /* a session's outcome is above 3 */
#define POLLENCART_NODE 3          /* a node number is n or more */
#define POLLENCART_TWICE 4         /* a session names one node twice */
#define POLLENCART_CLOCK 5         /* a write's timestamp is not above, or a session's reading is below, the node's own summary entry */
#define POLLENCART_FULL 6          /* a write finds 64 records held, or a finishing side would hold more than 64 */
#define POLLENCART_LIST_SHORT 7    /* the lent list has fewer than four words for each record that is due */
#define POLLENCART_KIND 11         /* the kind is unknown */
#define POLLENCART_DIGIT 12        /* a character is not 0 to 9 or A to F */
#define POLLENCART_SUM 13          /* the bytes do not add up to zero */
#define POLLENCART_UNENDED 14      /* bytes are left but no LF follows */
#define POLLENCART_START 15        /* the first line is no start, a later line is one, or a start's n is not 2 to 16 */
#define POLLENCART_LONG 16         /* the journal exceeds 65,536 bytes */
#define POLLENCART_ROOM 17         /* the lent bytes are too few for the frame, or the lent words for a line's values */
#define POLLENCART_ODD 18          /* the digits are none or odd in number */
#define POLLENCART_LENGTH 19       /* the length is not the kind's */
#define POLLENCART_LINE_OUTCOME 20 /* a line's outcome is above 3 */
#define POLLENCART_ON_COLUMNS 26   /* a delivery on a column table */
/* end of refusals */

/* What is wrong, as in the list above: for a number that is not there and for 0 it says so. It ends in a zero byte and is never null.
 * This call and pollencart_version are plain C (c/about.c) beside the proved calls: constants. */
const char *pollencart_refusal_text(uint32_t number);

/* The kinds of frames. */
#define POLLENCART_KIND_START 0
#define POLLENCART_KIND_WRITE 1
#define POLLENCART_KIND_SESSION 2
#define POLLENCART_KIND_PURGE 3
#define POLLENCART_KIND_DELIVER 5

/* The outcomes of a session: which sides finish. */
#define POLLENCART_FINISH_NEITHER 0
#define POLLENCART_FINISH_A 1
#define POLLENCART_FINISH_B 2
#define POLLENCART_FINISH_BOTH 3

/* The classes of verdicts, by the first byte of each; a class goes up to the next one's first, the last up to FF. */
#define POLLENCART_VERDICT_NOT_READ 0x00
#define POLLENCART_VERDICT_CACHE 0x10    /* answered from page cache: scrubbed */
#define POLLENCART_VERDICT_GOOD 0x20     /* read from platter, good: scrubbed and touched */
#define POLLENCART_VERDICT_BAD 0x30      /* read from platter, bad: scrubbed and touched */
#define POLLENCART_VERDICT_REPAIRED 0x40 /* repaired and read back: scrubbed and touched */
#define POLLENCART_VERDICT_RESERVED 0x50

/* The bytes of the longest frame, its LF included. */
#define POLLENCART_FRAME 27

/* The words of a table, which tell its form: of vectors (4,625 before version 0.2.0) or of columns. */
#define POLLENCART_TABLE 4641
#define POLLENCART_COLUMN_TABLE 8225

/* The words of a list that every delivery fits in: 64 records of 4. */
#define POLLENCART_LIST 256

/* Frames: one line of uppercase hexadecimal. The four readers take a line without its LF and leave it as it is.
 *
 * check_line: 0 if the line is a frame, else the first that applies of the numbers below, and through place where in the line, from 0, the
 *             first character at fault stands (at most line_len; 0 for a frame):
 *               12  the first character that is no digit
 *               18  line_len: a digit lacks after the last (0 for an empty line)
 *               11  0, the kind's first digit
 *               19  too short: line_len; too long: the kind's number of digits, the first character too many
 *               20  the outcome byte's first digit, 22 for a session
 *               13  the check byte's first digit, line_len - 2
 *               15  0: a start's n is not 2 to 16
 * read_line:  the same, and for a frame the kind and all fields at once into the first POLLENCART_VALUES of the words lent: values[0] is the
 *             kind, then come its fields as below, then 0. A refused line leaves the words as they are, and so does 17, given after the
 *             others, at place 0, where values_len is below POLLENCART_VALUES.
 * kind:       0 start, 1 write, 2 session, 3 purge, 5 delivery (POLLENCART_KIND_..). 0 for a line that check_line refuses: ask it first.
 * field:      the field at this place among the kind's fields, from 0.
 *               start: n              write: node, timestamp, block, verdict
 *               purge: node           session: a, b, ca, cb, outcome
 *               delivery: node
 *             0 for a line that check_line refuses, and for a place at which the kind has no field.
 *
 * Before version 0.2.0 there was pollencart_check, without a place, and 11 stood for 18, 19 and 20 too. It is gone, and POLLENCART_SHAPE with it, so that
 * code for that version does not compile, and code compiled with its header does not link, instead of taking one number for another. */
#define POLLENCART_VALUES 6 /* the words that read_line fills: the kind and five fields */
uint32_t pollencart_check_line(const uint8_t *line, size_t line_len, size_t *place);
uint32_t pollencart_read_line(const uint8_t *line, size_t line_len, uint32_t *values, size_t values_len, size_t *place);
uint32_t pollencart_kind(const uint8_t *line, size_t line_len);
uint32_t pollencart_field(const uint8_t *line, size_t line_len, uint32_t index);

/* The writers put the frame, LF included, at the beginning of out, store its length through length, answer 0 and change
 * nothing else. A refused call writes nothing to out, stores the length 0 and answers the number:
 *   start:   15 if n is not 2 to 16, then 17 if out_len is below 7;
 *   write:   17 if out_len is below 25;
 *   session: 2 if outcome is above 3, then 17 if out_len is below 27;
 *   purge:   17 if out_len is below 7;
 *   deliver: 17 if out_len is below 7.
 * POLLENCART_FRAME bytes are enough for each. */
uint32_t pollencart_frame_start(uint8_t *out, size_t out_len, uint8_t n, uint32_t *length);
uint32_t pollencart_frame_write(uint8_t *out, size_t out_len, uint8_t node, uint32_t timestamp, uint32_t block, uint8_t verdict,
                                uint32_t *length);
uint32_t pollencart_frame_session(uint8_t *out, size_t out_len, uint8_t a, uint8_t b, uint32_t ca, uint32_t cb, uint8_t outcome,
                                  uint32_t *length);
uint32_t pollencart_frame_purge(uint8_t *out, size_t out_len, uint8_t node, uint32_t *length);
uint32_t pollencart_frame_deliver(uint8_t *out, size_t out_len, uint8_t node, uint32_t *length);

/* A table is POLLENCART_TABLE or POLLENCART_COLUMN_TABLE words, kept by the caller between calls. Both hold the same findings; they differ in what a
 * node keeps of the others. A vector table is the smaller one, and delivers; it is for clocks that agree, since one slow clock stops every purge.
 * In a column table a slow clock holds up nothing, and nothing is delivered. A cluster keeps the form that it began with.
 *
 *   vectors     columns
 *   word 0      word 0       n, the number of nodes, 2 to 16; nodes are numbered from 0
 *   from 1                   16 rows of 16, a row a node: its summary. Entry o: the node has every record of o up to this timestamp
 *   from 257                 16 rows of 16: its acknowledgements. Entry q: what the node knows that q has acknowledged
 *               from 1       16 nodes of 16 rows of 16: node p's column for q, from 1 + 256 p + 16 q on. Entry o: p knows that q has every
 *                            record of o up to this timestamp. Its column for itself is its summary
 *   from 513    from 4097    16 words: the number of records in its log, 0 to 64
 *   from 529    from 4113    16 logs of 64 rows of 4: origin, timestamp, block, verdict
 *   from 4625   from 8209    16 words: its mark, the timestamp up to which its records were delivered, 0 at first; in a column table kept and not read
 *
 * It is sound if it has so many words, n is 2 to 16, and in each log of a node below n at most 64 records are held, each with
 * an origin below n and a verdict of at most 255; of marks, summaries, acknowledgements and columns nothing is asked. Rows, columns and entries at
 * or beyond n are never read or written by a step.
 *
 * fresh: n is set and every other word becomes 0; table_len says which form it is. Answers 1 and changes nothing if n is not 2 to 16 or table_len is
 * neither length. This call alone takes words that are not a table yet. */
uint32_t pollencart_fresh(uint32_t *table, size_t table_len, uint32_t n);

/* The four actions change the table and answer 0. A refused call changes no word of the table, stores 0 for each count and
 * answers the first number that applies, in the order in which they stand below.
 *
 * write:   the node's finding goes after the last record of its log, and its own summary entry becomes the timestamp.
 *          Refused with 1, 3, 5 (the timestamp is not above the own entry) or 6 (64 are held).
 * session: a and b exchange at readings ca and cb. outcome: 0 neither side finishes, 1 only a, 2 only b, 3 both
 *          (POLLENCART_FINISH_..). What was carried to each is stored through to_a and to_b, 0 for a side that does not finish.
 *          In a column table a side that finishes also has, in each of its columns, entry by entry the greater of what both had at the start, and its
 *          own column takes the partner's own too. A side that does not finish has its own summary entry at the reading; in a vector table its own
 *          acknowledgement is then the smallest entry of its summary.
 *          Refused with 1, 2, 3, 4, 5 (a reading is below its node's own entry) or 6 (a finishing side would hold more than 64).
 * purge:   the node's records that are not above the smallest of its acknowledgements, and not above its mark, leave; how many is
 *          stored through removed. Deliver first: before its first delivery nothing leaves a node. The node whose acknowledgement
 *          is that smallest, the lowest among equals, is stored through lags, whether a record left or not: what is still held has
 *          a timestamp above that acknowledgement or above the mark.
 *          In a column table a record leaves if each of the node's columns has for its origin an entry that is not below its timestamp. No delivery is
 *          needed. Lags is the first node whose column has the smallest of all n times n entries, whether a record waits for it or not.
 *          No row before the first record that leaves is stored to, and where none leaves no word of the table. Refused with 1 or 3, and then lags is 0.
 * deliver: what has become certain at the node is written into list, in the order that is the same at every node. Due are the records of
 *          its log with a timestamp above its mark and not above the smallest of its summary entries: no other record up to there can
 *          come any more. They come by timestamp, then origin, from list[0] on, four words each as in a log (origin, timestamp, block,
 *          verdict); how many they are is stored through delivered, and the rest of the list stays as it is. Then the mark becomes that
 *          smallest entry, where that is greater, so that no record is delivered twice. The log stays: a purge shortens it.
 *          All that a node is given, delivery after delivery, is a beginning of what any other node is given, or the other way round.
 *          Refused with 1, 3, 26 (a column table) or 7 (list_len is below four for each record that is due); refused it leaves the list as it is too.
 *          POLLENCART_LIST words are always enough; a list of any length is taken. */
uint32_t pollencart_write(uint32_t *table, size_t table_len, uint8_t node, uint32_t timestamp, uint32_t block, uint8_t verdict);
uint32_t pollencart_session(uint32_t *table, size_t table_len, uint8_t a, uint8_t b, uint32_t ca, uint32_t cb, uint8_t outcome,
                            uint32_t *to_a, uint32_t *to_b);
uint32_t pollencart_purge(uint32_t *table, size_t table_len, uint8_t node, uint32_t *removed, uint32_t *lags);
uint32_t pollencart_deliver(uint32_t *table, size_t table_len, uint8_t node, uint32_t *list, size_t list_len, uint32_t *delivered);

/* From lines to the table. Both calls read what check_line reads and do what the four actions do, and nothing else; a refusal
 * changes no word of the table. Lines are those of a table that is there already: a start among them is refused with 15.
 * A delivery's line raises the mark and counts what was due, as with a list that has room for all, so that 7 never comes here; its
 * records go to no one. Who wants them calls pollencart_deliver.
 *
 * apply_line:  one line, without its LF. Answers 0, or the line's own refusal with its place as check_line gives them (15 at place
 *              0 also for a start), which comes before anything about the table; then the step's: the first of 1 to 6, or 26 after 3, that
 *              applies, with place 0. What the step reports is stored through first and second: for a session what was carried to a and to b,
 *              for a purge what was removed and the node that lags, for a delivery what was due and 0, for a write 0 and 0. Both are
 *              0 if refused.
 * apply_lines: many lines, each ended by its LF, one after another, with one look over the table at the beginning. A refused step is
 *              counted and passed over; the first refused line ends the call, and the steps before it stay applied.
 *              Answers 0 where the end of the lines was reached, the number of check_line for the refused line, 14 where bytes are
 *              left that no LF ends. Stores how many steps there were through applied, how many of them were refused through
 *              refused, through stopped the place where the reading stopped (lines_len at the end, else where the refused line
 *              begins), and through place the fault's place in that line, from 0: that of check_line, for 14 the number of bytes
 *              left, 0 at the end. That line is the one numbered *applied + 1, from 1. There is no limit on lines_len.
 *              A table that is not sound is answered with 1 before any line is read: zeros are stored.
 *
 * To go on after a refused line, look for its LF and call again with what follows it:
 *
 *   size_t at = 0, applied, refused, stopped, place;
 *   uint32_t number;
 *   while ((number = pollencart_apply_lines(table, POLLENCART_TABLE, lines + at, len - at, &applied, &refused, &stopped, &place)) != 0) {
 *       report(number, lines + at + stopped, place);
 *       const uint8_t *lf = memchr(lines + at + stopped, '\n', len - at - stopped);
 *       if (number == POLLENCART_UNSOUND || lf == NULL)
 *           break;
 *       at = (size_t)(lf - lines) + 1;
 *   }
 *
 * With 14 the bytes from at + stopped on are the beginning of a line: keep them in front of what comes next. */
uint32_t pollencart_apply_line(uint32_t *table, size_t table_len, const uint8_t *line, size_t line_len, uint32_t *first, uint32_t *second,
                               size_t *place);
uint32_t pollencart_apply_lines(uint32_t *table, size_t table_len, const uint8_t *lines, size_t lines_len, size_t *applied,
                                size_t *refused, size_t *stopped, size_t *place);

/* Reading a table. Each call answers 0 where there is none: for a table that is not sound, for a node, origin, column or `of` of n or
 * more, for an index at or beyond the held number, for a word above 3. 0 is also a value that may stand there.
 *
 * summary:         the node's summary entry for the origin; in a column table that of its column for itself.
 * acknowledgement: the node's acknowledgement entry of another; 0 in a column table.
 * column:          the entry for the origin of the node's column for another; 0 in a vector table.
 * held:            the number of records in the node's log.
 * mark:            the timestamp up to which the node's records were delivered.
 * record:          one word of the record at this index of the node's log, from 0, oldest first.
 *                  word: 0 origin, 1 timestamp, 2 block, 3 verdict. */
uint32_t pollencart_summary(const uint32_t *table, size_t table_len, uint8_t node, uint8_t origin);
uint32_t pollencart_acknowledgement(const uint32_t *table, size_t table_len, uint8_t node, uint8_t of);
uint32_t pollencart_column(const uint32_t *table, size_t table_len, uint8_t node, uint8_t column, uint8_t origin);
uint32_t pollencart_held(const uint32_t *table, size_t table_len, uint8_t node);
uint32_t pollencart_mark(const uint32_t *table, size_t table_len, uint8_t node);
uint32_t pollencart_record(const uint32_t *table, size_t table_len, uint8_t node, uint32_t index, uint32_t word);

/* The verdict count. A block is a pair of origin and block number: the same number at another origin is another block. However
 * often a block was read, it is counted once:
 *   scrubbed  the different blocks with at least one record whose verdict is 10 to 4F
 *   touched   the different blocks with at least one record whose verdict is 20 to 4F; each of them is scrubbed too
 *   gap       scrubbed less touched: blocks that were logged as scrubbed while no drive was read
 * A block answered from page cache and read from platter, in either order, counts once in scrubbed, once in touched and not in
 * the gap. In which order records stand, and their timestamps, play no part. All three are stored, 0 if refused.
 *
 * count:      over records of four words as in a log, a delivery's list for instance. Refused with 1 if words_len is above 256 or
 *             not a multiple of 4, or if a verdict is above 255. Any origin is taken, also one that is no node.
 * count_node: over a node's log in a table. Refused with 1 if the table is not sound, then with 3 if the node is n or more.
 *
 * Before version 0.2.0 a block counted once for each of its records, and no gap was stored. */
uint32_t pollencart_count(const uint32_t *words, size_t words_len, uint32_t *scrubbed, uint32_t *touched, uint32_t *gap);
uint32_t pollencart_count_node(const uint32_t *table, size_t table_len, uint8_t node, uint32_t *scrubbed, uint32_t *touched,
                               uint32_t *gap);

/* The replay: reads a journal, runs its steps on a fresh vector table and puts the text that the program `replay` prints at the beginning
 * of out. Answers the number of bytes written, 0 to POLLENCART_TEXT; no zero byte ends them, and no byte after them is changed.
 *
 * Answers 0 and changes nothing if table_len is not POLLENCART_TABLE or out_len is below POLLENCART_TEXT, which is enough for every
 * text. Otherwise there is a text, never empty, and it does not depend on what the table held:
 *   - the journal came to its end: N, STEPS and REFUSED, then a line a node. A refused step is counted and passed over. A delivery
 *     is a step; its records go to no one, as with apply_lines.
 *     The table is a fresh one after all steps, sound.
 *   - a line was refused: `BAD line number place`, number and place as check_line gives them; 14 for bytes that no LF ends, its
 *     place the number of bytes left; and 15 at place 0 also for a first line that is no start, for a later one that is, and for
 *     an empty journal (BAD 1 15 0).
 *     If it was the first line, no word of the table is changed, sound or not; if a later one, the table is a fresh one after
 *     the steps before that line, sound.
 *   - journal_len is above POLLENCART_JOURNAL: `BAD 0 16`. Its bytes play no part, no word of the table is changed. */
#define POLLENCART_TEXT 12288    /* the bytes that out must have at least */
#define POLLENCART_JOURNAL 65536 /* the bytes that a journal may have at most */
uint32_t pollencart_replay(const uint8_t *journal, size_t journal_len, uint32_t *table, size_t table_len, uint8_t *out, size_t out_len);

#ifdef __cplusplus
}
#endif

#endif
