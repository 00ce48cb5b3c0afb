/* A scrubber daemon in small: it makes a frame for each finding, applies the frames as a partner would,
 * one by one and many at once, keeps the cluster's table, runs sessions, delivers, purges, and prints the counts and the gap. */
#include "pollencart.h"

#include <inttypes.h>
#include <stdio.h>
#include <stdlib.h>
#include <string.h>

enum { NODES = 3 };

static uint32_t table[POLLENCART_TABLE];

static void refused(const char *what, uint32_t number)
{
    if (number) {
        fprintf(stderr, "%s refused with %" PRIu32 ": %s\n", what, number, pollencart_refusal_text(number));
        exit(1);
    }
}

/* The frame of a finding, as it goes out; the answer is its length. */
static uint32_t frame_of(uint8_t *out, uint8_t node, uint32_t timestamp, uint32_t block, uint8_t verdict)
{
    uint32_t length;
    refused("frame", pollencart_frame_write(out, POLLENCART_FRAME, node, timestamp, block, verdict, &length));
    printf("%.*s", (int)length, (const char *)out);
    return length;
}

/* A finding of this node: the frame goes out, and what comes in is read and applied in one call. */
static void finding(uint8_t node, uint32_t timestamp, uint32_t block, uint8_t verdict)
{
    uint8_t frame[POLLENCART_FRAME];
    uint32_t length = frame_of(frame, node, timestamp, block, verdict), first, second;
    size_t place; /* of a fault in the line */
    /* the line without its LF; a write has nothing to count */
    refused("line", pollencart_apply_line(table, POLLENCART_TABLE, frame, length - 1, &first, &second, &place));
}

/* Lines that come in together, applied in one call; a refused line is told and passed over, so a second call goes on after it. */
static void arrive(const uint8_t *lines, size_t length)
{
    size_t at = 0, line = 1, late = 0, applied, bad, stopped, place;
    for (;;) {
        uint32_t number = pollencart_apply_lines(table, POLLENCART_TABLE, lines + at, length - at, &applied, &bad, &stopped, &place);
        line += applied, late += bad, at += stopped;
        if (number == 0)
            break;
        fprintf(stderr, "line %zu refused with %" PRIu32 " at place %zu: %s\n", line++, number, place, pollencart_refusal_text(number));
        const uint8_t *lf = memchr(lines + at, '\n', length - at);
        if (number == POLLENCART_UNSOUND || lf == NULL)
            exit(1);
        at = (size_t)(lf - lines) + 1;
    }
    if (late)
        fprintf(stderr, "%zu steps refused\n", late);
}

/* Two nodes meet at a clock reading; the outcome says which sides finished. */
static void meet(uint8_t a, uint8_t b, uint32_t now, uint8_t outcome)
{
    uint32_t to_a, to_b;
    refused("session", pollencart_session(table, POLLENCART_TABLE, a, b, now, now, outcome, &to_a, &to_b));
    printf("session %d with %d at %" PRIu32 ", outcome %d: %" PRIu32 " to %d, %" PRIu32 " to %d\n", a, b, now, outcome, to_a, a, to_b, b);
}

/* What has become certain at a node goes to its repair planner, in the order that is the same at every node. */
static void deliver(uint8_t node)
{
    uint32_t list[POLLENCART_LIST], delivered;
    refused("delivery", pollencart_deliver(table, POLLENCART_TABLE, node, list, POLLENCART_LIST, &delivered));
    printf("delivery of node %d up to %" PRIu32 ": %" PRIu32 " findings\n", node, pollencart_mark(table, POLLENCART_TABLE, node), delivered);
    for (const uint32_t *r = list; r < list + 4 * delivered; r += 4)
        printf("  node %" PRIu32 " at %" PRIu32 ": block %" PRIu32 ", verdict %02" PRIX32 "\n", r[0], r[1], r[2], r[3]);
}

/* Only what was delivered can leave: a node delivers first. */
static void purge(uint8_t node)
{
    uint32_t removed, lags;
    refused("purge", pollencart_purge(table, POLLENCART_TABLE, node, &removed, &lags));
    printf("purge of node %d: %" PRIu32 " removed, %" PRIu32 " held", node, removed, pollencart_held(table, POLLENCART_TABLE, node));
    if (removed == 0)
        printf(", node %" PRIu32 " lags", lags);
    printf("\n");
}

/* Scrubbed, touched and the gap in one node's log: different blocks, however often each was read. */
static void count(uint8_t node)
{
    uint32_t scrubbed, touched, gap;
    refused("count", pollencart_count_node(table, POLLENCART_TABLE, node, &scrubbed, &touched, &gap));
    printf("node %d: %" PRIu32 " scrubbed, %" PRIu32 " touched, gap %" PRIu32 "\n", node, scrubbed, touched, gap);
}

int main(void)
{
    refused("fresh", pollencart_fresh(table, POLLENCART_TABLE, NODES));

    finding(0, 5, 4096, POLLENCART_VERDICT_GOOD);
    finding(0, 7, 4097, POLLENCART_VERDICT_CACHE);

    /* what the two others found while they were away comes in at once */
    uint8_t backlog[3 * POLLENCART_FRAME];
    size_t length = frame_of(backlog, 1, 6, 9001, POLLENCART_VERDICT_BAD);
    length += frame_of(backlog + length, 1, 9, 9001, POLLENCART_VERDICT_REPAIRED); /* the same block again: it counts once */
    length += frame_of(backlog + length, 2, 8, 70000, POLLENCART_VERDICT_CACHE + 2); /* any byte of the class */
    arrive(backlog, length);

    meet(0, 1, 10, POLLENCART_FINISH_BOTH);
    meet(1, 2, 11, POLLENCART_FINISH_A); /* cut: only node 1 took the records */
    meet(1, 2, 12, POLLENCART_FINISH_BOTH);
    meet(0, 2, 13, POLLENCART_FINISH_BOTH);
    for (uint8_t node = 0; node < NODES; node++)
        count(node);

    deliver(0); /* all five are certain here */
    purge(0);   /* nothing leaves while a node may not know it */
    for (uint32_t round = 0; round < 2; round++) {
        meet(0, 1, 14 + 3 * round, POLLENCART_FINISH_BOTH);
        meet(1, 2, 15 + 3 * round, POLLENCART_FINISH_BOTH);
        meet(0, 2, 16 + 3 * round, POLLENCART_FINISH_BOTH);
    }
    for (uint8_t node = 0; node < NODES; node++) {
        deliver(node); /* the others get the same five, node 0 nothing again */
        purge(node);
    }

    uint32_t late = pollencart_write(table, POLLENCART_TABLE, 0, 3, 1, POLLENCART_VERDICT_GOOD);
    printf("a write at 3, behind node 0's entry of %" PRIu32 ": refused with %" PRIu32 "\n", pollencart_summary(table, POLLENCART_TABLE, 0, 0), late);
    return 0;
}
