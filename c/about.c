/* What the library says of itself: its version, and what each refusal number means. Constants; the proved calls stand beside them. */
#include "pollencart.h"

const char *pollencart_version(void)
{
    return POLLENCART_VERSION;
}

const char *pollencart_refusal_text(uint32_t number)
{
    switch (number) {
    case 0:
        return "not refused";
    /* generated: refusals */
    case POLLENCART_UNSOUND:
        return "the table is not sound, or a fresh table's count or length, or the records to count, are wrong";
    case POLLENCART_OUTCOME:
        return "a session's outcome is above 3";
    case POLLENCART_NODE:
        return "a node number is n or more";
    case POLLENCART_TWICE:
        return "a session names one node twice";
    case POLLENCART_CLOCK:
        return "a write's timestamp is not above, or a session's reading is below, the node's own summary entry";
    case POLLENCART_FULL:
        return "a write finds 64 records held, or a finishing side would hold more than 64";
    case POLLENCART_LIST_SHORT:
        return "the lent list has fewer than four words for each record that is due";
    case POLLENCART_KIND:
        return "the kind is unknown";
    case POLLENCART_DIGIT:
        return "a character is not 0 to 9 or A to F";
    case POLLENCART_SUM:
        return "the bytes do not add up to zero";
    case POLLENCART_UNENDED:
        return "bytes are left but no LF follows";
    case POLLENCART_START:
        return "the first line is no start, a later line is one, or a start's n is not 2 to 16";
    case POLLENCART_LONG:
        return "the journal exceeds 65,536 bytes";
    case POLLENCART_ROOM:
        return "the lent bytes are too few for the frame, or the lent words for a line's values";
    case POLLENCART_ODD:
        return "the digits are none or odd in number";
    case POLLENCART_LENGTH:
        return "the length is not the kind's";
    case POLLENCART_LINE_OUTCOME:
        return "a line's outcome is above 3";
    case POLLENCART_ON_COLUMNS:
        return "a delivery on a column table";
    /* end of refusals */
    default:
        return "no refusal has this number";
    }
}
