/* Devvonur: flow admission over byte areas. C11, nothing but this header and libbatch.a. */
#ifndef DEVVONUR_H
#define DEVVONUR_H

#include <stddef.h>
#include <stdint.h>

#ifdef __cplusplus
extern "C" {
#endif

/* Limits. A longer text is refused, never read in part. */
#define DEVVONUR_MOST_TABLE_BYTES 25088 /* 64 links of 8 levels, 49 bytes each */
#define DEVVONUR_MOST_ORDER_BYTES 60000
#define DEVVONUR_MOST_ORDER_LINES 2000
#define DEVVONUR_ANSWER_BYTES 20 /* one answer line, its LF included */

/* What a batch is refused for. */
enum devvonur_code {
    DEVVONUR_DONE = 0,           /* all orders answered; line is the count of order lines */
    DEVVONUR_TABLE_COLUMNS = 1,  /* a table line's columns are wrong, or the last line is unended */
    DEVVONUR_TABLE_RANGE = 2,    /* a number of a table line is out of range */
    DEVVONUR_TABLE_TURN = 3,     /* link or level out of turn, or past 64 or 8 */
    DEVVONUR_TABLE_LINK = 4,     /* from equals to, or a number of the link differs within it */
    DEVVONUR_TABLE_LONG = 5,     /* the table text is above 25,088 bytes; line is 0 */
    DEVVONUR_ANSWERS_SHORT = 40, /* the answer area is below 20 bytes per order line; line is 0 */
    DEVVONUR_ORDERS_LONG = 41    /* the order text is above 60,000 bytes or 2,000 lines; line is 0 */
};

/* code: one of the above. line: the count of order lines for 0; the number of the first faulty table
 * line, from 1, for codes 1 to 4; 0 for 5, 40 and 41. Where several hold, 5 comes first, then the
 * table line by line, each by 1 to 4, then 41, then 40. */
struct devvonur_result {
    uint32_t code;
    uint32_t line;
};

/* One batch: opens an empty registry on the table text, takes the order text line by line, and
 * writes one answer line of 20 bytes for each.
 *
 * table, table_len      the queue table, read only
 * orders, orders_len    the orders, read only; bytes after the last LF are one malformed line
 * answers, answers_len  the answer area, lent for the call
 *
 * The texts are bytes, not strings: no NUL ends them, and one inside is a wrong column like any other
 * byte that is no digit, blank or LF.
 *
 * Done (code 0): the first 20 * line bytes of the area are the answers, and every byte past them is
 * as it was. Refused (any other code): no byte of the area is written.
 *
 * An order that is refused (codes 10 to 31) is no refused batch: its answer line says so, the
 * registry stays as it was, and the batch goes on.
 *
 * The caller owns all three areas before, during and after the call; nothing is kept, allocated or
 * freed, and one call leaves nothing behind for the next. The areas must not overlap. A pointer must
 * not be null; for a length of 0 it may point anywhere, but nothing is read or written there. Calls
 * from several threads at once are fine on answer areas that are apart. */
struct devvonur_result devvonur_batch(const uint8_t *table, size_t table_len, const uint8_t *orders,
                                      size_t orders_len, uint8_t *answers, size_t answers_len);

#ifdef __cplusplus
}
#endif

#endif
