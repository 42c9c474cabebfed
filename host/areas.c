/* Tests the batch's areas: too short, empty, larger than needed, and refused batches. Each case runs
 * twice: in blocks of just the length, where AddressSanitizer and valgrind see a byte too far, and in
 * the middle of a larger block whose other bytes are compared afterwards. */
#include "devvonur.h"

#include <stdio.h>
#include <stdlib.h>
#include <string.h>

#define MARGIN 64

static const char two_levels[] = "   1   1   2   100 1    370     2000\n"
                                 "   1   1   2   100 2    374     2000\n";
static const char four_orders[] = " 1     7     1000    1542 1542     370  1   1 1\n"
                                  " 1     8     1000    1542 1542     374  1   1 2\n"
                                  " 2     7\n"
                                  " 1     8     1000    1542 1542     374  1   1 2\n";
static const char four_answers[] = "     1  0   1   0 0\n"
                                   "     2 22   0   1 1\n"
                                   "     3  0   1   0 0\n"
                                   "     4  0   1   0 0\n";

struct text {
    const char *bytes;
    size_t length;
};

#define TEXT(literal) ((struct text){(literal), sizeof(literal) - 1})

static unsigned passed;

static void fail(const char *name, const char *what)
{
    fprintf(stderr, "areas: %s: %s\n", name, what);
    exit(EXIT_FAILURE);
}

/* A block of just this length; one of length 0 has an address too. */
static uint8_t *block(size_t length)
{
    uint8_t *made = malloc(length > 0 ? length : 1);
    if (made == NULL) {
        fail("block", "no memory");
    }
    return made;
}

static uint8_t *copy(struct text text)
{
    uint8_t *made = block(text.length);
    if (text.length > 0) {
        memcpy(made, text.bytes, text.length);
    }
    return made;
}

/* What byte `at` of a block holds before the call. */
static uint8_t before(size_t at)
{
    return (uint8_t)(0xa5u ^ (at % 251u));
}

/* Runs the batch on an area of `length` bytes with `margin` bytes on both sides. Of the whole block
 * only the area's first bytes may change, and they are `expected`. */
static void run(const char *name, struct text table, struct text orders, size_t length, size_t margin,
                struct devvonur_result result, struct text expected)
{
    size_t whole = length + 2 * margin;
    uint8_t *table_area = copy(table);
    uint8_t *order_area = copy(orders);
    uint8_t *area = block(whole);
    for (size_t at = 0; at < whole; at++) {
        area[at] = before(at);
    }
    struct devvonur_result found = devvonur_batch(table_area, table.length, order_area, orders.length,
                                                  area + margin, length);
    if (found.code != result.code || found.line != result.line) {
        fprintf(stderr, "areas: %s: code %u line %u\n", name, (unsigned)found.code, (unsigned)found.line);
        fail(name, "another result was expected");
    }
    if (table.length > 0 && memcmp(table_area, table.bytes, table.length) != 0) {
        fail(name, "the table was written");
    }
    if (orders.length > 0 && memcmp(order_area, orders.bytes, orders.length) != 0) {
        fail(name, "the orders were written");
    }
    for (size_t at = 0; at < whole; at++) {
        int answer = at >= margin && at - margin < expected.length;
        uint8_t right = answer ? (uint8_t)expected.bytes[at - margin] : before(at);
        if (area[at] != right) {
            fail(name, answer ? "an answer differs" : "a byte that is no answer was written");
        }
    }
    free(area);
    free(order_area);
    free(table_area);
}

static void check(const char *name, struct text table, struct text orders, size_t length, uint32_t code,
                  uint32_t line, struct text expected)
{
    struct devvonur_result result = {code, line};
    run(name, table, orders, length, 0, result, expected);
    run(name, table, orders, length, MARGIN, result, expected);
    passed++;
}

/* A text of one byte over and over; the caller frees it. */
static struct text filled(char byte, size_t length)
{
    char *made = (char *)block(length);
    memset(made, byte, length);
    return (struct text){made, length};
}

static void lengths(void)
{
    struct text table = TEXT(two_levels), orders = TEXT(four_orders), answers = TEXT(four_answers);
    struct text none = TEXT("");
    check("just enough", table, orders, 80, DEVVONUR_DONE, 4, answers);
    check("one byte more", table, orders, 81, DEVVONUR_DONE, 4, answers);
    check("much more", table, orders, 40000, DEVVONUR_DONE, 4, answers);
    check("one byte too short", table, orders, 79, DEVVONUR_ANSWERS_SHORT, 0, none);
    check("one line too short", table, orders, 60, DEVVONUR_ANSWERS_SHORT, 0, none);
    check("no area", table, orders, 0, DEVVONUR_ANSWERS_SHORT, 0, none);
    check("no area, no orders", table, none, 0, DEVVONUR_DONE, 0, none);
    check("an area, no orders", table, none, 50, DEVVONUR_DONE, 0, none);
    check("nothing at all", none, none, 0, DEVVONUR_DONE, 0, none);
    check("no table", none, TEXT(" 2     7\n"), 21, DEVVONUR_DONE, 1, TEXT("     1 13   0   0 0\n"));
    check("an unended line counts", table, TEXT(" 2     7\n 2"), 39, DEVVONUR_ANSWERS_SHORT, 0, none);
    check("an unended line is malformed", table, TEXT(" 2     7\n 2"), 41, DEVVONUR_DONE, 2,
          TEXT("     1 13   0   0 0\n     2 10   0   0 0\n"));
    check("a NUL is a wrong column", table, TEXT(" 2   \0 7\n"), 20, DEVVONUR_DONE, 1,
          TEXT("     1 10   0   0 0\n"));
}

#define FIRST "   1   1   2   100 1    370     2000\n"

static void refused_tables(void)
{
    struct text orders = TEXT(four_orders), none = TEXT("");
    check("columns", TEXT(FIRST "   1   1   2   100 2    374    2000\n"), orders, 80, DEVVONUR_TABLE_COLUMNS, 2,
          none);
    check("a cut table", TEXT(FIRST "   1   1   2"), orders, 80, DEVVONUR_TABLE_COLUMNS, 2, none);
    check("range", TEXT("   1   1   2   100 1      0     2000\n"), orders, 80, DEVVONUR_TABLE_RANGE, 1, none);
    check("turn", TEXT(FIRST "   3   2   3   100 1    370     2000\n"), orders, 80, DEVVONUR_TABLE_TURN, 2, none);
    check("link", TEXT(FIRST "   1   1   3   100 2    370     2000\n"), orders, 80, DEVVONUR_TABLE_LINK, 2, none);
    check("a fixed delay out of range", TEXT("   1   1   2   100 1    370     2000  10001\n"), orders, 80,
          DEVVONUR_TABLE_RANGE, 1, none);
    check("fixed delays differ", TEXT(FIRST "   1   1   2   100 2    374     2000      1\n"), orders, 80,
          DEVVONUR_TABLE_LINK, 2, none);
    check("a best-effort frame out of range", TEXT("   1   1   2   100 1    370     2000      0   83\n"), orders, 80,
          DEVVONUR_TABLE_RANGE, 1, none);
    check("best-effort frames differ", TEXT(FIRST "   1   1   2   100 2    374     2000      0   84\n"), orders, 80,
          DEVVONUR_TABLE_LINK, 2, none);
    struct text longest = filled('\n', DEVVONUR_MOST_TABLE_BYTES);
    struct text longer = filled('\n', DEVVONUR_MOST_TABLE_BYTES + 1);
    check("25,088 bytes", longest, orders, 80, DEVVONUR_TABLE_COLUMNS, 1, none);
    check("25,089 bytes", longer, orders, 80, DEVVONUR_TABLE_LONG, 0, none);
    free((void *)longest.bytes);
    free((void *)longer.bytes);
}

static void long_orders(void)
{
    struct text table = TEXT(two_levels), none = TEXT(""), wrong = TEXT("x");
    struct text longest = filled(' ', DEVVONUR_MOST_ORDER_BYTES);
    struct text longer = filled(' ', DEVVONUR_MOST_ORDER_BYTES + 1);
    struct text lines = filled('\n', DEVVONUR_MOST_ORDER_LINES + 1);
    check("60,000 bytes", table, longest, 20, DEVVONUR_DONE, 1, TEXT("     1 10   0   0 0\n"));
    check("60,001 bytes", table, longer, 40000, DEVVONUR_ORDERS_LONG, 0, none);
    check("2,001 lines", table, lines, 50000, DEVVONUR_ORDERS_LONG, 0, none);
    check("41 before 40", table, lines, 0, DEVVONUR_ORDERS_LONG, 0, none);
    check("the table before 41 and 40", wrong, lines, 0, DEVVONUR_TABLE_COLUMNS, 1, none);
    free((void *)longest.bytes);
    free((void *)longer.bytes);
    free((void *)lines.bytes);
}

int main(void)
{
    lengths();
    refused_tables();
    long_orders();
    printf("areas: %u cases passed\n", passed);
    return EXIT_SUCCESS;
}
