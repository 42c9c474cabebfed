/* A host: reads a queue table and orders, calls the batch and prints the answers.
 *
 *     host [TABLE [ORDERS]]      table.txt and orders.txt if not named
 *
 * A file that can't be opened or read counts as empty. For a refused batch it prints one line, code
 * in 3 columns and line in 6. Ends with 0 unless printing fails. */
#include "devvonur.h"

#include <stdio.h>
#include <stdlib.h>

/* One byte more than the longest text: a longer file is then refused for its length. */
static uint8_t table[DEVVONUR_MOST_TABLE_BYTES + 1];
static uint8_t orders[DEVVONUR_MOST_ORDER_BYTES + 1];
static uint8_t answers[DEVVONUR_ANSWER_BYTES * DEVVONUR_MOST_ORDER_LINES];

/* Fills the area from the file's start; the number of bytes read. */
static size_t read_file(const char *name, uint8_t *area, size_t length)
{
    FILE *file = fopen(name, "rb");
    if (file == NULL) {
        return 0;
    }
    size_t count = fread(area, 1, length, file);
    fclose(file);
    return count;
}

int main(int argc, char **argv)
{
    size_t table_len = read_file(argc > 1 ? argv[1] : "table.txt", table, sizeof table);
    size_t orders_len = read_file(argc > 2 ? argv[2] : "orders.txt", orders, sizeof orders);
    struct devvonur_result result =
        devvonur_batch(table, table_len, orders, orders_len, answers, sizeof answers);
    if (result.code == DEVVONUR_DONE) {
        fwrite(answers, DEVVONUR_ANSWER_BYTES, result.line, stdout);
    } else {
        printf("%3u%6u\n", (unsigned)result.code, (unsigned)result.line);
    }
    return fflush(stdout) == 0 && !ferror(stdout) ? EXIT_SUCCESS : EXIT_FAILURE;
}
