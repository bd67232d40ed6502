/* Reads a file of up to 1 MiB from standard input: the answer, then the place of each picture. */
#include "x9180.h"
#include <inttypes.h>
#include <stdio.h>

static uint8_t file[1 << 20];
static uint64_t table[7 * 10000]; /* seven numbers for each record */

int main(void) {
    uint64_t answer[12], place[4], *row = table;
    size_t length = fread(file, 1, sizeof file, stdin);
    uint64_t number = x9_read(file, length, table, sizeof table / sizeof *table, answer);
    printf("number %" PRIu64 ", records %" PRIu64 ", debit cents %" PRIu64 "\n", number, answer[4], answer[9]);
    for (; row < table + 7 * answer[4]; row += 7)
        if (row[0] == 52 && x9_picture(file, length, row[1], place) == 0)
            printf("letter %" PRIu64 ", picture of %" PRIu64 " bytes at %" PRIu64 "\n", row[3], place[3], place[2]);
    return number != 0;
}
