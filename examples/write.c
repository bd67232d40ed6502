/* Makes out a small X9.100-180 cash letter from nothing, a check with a picture of either side, writes it to the file named on the command line,
 * and reads it back.
 *
 *     cc -std=c99 -Iinclude examples/write.c target/library/libx9180.a -o target/write
 *     target/write target/made.x9
 *
 * A draft is a text and a row of ten numbers for each record. The text here is the records' fixed parts, one behind the other, each picture behind
 * its 52. What is worked out (record types, lengths, counts, sums) is left as question marks: the writer does not look at it.
 * Exit code: 0 written and read back, 1 refused, 2 it could not be written. */

#include "x9180.h"

#include <stdarg.h>
#include <stdio.h>
#include <string.h>

enum { RECORDS = 11, ROW = 10, TABLE_ROW = 7, ROOM_FOR_TEXT = 4096, ROOM_FOR_FILE = 4096 };
enum { START = 1, SIZE_OF_PICTURE = 8 }; /* places in a row: 3 to 9 are the sizes of a 52's parts, the picture the sixth of them */

#define BANK "123456780"
#define TODAY "20240116"
#define CYCLE "01"
#define SEQUENCE "000000000000001"

static uint8_t text[ROOM_FOR_TEXT];
static size_t text_len;
static uint64_t draft[ROW * RECORDS];
static size_t rows;

/* A record: its type, and its fixed part from its second field on as `printf` would print it. Field 1 is worked out. */
static void record(uint64_t type, const char *format, ...) {
    va_list values;

    draft[ROW * rows] = type;
    draft[ROW * rows + START] = text_len;
    rows++;
    text_len += 2; /* field 1 */
    va_start(values, format);
    text_len += (size_t)vsnprintf((char *)text + text_len, ROOM_FOR_TEXT - text_len, format, values);
    va_end(values);
}

/* A view: its 50, and its 52, which names the bank, the day, the cycle and the item again, with the picture behind it. */
static void view(char side, const void *picture, size_t size) {
    record(50, "1%s%s00000%c000%2s%2s%10s0%2s%2s%07d%07d%1s%1s%6s%6s%4s", BANK, TODAY, side, "", "", "", "", "", 0, 0, "", "", "", "", "");
    record(52, "%s%s%s%s%16s%16s%16s0%016d00????????????????????????????????????", BANK, TODAY, CYCLE, SEQUENCE, "", "", "", 0);
    draft[ROW * (rows - 1) + SIZE_OF_PICTURE] = size;
    memcpy(text + text_len, picture, size);
    text_len += size;
}

/* The letter: a check of 123.45 in one bundle. */
static void draw_up(void) {
    static const char front[] = "the picture of its front", back[] = "the picture of its back";

    record(1, "20T%s%s%s1030N%-18s%-18s%1s%2s%4s%1s", BANK, BANK, TODAY, "RECEIVING BANK", "SMALL BANK", "", "", "", "");
    record(10, "01%s%s%s%s1030I %-8s%-14s%10s%2s%2s", BANK, BANK, TODAY, TODAY, "L1", "", "", "", "");
    record(20, "01%s%s%s%8s%-10s%4s%s%9s%4s%6s%7s", BANK, BANK, TODAY, "", "B1", "", CYCLE, "", "", "", "");
    record(25, "%15s%1s%s%20s%010d%s%1s%1s1Y??%1s%1s", "", "", BANK, "", 12345, SEQUENCE, "", "", "", "");
    view('0', front, sizeof front - 1);
    view('1', back, sizeof back - 1);
    record(70, "?????????????????????????????????????????????????%9s%20s", "", "");
    record(90, "?????????????????????????????????????%-16s%s??????????????????????", "SMALL BANK", TODAY);
    record(99, "??????????????????????????????????????%-14s%10s????????????????", "OPERATIONS", "");
}

static int write_to(const char *name, const uint8_t *bytes, size_t length) {
    FILE *file = fopen(name, "wb");
    int failed;

    if (file == NULL) {
        return 0;
    }
    failed = fwrite(bytes, 1, length, file) != length;
    return fclose(file) == 0 && !failed;
}

int main(int argc, char **argv) {
    static uint8_t file[ROOM_FOR_FILE];
    static uint64_t table[TABLE_ROW * RECORDS];
    uint64_t answer[12];
    size_t length;

    if (argc != 2) {
        fprintf(stderr, "use: write FILE\n");
        return 2;
    }
    draw_up();
    if (x9_write(text, text_len, draft, ROW * rows, file, sizeof file, answer) != 0) {
        printf("refused %llu record %llu field %llu offset %llu\n", (unsigned long long)answer[0], (unsigned long long)answer[1],
               (unsigned long long)answer[2], (unsigned long long)answer[3]);
        return 1;
    }
    length = (size_t)answer[3];
    printf("made out: %llu records, %llu bytes\n", (unsigned long long)answer[1], (unsigned long long)answer[3]);
    if (!write_to(argv[1], file, length)) {
        fprintf(stderr, "%s could not be written\n", argv[1]);
        return 2;
    }
    x9_read(file, length, table, TABLE_ROW * RECORDS, answer);
    printf("accepted records %llu letters %llu bundles %llu items %llu views %llu debit %llu\n", (unsigned long long)answer[4],
           (unsigned long long)answer[5], (unsigned long long)answer[6], (unsigned long long)answer[7], (unsigned long long)answer[8],
           (unsigned long long)answer[9]);
    return answer[0] == 0 ? 0 : 1;
}
