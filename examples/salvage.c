/* Salvages a torn X9.100-180 file: writes what is sound of it to another file, prints what was dropped, and reads the new file.
 *
 *     cc -std=c99 -Iinclude examples/salvage.c target/library/libx9180.a -o target/salvage
 *     head -c 2900 samples/two-letters-with-pictures.x9 > target/torn.x9
 *     target/salvage target/torn.x9 target/left.x9
 *
 * Exit code: 0 written, 1 refused (17: nothing is left), 2 a file could not be read or written. */

#include "x9180.h"

#include <stdio.h>
#include <stdlib.h>

enum { LIMIT = 268435456, LIST_ROW = 4, TABLE_ROW = 7, ACCEPTED = 0, ROOM = 2 };
enum { OFFSET, TYPE, STATUS, FAULT };      /* the numbers of a row of the list */
enum { KEPT, MADE_NEW, DROPPED, STATUSES }; /* what became of a record */

/* What is left of a file: its bytes, and what became of each record that was walked. */
struct salvaged {
    uint8_t *bytes;
    uint64_t *list;
    size_t rows; /* as many as were filled */
    uint64_t answer[12];
};

/* The bytes of a file, one more than the limit at most; a null pointer where it cannot be read. */
static uint8_t *bytes_of(const char *name, size_t *length) {
    FILE *file = fopen(name, "rb");
    uint8_t *bytes = malloc((size_t)LIMIT + 1);
    int failed = file == NULL || bytes == NULL;

    *length = 0;
    if (!failed) {
        *length = fread(bytes, 1, (size_t)LIMIT + 1, file);
        failed = ferror(file);
    }
    if (file != NULL) {
        fclose(file);
    }
    if (failed) {
        free(bytes);
        return NULL;
    }
    return bytes;
}

static int write_to(const char *name, const uint8_t *bytes, size_t length) {
    FILE *file = fopen(name, "wb");
    int failed;

    if (file == NULL) {
        return 0;
    }
    failed = fwrite(bytes, 1, length, file) != length;
    return fclose(file) == 0 && !failed;
}

/* A call without a buffer tells how many bytes are needed, one with it and without a list how many rows; the third one salvages. Returns the number. */
static uint64_t salvage(const uint8_t *file, size_t length, struct salvaged *left) {
    uint8_t no_bytes;
    uint64_t no_list, number;

    number = x9_salvage(file, length, &no_bytes, 0, &no_list, 0, left->answer);
    if (number == ROOM && (left->bytes = malloc((size_t)left->answer[1])) != NULL) {
        size_t bytes = (size_t)left->answer[1];
        number = x9_salvage(file, length, left->bytes, bytes, &no_list, 0, left->answer);
        /* Zeros are lent, so that a row that was not filled is known by its offset. */
        if (number == ROOM && (left->list = calloc((size_t)left->answer[1], LIST_ROW * sizeof *left->list)) != NULL) {
            size_t rows = (size_t)left->answer[1];
            number = x9_salvage(file, length, left->bytes, bytes, left->list, LIST_ROW * rows, left->answer);
            for (left->rows = 1; left->rows < rows && left->list[LIST_ROW * left->rows + OFFSET] != 0;) {
                left->rows++;
            }
        }
    }
    return number;
}

/* How many records were walked and what became of them, and those that were dropped. */
static void print_list(const struct salvaged *left) {
    unsigned long long of[STATUSES] = {0, 0, 0};
    size_t row;

    for (row = 0; row < left->rows; row++) {
        of[left->list[LIST_ROW * row + STATUS]]++;
    }
    printf("walked %llu records: %llu kept, %llu made new, %llu dropped\n", (unsigned long long)left->rows, of[KEPT], of[MADE_NEW], of[DROPPED]);
    for (row = 0; row < left->rows; row++) {
        const uint64_t *r = left->list + LIST_ROW * row;
        if (r[STATUS] == DROPPED) {
            printf("offset %llu type %02llu dropped, fault %llu\n", (unsigned long long)r[OFFSET], (unsigned long long)r[TYPE],
                   (unsigned long long)r[FAULT]);
        }
    }
}

/* Reads what was written: the library says the same of it again. Returns the number. */
static uint64_t read_again(const struct salvaged *left) {
    uint64_t answer[12];
    size_t numbers = TABLE_ROW * (size_t)left->answer[1];
    uint64_t *table = malloc(numbers * sizeof *table);
    uint64_t number = ROOM;

    if (table != NULL) {
        number = x9_read(left->bytes, (size_t)left->answer[3], table, numbers, answer);
        printf("accepted records %llu letters %llu bundles %llu items %llu views %llu debit %llu\n", (unsigned long long)answer[4],
               (unsigned long long)answer[5], (unsigned long long)answer[6], (unsigned long long)answer[7], (unsigned long long)answer[8],
               (unsigned long long)answer[9]);
    }
    free(table);
    return number;
}

int main(int count, char **words) {
    struct salvaged left = {NULL, NULL, 0, {0}};
    size_t length;
    uint8_t *file;
    uint64_t number;
    int status;

    if (count != 3) {
        fprintf(stderr, "use: salvage TORN NEW\n");
        return 2;
    }
    file = bytes_of(words[1], &length);
    if (file == NULL) {
        fprintf(stderr, "salvage: %s could not be read\n", words[1]);
        return 2;
    }
    number = salvage(file, length, &left);
    if (number != ACCEPTED) {
        printf("refused %llu record %llu field %llu offset %llu\n", (unsigned long long)number, (unsigned long long)left.answer[1],
               (unsigned long long)left.answer[2], (unsigned long long)left.answer[3]);
        status = 1;
    } else if (!write_to(words[2], left.bytes, (size_t)left.answer[3])) {
        fprintf(stderr, "salvage: %s could not be written\n", words[2]);
        status = 2;
    } else {
        print_list(&left);
        printf("written: %llu records, %llu bytes\n", (unsigned long long)left.answer[1], (unsigned long long)left.answer[3]);
        status = read_again(&left) == ACCEPTED ? 0 : 1;
    }
    free(left.list);
    free(left.bytes);
    free(file);
    return status;
}
