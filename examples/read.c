/* Reads an X9.100-180 file named on the command line and prints the answer, the credits where there are any, then the place of each picture.
 *
 *     cc -std=c99 -Iinclude examples/read.c target/library/libx9180.a -o target/read
 *     target/read samples/credits-with-pictures.x9
 *
 * Exit code: 0 accepted, 1 refused, 2 the file could not be read. */

#include "x9180.h"

#include <stdio.h>
#include <stdlib.h>

enum { LIMIT = 268435456, ROW = 7, ACCEPTED = 0, ROOM = 2 };
enum { CASH_LETTER_HEADER = 10, IMAGE_VIEW_DATA = 52, CREDIT = 61 };

/* The bytes of a file, one more than the limit at most; a null pointer where it cannot be read. */
static uint8_t *bytes_of(const char *name, size_t *length) {
    FILE *file = fopen(name, "rb");
    size_t room = 1 << 16;
    uint8_t *bytes = malloc(room);
    int failed;

    *length = 0;
    if (file == NULL || bytes == NULL) {
        free(bytes);
        if (file != NULL) {
            fclose(file);
        }
        return NULL;
    }
    for (;;) {
        size_t read = fread(bytes + *length, 1, room - *length, file);
        uint8_t *larger;
        *length += read;
        if (*length < room || *length > LIMIT) {
            break;
        }
        room = room < LIMIT ? 2 * room : (size_t)LIMIT + 1;
        larger = realloc(bytes, room);
        if (larger == NULL) {
            free(bytes);
            fclose(file);
            return NULL;
        }
        bytes = larger;
    }
    failed = ferror(file);
    fclose(file);
    if (failed) {
        free(bytes);
        return NULL;
    }
    return bytes;
}

/* The place of each picture among the rows of an accepted file. */
static void print_pictures(const uint8_t *file, size_t length, const uint64_t *table, uint64_t rows) {
    uint64_t credit = 0; /* which of the credits that stand directly in the cash letter */
    uint64_t row;

    for (row = 0; row < rows; row++) {
        const uint64_t *r = table + ROW * row;
        uint64_t type = r[0], offset = r[1], letter = r[3], bundle = r[4], item = r[5];
        uint64_t place[4];
        if (type == CASH_LETTER_HEADER) {
            credit = 0;
        } else if (type == CREDIT && bundle == 0) {
            credit++;
        } else if (type == IMAGE_VIEW_DATA && x9_picture(file, length, offset, place) == ACCEPTED) {
            /* The picture is the place[3] bytes from file + place[2] on. Bundle 0: it is a picture of that credit. */
            printf("letter %llu ", (unsigned long long)letter);
            if (bundle == 0) {
                printf("credit %llu", (unsigned long long)credit);
            } else {
                printf("bundle %llu item %llu", (unsigned long long)bundle, (unsigned long long)item);
            }
            printf(": picture of %llu bytes at %llu\n", (unsigned long long)place[3], (unsigned long long)place[2]);
        }
    }
}

int main(int count, char **words) {
    uint64_t answer[12];
    uint64_t none;
    uint64_t *table = NULL;
    uint64_t number;
    size_t length;
    uint8_t *file;

    if (count != 2) {
        fprintf(stderr, "use: read FILE\n");
        return 2;
    }
    file = bytes_of(words[1], &length);
    if (file == NULL) {
        fprintf(stderr, "read: %s could not be read\n", words[1]);
        return 2;
    }

    /* A call with an empty table tells how many rows are needed; a second call fills them. */
    number = x9_read(file, length, &none, 0, answer);
    if (number == ROOM) {
        size_t numbers = (size_t)answer[1] * ROW;
        table = malloc(numbers * sizeof *table);
        if (table != NULL) {
            number = x9_read(file, length, table, numbers, answer);
        }
    }

    if (number != ACCEPTED) {
        printf("refused %llu record %llu field %llu offset %llu\n", (unsigned long long)number,
               (unsigned long long)answer[1], (unsigned long long)answer[2], (unsigned long long)answer[3]);
    } else {
        printf("accepted records %llu letters %llu bundles %llu items %llu views %llu debit %llu\n",
               (unsigned long long)answer[4], (unsigned long long)answer[5], (unsigned long long)answer[6],
               (unsigned long long)answer[7], (unsigned long long)answer[8], (unsigned long long)answer[9]);
        if (answer[10] != 0) {
            printf("credits %llu of %llu cents\n", (unsigned long long)answer[10], (unsigned long long)answer[11]);
        }
        print_pictures(file, length, table, answer[4]);
    }
    free(table);
    free(file);
    return number == ACCEPTED ? 0 : 1;
}
