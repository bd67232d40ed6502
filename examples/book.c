/* Keeps a day book that two bureaus share: enters the first file named on the command line for owner 1 and the second for owner 2, both under the file
 * number 20240116, and prints what each owner's entries come to, and its net position. Then withdraws entry 1 of owner 1, shows that it is found no more and
 * that its file number stays taken, and closes the gap.
 *
 *     cc -std=c99 -Iinclude examples/book.c target/library/libx9180.a -o target/book
 *     target/book samples/two-letters-with-pictures.x9 samples/credits-with-pictures.x9
 *
 * Exit code: 0 both entered, 1 one was refused, 2 a file could not be read, or there is no memory. */

#include "x9180.h"

#include <stdio.h>
#include <stdlib.h>

enum { HEAD = 17, ROW = 9, ROWS = 100, PLACES = 200, TABLE_ROW = 7, ACCEPTED = 0, ROOM = 2 };

/* Zeros are an empty book, here with room for a hundred cash letters, and an empty list of file numbers taken, with room for two hundred. A row comes free
 * again, a place does not. */
static uint64_t book[HEAD + ROW * ROWS], taken[1 + 2 * PLACES];
#define NUMBERS (sizeof book / sizeof book[0])
#define TAKEN (sizeof taken / sizeof taken[0])

/* The bytes of a file, to be freed; NULL where it cannot be read. */
static uint8_t *bytes_of(const char *name, size_t *length) {
    FILE *file = fopen(name, "rb");
    uint8_t *bytes = NULL;
    long end;

    if (file == NULL) {
        return NULL;
    }
    if (fseek(file, 0, SEEK_END) == 0 && (end = ftell(file)) >= 0 && fseek(file, 0, SEEK_SET) == 0) {
        *length = (size_t)end;
        bytes = malloc(*length + 1);
    }
    if (bytes != NULL && fread(bytes, 1, *length, file) != *length) {
        free(bytes);
        bytes = NULL;
    }
    fclose(file);
    return bytes;
}

/* Enters a file with a row table of the size it needs: the first call, with no rows, tells how many (a file that is refused is refused there). */
static uint64_t enter(const uint8_t *file, size_t length, uint64_t file_number, uint64_t owner, uint64_t answer[13]) {
    uint64_t none = 0, *table;
    uint64_t number = x9_book_enter(file, length, file_number, owner, &none, 0, book, NUMBERS, taken, TAKEN, answer);

    if (number != ROOM || (table = calloc((size_t)answer[1], TABLE_ROW * sizeof *table)) == NULL) {
        return number;
    }
    number = x9_book_enter(file, length, file_number, owner, table, (size_t)answer[1] * TABLE_ROW, book, NUMBERS, taken, TAKEN, answer);
    free(table);
    return number;
}

/* Enters the file of this name for an owner and says what was entered, or why not. The exit code. */
static int enter_named(const char *name, uint64_t owner) {
    uint64_t answer[13];
    size_t length = 0;
    uint8_t *file = bytes_of(name, &length);

    if (file == NULL) {
        fprintf(stderr, "%s could not be read\n", name);
        return 2;
    }
    if (enter(file, length, 20240116, owner, answer) == ACCEPTED) {
        printf("owner %llu: %llu letters entered, from entry %llu on\n", (unsigned long long)owner, (unsigned long long)answer[5],
               (unsigned long long)answer[12]);
    } else {
        printf("refused %llu record %llu field %llu offset %llu\n", (unsigned long long)answer[0], (unsigned long long)answer[1],
               (unsigned long long)answer[2], (unsigned long long)answer[3]);
    }
    free(file);
    return answer[0] == ROOM ? 2 : answer[0] != ACCEPTED;
}

static void print_figures(const uint64_t figures[6]) {
    printf("bundles %llu debits %llu credits %llu views %llu debit %llu credit %llu\n", (unsigned long long)figures[0], (unsigned long long)figures[1],
           (unsigned long long)figures[2], (unsigned long long)figures[3], (unsigned long long)figures[4], (unsigned long long)figures[5]);
}

/* The net position is in two's complement. */
static int64_t signed_number(uint64_t number) {
    return number <= INT64_MAX ? (int64_t)number : -(int64_t)(UINT64_MAX - number) - 1;
}

/* What an owner's entries come to, its net position in cents, and its second entry. */
static void print_owner(uint64_t owner) {
    uint64_t totals[9], found[9];

    if (x9_book_totals(book, NUMBERS, owner, totals) != ACCEPTED) {
        return;
    }
    printf("owner %llu: entries %llu ", (unsigned long long)owner, (unsigned long long)totals[1]);
    print_figures(totals + 2);
    printf("owner %llu: net %lld\n", (unsigned long long)owner, (long long)signed_number(totals[8]));
    if (x9_book_find(book, NUMBERS, owner, 2, found) == ACCEPTED) {
        printf("owner %llu: entry %llu ", (unsigned long long)owner, (unsigned long long)found[1]);
        print_figures(found + 3);
    }
}

/* Withdraws entry 1 of owner 1: it is NOENTRY (15) from then on, and the file number of its file DUPLICATE (12) as before. */
static void withdraw_first(const char *name) {
    uint64_t found[9];

    printf("withdrawing entry 1 of owner 1: %llu\n", (unsigned long long)x9_book_withdraw(book, NUMBERS, taken, TAKEN, 1, 1));
    printf("looking for it: %llu\n", (unsigned long long)x9_book_find(book, NUMBERS, 1, 1, found));
    enter_named(name, 1);
    print_owner(1);
}

/* Closes the gaps. The book has as many entries and free rows as before, and claims no more rows than there are entries. */
static void tidy(void) {
    uint64_t before = book[0], number = x9_book_tidy(book, NUMBERS, taken, TAKEN);

    printf("tidying up: %llu, rows claimed %llu, before %llu\n", (unsigned long long)number, (unsigned long long)book[0], (unsigned long long)before);
}

int main(int argc, char **argv) {
    int code;

    if (argc != 3) {
        fprintf(stderr, "use: book FILE FILE\n");
        return 2;
    }
    code = enter_named(argv[1], 1);
    if (code == 0) {
        code = enter_named(argv[2], 2);
    }
    print_owner(1);
    print_owner(2);
    if (code == 0) {
        withdraw_first(argv[1]);
        tidy();
    }
    return code;
}
