/* Calls x9_picture from C on a type 52 record set out by hand. Exit code 0: every answer is the right one. */

#include "../../include/x9180.h"

#include <stdint.h>
#include <stdio.h>
#include <string.h>

/* The place that the call must give, at this offset of the file. */
static int expect(const char *what, const uint8_t *file, size_t file_len, uint64_t offset, uint64_t number,
                  uint64_t field, uint64_t start, uint64_t length) {
    uint64_t wanted[4] = {number, field, start, length};
    uint64_t place[4] = {99, 99, 99, 99};
    uint64_t returned = x9_picture(file, file_len, offset, place);
    int wrong = returned != number || memcmp(place, wanted, sizeof place) != 0;
    if (wrong) {
        fprintf(stderr, "wrong answer: %s\n", what);
    }
    return wrong;
}

int main(void) {
    enum { BEFORE = 3, KEY = 2, IMAGE = 5, BODY = 139 + KEY + IMAGE, FILE_LEN = BEFORE + 4 + BODY };
    uint8_t file[FILE_LEN];
    uint8_t copy[FILE_LEN];
    uint8_t *body = file + BEFORE + 4;
    uint64_t answer[2] = {99, 99};
    int wrong = 0;

    memset(file, ' ', sizeof file);
    memcpy(file + BEFORE, "\0\0\0\x92", 4);           /* 146 bytes follow */
    memcpy(body, "52" "123456780" "20050230", 19);    /* type, routing number, date */
    memcpy(body + 21, "000000000000001", 15);         /* item sequence number */
    memcpy(body + 84, "0" "0000" "0000" "0000" "0000" "00", 19); /* clipping, ancillary data indicator */
    memcpy(body + 103, "0002" "00000" "00000" "00000" "00000" "0000005" "00000", 36); /* lengths of the parts */
    memcpy(body + 139, "K1" "\0\1\2\3\4", KEY + IMAGE);
    memcpy(copy, file, sizeof file);

    wrong += expect("sound", file, sizeof file, BEFORE, 0, 0, BEFORE + 4 + 139 + KEY, IMAGE);
    wrong += expect("empty file", file, 0, 0, 1, 0, 0, 0);
    wrong += expect("one byte missing", file, sizeof file - 1, BEFORE, 3, 0, 0, 0);
    wrong += expect("past the end", file, sizeof file, UINT64_MAX, 3, 0, 0, 0);
    wrong += memcmp(file, copy, sizeof file) != 0;
    wrong += x9_record(body, BODY, answer) != 0 || answer[0] != 0 || answer[1] != 0;
    memcpy(body + 2, "12345-678", 9); /* a Canadian routing number */
    wrong += expect("Canadian", file, sizeof file, BEFORE, 0, 0, BEFORE + 4 + 139 + KEY, IMAGE);
    memcpy(body + 2, "1234567  ", 9); /* a number of a non-financial institution */
    wrong += expect("non-financial", file, sizeof file, BEFORE, 0, 0, BEFORE + 4 + 139 + KEY, IMAGE);
    memcpy(body + 2, "1234-5678", 9); /* a form that this field does not list */
    wrong += expect("form not listed", file, sizeof file, BEFORE, 7, 2, 0, 0);
    body[1] = '0';
    wrong += expect("type 50", file, sizeof file, BEFORE, 5, 0, 0, 0);
    file[BEFORE + 3] = 1;
    wrong += expect("a length of 1", file, sizeof file, BEFORE, 4, 0, 0, 0);

    if (wrong == 0) {
        printf("x9_picture and x9_record answer C as they should\n");
    }
    return wrong != 0;
}
