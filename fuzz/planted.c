/* Planted faults, to see that the targets find them: the library's calls are renamed proved_*, and these stand before them. PLANT says
 * which fault: up to 32 those of the target `read`, 33 to 54 those of `write`, 55 to 77 those of `tiff`, from 78 on those of `book`. Compiled without
 * AddressSanitizer, like the library. */
#include <stdlib.h>
#include <string.h>

#include "x9180.h"

uint64_t proved_x9_read(const uint8_t *file, size_t file_len, uint64_t *table, size_t table_len, uint64_t answer[12]);
uint64_t proved_x9_picture(const uint8_t *file, size_t file_len, uint64_t offset, uint64_t place[4]);
uint64_t proved_x9_record(const uint8_t *body, size_t body_len, uint64_t answer[2]);
uint64_t proved_x9_write(const uint8_t *text, size_t text_len, const uint64_t *draft, size_t draft_len, uint8_t *out, size_t out_len,
                         uint64_t answer[12]);
uint64_t proved_x9_draft(const uint8_t *file, size_t file_len, uint64_t *draft, size_t draft_len, uint64_t answer[12]);
uint64_t proved_x9_tiff(const uint8_t *image, size_t image_len, uint64_t answer[2]);
uint64_t proved_x9_salvage(const uint8_t *file, size_t file_len, uint8_t *out, size_t out_len, uint64_t *list, size_t list_len, uint64_t answer[12]);
uint64_t proved_x9_book_enter(const uint8_t *file, size_t file_len, uint64_t file_number, uint64_t owner, uint64_t *table, size_t table_len,
                              uint64_t *book, size_t book_len, uint64_t *taken, size_t taken_len, uint64_t answer[13]);
uint64_t proved_x9_book_withdraw(uint64_t *book, size_t book_len, const uint64_t *taken, size_t taken_len, uint64_t owner, uint64_t entry_number);
uint64_t proved_x9_book_tidy(uint64_t *book, size_t book_len, const uint64_t *taken, size_t taken_len);
uint64_t proved_x9_book_find(const uint64_t *book, size_t book_len, uint64_t owner, uint64_t entry_number, uint64_t found[9]);
uint64_t proved_x9_book_totals(const uint64_t *book, size_t book_len, uint64_t owner, uint64_t totals[9]);

/* Bytes 5 and 6 say that the file is EBCDIC. */
static inline int is_ebcdic(const uint8_t *file, size_t file_len) { return file_len >= 6 && file[4] == 0xF0 && file[5] == 0xF1; }

static volatile uint8_t sink;
static unsigned calls;

/* A wrong refusal in the place of an acceptance: the table as it was, no totals. The row of the record at fault is taken first. */
static uint64_t refuse(uint64_t *table, size_t table_len, const uint64_t *before, uint64_t answer[12], uint64_t number, size_t row, uint64_t field) {
    uint64_t offset = table[row + 1];
    memcpy(table, before, table_len * 8);
    memset(answer, 0, 12 * 8);
    answer[0] = number, answer[1] = row / 7 + 1, answer[2] = field, answer[3] = offset;
    return number;
}

/* The first record that a planted rule refuses, in numbers of the table; `used` if none. */
static size_t refused_row(const uint8_t *file, const uint64_t *table, size_t used) {
    const uint8_t *bundle = NULL;
    int credit = 0;
    for (size_t i = 0; i < used; i += 7) {
        const uint8_t *body = file + table[i + 1] + 4;
        int outside = table[i + 4] == 0;
        if (table[i] == 10) bundle = NULL, credit = 0;
        if (table[i] == 20) bundle = body;
#if PLANT == 24
        if (table[i] == 61 && outside && body[2] != '9' && table[i + 6]) credit = 1;
        if (table[i] == 90 && credit) return i;
#else
        if (table[i] == 52 && outside && bundle && memcmp(body + 2, bundle + 13, 9)) return i;
#endif
    }
    (void)credit, (void)bundle;
    return used;
}

uint64_t x9_read(const uint8_t *file, size_t file_len, uint64_t *table, size_t table_len, uint64_t answer[12]) {
    uint64_t *before = malloc(table_len * 8 + 8);
    memcpy(before, table, table_len * 8);
    uint64_t number = proved_x9_read(file, file_len, table, table_len, answer);
    size_t used = number ? 0 : 7 * answer[4], row = refused_row(file, table, used);
    calls++;
    (void)row, (void)refuse;
#if PLANT == 1 /* reads a byte past the file */
    sink = file[file_len];
#elif PLANT == 2 /* reads a byte before the file */
    sink = file[-1];
#elif PLANT == 3 /* writes a number past the table */
    table[table_len] = 0;
#elif PLANT == 4 /* writes the number past the last row */
    if (!number && used < table_len) table[used] = 0;
#elif PLANT == 5 /* writes a row, then refuses */
    if (number == 9 && table_len >= 7) table[0] = 1;
#elif PLANT == 6 /* totals on refusal */
    if (number == 11) answer[4] = answer[1] - 1;
#elif PLANT == 7 /* changes the file */
    if (!number && file_len > 2000) ((uint8_t *)(uintptr_t)file)[5] ^= 1;
#elif PLANT == 8 /* another answer now and then */
    if (calls % 100000 == 0) answer[3] ^= 1;
#elif PLANT == 9 /* a key name left blank is faulted at the authenticator */
    if (number == 8 && answer[2] == 8) answer[2] = 7;
#elif PLANT == 10 /* a wrong record number late in the file is FIELD, not LINK */
    if (number == 8 && answer[2] == 2 && answer[1] > 12) number = answer[0] = 7;
#elif PLANT == 11 /* item ordinals of a second bundle are one too high */
    if (!number) for (size_t i = 0; i < used; i += 7) if (table[i + 4] == 2 && table[i + 5]) table[i + 5]++;
#elif PLANT == 12 /* three cash letters with two bundles are counted as two */
    if (!number && answer[5] == 3 && answer[6] == 2) answer[5] = 2;
#elif PLANT == 13 /* SIZE only from two bytes above the largest size */
    if (file_len == 268435457) { number = answer[0] = 3; answer[1] = 1; }
#elif PLANT == 14 /* a number of the answer is not written */
    if (number == 10) answer[2] = ~UINT64_C(0);
#elif PLANT == 19 /* writes past the answer */
    if (number == 4) answer[12] = 0;
#elif PLANT == 23 /* credits are counted as debits */
    if (!number) answer[9] += answer[11], answer[10] = answer[11] = 0;
#elif PLANT == 24 /* a credit outside a bundle is left out of the cash letter's sum */
    if (row < used) number = refuse(table, table_len, before, answer, 9, row, 9);
#elif PLANT == 25 /* a view of a 61 outside a bundle is compared with the bundle header */
    if (row < used) number = refuse(table, table_len, before, answer, 8, row, 2);
#elif PLANT == 26 /* credits are no items */
    if (!number) answer[7] -= answer[10];
#elif PLANT == 27 /* what is missing at a 61 is faulted at the record after it */
    if (number == 8 && answer[2] == 1 && file[answer[3] + 4] == '6') answer[1]++, answer[3] += 88;
#elif PLANT == 28 /* a 61 outside a bundle has an item ordinal */
    for (size_t i = 0; i < used; i += 7) if (table[i] == 61 && !table[i + 4]) table[i + 5] = 1;
#elif PLANT == 30 /* a letter of Annex B read as ASCII in an EBCDIC file: no view is missing */
    if (number == 8 && answer[2] == 1 && is_ebcdic(file, file_len)) number = answer[0] = 9;
#elif PLANT == 31 /* the bracket of Table 1's own column, 4A, which has no counterpart in the code page, is no fault of the field */
    if (number == 7 && is_ebcdic(file, file_len) && memchr(file + answer[3] + 4, 0x4A, 73)) number = answer[0] = 8;
#endif
    free(before);
    return number;
}

uint64_t x9_picture(const uint8_t *file, size_t file_len, uint64_t offset, uint64_t place[4]) {
    uint64_t number = proved_x9_picture(file, file_len, offset, place);
#if PLANT == 15 /* an empty image starts nowhere */
    if (!number && !place[3]) place[2] = 0;
#elif PLANT == 16 /* an offset of 2^64 - 4 is taken for the start */
    if (offset == UINT64_MAX - 3 && file_len > 200) number = proved_x9_picture(file, file_len, 0, place);
#elif PLANT == 17 /* reads a length field cut by the end */
    if (number == 3 && offset < file_len) sink = file[offset + 3];
#elif PLANT == 32 /* the picture call does not go by the first record */
    if (!number && is_ebcdic(file, file_len)) { number = place[0] = 5; place[2] = place[3] = 0; }
#endif
    (void)is_ebcdic;
    return number;
}

uint64_t x9_record(const uint8_t *body, size_t body_len, uint64_t answer[2]) {
    uint64_t number = proved_x9_record(body, body_len, answer);
#if PLANT == 18 /* one field of one kind passed over */
    if (number == 7 && answer[1] == 31 && !memcmp(body, "54", 2)) number = answer[0] = answer[1] = 0;
#elif PLANT == 20 /* reads a byte past the body */
    sink = body[body_len];
#elif PLANT == 21 /* a routing number of the form TTTT-AAAA passes in a cash letter header, which does not list it */
    if (number == 7 && answer[1] == 4 && !memcmp(body, "10", 2) && body[17] == '-') number = answer[0] = answer[1] = 0;
#elif PLANT == 22 /* a routing number with a blank before it is refused in a 52 */
    if (!number && !memcmp(body, "52", 2) && body[2] == ' ') { number = answer[0] = 7; answer[1] = 2; }
#elif PLANT == 29 /* sources of work 12 to 20, which are not listed, pass in a 61 */
    if (number == 7 && answer[1] == 11 && !memcmp(body, "61", 2) && body[79] == '1') number = answer[0] = answer[1] = 0;
#endif
    return number;
}

/* A wrong refusal in the place of a writing: the buffer as it was, no totals. */
static inline uint64_t refuse_writing(uint8_t *out, size_t out_len, const uint8_t *before, uint64_t answer[12], const uint64_t fault[4]) {
    memcpy(out, before, out_len);
    memset(answer, 0, 12 * 8);
    memcpy(answer, fault, 4 * 8);
    return fault[0];
}

/* The draft with one number of each row cut down. */
static inline uint64_t *cut_down(const uint64_t *draft, size_t draft_len, size_t first, size_t last, uint64_t mask) {
    uint64_t *cut = malloc(draft_len * 8 + 8);
    memcpy(cut, draft, draft_len * 8);
    for (size_t row = 0; row + 10 <= draft_len; row += 10)
        for (size_t i = first; i <= last; i++) cut[row + i] &= mask;
    return cut;
}

/* Where the record of a row was written, by the lengths. */
static inline size_t record_at(const uint8_t *out, size_t row) {
    size_t at = 0;
    for (; row > 0; row--) at += 4 + ((size_t)out[at] << 24 | (size_t)out[at + 1] << 16 | (size_t)out[at + 2] << 8 | out[at + 3]);
    return at;
}

#if PLANT == 38
#define CUT_DOWN 2, 2, 0xFF /* of the flag the low byte alone is looked at */
#elif PLANT == 39
#define CUT_DOWN 0, 0, 0xFF /* of the type */
#elif PLANT == 40
#define CUT_DOWN 1, 1, UINT32_MAX /* of the start 32 bits */
#elif PLANT == 41
#define CUT_DOWN 3, 9, UINT32_MAX /* of the sizes 32 bits */
#else
#define CUT_DOWN 0, 0, UINT64_MAX
#endif

uint64_t x9_write(const uint8_t *text, size_t text_len, const uint64_t *draft, size_t draft_len, uint8_t *out, size_t out_len,
                  uint64_t answer[12]) {
    uint8_t *before = malloc(out_len + 1);
    uint64_t *taken = cut_down(draft, draft_len, CUT_DOWN);
    memcpy(before, out, out_len);
    uint64_t number = proved_x9_write(text, text_len, taken, draft_len, out, out_len, answer);
    size_t rows = draft_len / 10;
    (void)rows, (void)refuse_writing, (void)record_at;
#if PLANT == 33 /* writes a byte behind the file */
    if (!number && answer[3] < out_len) out[answer[3]] = 0;
#elif PLANT == 34 /* writes as far as there is room, then refuses */
    if (number == 2 && out_len > 3) out[3] = 80;
#elif PLANT == 35 /* reads a byte past the text */
    sink = text[text_len];
#elif PLANT == 36 /* reads a number past the draft */
    sink = (uint8_t)draft[draft_len];
#elif PLANT == 37 /* works a field out in the text itself */
    if (!number && text_len > 3000) ((uint8_t *)(uintptr_t)text)[draft[1]] = '0';
#elif PLANT == 42 /* numbers after the last whole row are taken for one */
    if (!number && draft_len % 10) {
        uint64_t fault[4] = {6, rows + 1, 0, answer[3]};
        number = refuse_writing(out, out_len, before, answer, fault);
    }
#elif PLANT == 43 /* a record number too long is FIELD */
    if (number == 8 && answer[2] == 2 && draft[(answer[1] - 1) * 10] == 26) number = answer[0] = 7;
#elif PLANT == 44 /* digits in a picture of an EBCDIC text are translated */
    for (size_t row = 0; !number && row < rows && text[draft[1]] == 0xF0 && text[draft[1] + 1] == 0xF1; row++)
        if (draft[row * 10] == 52 && draft[row * 10 + 8]) {
            size_t start = record_at(out, row) + 4 + 139;
            for (int part = 3; part < 8; part++) start += draft[row * 10 + (size_t)part];
            for (size_t i = 0; i < draft[row * 10 + 8]; i++)
                if (out[start + i] >= 0xF0 && out[start + i] <= 0xF9) out[start + i] -= 0xC0;
        }
#elif PLANT == 45 /* twelve addenda outgrow a count */
    for (size_t row = 0; !number && row + 12 < rows; row++) {
        size_t behind = 0;
        while (draft[(row + 1 + behind) * 10] >= 26 && draft[(row + 1 + behind) * 10] <= 28) behind++;
        if (draft[row * 10] == 25 && behind >= 12) {
            uint64_t fault[4] = {7, row + 1, 12, record_at(out, row)};
            number = refuse_writing(out, out_len, before, answer, fault);
        }
    }
#elif PLANT == 46 /* credits of a second cash letter are left out of the answer */
    if (!number && answer[5] == 2 && answer[10] > 2) answer[10]--;
#elif PLANT == 47 /* a total of a 70 is stated one cent too high, in the 70 alone */
    for (size_t row = 0; !number && row < rows; row++)
        if (draft[row * 10] == 70 && out[record_at(out, row) + 4 + 17] == '7') out[record_at(out, row) + 4 + 17] = '8';
#elif PLANT == 48 /* the room needed is one byte more than there is */
    if (number == 2 && out_len > 100) answer[1] = out_len + 1;
#elif PLANT == 49 /* a letter in a 52 that an EBCDIC text gives is written as it stood there */
    for (size_t row = 0; !number && row < rows && text[draft[1]] == 0xF0 && text[draft[1] + 1] == 0xF1; row++)
        if (draft[row * 10] == 52) out[record_at(out, row) + 4 + 30] = text[draft[row * 10 + 1] + 30];
#endif
    free(before);
    free(taken);
    return number;
}

uint64_t x9_draft(const uint8_t *file, size_t file_len, uint64_t *draft, size_t draft_len, uint64_t answer[12]) {
    uint64_t number = proved_x9_draft(file, file_len, draft, draft_len, answer);
    size_t used = number ? 0 : 10 * answer[4];
    (void)used;
#if PLANT == 50 /* a blank total is not asked for */
    for (size_t row = 0; row < used; row += 10) if (draft[row] == 70) draft[row + 2] = 0;
#elif PLANT == 51 /* a row is left behind, then ROOM */
    if (number == 2 && draft_len >= 10) draft[0] = 1;
#elif PLANT == 52 /* writes the number past the last row */
    if (!number && used < draft_len) draft[used] = 0;
#elif PLANT == 53 /* writes a number past the draft */
    if (!number) draft[draft_len] = 0;
#elif PLANT == 54 /* a size is left in a record without parts */
    for (size_t row = 0; row < used; row += 10) if (draft[row] == 54) draft[row + 3] = 80;
#endif
    return number;
}

/* ---- The tags of an image ---- */

static inline uint64_t low_first(const uint8_t *at, int bytes) {
    uint64_t number = 0;
    for (int i = bytes - 1; i >= 0; i--) number = number << 8 | at[i];
    return number;
}

static inline void set_low_first(uint8_t *at, int bytes, uint64_t number) {
    for (int i = 0; i < bytes; i++, number >>= 8) at[i] = (uint8_t)number;
}

/* The entries of an image whose header is right and whose entries lie within it, and how many; NULL for any other. */
static inline uint8_t *entries_of(uint8_t *image, size_t len, size_t *count) {
    *count = 0;
    if (len < 8 || memcmp(image, "II*\0", 4)) return NULL;
    uint64_t at = low_first(image + 4, 4);
    if (at + 2 > len || at + 2 + 12 * low_first(image + at, 2) > len) return NULL;
    *count = (size_t)low_first(image + at, 2);
    return image + at + 2;
}

/* The first entry with a tag, from this one on; NULL if there is none. */
static inline uint8_t *entry_of(uint8_t *entries, size_t count, size_t from, uint64_t tag) {
    for (size_t i = from; i < count; i++)
        if (low_first(entries + 12 * i, 2) == tag) return entries + 12 * i;
    return NULL;
}

/* The one SHORT or LONG of an entry; -1 for any other. */
static inline int64_t only(const uint8_t *entry) {
    if (!entry || low_first(entry + 4, 4) != 1) return -1;
    return entry[2] == 3 ? (int64_t)low_first(entry + 8, 2) : entry[2] == 4 ? (int64_t)low_first(entry + 8, 4) : -1;
}

/* Changes a copy of the image so that the library judges it as the planted fault would. */
static inline void mislead(uint8_t *image, size_t len) {
    size_t count;
    uint8_t *entries = entries_of(image, len, &count);
    for (size_t i = 0; i < count; i++) {
        uint8_t *entry = entries + 12 * i;
        uint64_t kind = low_first(entry + 2, 2), size = low_first(entry + 4, 4), offset = low_first(entry + 8, 4);
        (void)kind, (void)size, (void)offset;
#if PLANT == 62 /* a DOUBLE is of unknown type */
        if (kind == 12) entry[2] = 13;
#elif PLANT == 63 /* an SBYTE has two bytes */
        if (kind == 6) entry[2] = 8;
#elif PLANT == 64 /* counts are cut to 16 bits */
        set_low_first(entry + 4, 4, size & 0xFFFF);
#elif PLANT == 65 /* the end of a value is cut to 32 bits */
        if (kind >= 3 && kind <= 4 && size > 2 && (uint32_t)(offset + 4 * size) < offset) set_low_first(entry + 8, 4, 0);
#elif PLANT == 66 /* of the type the low byte alone is looked at */
        entry[3] = 0;
#elif PLANT == 67 /* a value of four bytes is taken for one outside */
        if (size == 4 && (kind == 1 || kind == 7) && offset > len) set_low_first(entry + 4, 4, 5);
#endif
    }
    uint8_t *one = entry_of(entries, count, 0, PLANT == 68 ? 262 : PLANT == 69 ? 273 : 282);
    (void)one;
#if PLANT == 68 /* the variance of Table 3 passes: black is zero */
    if (one && only(one) == 1 && one[2] == 3) one[8] = 0;
#elif PLANT == 69 /* the second of two offsets counts */
    uint8_t *two = one ? entry_of(entries, count, (size_t)(one - entries) / 12 + 1, 273) : NULL;
    if (two) memcpy(one, two, 12);
#elif PLANT == 70 /* the two resolutions are not compared */
    uint8_t *two = entry_of(entries, count, 0, 283);
    if (one && two && one[2] == 5 && two[2] == 5 && low_first(one + 8, 4) + 8 <= len && low_first(two + 8, 4) + 8 <= len) {
        uint8_t *x = image + low_first(one + 8, 4), *y = image + low_first(two + 8, 4);
        uint64_t above = low_first(y, 4), below = low_first(y + 4, 4);
        if (below && (above == 200 * below || above == 240 * below) && (x + 8 <= y || y + 8 <= x)) memcpy(y, x, 8);
    }
#endif
}

uint64_t x9_tiff(const uint8_t *image, size_t image_len, uint64_t answer[2]) {
    uint8_t *copy = malloc(image_len + 1);
    size_t count;
    if (image_len) memcpy(copy, image, image_len);
    mislead(copy, image_len);
    uint64_t number = proved_x9_tiff(copy, image_len, answer), tag = answer[1];
    uint8_t *entries = entries_of(copy, image_len, &count);
    uint8_t *x = entry_of(entries, count, 0, 282), *y = entry_of(entries, count, 0, 283);
    calls++;
    (void)tag, (void)x, (void)y;
#if PLANT == 55 /* reads a byte past the image */
    sink = image[image_len];
#elif PLANT == 56 /* reads a byte before the image */
    sink = image[-1];
#elif PLANT == 57 /* writes past the answer */
    if (number == 18) answer[2] = 0;
#elif PLANT == 58 /* a number of the answer is not written */
    if (!number) answer[1] = ~UINT64_C(0);
#elif PLANT == 59 /* changes the image */
    if (number == 19 && tag == 283) ((uint8_t *)(uintptr_t)image)[image_len - 1] ^= 1;
#elif PLANT == 60 /* another answer now and then */
    if (calls % 20000 == 0) answer[1] ^= 1;
#elif PLANT == 61 /* the answer is not what is returned */
    if (number == 3 && image_len > 300) answer[0] = 0;
#elif PLANT == 71 /* the first tag out of order is named, not the lowest */
    for (size_t i = 1; number == 18 && i < count; i++)
        if (low_first(entries + 12 * i, 2) <= low_first(entries + 12 * i - 12, 2)) { answer[1] = low_first(entries + 12 * i, 2); break; }
#elif PLANT == 72 /* tags from 32768 on are below the others */
    for (size_t i = 1; !number && i < count; i++)
        if (low_first(entries + 12 * i, 2) >= 32768 && low_first(entries + 12 * i - 12, 2) < 32768) number = answer[0] = 18, answer[1] = low_first(entries + 12 * i, 2);
#elif PLANT == 73 /* 282 and 283 may share their value */
    if (number == 19 && tag == 283 && x && y && !memcmp(x + 2, y + 2, 10)) number = answer[0] = answer[1] = 0;
#elif PLANT == 74 /* 0 over 0 is any ratio */
    if (number == 19 && tag == 282 && x && x[2] == 5 && low_first(x + 4, 4) == 1 && !low_first(copy + low_first(x + 8, 4), 8)) answer[1] = 283;
#elif PLANT == 75 /* the two bytes behind a SHORT are looked at */
    uint8_t *width = entry_of(entries, count, 0, 256);
    if (!number && width && width[2] == 3 && low_first(width + 10, 2)) number = answer[0] = 19, answer[1] = 256;
#elif PLANT == 76 /* the next offset need not lie within */
    if (number == 3 && entries && image_len < (size_t)(entries - copy) + 12 * count + 4) number = answer[0] = 19, answer[1] = 256;
#elif PLANT == 77 /* an empty strip at the end is outside */
    if (!number && only(entry_of(entries, count, 0, 279)) == 0 && only(entry_of(entries, count, 0, 273)) == (int64_t)image_len) number = answer[0] = 3;
#endif
    free(copy);
    return number;
}

/* ---- The day book ---- */

#define HEAD 17
#define WIDTH 9
#define FIGURES (6 * sizeof(uint64_t)) /* of a row, in bytes, and the running totals of an owner */
#define SUMS (7 * sizeof(uint64_t))    /* the running totals of an owner and its net position */

/* The rows of a sound book that are claimed. */
static inline uint64_t *book_row(uint64_t *book, size_t row) { return book + HEAD + WIDTH * row; }
static inline size_t claimed(const uint64_t *book, size_t book_len) { return book_len ? (size_t)book[0] : 0; }
static inline size_t rows_there(size_t book_len) { return book_len < HEAD ? 0 : (book_len - HEAD) / WIDTH; }

static inline int is_owner(uint64_t number) { return number == 1 || number == 2; }
static inline uint64_t other_than(uint64_t owner) { return 3 - owner; }
/* Where the last number given to an owner stands; its running totals and its net position stand behind it. */
static inline size_t last_of(uint64_t owner) { return owner == 2 ? 9 : 1; }

/* The places of a list that are claimed; a sound list. */
static inline size_t places(const uint64_t *taken, size_t taken_len) { return taken_len ? (size_t)taken[0] : 0; }
static inline size_t places_there(size_t taken_len) { return taken_len ? (taken_len - 1) / 2 : 0; }

/* A file number that no place of the list has. */
static inline uint64_t unused(const uint64_t *taken, size_t taken_len) {
    uint64_t number = UINT64_C(0x7E57) << 40;
    for (size_t place = 0; place < places_there(taken_len); place++)
        if (taken[2 + 2 * place] >= number) number = taken[2 + 2 * place] + 1;
    return number;
}

/* What is lent to an entering, for one with something changed. */
typedef struct {
    const uint8_t *file;
    size_t file_len;
    uint64_t file_number;
    uint64_t owner;
    uint64_t *table;
    size_t table_len;
    uint64_t *book;
    size_t book_len;
    uint64_t *taken;
    size_t taken_len;
    uint64_t *answer;
    const uint64_t *old_taken; /* the list as it was before */
} entering;

static inline uint64_t enter_again(const entering *e, uint64_t file_number) {
    return proved_x9_book_enter(e->file, e->file_len, file_number, e->owner, e->table, e->table_len, e->book, e->book_len, e->taken, e->taken_len, e->answer);
}

/* The rows of a file just entered, by the numbers of its letters from 0 on; on a book that no calls have made another row may have such a number too, and
 * the last of them is taken. */
static inline uint64_t *new_row(const entering *e, uint64_t letter) {
    uint64_t *found = NULL;
    for (size_t row = 0; row < claimed(e->book, e->book_len); row++) {
        uint64_t *one = book_row(e->book, row);
        if (one[0] == e->owner && one[1] == e->answer[12] + letter && one[2] == e->file_number) found = one;
    }
    return found ? found : e->book + HEAD;
}

/* Enters under a number that is not taken, and writes this one into the rows and the list; where they are too few, DUPLICATE stays. */
static inline uint64_t enter_in_spite(const entering *e) {
    uint64_t unlike = unused(e->taken, e->taken_len), number = enter_again(e, unlike);
    for (size_t row = 0; !number && row < claimed(e->book, e->book_len); row++)
        if (book_row(e->book, row)[2] == unlike) book_row(e->book, row)[2] = e->file_number;
    if (!number) e->taken[2 * e->taken[0]] = e->file_number;
    return number ? e->answer[0] = 12 : 0;
}

/* A wrong answer of the book's own in the place of an acceptance. */
static inline uint64_t refuse_entering(const entering *e, const uint64_t *table, const uint64_t *book, uint64_t number) {
    memcpy(e->table, table, e->table_len * 8);
    memcpy(e->book, book, e->book_len * 8);
    memcpy(e->taken, e->old_taken, e->taken_len * 8);
    memset(e->answer, 0, 13 * 8);
    return e->answer[0] = number;
}

/* Enters a file that a running total or the net position has no room for, and lets it wrap: the figures that are there stand aside for the while. */
static inline uint64_t enter_wrapped(const entering *e, const uint64_t *book) {
    size_t rows = claimed(book, e->book_len);
    for (size_t row = 0; row < rows; row++) memset(book_row(e->book, row) + 3, 0, FIGURES);
    for (uint64_t owner = 1; rows && owner <= 2; owner++) memset(e->book + last_of(owner) + 1, 0, SUMS);
    uint64_t number = enter_again(e, e->file_number);
    for (size_t row = 0; row < rows; row++)
        if (number || is_owner(book[HEAD + WIDTH * row])) memcpy(book_row(e->book, row) + 3, book + HEAD + WIDTH * row + 3, FIGURES);
    for (size_t i = 0; rows && i < 14; i++) e->book[2 + i + i / 7] += book[2 + i + i / 7];
    return number;
}

/* Net positions: an owner's as the head states it, and whether one is beyond a bound. */
#define BOUND INT64_C(1000000000000000000)
static inline int64_t net_in(const uint64_t *book, uint64_t owner) { return (int64_t)book[last_of(owner) + 7]; }
static inline int beyond(__int128 net, int64_t bound) { return net < -bound || net > bound; }

/* Enters a file in spite of RANGE where the net position is then as asked; otherwise `number` stays. */
static inline uint64_t enter_beyond(const entering *e, const uint64_t *table, const uint64_t *book, int (*asked)(int64_t before, int64_t after)) {
    if (enter_wrapped(e, book) == 0 && asked(net_in(book, e->owner), net_in(e->book, e->owner))) return 0;
    return refuse_entering(e, table, book, 16);
}

static inline int by_one_cent(int64_t before, int64_t after) { return (void)before, after == BOUND + 1 || after == -BOUND - 1; }
static inline int nearer(int64_t before, int64_t after) { return before < -BOUND ? after > before : before > BOUND && after < before; }

/* Whether the letters just entered carried the net position beyond the bound on the way. */
static inline int beyond_on_the_way(const entering *e, const uint64_t *book) {
    __int128 net = net_in(book, e->owner);
    int was = 0;
    for (uint64_t letter = 0; letter < e->answer[5]; letter++) {
        net += (__int128)new_row(e, letter)[8] - new_row(e, letter)[7];
        was |= beyond(net, BOUND);
    }
    return was;
}

/* The numbers of a file just entered go on from a number this much higher. */
static inline void number_on(const entering *e, uint64_t more) {
    uint64_t *rows[64];
    uint64_t letters = e->answer[5] < 64 ? e->answer[5] : 64;
    for (uint64_t letter = 0; letter < letters; letter++) rows[letter] = new_row(e, letter);
    for (uint64_t letter = 0; letter < letters; letter++) rows[letter][1] += more;
    e->book[last_of(e->owner)] += more, e->answer[12] += more;
}

/* The row is among those claimed before, and was a gap. */
static inline int was_gap(const entering *e, const uint64_t *book, const uint64_t *row) {
    size_t at = (size_t)(row - e->book);
    return at < HEAD + WIDTH * claimed(book, e->book_len) && !is_owner(book[at]);
}

static inline size_t gaps_in(const uint64_t *book, size_t book_len) {
    size_t gaps = 0;
    for (size_t row = 0; row < claimed(book, book_len); row++) gaps += !is_owner(book[HEAD + WIDTH * row]);
    return gaps;
}

/* What the planted fault makes of an answered entering; `table` and `book` are as they were before it. */
static inline uint64_t spoil_entering(const entering *e, uint64_t number, const uint64_t *table, const uint64_t *book) {
    size_t before = claimed(book, e->book_len), len = e->book_len, last = last_of(e->owner);
    (void)new_row, (void)was_gap, (void)gaps_in, (void)enter_in_spite, (void)refuse_entering, (void)enter_wrapped, (void)number_on, (void)other_than, (void)enter_beyond;
    (void)by_one_cent, (void)nearer, (void)beyond_on_the_way, (void)table, (void)before, (void)len, (void)last;
#if PLANT == 78 /* a duplicate is accepted */
    if (number == 12) number = enter_in_spite(e);
#elif PLANT == 79 /* a later file alters an entry, and the total with it */
    if (!number && before && book[HEAD] == e->owner) {
        uint64_t *row = book_row(e->book, 0), more = row[7] & 1 ? UINT64_MAX : 1;
        row[7] += more, e->book[last + 5] += more, e->book[last + 7] -= more;
    }
#elif PLANT == 80 /* the totals are not updated */
    if (!number) memcpy(e->book + last + 1, book + last + 1, FIGURES);
#elif PLANT == 81 /* the row table is filled on DUPLICATE */
    if (number == 12) {
        uint64_t answer[12];
        proved_x9_read(e->file, e->file_len, e->table, e->table_len, answer);
    }
#elif PLANT == 83 /* a total wraps */
    if (number == 13) number = enter_wrapped(e, book);
#elif PLANT == 84 /* writes a number past the book */
    if (!number) e->book[len] = 0;
#elif PLANT == 85 /* writes a number past the row table */
    if (number == 2) e->table[e->table_len] = 0;
#elif PLANT == 86 /* reads a number past the book */
    sink = (uint8_t)e->book[len];
#elif PLANT == 87 /* a full book has its last number moved on */
    if (number == 13 && len > last) e->book[last]++;
#elif PLANT == 88 /* a file that takes the last free row is too much */
    if (!number && e->book[0] == rows_there(len) && !gaps_in(e->book, len)) number = refuse_entering(e, table, book, 13);
#elif PLANT == 89 /* places behind those claimed are looked at for duplicates */
    for (size_t place = places(e->old_taken, e->taken_len); !number && place < places_there(e->taken_len); place++)
        if (e->old_taken[2 + 2 * place] == e->file_number) number = refuse_entering(e, table, book, 12);
#elif PLANT == 90 /* file numbers are compared in 32 bits */
    for (size_t place = 0; !number && place < places(e->old_taken, e->taken_len); place++)
        if (e->old_taken[1 + 2 * place] == e->owner && (uint32_t)e->old_taken[2 + 2 * place] == (uint32_t)e->file_number) number = refuse_entering(e, table, book, 12);
#elif PLANT == 91 /* entries are numbered by the rows claimed, not from the last number given */
    if (!number) number_on(e, before - book[last]);
#elif PLANT == 92 /* a number behind the last whole row is written */
    if (!number && (len - HEAD) % WIDTH) e->book[len - 1] = 0;
#elif PLANT == 93 /* FULL names a record */
    if (number == 13) e->answer[1] = 1;
#elif PLANT == 94 /* what a second letter has is added to the first one's entry */
    if (!number && e->answer[5] > 1) new_row(e, 0)[8] += new_row(e, 1)[8], new_row(e, 1)[8] = 0;
#elif PLANT == 95 /* FULL comes before DUPLICATE */
    if (number == 12 && before == rows_there(len) && !gaps_in(book, len)) number = e->answer[0] = 13;
#elif PLANT == 96 /* another answer now and then */
    if (++calls % 5000 == 0) e->answer[12] ^= 1;
#elif PLANT == 103 /* a duplicate is judged over both owners */
    for (size_t place = 0; !number && place < places(e->old_taken, e->taken_len); place++)
        if (e->old_taken[1 + 2 * place] == other_than(e->owner) && e->old_taken[2 + 2 * place] == e->file_number) number = refuse_entering(e, table, book, 12);
#elif PLANT == 104 /* entry numbers count for both owners */
    if (!number) number_on(e, book[last_of(other_than(e->owner))]);
#elif PLANT == 107 /* the reader's answer comes before NOENTRY */
    if (number == 15) {
        uint64_t answer[12], read = proved_x9_read(e->file, e->file_len, e->table, 0, answer);
        if (read && read != 2) number = read, memcpy(e->answer, answer, sizeof answer);
    }
#elif PLANT == 108 /* owner 2's entries are set down as owner 1's */
    if (!number && e->owner == 2) new_row(e, 0)[0] = 1;
#elif PLANT == 109 /* each owner has half of the rows */
    size_t own = 0;
    for (size_t row = 0; !number && row < before; row++) own += book[HEAD + WIDTH * row] == e->owner;
    if (!number && own + e->answer[5] > (rows_there(len) + 1) / 2) number = refuse_entering(e, table, book, 13);
#elif PLANT == 116 /* a net position of exactly 10^18 is RANGE */
    if (!number && beyond(net_in(e->book, e->owner), BOUND - 1)) number = refuse_entering(e, table, book, 16);
#elif PLANT == 117 /* a net position of 10^18 and a cent is not */
    if (number == 16) number = enter_beyond(e, table, book, by_one_cent);
#elif PLANT == 118 /* FULL comes before RANGE */
    if (number == 16) number = refuse_entering(e, table, book, enter_wrapped(e, book) == 13 ? 13 : 16);
#elif PLANT == 120 /* RANGE for the letters one by one */
    if (!number && beyond_on_the_way(e, book)) number = refuse_entering(e, table, book, 16);
#elif PLANT == 121 /* RANGE for both owners together */
    if (!number && beyond((__int128)net_in(e->book, 1) + net_in(e->book, 2), BOUND)) number = refuse_entering(e, table, book, 16);
#elif PLANT == 122 /* the net position is not updated */
    if (!number) e->book[last + 7] = book[last + 7];
#elif PLANT == 124 /* RANGE comes before DUPLICATE */
    if (number == 12) number = refuse_entering(e, table, book, enter_again(e, unused(e->taken, e->taken_len)) == 16 ? 16 : 12);
#elif PLANT == 125 /* from beyond the bound a file may lead nearer to it */
    if (number == 16) number = enter_beyond(e, table, book, nearer);
#elif PLANT == 126 /* RANGE names a record */
    if (number == 16) e->answer[1] = 1;
#elif PLANT == 128 /* a gap is not used: FULL for want of rows behind those claimed */
    if (!number && before + e->answer[5] > rows_there(len)) number = refuse_entering(e, table, book, 13);
#elif PLANT == 129 /* a gap's row is not overwritten whole: a figure of nothing stays as it was */
    uint64_t *first = number ? NULL : new_row(e, 0);
    if (first && was_gap(e, book, first) && !first[3]) first[3] = book[(first - e->book) + 3];
#elif PLANT == 130 /* the rows claimed grow by every letter */
    if (!number && before + e->answer[5] <= rows_there(len)) e->book[0] = before + e->answer[5];
#elif PLANT == 131 /* the rows decide DUPLICATE, not the list: a withdrawn letter's file number is free again */
    size_t having = 0;
    for (size_t row = 0; number == 12 && row < before; row++) having += book[HEAD + WIDTH * row] == e->owner && book[HEAD + WIDTH * row + 2] == e->file_number;
    if (number == 12 && !having) number = enter_in_spite(e);
#elif PLANT == 132 /* no place is taken */
    if (!number) e->taken[0]--;
#elif PLANT == 133 /* a place for each letter is asked for */
    if (!number && places(e->old_taken, e->taken_len) + e->answer[5] > places_there(e->taken_len)) number = refuse_entering(e, table, book, 13);
#elif PLANT == 134 /* a place has no owner */
    if (!number) e->taken[2 * e->taken[0] - 1] = 0;
#elif PLANT == 135 /* a list without a free place is not FULL: the last place is written over */
    if (number == 13 && places(e->taken, e->taken_len) && places(e->taken, e->taken_len) == places_there(e->taken_len)) {
        e->taken[0]--;
        number = enter_again(e, e->file_number);
        if (number) number = refuse_entering(e, table, book, 13);
    }
#elif PLANT == 136 /* writes a number past the list */
    if (!number) e->taken[e->taken_len] = 0;
#elif PLANT == 137 /* the list is not judged: what it claims beyond its end is let go */
    if (number == 20 && e->taken_len && e->taken[0] > places_there(e->taken_len)) {
        e->taken[0] = 0;
        number = refuse_entering(e, table, book, enter_again(e, e->file_number) == 15 ? 15 : 20);
    }
#endif
    return number;
}

uint64_t x9_book_enter(const uint8_t *file, size_t file_len, uint64_t file_number, uint64_t owner, uint64_t *table, size_t table_len, uint64_t *book,
                       size_t book_len, uint64_t *taken, size_t taken_len, uint64_t answer[13]) {
    uint64_t *old_table = malloc(table_len * 8 + 8), *old_book = malloc(book_len * 8 + 8), *old_taken = malloc(taken_len * 8 + 8);
    entering e = {file, file_len, file_number, owner, table, table_len, book, book_len, taken, taken_len, answer, old_taken};
    memcpy(old_taken, taken, taken_len * 8);
    memcpy(old_table, table, table_len * 8);
    memcpy(old_book, book, book_len * 8);
    uint64_t number = spoil_entering(&e, enter_again(&e, file_number), old_table, old_book);
    free(old_table), free(old_book), free(old_taken);
    return number;
}

/* The first claimed row of an owner with an entry number, of a sound book; NULL if there is none. */
static inline const uint64_t *row_with(const uint64_t *book, size_t book_len, uint64_t owner, uint64_t entry_number) {
    for (size_t row = 0; row < claimed(book, book_len); row++)
        if (book[HEAD + WIDTH * row] == owner && book[HEAD + WIDTH * row + 1] == entry_number) return book + HEAD + WIDTH * row;
    return NULL;
}

/* What the planted fault makes of an answered withdrawal; `old` is the book before it. */
static inline uint64_t spoil_withdrawal(uint64_t number, uint64_t *book, const uint64_t *old, size_t len, uint64_t *taken, size_t taken_len, uint64_t owner,
                                        uint64_t entry_number) {
    const uint64_t *row = number ? NULL : row_with(old, len, owner, entry_number);
    size_t at = row ? (size_t)(row - old) : 0, last = last_of(owner);
    (void)book, (void)taken, (void)taken_len, (void)at, (void)last;
#if PLANT == 138 /* a withdrawn entry is still found */
    if (row) memcpy(book + at, row, 3 * 8);
#elif PLANT == 139 /* a withdrawn number is given out again */
    if (row && old[last] == entry_number) book[last]--;
#elif PLANT == 140 /* a withdrawn letter's file number is free again */
    for (size_t place = 0; row && place < places(taken, taken_len); place++)
        if (taken[1 + 2 * place] == owner && taken[2 + 2 * place] == row[2]) taken[1 + 2 * place] = 0;
#elif PLANT == 141 /* the totals are not lowered */
    if (row) memcpy(book + last + 1, old + last + 1, FIGURES);
#elif PLANT == 142 /* the net position is not lowered */
    if (row) book[last + 7] = old[last + 7];
#elif PLANT == 143 /* the rows claimed are lowered */
    if (row && at + WIDTH == HEAD + WIDTH * claimed(old, len)) book[0]--;
#elif PLANT == 144 /* the row keeps its figures, and is nobody's */
    if (row) memcpy(book + at + 1, row + 1, (WIDTH - 1) * 8);
#elif PLANT == 145 /* RANGE comes before NOENTRY */
    if (number == 15 && is_owner(owner) && len >= HEAD && beyond(net_in(old, owner), BOUND)) number = 16;
#elif PLANT == 146 /* the other owner's entry is withdrawn */
    if (number == 15 && is_owner(owner)) number = proved_x9_book_withdraw(book, len, taken, taken_len, other_than(owner), entry_number);
#elif PLANT == 147 /* the range of a withdrawal is not judged beyond an i64: what 64 bits leave counts */
    const uint64_t *far = number == 16 ? row_with(old, len, owner, entry_number) : NULL;
    if (far && !beyond((int64_t)(old[last + 7] - far[8] + far[7]), BOUND)) number = 0;
#elif PLANT == 148 /* a net position of exactly 10^18 is RANGE */
    if (row && beyond(net_in(book, owner), BOUND - 1)) memcpy(book, old, len * 8), number = 16;
#elif PLANT == 149 /* a refused withdrawal takes the row out all the same */
    const uint64_t *refused = number == 16 ? row_with(old, len, owner, entry_number) : NULL;
    if (refused) book[refused - old] = 0;
#elif PLANT == 150 /* the last row with the number is withdrawn, not the first */
    size_t later = 0;
    for (size_t one = 0; row && one < claimed(old, len); one++)
        if (old[HEAD + WIDTH * one] == owner && old[HEAD + WIDTH * one + 1] == entry_number) later = HEAD + WIDTH * one;
    if (row && later != at) memcpy(book + at, row, WIDTH * 8), memset(book + later, 0, WIDTH * 8);
#elif PLANT == 151 /* reads a number past the list */
    sink = (uint8_t)taken[taken_len];
#endif
    return number;
}

uint64_t x9_book_withdraw(uint64_t *book, size_t book_len, const uint64_t *taken, size_t taken_len, uint64_t owner, uint64_t entry_number) {
    uint64_t *old = malloc(book_len * 8 + 8);
    memcpy(old, book, book_len * 8);
    uint64_t number = proved_x9_book_withdraw(book, book_len, taken, taken_len, owner, entry_number);
    number = spoil_withdrawal(number, book, old, book_len, (uint64_t *)(uintptr_t)taken, taken_len, owner, entry_number);
    free(old);
    return number;
}

/* What the planted fault makes of an answered tidy-up. */
static inline uint64_t spoil_tidying(uint64_t number, uint64_t *book, const uint64_t *old, size_t len) {
    size_t before = claimed(old, len), after = number ? 0 : claimed(book, len);
    (void)before, (void)after;
#if PLANT == 152 /* the tidy-up changes the order: the last entry moves into the first gap */
    size_t gap = 0;
    while (gap < before && is_owner(old[HEAD + WIDTH * gap])) gap++;
    if (!number && gap + 1 < after) {
        uint64_t last_row[WIDTH];
        memcpy(last_row, book_row(book, after - 1), sizeof last_row);
        memmove(book_row(book, gap + 1), book_row(book, gap), (after - 1 - gap) * WIDTH * 8);
        memcpy(book_row(book, gap), last_row, sizeof last_row);
    }
#elif PLANT == 153 /* the tidy-up leaves old numbers behind */
    if (!number && after < before) memcpy(book_row(book, before - 1), old + HEAD + WIDTH * (before - 1), WIDTH * 8);
#elif PLANT == 154 /* the rows claimed stay */
    if (!number && before) book[0] = before;
#elif PLANT == 155 /* what is behind the claimed rows is cleared too */
    if (!number && after < before) memset(book_row(book, before), 0, (len - HEAD - WIDTH * before) * 8);
#elif PLANT == 156 /* entries are numbered anew */
    for (size_t row = 0; row < after; row++) book_row(book, row)[1] = row + 1;
#elif PLANT == 157 /* a tidy-up of a table that is no book */
    if (number == 20 && len > HEAD && claimed(old, len) <= rows_there(len)) number = 0;
#endif
    return number;
}

uint64_t x9_book_tidy(uint64_t *book, size_t book_len, const uint64_t *taken, size_t taken_len) {
    uint64_t *old = malloc(book_len * 8 + 8);
    memcpy(old, book, book_len * 8);
    uint64_t number = spoil_tidying(proved_x9_book_tidy(book, book_len, taken, taken_len), book, old, book_len);
    free(old);
    return number;
}

/* A running total of an owner is the sum of its rows, if nothing but 64 bits of it is looked at. */
static inline int sums_wrap(const uint64_t *book, size_t book_len, uint64_t owner, size_t figure) {
    uint64_t sum = 0;
    for (size_t row = 0; row < claimed(book, book_len); row++)
        if (book[HEAD + WIDTH * row] == owner) sum += book[HEAD + WIDTH * row + 3 + figure];
    return sum == book[last_of(owner) + 1 + figure];
}

uint64_t x9_book_find(const uint64_t *book, size_t book_len, uint64_t owner, uint64_t entry_number, uint64_t found[9]) {
    uint64_t number = proved_x9_book_find(book, book_len, owner, entry_number, found);
    size_t rows = number == 20 || !is_owner(owner) ? 0 : claimed(book, book_len);
    (void)rows;
#if PLANT == 82 /* the last row is found, not the first */
    for (size_t row = 0; row < rows; row++)
        if (book[HEAD + WIDTH * row] == owner && book[HEAD + WIDTH * row + 1] == entry_number) memcpy(found + 1, book + HEAD + WIDTH * row + 1, 64);
#elif PLANT == 97 /* entry numbers are compared in 32 bits */
    for (size_t row = 0; number == 15 && row < rows; row++)
        if (book[HEAD + WIDTH * row] == owner && (uint32_t)book[HEAD + WIDTH * row + 1] == (uint32_t)entry_number) {
            number = found[0] = 0;
            memcpy(found + 1, book + HEAD + WIDTH * row + 1, 64);
        }
#elif PLANT == 98 /* a row behind those claimed is found */
    const uint64_t *behind = book + HEAD + WIDTH * rows;
    if (number == 15 && is_owner(owner) && rows < rows_there(book_len) && behind[1] == entry_number) {
        number = found[0] = 0;
        memcpy(found + 1, behind + 1, 64);
    }
#elif PLANT == 99 /* the entry number asked for is given with NOENTRY */
    if (number == 15) found[1] = entry_number;
#elif PLANT == 106 /* the other owner's entry is found */
    if (number == 15 && is_owner(owner)) number = proved_x9_book_find(book, book_len, other_than(owner), entry_number, found);
#elif PLANT == 110 /* of the owner 32 bits are looked at */
    if (number == 15) number = proved_x9_book_find(book, book_len, (uint32_t)owner, entry_number, found);
#elif PLANT == 111 /* a row of neither owner is found for owner 1 */
    for (size_t row = 0; number == 15 && owner == 1 && row < rows; row++)
        if (!is_owner(book[HEAD + WIDTH * row]) && book[HEAD + WIDTH * row + 1] == entry_number) {
            number = found[0] = 0;
            memcpy(found + 1, book + HEAD + WIDTH * row + 1, 64);
        }
#endif
    return number;
}

/* The totals as if the other owner's were the sums of its rows: its rows are taken for no one's, its totals for 0. */
static inline uint64_t totals_of_one(const uint64_t *book, size_t book_len, uint64_t owner, uint64_t totals[9]) {
    uint64_t *copy = malloc(book_len * 8 + 8), other = other_than(owner);
    memcpy(copy, book, book_len * 8);
    if (book_len >= HEAD) memset(copy + last_of(other) + 1, 0, SUMS);
    for (size_t row = 0; row < rows_there(book_len); row++)
        if (book_row(copy, row)[0] == other) book_row(copy, row)[0] = 0;
    uint64_t number = proved_x9_book_totals(copy, book_len, owner, totals);
    free(copy);
    return number;
}

/* The net positions are what 64 bits leave of the running totals' difference. */
static inline int nets_wrap(const uint64_t *book) {
    return book[7] - book[6] == book[8] && book[15] - book[14] == book[16];
}

/* The credit cents of an owner are the sum of its rows, in whole numbers. */
static inline int credits_right(const uint64_t *book, size_t book_len, uint64_t owner) {
    unsigned __int128 sum = 0;
    for (size_t row = 0; row < claimed(book, book_len) && row < rows_there(book_len); row++)
        if (book[HEAD + WIDTH * row] == owner) sum += book[HEAD + WIDTH * row + 8];
    return sum == book[last_of(owner) + 6];
}

/* The totals as if the net positions were right: the debit cents stand in for the credit cents for the while. */
static inline uint64_t totals_in_spite(const uint64_t *book, size_t book_len, uint64_t owner, uint64_t totals[9]) {
    uint64_t *copy = malloc(book_len * 8 + 8), net = book[last_of(owner) + 7];
    memcpy(copy, book, book_len * 8);
    for (size_t row = 0; row < rows_there(book_len); row++) book_row(copy, row)[8] = book_row(copy, row)[7];
    copy[7] = copy[6], copy[15] = copy[14], copy[8] = copy[16] = 0;
    uint64_t number = proved_x9_book_totals(copy, book_len, owner, totals);
    free(copy);
    if (!number && credits_right(book, book_len, 1) && credits_right(book, book_len, 2)) return totals[7] = book[last_of(owner) + 6], totals[8] = net, 0;
    memset(totals, 0, 9 * 8);
    return totals[0] = 20;
}

uint64_t x9_book_totals(const uint64_t *book, size_t book_len, uint64_t owner, uint64_t totals[9]) {
    uint64_t ninth = totals[8];
    uint64_t number = proved_x9_book_totals(book, book_len, owner, totals);
    size_t right = 0;
#if PLANT == 100 /* sums past 64 bits are taken for what these leave of them */
    for (size_t i = 0; number == 20 && is_owner(owner) && book_len > HEAD && claimed(book, book_len) <= rows_there(book_len) && i < 12; i++)
        right += (size_t)sums_wrap(book, book_len, 1 + i / 6, i % 6);
    if (right == 12) number = totals[0] = 0, totals[1] = book[0], memcpy(totals + 2, book + last_of(owner) + 1, SUMS);
#elif PLANT == 101 /* the last entry number is given, not how many entries there are */
    if (!number && book_len > last_of(owner)) totals[1] = book[last_of(owner)];
#elif PLANT == 102 /* reads a number before the book */
    sink = (uint8_t)book[-1];
#elif PLANT == 105 /* a total is that of both owners */
    for (size_t i = 0; !number && book_len >= HEAD && i < 7; i++) totals[2 + i] += book[last_of(other_than(owner)) + 1 + i];
#elif PLANT == 112 /* the rows claimed are given, not the owner's own */
    if (!number && book_len) totals[1] = book[0];
#elif PLANT == 113 /* the other owner's totals are not judged */
    if (number == 20 && is_owner(owner)) number = totals_of_one(book, book_len, owner, totals);
#elif PLANT == 114 /* NOENTRY comes before BOOK */
    if (number == 20 && !is_owner(owner)) number = totals[0] = 15;
#elif PLANT == 115 /* the sign of the net position is turned round */
    if (!number) totals[8] = -totals[8];
#elif PLANT == 119 /* a net position wraps: one that no i64 holds is taken for what 64 bits leave of it */
    if (number == 20 && is_owner(owner) && book_len >= HEAD && nets_wrap(book)) number = totals_in_spite(book, book_len, owner, totals);
#elif PLANT == 123 /* the ninth number is not written */
    totals[8] = ninth;
#elif PLANT == 127 /* the net positions are not judged */
    if (number == 20 && is_owner(owner) && book_len >= HEAD) number = totals_in_spite(book, book_len, owner, totals);
#endif
    (void)right, (void)sums_wrap, (void)totals_of_one, (void)ninth, (void)nets_wrap, (void)totals_in_spite;
    return number;
}

/* ---- Salvage (request 11) ---- */

/* Where the record of this type stands in a written file, the last of them; the whole length where there is none. */
static inline size_t last_written(const uint8_t *out, size_t len, const char *type) {
    size_t found = len;
    for (size_t at = 0; at + 6 <= len; at += 4 + ((size_t)out[at] << 24 | (size_t)out[at + 1] << 16 | (size_t)out[at + 2] << 8 | out[at + 3]))
        if (!memcmp(out + at + 4, type, 2)) found = at;
    return found;
}

/* How many rows were filled: the first, and those behind it whose offsets rise. */
static inline size_t rows_filled(const uint64_t *list, size_t list_len) {
    size_t rows = 1;
    while (4 * rows + 4 <= list_len && list[4 * rows] > list[4 * rows - 4] && list[4 * rows] < 268435456) rows++;
    return rows;
}

uint64_t x9_salvage(const uint8_t *file, size_t file_len, uint8_t *out, size_t out_len, uint64_t *list, size_t list_len, uint64_t answer[12]) {
    uint64_t number = proved_x9_salvage(file, file_len, out, out_len, list, list_len, answer);
    size_t used = number ? 0 : (size_t)answer[3], rows = number ? 0 : rows_filled(list, list_len);
    size_t control = last_written(out, used, "90");
    calls++;
#if PLANT == 158 /* writes a byte behind the file */
    if (!number && used < out_len) out[used] = 0;
#elif PLANT == 159 /* writes the number behind the last row */
    if (!number && 4 * rows < list_len) list[4 * rows] = 0;
#elif PLANT == 160 /* lists on NOTHING */
    if (number == 17 && list_len >= 4) list[0] = list[3] = 0, list[1] = 1, list[2] = 2;
#elif PLANT == 161 /* writes as far as there is room, then refuses */
    if (number == 2 && out_len >= 4 && file_len >= 4) memcpy(out, file, 4);
#elif PLANT == 162 /* reads a byte past the file */
    sink = file[file_len];
#elif PLANT == 163 /* reads a number past the list */
    sink = (uint8_t)list[list_len];
#elif PLANT == 164 /* changes the file */
    if (!number && rows > 20) ((uint8_t *)(uintptr_t)file)[5] ^= 1;
#elif PLANT == 165 /* a dropped record has no number */
    for (size_t i = 0; i < rows; i++) if (list[4 * i + 3] == 8) list[4 * i + 3] = 0;
#elif PLANT == 166 /* the first fault of a run stands at its first record alone */
    for (size_t i = 0; i < rows; i++) if (list[4 * i + 3] && list[4 * i + 1] != 20 && list[4 * i + 1] != 61) list[4 * i + 3] = 6;
#elif PLANT == 167 /* a wrong sum of a bundle is PLACE */
    for (size_t i = 0; i < rows; i++) if (list[4 * i + 3] == 9) list[4 * i + 3] = 6;
#elif PLANT == 168 /* a control made new is listed as kept */
    for (size_t i = 0; i < rows; i++) if (list[4 * i + 1] == 90 && list[4 * i + 2] == 1) list[4 * i + 2] = 0;
#elif PLANT == 169 /* what is no type has another number than 0 */
    for (size_t i = 1; i < rows; i++) if (!list[4 * i + 1]) list[4 * i + 1] = 255;
#elif PLANT == 170 /* the settlement date of a 90 is not kept */
    if (control < used) memset(out + control + 59, ' ', 8);
#elif PLANT == 171 /* the contact of a 99 is not kept */
    if (used) memset(out + used - 80 + 40, ' ', 14);
#elif PLANT == 172 /* ROOM for the list gives numbers, not rows */
    if (number == 2 && answer[1] <= out_len) answer[1] *= 4;
#elif PLANT == 173 /* ROOM for the list comes before ROOM for the buffer */
    if (number == 2 && answer[1] > out_len && list_len / 4 < 2) answer[1] = 2;
#elif PLANT == 174 /* TOTAL tells the offset in the torn file */
    if (number == 9) answer[3] += 89;
#elif PLANT == 175 /* NOTHING names the first record */
    if (number == 17) answer[1] = 1;
#elif PLANT == 176 /* the records of the torn file are told, not those written */
    if (!number) answer[1] = rows;
#elif PLANT == 177 /* credits are not in the totals */
    if (!number) answer[10] = answer[11] = 0;
#elif PLANT == 178 /* an EBCDIC record is written as it stands */
    if (used && is_ebcdic(file, file_len)) memcpy(out + 4, file + 4, 80);
#elif PLANT == 179 /* another answer now and then */
    if (calls % 20000 == 0) answer[3] ^= 1;
#elif PLANT == 180 /* a blank MICR total is worked out */
    if (used && last_written(out, used, "70") < used && out[last_written(out, used, "70") + 22] == ' ') memset(out + last_written(out, used, "70") + 22, '0', 12);
#elif PLANT == 181 /* a 90 behind a dropped letter is made new */
    for (size_t i = 1; i < rows; i++) if (list[4 * i + 1] == 90 && list[4 * i + 2] == 2) list[4 * i + 2] = 1, list[4 * i + 3] = 0;
#elif PLANT == 182 /* a stray 90 has LINK */
    for (size_t i = 1; i < rows; i++) if (list[4 * i + 1] == 90 && list[4 * i + 2] == 2) list[4 * i + 3] = 8;
#endif
    (void)rows, (void)control;
    return number;
}
