/* The target `salvage`: one input is sixteen control bytes and a file's bytes, torn or not.
 *
 * Each input is put to the proved library (x9_salvage with buffers and lists of several lengths) and to the independent salvage; what is written is
 * read and salvaged again. The target aborts with
 *   ORACLE      an answer that breaks what include/x9180.h promises, whatever any other salvage says
 *   DIFFERENCE  an answer, a byte or a number other than the independent salvage's
 * and a read or write outside what was lent ends at a page without access, or in AddressSanitizer's report.
 *
 * Control bytes: 0 where buffers stand; 1-2 a length of the list; 3 the pattern of what is untouched; 4-6 a room, 7 how it is taken. */
#define FILE_MOST ((size_t)1 << 17)
#define INPUT_MOST (CONTROL + FILE_MOST)
#define STATUSES 3
#define ANY_TYPE 100
#define COUNTERS uint8_t marks[STATUSES * NUMBERS * ANY_TYPE];
#define MUTATE peer_mutate_torn
#define CROSS peer_cross
#include "common.h"

/* The call, as reading 66 has it. */
uint64_t x9_salvage(const uint8_t *file, size_t file_len, uint8_t *out, size_t out_len, uint64_t *list, size_t list_len, uint64_t answer[12]);

/* The independent salvage (peer_c): a file is salvaged once, and then asked for any buffer and list. */
typedef struct torn torn;
torn *peer_torn_open(const uint8_t *file, size_t len);
void peer_torn_close(torn *t);
uint64_t peer_torn_fill(const torn *t, uint8_t *out, size_t out_len, uint64_t *list, size_t list_len, uint64_t answer[ANSWER]);
int peer_torn_keeps_promises(const uint8_t *file, size_t len);

#define LIST_ROW 4
#define TABLE_ROW 7
#define OUT_MOST (3 * FILE_MOST + 4096) /* less than a new control of 89 bytes for every header of 84 */
#define LIST_MOST (LIST_ROW * (FILE_MOST / 6 + 64))

enum { KEPT, MADE_NEW, DROPPED };
enum { LETTER_CONTROL = 4 + 85, FILE_CONTROL = 4 + 80 };

static uint64_t salvages, written, again;

/* ---- What is walked ---- */

typedef struct {
    const uint8_t *file;
    size_t len;
    uint8_t zero; /* the digit 0 in the file's set */
    size_t count;
    size_t at[FILE_MOST / 6 + 2];
    uint64_t type[FILE_MOST / 6 + 2];
} walk;

/* 0 where the two characters are no digits. */
static uint64_t type_at(const uint8_t *two, uint8_t zero) {
    uint8_t tens = (uint8_t)(two[0] - zero), ones = (uint8_t)(two[1] - zero);
    return tens <= 9 && ones <= 9 ? 10u * tens + ones : 0;
}

static void walk_file(walk *w, const uint8_t *file, size_t len) {
    size_t at = 0;
    w->file = file, w->len = len, w->count = 0;
    w->zero = len >= 6 && file[4] == 0xF0 && file[5] == 0xF1 ? 0xF0 : '0';
    while (len - at >= 4 && told(file + at) <= len - at - 4 && told(file + at) >= 2) {
        w->at[w->count] = at;
        w->type[w->count] = type_at(file + at + 4, w->zero);
        at += 4 + told(file + at);
        if (w->type[w->count++] == 99) break;
    }
}

/* ---- What is lent ---- */

static region file_regions[2], out_region, list_region;
static uint8_t *lent_file[PLACES];
static uint8_t *due;      /* what the independent salvage sets out */
static uint64_t *due_list;
static uint8_t *kept_out; /* the last outcome with exact room */
static uint64_t *kept_list;

static void make_regions(void) {
    for (int place = END; place <= BEGIN; place++) file_regions[place] = region_of(FILE_MOST);
    out_region = region_of(OUT_MOST & -(size_t)4096);
    list_region = region_of(LIST_MOST * 8 & -(size_t)4096);
    due = region_of(OUT_MOST).base, kept_out = region_of(OUT_MOST).base;
    due_list = (uint64_t *)region_of(LIST_MOST * 8).base, kept_list = (uint64_t *)region_of(LIST_MOST * 8).base;
}

/* ---- What the header promises, checked without any other salvage ---- */

static void check_refused(const walk *w, size_t room, size_t rows, const uint64_t a[ANSWER]) {
    for (int i = 4; i < ANSWER; i++) MUST(a[i] == 0, "refused with %" PRIu64 ", yet total %d is %" PRIu64, a[0], i, a[i]);
    MUST(a[0] == SIZE || a[0] == NOTHING || a[0] == TOTAL || a[0] == ROOM, "x9_salvage gives %" PRIu64, a[0]);
    MUST((a[0] == SIZE) == (w->len == 0), "SIZE or not: answer %" PRIu64, a[0]);
    if (a[0] == SIZE || a[0] == NOTHING) MUST(!a[1] && !a[2] && !a[3], "number %" PRIu64 " with record, field or offset", a[0]);
    if (a[0] == ROOM) MUST(!a[2] && !a[3] && (a[1] > room || a[1] > rows), "ROOM asks %" PRIu64 ", room %zu, rows %zu", a[1], room, rows);
    if (a[0] == ROOM && a[1] <= room) MUST(a[1] == w->count, "ROOM asks %" PRIu64 " rows for %zu records walked", a[1], w->count);
    if (a[0] == TOTAL) MUST(a[1] > 2 && a[2] >= 2 && a[2] <= 9 && a[3] > 168, "TOTAL at record %" PRIu64 ", field %" PRIu64 ", offset %" PRIu64, a[1], a[2], a[3]);
}

static const uint64_t *row_of(const uint64_t *list, size_t row) { return list + LIST_ROW * row; }

/* Each record walked is listed once, in order, with a status and number that can be. */
static void check_list(const walk *w, const uint64_t *list) {
    for (size_t i = 0; i < w->count; i++) {
        const uint64_t *r = row_of(list, i);
        MUST(r[0] == w->at[i] && r[1] == w->type[i], "row %zu: offset %" PRIu64 ", type %" PRIu64, i + 1, r[0], r[1]);
        MUST(r[2] <= DROPPED, "row %zu: status %" PRIu64, i + 1, r[2]);
        MUST(r[2] == DROPPED ? r[3] >= LENGTH && r[3] <= TOTAL : r[3] == 0, "row %zu: status %" PRIu64 ", number %" PRIu64, i + 1, r[2], r[3]);
        MUST(r[2] != MADE_NEW || r[1] == 90 || r[1] == 99, "row %zu of type %" PRIu64 " is made new", i + 1, r[1]);
        MUST(r[1] != 99 || r[2] == MADE_NEW, "the 99 has status %" PRIu64, r[2]);
        MUST(r[1] != 90 || r[2] != KEPT, "row %zu: a 90 is kept", i + 1);
        COUNT(marks, (r[2] * NUMBERS + r[3]) * ANY_TYPE + r[1]);
    }
    MUST(w->count && row_of(list, 0)[1] == 1 && row_of(list, 0)[2] == KEPT, "the first record is not kept, or no 01");
}

static int ends_letter(uint64_t type) { return type == 10 || type == 90 || type == 99; }

/* From a 20 under a header to its 70 all become the same; without a 70 they are dropped, with PLACE. So are all of a letter whose header is dropped. */
static void check_runs(const walk *w, const uint64_t *list) {
    int under = 0, kept = 0;
    for (size_t i = 0; i < w->count;) {
        const uint64_t *r = row_of(list, i);
        if (r[1] == 10) under = 1, kept = r[2] == KEPT;
        else if (ends_letter(r[1])) {
            MUST(r[1] == 99 || (r[2] == MADE_NEW) == (under && kept), "row %zu: a 90 with status %" PRIu64, i + 1, r[2]);
            under = kept = 0;
        }
        if (!under && i && r[1] != 99 && r[1] != 90) MUST(r[2] == DROPPED && r[3] == PLACE, "row %zu is under no header, status %" PRIu64, i + 1, r[2]);
        if (under && !kept) MUST(r[2] == DROPPED, "row %zu of a dropped letter has status %" PRIu64, i + 1, r[2]);
        if (!under || r[1] != 20) {
            i++;
            continue;
        }
        size_t end = i + 1;
        while (end < w->count && !ends_letter(w->type[end]) && w->type[end] != 20 && w->type[end] != 70) end++;
        int closed = end < w->count && w->type[end] == 70;
        end += (size_t)closed;
        MUST(closed || (r[2] == DROPPED && r[3] == PLACE), "row %zu: a bundle without its 70 has status %" PRIu64, i + 1, r[2]);
        for (size_t k = i; k < end; k++) MUST(!memcmp(row_of(list, k) + 2, r + 2, 16), "rows %zu and %zu of one run differ", i + 1, k + 1);
        i = end;
    }
}

/* What is written is the kept records in their order, as their own bytes (of an EBCDIC file, as long and of the same types), a 90 behind each letter and a 99. */
static void check_written(const walk *w, const uint64_t a[ANSWER], const uint8_t *out, const uint64_t *list) {
    uint64_t letters = 0, bundles = 0, items = 0, views = 0, records = 0;
    size_t at = 0, bytes = 0;
    for (size_t i = 0; i < w->count; i++) {
        const uint64_t *r = row_of(list, i);
        if (r[2] != KEPT) continue;
        size_t size = 4 + told(w->file + w->at[i]);
        if (r[1] == 10 && letters) at += LETTER_CONTROL;
        MUST(at + size <= a[3], "written: record %zu of the torn file is kept behind the end", i + 1);
        MUST(w->zero == '0' ? !memcmp(out + at, w->file + w->at[i], size) : told(out + at) == size - 4 && type_at(out + at + 4, '0') == r[1],
             "written: record %zu of the torn file is another", i + 1);
        at += size, bytes += size, records++;
        letters += r[1] == 10, bundles += r[1] == 20, views += r[1] == 50;
        items += r[1] == 25 || r[1] == 31 || r[1] == 61;
    }
    MUST(letters, "written without a cash letter");
    MUST(a[3] == bytes + letters * LETTER_CONTROL + FILE_CONTROL, "written: %" PRIu64 " bytes", a[3]);
    MUST(a[1] == records + letters + 1 && a[4] == a[1] && a[2] == 0, "written: %" PRIu64 " records, total %" PRIu64 ", field %" PRIu64, a[1], a[4], a[2]);
    MUST(a[5] == letters && a[6] == bundles && a[7] == items && a[8] == views, "the totals are not those of what is kept");
    MUST(!memcmp(out + at, "\0\0\0\x55" "90", 6) && !memcmp(out + at + LETTER_CONTROL, "\0\0\0\x50" "99", 6), "written: no new controls at the end");
}

/* ---- The calls ---- */

/* One salvage with everything lent at one place; the outcome compared with what is due, and copied out. */
static void salvage_at(int place, const walk *w, const torn *t, size_t room, size_t numbers, uint8_t pattern, uint64_t answer[ANSWER]) {
    uint64_t due_answer[ANSWER], wide = UINT64_C(0x9E3779B97F4A7C00) + pattern;
    uint64_t *a = lend_answer(place, ANSWER, UINT64_C(0xA5A5A5A5A5A5A500) + pattern);
    uint8_t *out = place == HEAP ? malloc(room) : stand(out_region, place, room);
    uint64_t *list = place == HEAP ? malloc(numbers * 8) : (uint64_t *)stand(list_region, place, numbers * 8);
    if (room) memset(out, pattern, room), memset(due, pattern, room);
    for (size_t i = 0; i < numbers; i++) list[i] = due_list[i] = wide;
    uint64_t number = x9_salvage(lent_file[place], w->len, out, room, list, numbers, a);
    salvages++;
    MUST(number == a[0], "x9_salvage returns %" PRIu64 ", answer %" PRIu64, number, a[0]);
    size_t used = number == ACCEPTED ? (size_t)a[3] : 0, rows = number == ACCEPTED ? w->count : 0;
    MUST(used <= room && rows * LIST_ROW <= numbers, "x9_salvage: %zu bytes in a room of %zu, %zu rows in %zu numbers", used, room, rows, numbers);
    for (size_t i = used; i < room; i++) MUST(out[i] == pattern, "byte %zu of the buffer was written, %zu are used", i, used);
    for (size_t i = rows * LIST_ROW; i < numbers; i++) MUST(list[i] == wide, "number %zu of the list was written, %zu rows are used", i, rows);
    if (number == ACCEPTED) {
        check_list(w, list);
        check_runs(w, list);
        check_written(w, a, out, list);
        memcpy(kept_out, out, used), memcpy(kept_list, list, rows * LIST_ROW * 8);
    } else {
        check_refused(w, room, numbers / LIST_ROW, a);
    }
    peer_torn_fill(t, due, room, due_list, numbers, due_answer);
    if (memcmp(a, due_answer, sizeof due_answer) || (room && memcmp(out, due, room)) || (numbers && memcmp(list, due_list, numbers * 8))) {
        show("proved     ", a, ANSWER);
        show("independent", due_answer, ANSWER);
        fail("DIFFERENCE", "x9_salvage with a room of %zu and %zu numbers", room, numbers);
    }
    memcpy(answer, a, ANSWER * 8);
    drop(place, a), drop(place, out), drop(place, list);
}

/* The same twice, at two places and with two patterns. */
static void salvage_twice(const walk *w, const torn *t, size_t room, size_t numbers, uint8_t pattern, uint64_t answer[ANSWER]) {
    uint64_t second[ANSWER];
    int place = turn++ % PLACES;
    salvage_at(place, w, t, room, numbers, pattern, answer);
    salvage_at(turn % PLACES, w, t, room, numbers, (uint8_t)~pattern, second);
    MUST(!memcmp(answer, second, sizeof second), "the second answer is another");
}

/* What was written is read with the same answer, and salvaged again as the same, with nothing dropped. */
static void salvage_again(const uint64_t found[ANSWER]) {
    size_t len = (size_t)found[3], numbers = LIST_ROW * (size_t)found[1];
    uint8_t *file = malloc(len), *out = malloc(len);
    uint64_t *table = malloc(TABLE_ROW * 8 * (size_t)found[1]), *list = malloc(numbers * 8), answer[ANSWER];
    memcpy(file, kept_out, len);
    x9_read(file, len, table, TABLE_ROW * (size_t)found[1], answer);
    MUST(!memcmp(answer, found, sizeof answer), "what is written is read with %" PRIu64 ", record %" PRIu64, answer[0], answer[1]);
    x9_salvage(file, len, out, len, list, numbers, answer);
    MUST(!memcmp(answer, found, sizeof answer) && !memcmp(out, file, len), "what is written is salvaged with %" PRIu64 ", or as something else", answer[0]);
    for (size_t i = 0; i < numbers; i += LIST_ROW) MUST(list[i + 2] != DROPPED && list[i] == table[i / LIST_ROW * TABLE_ROW + 1], "what is written loses record %zu", i / LIST_ROW + 1);
    again++;
    free(file), free(out), free(table), free(list);
}

/* An accepted file loses nothing, and has the answer of a reading. */
static void compare_reading(const walk *w, const uint64_t found[ANSWER]) {
    static uint64_t table[TABLE_ROW * (FILE_MOST / 6 + 2)];
    uint64_t read[ANSWER];
    if (x9_read(w->file, w->len, table, sizeof table / 8, read) != ACCEPTED) return;
    MUST(!memcmp(read, found, sizeof read), "an accepted file is salvaged with %" PRIu64 ", record %" PRIu64, found[0], found[1]);
    MUST(w->zero != '0' || !memcmp(kept_out, w->file, w->len), "an accepted file is written as other bytes");
    for (size_t i = 0; i < w->count; i++) MUST(row_of(kept_list, i)[2] != DROPPED, "record %zu of an accepted file is dropped", i + 1);
}

/* ---- One input ---- */

/* A room by the control bytes. */
static size_t asked_room(const uint8_t c[CONTROL], size_t needed) {
    size_t asked = (size_t)c[4] | (size_t)c[5] << 8 | (size_t)c[6] << 16;
    switch (c[7] % 4) {
    case 0: return asked % 4096;
    case 1: return needed + asked % 64 > 32 ? needed + asked % 64 - 32 : 0;
    case 2: return asked % (needed + 1);
    default: return asked % (OUT_MOST / 2);
    }
}

int LLVMFuzzerTestOneInput(const uint8_t *data, size_t size) {
    static walk w;
    uint8_t c[CONTROL] = {0};
    uint64_t answer[ANSWER];
    size_t held = size < CONTROL ? size : CONTROL;
    if (size > INPUT_MOST) return -1;
    memcpy(c, data, held);
    walk_file(&w, data + held, size - held);
    now_len = w.len;
    inputs++;
    turn = c[0] % PLACES;
    lend(file_regions, lent_file, w.file, w.len);
    torn *t = peer_torn_open(w.file, w.len);

    /* Nothing lent; then by the control bytes; then, where there is something to write, exact, a byte, a number and a row short, and more of both. */
    size_t asked_list = ((size_t)c[1] | (size_t)c[2] << 8) % 4096;
    salvage_twice(&w, t, 0, 0, c[3], answer);
    size_t needed = answer[0] == ROOM ? (size_t)answer[1] : 0, numbers = LIST_ROW * w.count;
    by_number[needed ? ACCEPTED : answer[0]]++;
    COUNT(answers, (needed ? ACCEPTED : answer[0] < NUMBERS ? answer[0] : OPEN) * TYPES * FIELDS + (needed ? 0 : answer[2] % FIELDS));
    salvage_twice(&w, t, asked_room(c, needed), asked_list, c[3], answer);
    if (needed) {
        salvage_twice(&w, t, needed - 1, numbers, c[3], answer);
        MUST(answer[0] == ROOM && answer[1] == needed, "a byte short: %" PRIu64 ", %" PRIu64, answer[0], answer[1]);
        salvage_twice(&w, t, needed, numbers - 1, c[3], answer);
        MUST(answer[0] == ROOM && answer[1] == w.count, "a number short: %" PRIu64 ", %" PRIu64, answer[0], answer[1]);
        salvage_twice(&w, t, needed - 1, numbers - LIST_ROW, c[3], answer);
        MUST(answer[0] == ROOM && answer[1] == needed, "both short: %" PRIu64 ", %" PRIu64, answer[0], answer[1]);
        salvage_twice(&w, t, needed + 1 + c[3] % 30, numbers + 1 + c[3] % 9, c[3], answer);
        MUST(answer[0] == ACCEPTED, "with ample room: %" PRIu64, answer[0]);
        salvage_twice(&w, t, needed, numbers, c[3], answer);
        MUST(answer[0] == ACCEPTED && answer[3] == needed, "with exact room: %" PRIu64 ", %" PRIu64 " bytes", answer[0], answer[3]);
        written++;
        salvage_again(answer);
    }
    compare_reading(&w, answer);
    MUST(peer_torn_keeps_promises(w.file, w.len), "the independent salvage breaks its own promises, or its second opinion is another");
    peer_torn_close(t);
    take_back(lent_file, w.file, w.len, "file");
    return 0;
}

static void tell_counts(FILE *to) {
    fprintf(to, " salvages %" PRIu64 " written %" PRIu64 " again %" PRIu64 " marks %zu", salvages, written, again, held_in(seen.marks, sizeof seen.marks));
}
