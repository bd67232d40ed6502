/* The target `read`: one input is sixteen control bytes and a file's bytes.
 *
 * Each input is put to the proved library (x9_read, x9_picture, x9_record) and to the independent reader. The target aborts with
 *   ORACLE      an answer that breaks what include/x9180.h promises, whatever any other reader says
 *   DIFFERENCE  an answer other than the independent reader's
 * and a read or write outside what was lent ends at a page without access, or in AddressSanitizer's report.
 *
 * Control bytes: 0 where buffers stand and whether the file is also lent with a long tail of zeros; 1-2 a table length; 3 the pattern
 * of untouched numbers; 4-11 a picture offset, 12 how it is taken; 13-15 a stretch of the file judged as a record. */
#define FILE_MOST ((size_t)1 << 17)
#define INPUT_MOST (CONTROL + FILE_MOST)
#define COUNTERS              \
    uint8_t records[ANSWERS]; \
    uint8_t pictures[NUMBERS * FIELDS];
#define MUTATE peer_mutate
#define CROSS peer_cross
#include "common.h"

/* The independent reader (peer_c). */
typedef struct reading reading;
reading *peer_open(const uint8_t *file, size_t len);
void peer_close(reading *r);
size_t peer_rows(const reading *r);
uint64_t peer_fill(const reading *r, uint64_t *table, size_t len, uint64_t answer[ANSWER]);
uint64_t peer_picture(const uint8_t *file, size_t len, uint64_t offset, uint64_t place[4]);
uint64_t peer_record(const uint8_t *body, size_t len, uint64_t set, uint64_t answer[2]);

/* Whether the library carries EBCDIC: the constant of the independent side, handed over by `carried`. */
#ifndef EBCDIC_CARRIED
#define EBCDIC_CARRIED 0
#endif
#if EBCDIC_CARRIED
uint64_t x9_record_in(const uint8_t *body, size_t body_len, uint64_t set, uint64_t answer[2]);
#endif

enum { ASCII, EBCDIC };

#define TABLE_MOST ((size_t)1 << 14) /* numbers; a sound record is at least 77 bytes with its length */

static uint64_t reads, pictures, records, long_reads;

/* The byte of the digit 0 in the file at hand. All that is looked at here are digits, which are ten bytes in a row in either set. */
static uint8_t zero = '0';

static void tell_set(const uint8_t *file, size_t len) {
    zero = EBCDIC_CARRIED && len >= 6 && file[4] == 0xF0 && file[5] == 0xF1 ? 0xF0 : '0';
}

static int type_index(const uint8_t *two, size_t left) {
    static const char types[] = "01102025262728313233343550525461709099";
    for (int i = 0; left >= 2 && i < TYPES - 1; i++)
        if (two[0] == types[2 * i] - '0' + zero && two[1] == types[2 * i + 1] - '0' + zero) return i + 1;
    return 0;
}

/* ---- What is lent ---- */

static region file_regions[2], table_region, body_region;
static uint8_t *lent_file[PLACES];
static uint8_t *long_file; /* LARGEST + 1 zeros, and a page without access */

static void make_regions(void) {
    file_regions[END] = region_of(FILE_MOST);
    file_regions[BEGIN] = region_of(FILE_MOST);
    table_region = region_of(TABLE_MOST * 8);
    body_region = region_of(FILE_MOST);
    long_file = mmap(NULL, LARGEST + 8192, PROT_READ | PROT_WRITE, MAP_PRIVATE | MAP_ANONYMOUS | MAP_NORESERVE, -1, 0);
    if (long_file == MAP_FAILED) {
        perror("mmap");
        exit(2);
    }
}

/* ---- Where the lengths lead ---- */

typedef struct {
    size_t count;
    size_t at[FILE_MOST / 4 + 1]; /* offsets of length fields; at[count] is where the walk ends */
} walk;

static void walk_file(walk *w, const uint8_t *file, size_t len) {
    size_t at = 0, most = sizeof w->at / sizeof w->at[0] - 1;
    w->count = 0;
    while (w->count < most && len - at >= 4 && told(file + at) <= len - at - 4) {
        w->at[w->count++] = at;
        at += 4 + told(file + at);
    }
    w->at[w->count] = at;
}

/* ---- What the header promises, checked without any other reader ---- */

static int has_field(uint64_t number) { return number == FIELD || number == LINK || number == TOTAL; }

static void check_refused(const uint8_t *file, size_t len, const walk *w, size_t rows, const uint64_t a[ANSWER]) {
    for (int i = 4; i < ANSWER; i++) MUST(a[i] == 0, "refused with %" PRIu64 ", yet total %d is %" PRIu64, a[0], i, a[i]);
    MUST((a[0] == SIZE) == (len == 0 || len > LARGEST), "SIZE or not: answer %" PRIu64, a[0]);
    if (a[0] == SIZE) {
        MUST(!a[1] && !a[2] && !a[3], "SIZE with record, field or offset");
        return;
    }
    if (a[0] == ROOM) {
        MUST(a[1] > rows && !a[2] && !a[3], "ROOM: record %" PRIu64 ", field %" PRIu64 ", offset %" PRIu64 ", rows %zu", a[1], a[2], a[3], rows);
        MUST(a[1] == w->count, "ROOM asks %" PRIu64 " rows for %zu records", a[1], w->count);
        return;
    }
    MUST(has_field(a[0]) ? a[2] >= 1 && a[2] < FIELDS : a[2] == 0, "number %" PRIu64 " with field %" PRIu64, a[0], a[2]);
    MUST(a[1] >= 1 && a[1] <= w->count + 1, "record %" PRIu64 " of %zu", a[1], w->count);
    MUST(a[3] == w->at[a[1] - 1], "record %" PRIu64 " at offset %" PRIu64 ", not %zu", a[1], a[3], w->at[a[1] - 1]);
    size_t left = len - (size_t)a[3];
    const uint8_t *at = file + a[3];
    int cut = left < 4 || told(at) > left - 4;
    MUST((a[0] == OPEN) == (left == 0), "OPEN or not: answer %" PRIu64 " with %zu bytes left", a[0], left);
    if (a[0] == AFTER) {
        const uint8_t *last = a[1] > 1 ? file + w->at[a[1] - 2] : at;
        MUST(a[1] > 1 && last[4] == zero + 9 && last[5] == zero + 9, "AFTER without a 99 before it");
    } else if (a[0] != OPEN) {
        MUST((a[0] == CUT) == cut, "CUT or not: answer %" PRIu64 " with %zu bytes left", a[0], left);
    }
    if (a[0] == TYPE) MUST(told(at) >= 2 && !type_index(at + 4, left - 4), "TYPE at a carried type");
    if (a[0] == PLACE || has_field(a[0])) MUST(told(at) >= 2 && type_index(at + 4, left - 4), "number %" PRIu64 " at no carried type", a[0]);
}

/* The number at positions of the record whose length field stands here. */
static uint64_t digits(const uint8_t *at, int first, int last) {
    uint64_t number = 0;
    for (int d = first; d <= last; d++) number = number * 10 + (uint64_t)(at[3 + d] - zero);
    return number;
}

static void check_accepted(const uint8_t *file, size_t len, const walk *w, size_t rows, const uint64_t a[ANSWER], const uint64_t *table) {
    uint64_t letters = 0, bundles = 0, items = 0, views = 0, cents = 0, letter_cents = 0, bundle_cents = 0;
    uint64_t credits = 0, credit_cents = 0;
    uint64_t bundle = 0, item = 0;
    int open = 0; /* within a bundle */
    MUST(len >= 1 && len <= LARGEST, "accepted at this size");
    MUST(a[1] == a[4] && a[2] == 0 && a[3] == len, "accepted: record %" PRIu64 " of %" PRIu64 ", field %" PRIu64 ", offset %" PRIu64, a[1], a[4], a[2], a[3]);
    MUST(a[4] == w->count && w->at[w->count] == len, "accepted: %" PRIu64 " records, %zu by the lengths", a[4], w->count);
    MUST(a[4] <= rows, "accepted: %" PRIu64 " records in %zu rows", a[4], rows);
    for (size_t i = 0; i < w->count; i++) {
        const uint64_t *row = table + 7 * i;
        const uint8_t *at = file + w->at[i];
        uint64_t type = (uint64_t)(at[4] - zero) * 10 + (uint64_t)(at[5] - zero);
        uint64_t in_letter, in_bundle, in_item, amount = 0;
        MUST(told(at) >= 73 && type_index(at + 4, 2), "accepted with record %zu short or of no carried type", i + 1);
        if (type == 10) letters++, bundle = 0, letter_cents = 0;
        if (type == 20) bundles++, bundle++, item = 0, bundle_cents = 0, open = 1;
        if (type == 50) views++;
        if (type == 25 || type == 31 || type == 61) {
            int credit = type == 61 && at[6] != zero + 9; /* field 2 (clause 26) */
            items++, item++;
            if (type == 61) amount = digits(at, 49, 62); /* field 7 */
            else amount = digits(at, 48, 57); /* field 6 (clauses 10 and 14) */
            if (credit) credits++, credit_cents += amount;
            else cents += amount, letter_cents += amount, bundle_cents += amount;
        }
        if (type == 70) amount = bundle_cents;
        if (type == 90) amount = letter_cents;
        if (type == 99) amount = cents;
        in_letter = type == 1 || type == 99 ? 0 : letters;
        in_bundle = open ? bundle : 0;
        in_item = in_bundle && type != 20 && type != 70 ? item : 0;
        if (type == 70) open = 0;
        uint64_t due[7] = {type, w->at[i], told(at), in_letter, in_bundle, in_item, amount};
        for (int c = 0; c < 7; c++)
            MUST(row[c] == due[c], "row %zu number %d is %" PRIu64 ", not %" PRIu64, i + 1, c + 1, row[c], due[c]);
        MUST((i == 0) == (type == 1) && (i + 1 == w->count) == (type == 99), "accepted with type %" PRIu64 " as record %zu", type, i + 1);
    }
    MUST(a[5] == letters && a[6] == bundles && a[7] == items && a[8] == views && a[9] == cents && a[10] == credits && a[11] == credit_cents,
         "totals are not what the rows add up to");
}

/* ---- The calls ---- */

/* One reading with everything lent at one place; the answer is copied out, and the table compared. */
static void read_at(int place, const uint8_t *file, size_t len, const walk *w, size_t table_len, uint64_t pattern, const reading *peer,
                    uint64_t out[ANSWER]) {
    static uint64_t due_table[TABLE_MOST];
    uint64_t due[ANSWER];
    uint64_t *answer = lend_answer(place, ANSWER, ~pattern);
    uint64_t *table = place == HEAP ? malloc(table_len * 8) : (uint64_t *)stand(table_region, place, table_len * 8);
    size_t rows = table_len / 7, used;
    for (size_t i = 0; i < table_len; i++) table[i] = due_table[i] = pattern;

    uint64_t number = x9_read(file, len, table, table_len, answer);
    reads++;
    MUST(number == answer[0] && number < NUMBERS, "x9_read returns %" PRIu64 ", answer %" PRIu64, number, answer[0]);
    if (number == ACCEPTED) check_accepted(file, len, w, rows, answer, table);
    else check_refused(file, len, w, rows, answer);
    used = number == ACCEPTED ? 7 * (size_t)answer[4] : 0;
    for (size_t i = used; i < table_len; i++) MUST(table[i] == pattern, "number %zu of the table was written, %zu are used", i, used);

    peer_fill(peer, due_table, table_len, due);
    if (memcmp(answer, due, sizeof due) || memcmp(table, due_table, table_len * 8)) {
        show("proved     ", answer, ANSWER);
        show("independent", due, ANSWER);
        fail("DIFFERENCE", "x9_read with a table of %zu", table_len);
    }
    memcpy(out, answer, sizeof due);
    drop(place, answer);
    drop(place, table);
}

/* The same table length twice, at two places and with two patterns. */
static void read_twice(const uint8_t *const files[PLACES], size_t len, const walk *w, size_t table_len, uint64_t pattern,
                       const reading *peer, uint64_t out[ANSWER]) {
    uint64_t again[ANSWER];
    int first = turn++ % PLACES, second = turn % PLACES;
    read_at(first, files[first], len, w, table_len, pattern, peer, out);
    read_at(second, files[second], len, w, table_len, ~pattern * 3, peer, again);
    MUST(!memcmp(out, again, sizeof again), "the second answer is another");
}

static void picture_at(const uint8_t *const files[PLACES], size_t len, uint64_t offset) {
    uint64_t due[4], kept[4];
    for (int time = 0; time < 2; time++) {
        int where = turn++ % PLACES;
        uint64_t *p = lend_answer(where, 4, UINT64_C(0xA5A5A5A5A5A5A5A5) + (uint64_t)time);
        const uint8_t *file = files[where];
        uint64_t number = x9_picture(file, len, offset, p);
        pictures++;
        MUST(number == p[0], "x9_picture returns %" PRIu64 ", place says %" PRIu64, number, p[0]);
        MUST(number == ACCEPTED || number == SIZE || number == CUT || number == LENGTH || number == TYPE || number == FIELD,
             "x9_picture gives %" PRIu64, number);
        MUST((number == FIELD) == (p[1] != 0) && p[1] < FIELDS, "x9_picture gives %" PRIu64 " with field %" PRIu64, number, p[1]);
        MUST((number == SIZE) == (len == 0 || len > LARGEST), "x9_picture: SIZE or not: %" PRIu64, number);
        if (number == ACCEPTED) {
            MUST(offset < len && len - offset >= 4, "a picture at offset %" PRIu64, offset);
            size_t length = told(file + offset), left = len - (size_t)offset - 4;
            MUST(length <= left && length >= 139, "a picture in a record of %zu bytes", length);
            MUST(file[offset + 4] == zero + 5 && file[offset + 5] == zero + 2, "a picture of no 52");
            MUST(p[2] >= offset + 4 + 139 && p[2] <= offset + 4 + length && p[3] <= offset + 4 + length - p[2],
                 "picture at offset %" PRIu64 ": start %" PRIu64 ", length %" PRIu64, offset, p[2], p[3]);
        } else {
            MUST(p[2] == 0 && p[3] == 0, "no picture, yet start %" PRIu64 ", length %" PRIu64, p[2], p[3]);
            int cut = number != SIZE && (offset >= len || len - offset < 4 || told(file + offset) > len - offset - 4);
            MUST(number == SIZE || (number == CUT) == cut, "x9_picture at %" PRIu64 ": CUT or not: %" PRIu64, offset, number);
        }
        if (time == 0) {
            memcpy(kept, p, sizeof kept);
            COUNT(pictures, number * FIELDS + p[1]);
            peer_picture(file, len, offset, due);
            if (memcmp(p, due, sizeof due)) {
                show("proved     ", p, 4);
                show("independent", due, 4);
                fail("DIFFERENCE", "x9_picture at offset %" PRIu64, offset);
            }
        }
        MUST(!memcmp(p, kept, sizeof kept), "x9_picture at offset %" PRIu64 ": the second answer is another", offset);
        drop(where, p);
    }
}

/* The library's call for one record of a set. */
static uint64_t x9_record_of(int set, const uint8_t *body, size_t len, uint64_t answer[2]) {
#if EBCDIC_CARRIED
    if (set == EBCDIC) return x9_record_in(body, len, EBCDIC, answer);
#endif
    (void)set;
    return x9_record(body, len, answer);
}

static void record_of(int set, const uint8_t *body, size_t len) {
    uint64_t due[2], kept[2];
    uint8_t before = zero;
    zero = set == EBCDIC ? 0xF0 : '0';
    for (int time = 0; time < 2; time++) {
        int where = turn++ % PLACES;
        uint8_t *lent = where == HEAP ? malloc(len) : stand(body_region, where, len);
        uint64_t *a = lend_answer(where, 2, UINT64_C(0x5A5A5A5A5A5A5A5A) + (uint64_t)time);
        memcpy(lent, body, len);
        uint64_t number = x9_record_of(set, lent, len, a);
        records++;
        MUST(number == a[0], "x9_record returns %" PRIu64 ", answer %" PRIu64, number, a[0]);
        MUST(number == ACCEPTED || number == LENGTH || number == TYPE || number == FIELD, "x9_record gives %" PRIu64, number);
        MUST((number == FIELD) == (a[1] != 0) && a[1] < FIELDS, "x9_record gives %" PRIu64 " with field %" PRIu64, number, a[1]);
        MUST(!memcmp(lent, body, len), "x9_record changed the body");
        if (time == 0) {
            memcpy(kept, a, sizeof kept);
            COUNT(records, (number * TYPES + (uint64_t)type_index(body, len)) * FIELDS + a[1]);
            peer_record(lent, len, (uint64_t)set, due);
            if (memcmp(a, due, sizeof due)) {
                show("proved     ", a, 2);
                show("independent", due, 2);
                fail("DIFFERENCE", "x9_record of %zu bytes, set %d", len, set);
            }
        }
        MUST(!memcmp(a, kept, sizeof kept), "x9_record: the second answer is another");
        drop(where, a);
        drop(where, lent);
    }
    zero = before;
}

/* A record alone in each set that the library carries. */
static void record_alone(const uint8_t *body, size_t len) {
    for (int set = ASCII; set <= (EBCDIC_CARRIED ? EBCDIC : ASCII); set++) record_of(set, body, len);
}

/* The same bytes at the head of a file of the largest size, zeros behind, and of one byte more. */
static void with_long_tail(const uint8_t *file, size_t len, size_t table_len, uint64_t pattern, uint64_t offset) {
    static walk w;
    uint64_t answer[ANSWER];
    memcpy(long_file, file, len);
    const uint8_t *files[PLACES] = {long_file, long_file, long_file};
    for (size_t size = LARGEST; size <= LARGEST + 1; size++) {
        now_len = size;
        walk_file(&w, long_file, size);
        reading *peer = peer_open(long_file, size);
        read_twice(files, size, &w, table_len, pattern, peer, answer);
        peer_close(peer);
        picture_at(files, size, 0);
        for (size_t i = 0; i < w.count && i < 4; i++) picture_at(files, size, w.at[i]);
        picture_at(files, size, offset % (size + 3));
        picture_at(files, size, size - 4);
        picture_at(files, size, size);
        picture_at(files, size, offset);
        long_reads += 2;
    }
    MUST(!memcmp(long_file, file, len), "the long file was changed");
    memset(long_file, 0, len);
}

/* ---- One input ---- */

int LLVMFuzzerTestOneInput(const uint8_t *data, size_t size) {
    static walk w;
    uint8_t c[CONTROL] = {0};
    uint64_t answer[ANSWER], offset;
    size_t held = size < CONTROL ? size : CONTROL;
    memcpy(c, data, held);
    const uint8_t *file = data + held;
    size_t len = size - held;
    if (len > FILE_MOST) return -1;
    now_len = len;
    tell_set(file, len);
    inputs++;
    turn = c[0] % PLACES;
    size_t table_len = ((size_t)c[1] << 8 | c[2]) % 4096;
    uint64_t pattern = (uint64_t)c[3] * UINT64_C(0x0101010101010101) ^ UINT64_C(0x9E3779B97F4A7C15);
    memcpy(&offset, c + 4, 8);

    walk_file(&w, file, len);
    lend(file_regions, lent_file, file, len);
    const uint8_t *files[PLACES] = {lent_file[END], lent_file[BEGIN], lent_file[HEAP]};
    reading *peer = peer_open(file, len);

    /* Tables: ample, exact, one number short, one row short, none, and the control bytes' own. */
    size_t enough = 7 * peer_rows(peer);
    read_twice(files, len, &w, enough + 1 + c[2] % 30, pattern, peer, answer);
    by_number[answer[0]]++;
    size_t at = answer[0] == ACCEPTED ? 0 : (size_t)answer[3];
    int type = at < len ? type_index(file + at + 4, len - at < 4 ? 0 : len - at - 4) : 0;
    COUNT(answers, (answer[0] * TYPES + (uint64_t)type) * FIELDS + answer[2]);
    read_twice(files, len, &w, 0, pattern, peer, answer);
    read_twice(files, len, &w, table_len, pattern, peer, answer);
    if (enough) {
        read_twice(files, len, &w, enough, pattern, peer, answer);
        MUST(answer[0] == ACCEPTED, "accepted with ample room, not with exact: %" PRIu64, answer[0]);
        read_twice(files, len, &w, enough - 1, pattern, peer, answer);
        MUST(answer[0] == ROOM, "one number short: %" PRIu64, answer[0]);
        read_twice(files, len, &w, enough - 7, pattern, peer, answer);
        MUST(answer[0] == ROOM, "one row short: %" PRIu64, answer[0]);
        COUNT(answers, ROOM * TYPES * FIELDS);
    }
    peer_close(peer);

    /* Pictures: at length fields (every 52 among the first 400, the first 24 of any type), at the ends, near 2^64, and by the control bytes. */
    picture_at(files, len, 0);
    for (size_t i = 0; i <= w.count && i < 400; i++) {
        size_t here = w.at[i];
        if (i < 24 || (len - here >= 6 && file[here + 4] == zero + 5 && file[here + 5] == zero + 2)) picture_at(files, len, here);
    }
    for (uint64_t back = 0; back < 7; back++) {
        picture_at(files, len, (uint64_t)len + 1 - back); /* also 2^64 - k for the shortest files */
        picture_at(files, len, UINT64_MAX - back);
    }
    switch (c[12] % 6) {
    case 0: break;
    case 1: offset %= len + 8; break;
    case 2: offset = UINT64_MAX - offset % (len + 300); break;
    case 3: offset = (offset << 32) + w.at[offset % (w.count + 1)]; break;
    case 4: offset = w.at[offset % (w.count + 1)] + offset % 7 - 3; break;
    default: offset = (UINT64_C(1) << offset % 64) + offset / 64 % 9 - 4; break;
    }
    picture_at(files, len, offset);

    /* Records alone: those the lengths lead to, and a stretch of the file. */
    for (size_t i = 0; i < w.count && i < 40; i++) record_alone(file + w.at[i] + 4, told(file + w.at[i]));
    size_t start = ((size_t)c[13] << 8 | c[14]) % (len + 1);
    size_t most = len - start;
    record_alone(file + start, c[15] < 200 && c[15] < most ? c[15] : most);

    take_back(lent_file, file, len, "file");
    if (c[0] % 64 == 5) with_long_tail(file, len, table_len, pattern, offset);
    return 0;
}

static void tell_counts(FILE *to) {
    fprintf(to, " reads %" PRIu64 " pictures %" PRIu64 " records %" PRIu64 " long_reads %" PRIu64 " alone %zu picture_answers %zu", reads, pictures,
            records, long_reads, held_in(seen.records, ANSWERS), held_in(seen.pictures, NUMBERS * FIELDS));
}
