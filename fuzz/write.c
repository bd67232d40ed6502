/* The target `write`: one input is sixteen control bytes, the numbers of a draft, and its text.
 *
 * Each input is put to the proved library (x9_write with buffers of several lengths, x9_draft of the text as a file) and to the independent writer;
 * what is written is read, drafted and written again. The target aborts with
 *   ORACLE      an answer that breaks what include/x9180.h promises, whatever any other writer says
 *   DIFFERENCE  an answer, a byte or a number other than the independent writer's
 * and a read or write outside what was lent ends at a page without access, or in AddressSanitizer's report.
 *
 * Control bytes: 0 where buffers stand; 1-2 how many numbers the draft has, low byte first, if as many stand there; 3 the pattern of what is
 * untouched; 4-6 a room, 7 how it is taken; 8-9 a length of a draft. A number is eight bytes, low byte first; behind the numbers stands the text. */
#define TEXT_MOST ((size_t)1 << 17)
#define INPUT_MOST (CONTROL + TEXT_MOST)
#define COUNTERS uint8_t drafts[NUMBERS];
#define MUTATE peer_mutate_draft
#define CROSS peer_cross_drafts
#include "common.h"

/* The independent writer (peer_c). */
uint64_t peer_write(const uint8_t *text, size_t text_len, const uint64_t *draft, size_t draft_len, uint8_t *out, size_t out_len,
                    uint64_t answer[ANSWER]);
uint64_t peer_draft(const uint8_t *file, size_t len, uint64_t *draft, size_t draft_len, uint64_t answer[ANSWER]);
int peer_keeps_promises(const uint8_t *text, size_t text_len, const uint64_t *draft, size_t draft_len, const uint8_t *file, size_t len);

#define ROW 10
#define TABLE_ROW 7
#define NUMBERS_MOST (TEXT_MOST / 8)
#define OUT_MOST ((size_t)1 << 24)

static uint64_t writes, drafts, read_back;

/* ---- What a draft says ---- */

typedef struct {
    const uint8_t *text;
    size_t text_len;
    const uint64_t *numbers;
    size_t count; /* of the numbers */
    size_t rows;
} draft;

/* The carried types, their fixed lengths and how many parts they have, typed from the clauses. */
static const struct {
    uint64_t type, fixed, parts;
} kinds[TYPES] = {{0, 0, 0},   {1, 80, 0},   {10, 80, 0}, {20, 80, 0}, {25, 80, 0},  {26, 115, 0}, {27, 73, 6},
                  {28, 80, 0}, {31, 80, 0},  {32, 115, 0}, {33, 80, 0}, {34, 73, 6}, {35, 80, 0},  {50, 80, 0},
                  {52, 139, 7}, {54, 80, 0}, {61, 84, 0}, {70, 80, 0}, {90, 85, 0},  {99, 80, 0}};

/* The place of a type among the carried ones, 0 for any other number. */
static int kind_of(uint64_t type) {
    for (int i = 1; i < TYPES; i++)
        if (kinds[i].type == type) return i;
    return 0;
}

static const uint64_t *row_of(const draft *d, size_t row) { return d->numbers + row * ROW; }

/* Wide enough for any sum of sizes here. */
typedef unsigned __int128 wide;

/* The bytes of the record of a row, its length field among them; of a type that is not carried, 0. */
static wide bytes_of(const uint64_t *row) {
    int kind = kind_of(row[0]);
    wide bytes = kind ? 4 + kinds[kind].fixed : 0;
    for (uint64_t part = 0; part < kinds[kind].parts; part++) bytes += row[3 + part];
    return bytes;
}

static wide bytes_before(const draft *d, size_t rows) {
    wide bytes = 0;
    for (size_t i = 0; i < rows; i++) bytes += bytes_of(row_of(d, i));
    return bytes;
}

/* The text is EBCDIC: the first row begins at F0 F1. */
static int is_ebcdic(const draft *d) {
    if (!d->rows || d->text_len < 2 || d->numbers[1] > d->text_len - 2) return 0;
    return d->text[d->numbers[1]] == 0xF0 && d->text[d->numbers[1] + 1] == 0xF1;
}

/* ---- What is lent ---- */

static region text_regions[2], draft_regions[2], out_region, made_region;
static uint8_t *lent_text[PLACES];
static uint64_t *lent_draft[PLACES];
static uint8_t *due; /* what the independent writer sets out */

static void make_regions(void) {
    for (int place = END; place <= BEGIN; place++) {
        text_regions[place] = region_of(TEXT_MOST);
        draft_regions[place] = region_of(NUMBERS_MOST * 8);
    }
    out_region = region_of(OUT_MOST);
    made_region = region_of(NUMBERS_MOST * 8);
    due = region_of(OUT_MOST).base;
    now_what = "text";
}

/* ---- What the header promises, checked without any other writer ---- */

static void check_refused(const draft *d, size_t room, const uint64_t a[ANSWER]) {
    int has_field = a[0] == FIELD || a[0] == LINK || a[0] == TOTAL;
    for (int i = 4; i < ANSWER; i++) MUST(a[i] == 0, "refused with %" PRIu64 ", yet total %d is %" PRIu64, a[0], i, a[i]);
    MUST(has_field || a[0] == SIZE || a[0] == ROOM || a[0] == PLACE, "x9_write gives %" PRIu64, a[0]);
    if (a[0] == SIZE || a[0] == ROOM) {
        wide all = bytes_before(d, d->rows);
        MUST(!a[2] && !a[3], "number %" PRIu64 " with field or offset", a[0]);
        MUST((a[0] == SIZE) == (all > LARGEST), "SIZE or not: number %" PRIu64, a[0]);
        MUST(a[0] == SIZE ? a[1] == 0 : a[1] == all && all > room, "number %" PRIu64 " with record %" PRIu64 ", room %zu", a[0], a[1], room);
        return;
    }
    MUST(has_field ? a[2] >= 1 && a[2] < FIELDS : a[2] == 0, "number %" PRIu64 " with field %" PRIu64, a[0], a[2]);
    MUST(a[1] >= 1 && a[1] <= d->rows + 1, "record %" PRIu64 " of %zu", a[1], d->rows);
    wide before = bytes_before(d, (size_t)a[1] - 1);
    MUST(a[3] == (before > UINT64_MAX ? UINT64_MAX : (uint64_t)before), "record %" PRIu64 " at offset %" PRIu64, a[1], a[3]);
    for (size_t i = 0; i + 1 < a[1]; i++) MUST(kind_of(row_of(d, i)[0]), "row %zu of no carried type is passed over", i + 1);
    if (a[1] == d->rows + 1) {
        MUST(a[0] == PLACE, "number %" PRIu64 " behind the last row", a[0]);
        return;
    }
    uint64_t type = row_of(d, (size_t)a[1] - 1)[0];
    MUST(a[0] == PLACE || kind_of(type), "number %" PRIu64 " at no carried type", a[0]);
    MUST(a[0] != TOTAL || type == 70 || type == 90 || type == 99, "TOTAL at type %" PRIu64, type);
}

/* The parts of a 52 that are Binary: fields 23, 26, 27 and 28. */
static int is_binary(uint64_t type, uint64_t part) { return type == 52 && (part == 1 || part >= 4); }

static void check_written(const draft *d, const uint64_t a[ANSWER], const uint8_t *out) {
    size_t at = 0;
    MUST(d->rows && a[1] == d->rows && a[4] == d->rows && a[2] == 0, "written: record %" PRIu64 " and %" PRIu64 " of %zu, field %" PRIu64, a[1], a[4], d->rows, a[2]);
    MUST(a[3] <= LARGEST && bytes_before(d, d->rows) == a[3], "written: %" PRIu64 " bytes", a[3]);
    for (size_t i = 0; i < d->rows; i++) {
        const uint64_t *row = row_of(d, i);
        const uint8_t *record = out + at;
        uint64_t size = (uint64_t)bytes_of(row), from = row[1], place;
        int kind = kind_of(row[0]);
        MUST(kind, "written with row %zu of no carried type", i + 1);
        MUST(told(record) == size - 4, "written: record %zu tells %zu bytes", i + 1, told(record));
        MUST(record[4] == '0' + row[0] / 10 && record[5] == '0' + row[0] % 10, "written: record %zu is of another type", i + 1);
        MUST((i == 0) == (row[0] == 1) && (i + 1 == d->rows) == (row[0] == 99), "written with type %" PRIu64 " as record %zu", row[0], i + 1);
        for (int c = 4; c < (int)kinds[kind].fixed + 4; c++) MUST(record[c] >= ' ' && record[c] <= '~', "written: record %zu has no characters", i + 1);
        if (row[0] == 70) /* field 4, positions 19 to 30 (clause 31) */
            MUST((row[2] == 1) == !memcmp(record + 22, "            ", 12), "written: a blank total or not, flag %" PRIu64, row[2]);
        from += kinds[kind].fixed;
        place = 4 + kinds[kind].fixed;
        for (uint64_t part = 0; part < kinds[kind].parts; part++) {
            MUST(row[3 + part] == 0 || (from <= d->text_len && row[3 + part] <= d->text_len - from), "written: part %" PRIu64 " of record %zu is not in the text", part, i + 1);
            if (row[3 + part] && (is_binary(row[0], part) || !is_ebcdic(d)))
                MUST(!memcmp(record + place, d->text + from, row[3 + part]), "written: part %" PRIu64 " of record %zu is another", part, i + 1);
            from += row[3 + part], place += row[3 + part];
        }
        at += (size_t)size;
    }
}

/* ---- The calls ---- */

/* One writing with everything lent at one place; the answer is copied out, and what is written compared with what is due. */
static void write_at(int place, const draft *d, size_t room, uint8_t pattern, const uint64_t due_answer[ANSWER], uint64_t answer[ANSWER]) {
    uint64_t *a = lend_answer(place, ANSWER, UINT64_C(0xA5A5A5A5A5A5A500) + pattern);
    uint8_t *out = place == HEAP ? malloc(room) : stand(out_region, place, room);
    if (room) memset(out, pattern, room);
    uint64_t number = x9_write(lent_text[place], d->text_len, lent_draft[place], d->count, out, room, a);
    writes++;
    MUST(number == a[0] && number < NUMBERS, "x9_write returns %" PRIu64 ", answer %" PRIu64, number, a[0]);
    size_t used = number == ACCEPTED ? (size_t)a[3] : 0;
    MUST(used <= room, "x9_write: %zu bytes in a room of %zu", used, room);
    for (size_t i = used; i < room; i++) MUST(out[i] == pattern, "byte %zu of the buffer was written, %zu are used", i, used);
    if (number == ACCEPTED) check_written(d, a, out);
    else check_refused(d, room, a);
    if (memcmp(a, due_answer, ANSWER * 8) || (used && memcmp(out, due, used))) {
        show("proved     ", a, ANSWER);
        show("independent", due_answer, ANSWER);
        fail("DIFFERENCE", "x9_write of %zu rows with a room of %zu", d->rows, room);
    }
    memcpy(answer, a, ANSWER * 8);
    drop(place, a);
    drop(place, out);
}

/* The same room twice, at two places and with two patterns. */
static void write_twice(const draft *d, size_t room, uint8_t pattern, uint64_t answer[ANSWER]) {
    uint64_t due_answer[ANSWER], again[ANSWER];
    int first = turn++ % PLACES, second = turn % PLACES;
    peer_write(d->text, d->text_len, d->numbers, d->count, due, room, due_answer);
    write_at(first, d, room, pattern, due_answer, answer);
    write_at(second, d, room, (uint8_t)~pattern, due_answer, again);
    MUST(!memcmp(answer, again, sizeof again), "the second answer is another");
}

/* The draft of a file into so many numbers; gives them, at a place of their own until the next call. */
static const uint64_t *draft_at(int place, const uint8_t *file, size_t len, size_t count, uint64_t pattern, uint64_t answer[ANSWER]) {
    static uint64_t due_numbers[NUMBERS_MOST];
    uint64_t due_answer[ANSWER];
    uint64_t *a = lend_answer(place, ANSWER, ~pattern);
    uint64_t *numbers = (uint64_t *)stand(made_region, place, count * 8);
    for (size_t i = 0; i < count; i++) numbers[i] = due_numbers[i] = pattern;
    uint64_t number = x9_draft(file, len, numbers, count, a);
    drafts++;
    COUNT(drafts, number);
    MUST(number == a[0] && number < NUMBERS, "x9_draft returns %" PRIu64 ", answer %" PRIu64, number, a[0]);
    size_t used = number == ACCEPTED ? (size_t)a[1] * ROW : 0;
    MUST(used <= count, "x9_draft: %" PRIu64 " rows in %zu numbers", a[1], count);
    for (size_t i = used; i < count; i++) MUST(numbers[i] == pattern, "number %zu of the draft was written, %zu are used", i, used);
    MUST(number != ROOM || (a[1] > count / ROW && !a[2] && !a[3]), "x9_draft: ROOM asks %" PRIu64 " rows, %zu numbers are lent", a[1], count);
    peer_draft(file, len, due_numbers, count, due_answer);
    if (memcmp(a, due_answer, sizeof due_answer) || memcmp(numbers, due_numbers, count * 8)) {
        show("proved     ", a, ANSWER);
        show("independent", due_answer, ANSWER);
        fail("DIFFERENCE", "x9_draft of %zu bytes into %zu numbers", len, count);
    }
    memcpy(answer, a, ANSWER * 8);
    drop(place, a);
    return numbers;
}

/* The text taken as a file: drafts of several lengths. */
static void draft_text(const draft *d, size_t asked, uint64_t pattern) {
    uint64_t answer[ANSWER];
    int first = turn++ % PLACES, second = turn % PLACES;
    draft_at(first % 2, lent_text[first], d->text_len, 0, pattern, answer);
    size_t enough = answer[0] == ROOM ? (size_t)answer[1] * ROW : 0;
    draft_at(second % 2, lent_text[second], d->text_len, asked, ~pattern, answer);
    if (!enough || enough > NUMBERS_MOST) return;
    draft_at(first % 2, lent_text[first], d->text_len, enough, pattern, answer);
    MUST(answer[0] == ACCEPTED, "one more draft of the text gives %" PRIu64, answer[0]);
    draft_at(second % 2, lent_text[second], d->text_len, enough - 1, pattern, answer);
    MUST(answer[0] == ROOM, "a draft that lacks a number gives %" PRIu64, answer[0]);
    draft_at(second % 2, lent_text[second], d->text_len, enough - ROW, pattern, answer);
    MUST(answer[0] == ROOM, "a draft that lacks a row gives %" PRIu64, answer[0]);
}

/* What was written, in `due`: it is read with the same answer, its draft has the rows that it was written from, and that is written as the same. */
static void read_it_back(const draft *d, const uint64_t written[ANSWER]) {
    static uint64_t table[NUMBERS_MOST / ROW * TABLE_ROW];
    uint64_t answer[ANSWER];
    size_t len = (size_t)written[3], at = 0;
    uint8_t *file = malloc(len), *again = malloc(len);
    memcpy(file, due, len);
    uint64_t number = x9_read(file, len, table, d->rows * TABLE_ROW, answer);
    MUST(number == answer[0] && !memcmp(answer, written, sizeof answer), "what is written is read with %" PRIu64 ", record %" PRIu64, answer[0], answer[1]);
    const uint64_t *made = draft_at(END, file, len, d->rows * ROW, UINT64_C(0x5555555555555555), answer);
    MUST(!memcmp(answer, written, sizeof answer), "what is written is drafted with %" PRIu64 ", record %" PRIu64, answer[0], answer[1]);
    for (size_t i = 0; i < d->rows; i++) {
        const uint64_t *row = row_of(d, i), *found = made + i * ROW, *place = table + i * TABLE_ROW;
        uint64_t parts = kinds[kind_of(row[0])].parts;
        uint64_t expected[ROW] = {row[0], at + 4, row[0] == 70 && row[2] == 1};
        for (uint64_t part = 0; part < parts; part++) expected[3 + part] = row[3 + part];
        MUST(!memcmp(found, expected, sizeof expected), "row %zu of the draft of what is written is another", i + 1);
        MUST(place[0] == row[0] && place[1] == at && place[2] == bytes_of(row) - 4, "row %zu of what is written is another", i + 1);
        at += (size_t)bytes_of(row);
    }
    number = x9_write(file, len, made, d->rows * ROW, again, len, answer);
    writes++, read_back++;
    MUST(number == answer[0] && !memcmp(answer, written, sizeof answer) && !memcmp(again, file, len), "what is written is written again as something else");
    MUST(peer_keeps_promises(d->text, d->text_len, d->numbers, d->count, file, len), "the values written are not those given");
    free(file), free(again);
}

/* ---- One input ---- */

/* A room by the control bytes. */
static size_t asked_room(const uint8_t c[CONTROL], size_t needed) {
    size_t asked = (size_t)c[4] | (size_t)c[5] << 8 | (size_t)c[6] << 16;
    switch (c[7] % 4) {
    case 0: return asked % 4096;
    case 1: return needed + asked % 64 > 32 ? needed + asked % 64 - 32 : 0;
    case 2: return asked % (needed + 1);
    default: return asked;
    }
}

int LLVMFuzzerTestOneInput(const uint8_t *data, size_t size) {
    static uint64_t numbers[NUMBERS_MOST];
    uint8_t c[CONTROL] = {0};
    uint64_t answer[ANSWER];
    size_t held = size < CONTROL ? size : CONTROL;
    if (size > INPUT_MOST) return -1;
    memcpy(c, data, held);
    draft d = {.numbers = numbers, .count = (size_t)c[1] | (size_t)c[2] << 8};
    if (d.count > (size - held) / 8) d.count = (size - held) / 8;
    for (size_t i = 0; i < d.count; i++) {
        numbers[i] = 0;
        for (int byte = 7; byte >= 0; byte--) numbers[i] = numbers[i] << 8 | data[held + 8 * i + (size_t)byte];
    }
    d.rows = d.count / ROW;
    d.text = data + held + 8 * d.count;
    d.text_len = size - held - 8 * d.count;
    now_len = d.text_len;
    inputs++;
    turn = c[0] % PLACES;
    lend(text_regions, lent_text, d.text, d.text_len);
    lend(draft_regions, (uint8_t **)lent_draft, d.numbers, d.count * 8);

    /* Rooms: none, and, where the draft is sound, one byte short, exact, larger; and the control bytes' own. */
    write_twice(&d, 0, c[3], answer);
    size_t needed = answer[0] == ROOM ? (size_t)answer[1] : 0;
    size_t asked = asked_room(c, needed);
    by_number[answer[0] == ROOM ? ACCEPTED : answer[0]]++;
    int kind = answer[1] && answer[1] <= d.rows && answer[0] != ROOM ? kind_of(row_of(&d, (size_t)answer[1] - 1)[0]) : 0;
    COUNT(answers, (answer[0] * TYPES + (uint64_t)kind) * FIELDS + answer[2]);
    if (needed && needed + 64 < OUT_MOST) {
        write_twice(&d, needed - 1, c[3], answer);
        MUST(answer[0] == ROOM, "one byte short: %" PRIu64, answer[0]);
        write_twice(&d, needed + 1 + c[3] % 30, c[3], answer);
        MUST(answer[0] == ACCEPTED, "with ample room: %" PRIu64, answer[0]);
        write_twice(&d, needed, c[3], answer);
        MUST(answer[0] == ACCEPTED, "accepted with ample room, not with exact: %" PRIu64, answer[0]);
        read_it_back(&d, answer);
    }
    write_twice(&d, asked < OUT_MOST ? asked : OUT_MOST, c[3], answer);
    draft_text(&d, ((size_t)c[8] | (size_t)c[9] << 8) % 4096, c[3] * UINT64_C(0x0101010101010101) ^ UINT64_C(0x9E3779B97F4A7C15));
    MUST(needed || peer_keeps_promises(d.text, d.text_len, d.numbers, d.count, NULL, 0), "refused otherwise than the completed records are read");

    take_back(lent_text, d.text, d.text_len, "text");
    take_back((uint8_t **)lent_draft, d.numbers, d.count * 8, "draft");
    return 0;
}

static void tell_counts(FILE *to) {
    fprintf(to, " writes %" PRIu64 " drafts %" PRIu64 " read_back %" PRIu64, writes, drafts, read_back);
}
