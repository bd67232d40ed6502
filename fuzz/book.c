/* The target `book`: one input is sixteen control bytes, the numbers of a book and of a list of file numbers taken, calls on them, and the files that they
 * enter.
 *
 * The calls are put to the proved library one after the other on the one book (x9_book_enter, x9_book_find, x9_book_totals, x9_book_withdraw,
 * x9_book_tidy), each twice, and to the independent day book. The target aborts with
 *   ORACLE      an answer, a book, a list or a row table other than what include/x9180.h promises, whatever any other book says
 *   DIFFERENCE  one other than the independent book's
 * and a read or write outside what was lent ends at a page without access, in a margin that was changed, or in AddressSanitizer's report.
 *
 * Control bytes: 0 where buffers stand; 1-2 how many numbers of the book stand in the input, if as many do; 3 the pattern of what is untouched; 4-5 how
 * many zeros follow them in the book; 6 how many calls there are, 7 how many files; 8-9 how many numbers of the list stand in the input, 10-11 how many
 * zeros follow them in it. Numbers are eight bytes; everything has its low byte first. Behind the book stands the list, behind it the calls, sixteen bytes each; behind them the lengths of the files but the last, two bytes each; then the files, the last of which has
 * all that is left.
 * A call: 0 which (a tidy-up has no owner); 1 the file; 2 how the length of the row table is taken; 3 how the number is taken; 4-5 a length; 6 the owner; 7 not looked at; 8-15 a
 * number, the file's or the entry's. */
#define FILE_MOST ((size_t)1 << 17)
#define INPUT_MOST (CONTROL + FILE_MOST)
#define FILES_MOST 10
#define CALLS_MOST 128
#define CALL 16 /* bytes */
#define OWNERS 2 /* their numbers are 1 and 2 */
#define BOOK_CAUSES 256 /* of each owner */
#define FULL_CAUSES 512
#define CLAIMS 64
#define COUNTERS                                                                \
    uint8_t pairs[KINDS * ALL_NUMBERS * KINDS * ALL_NUMBERS * RELATIONS];       \
    uint8_t no_book[OWNERS * BOOK_CAUSES];                                      \
    uint8_t full[FULL_CAUSES];                                                  \
    uint8_t nets[2 * NETS]; /* of a file, and of a withdrawal */                  \
    uint8_t claims[CLAIMS];                                                     \
    uint8_t gaps[CLAIMS];                                                       \
    uint8_t places[2 * CLAIMS];
#define MUTATE peer_mutate_history
#define CROSS peer_cross_histories

enum { ENTER, FIND, SUM_UP, WITHDRAW, TIDY, KINDS };
enum { SAME_OWNER, OTHER_OWNER, NO_OWNER, RELATIONS }; /* of a call to the one before it */
enum { WITHIN, AT_THE_BOUND, A_CENT_BEYOND, BEYOND, NETS }; /* a net position that a call would lead to */

#include "common.h"

/* The independent day book (peer_c). A paper is a file, read once. */
typedef struct paper paper;
paper *peer_paper(const uint8_t *file, size_t len);
void peer_drop_paper(paper *p);
uint64_t peer_enter(const paper *p, uint64_t file_number, uint64_t owner, uint64_t *table, size_t table_len, uint64_t *book, size_t book_len, uint64_t *taken,
                    size_t taken_len, uint64_t *answer);
uint64_t peer_withdraw(uint64_t *book, size_t book_len, const uint64_t *taken, size_t taken_len, uint64_t owner, uint64_t entry_number);
uint64_t peer_tidy(uint64_t *book, size_t book_len, const uint64_t *taken, size_t taken_len);
uint64_t peer_find(const uint64_t *book, size_t book_len, uint64_t owner, uint64_t entry_number, uint64_t *found);
uint64_t peer_totals(const uint64_t *book, size_t book_len, uint64_t owner, uint64_t *totals);

static uint64_t enterings, look_ups, sums, entered, withdrawals, withdrawn, tidyings;

/* ---- The table that holds a book, as the header lays it out ---- */

#define HEAD 17
#define WIDTH 9
#define SIX 6
#define CLAIMED 0                                 /* in the head; then each owner's part */
enum { LAST, TOTALS, NET = TOTALS + SIX, PART };     /* in a part */
enum { OWNER, ENTRY_NUMBER, FILE_NUMBER, FIGURES };  /* in a row */

#define BOOK_MOST ((size_t)1 << 13)  /* numbers */
#define TABLE_MOST ((size_t)1 << 14) /* numbers; a sound record is at least 77 bytes with its length */
#define TABLE_ROW 7

/* The book at hand, as the last call left it. */
static uint64_t book[BOOK_MOST];
static size_t book_len;

/* The list of file numbers taken at hand: [0] the places claimed, then places of an owner and a file number. */
#define LIST_MOST ((size_t)1 << 12) /* numbers */
#define PAIR 2
static uint64_t taken[LIST_MOST];
static size_t taken_len;

static uint64_t places_claimed(void) { return taken_len ? taken[0] : 0; }
static size_t places_there(void) { return taken_len ? (taken_len - 1) / PAIR : 0; }
static int is_list(void) { return places_claimed() <= places_there(); }

static int is_taken(uint64_t owner, uint64_t file_number) {
    for (size_t place = 0; place < places_claimed(); place++)
        if (taken[1 + PAIR * place] == owner && taken[2 + PAIR * place] == file_number) return 1;
    return 0;
}

static int is_owner(uint64_t number) { return number == 1 || number == 2; }

static uint64_t head_of(size_t place) { return place < book_len ? book[place] : 0; }
/* Where a number of an owner's part stands in the head, and that number. */
static size_t place_of(uint64_t owner, size_t place) { return CLAIMED + 1 + PART * (size_t)(owner - 1) + place; }
static uint64_t part_of(uint64_t owner, size_t place) { return head_of(place_of(owner, place)); }
static size_t rows_there(void) { return book_len < HEAD ? 0 : (book_len - HEAD) / WIDTH; }
static const uint64_t *row_of(size_t row) { return book + HEAD + WIDTH * row; }

/* Wide enough for any sum of numbers here, and for the difference of two. */
typedef unsigned __int128 wide;
typedef __int128 wide_net;

enum { BUNDLES, DEBIT_ITEMS, CREDIT_ITEMS, VIEWS, DEBIT_CENTS, CREDIT_CENTS };

/* Of the claimed rows an owner's own alone count for it. */
static wide sum_of(uint64_t owner, size_t figure) {
    wide sum = 0;
    for (size_t row = 0; row < head_of(CLAIMED); row++)
        if (row_of(row)[OWNER] == owner) sum += row_of(row)[FIGURES + figure];
    return sum;
}

/* An owner's net position: credit cents minus debit cents over its rows. */
static wide_net net_of(uint64_t owner) { return (wide_net)sum_of(owner, CREDIT_CENTS) - (wide_net)sum_of(owner, DEBIT_CENTS); }

static uint64_t entries_of(uint64_t owner) {
    uint64_t entries = 0;
    for (size_t row = 0; row < head_of(CLAIMED); row++) entries += row_of(row)[OWNER] == owner;
    return entries;
}

/* The first claimed row of an owner that has a number at a place; NULL if there is none. */
static const uint64_t *first_with(uint64_t owner, size_t place, uint64_t number) {
    for (size_t row = 0; row < head_of(CLAIMED); row++)
        if (row_of(row)[OWNER] == owner && row_of(row)[place] == number) return row_of(row);
    return NULL;
}

/* Whether a row may be written: a claimed one of neither owner is a gap, and those behind them are free. */
static int is_free(size_t row) { return row >= head_of(CLAIMED) || !is_owner(row_of(row)[OWNER]); }

static size_t free_rows(void) {
    size_t free = 0;
    for (size_t row = 0; row < rows_there(); row++) free += (size_t)is_free(row);
    return free;
}

/* Why the table is no book by an owner's part of it, a bit for each cause; 0 if it is one. */
static unsigned why_no_book(uint64_t owner) {
    unsigned causes = 0;
    if (head_of(CLAIMED) > rows_there()) return 1;
    for (size_t figure = 0; figure < SIX; figure++)
        if (sum_of(owner, figure) != part_of(owner, TOTALS + figure)) causes |= 2u << figure;
    if (net_of(owner) != (int64_t)part_of(owner, NET)) causes |= 2u << SIX;
    return causes;
}

static int is_book(void) { return !why_no_book(1) && !why_no_book(2); }

/* ---- The files, and what the library's own reading says of them ---- */

typedef struct {
    const uint8_t *bytes;
    size_t len;
    uint8_t *lent[PLACES];
    paper *peer;
    uint64_t answer[ANSWER]; /* with an ample row table */
    uint64_t rows[TABLE_MOST];
    size_t letters;
    uint64_t figures[TABLE_MOST / TABLE_ROW][SIX]; /* each letter's own */
} file;

static file files[FILES_MOST];
static size_t file_count;

/* A record of an accepted file, by its row, counted in its letter's figures. Of a 61 the third character says whether it is a debit. */
static void count_record(file *f, const uint64_t row[TABLE_ROW]) {
    int nine = f->bytes[4] == 0xF0 ? 0xF9 : '9';
    uint64_t *own = row[3] ? f->figures[row[3] - 1] : NULL;
    int debit = row[0] != 61 || f->bytes[row[1] + 6] == nine;
    if (row[0] == 10) memset(f->figures[f->letters++], 0, sizeof f->figures[0]);
    if (row[0] == 20) own[BUNDLES]++;
    if (row[0] == 50) own[VIEWS]++;
    if (row[0] == 25 || row[0] == 31 || row[0] == 61) {
        own[debit ? DEBIT_ITEMS : CREDIT_ITEMS]++;
        own[debit ? DEBIT_CENTS : CREDIT_CENTS] += row[6];
    }
}

static uint64_t sum_of_letters(const file *f, size_t figure) {
    uint64_t sum = 0;
    for (size_t letter = 0; letter < f->letters; letter++) sum += f->figures[letter][figure];
    return sum;
}

static void read_file(file *f) {
    x9_read(f->lent[HEAP], f->len, f->rows, TABLE_MOST, f->answer);
    f->letters = 0;
    if (f->answer[0] != ACCEPTED) return;
    for (size_t row = 0; row < f->answer[4]; row++) count_record(f, f->rows + TABLE_ROW * row);
    const uint64_t *a = f->answer, totals[SIX] = {a[6], a[7] - a[10], a[10], a[8], a[9], a[11]};
    MUST(f->letters == a[5], "%zu letters by the rows, %" PRIu64 " by the answer", f->letters, a[5]);
    for (size_t figure = 0; figure < SIX; figure++)
        MUST(sum_of_letters(f, figure) == totals[figure], "figure %zu of the letters is not that of the file", figure);
}

/* ---- What the header promises, worked out without any other book ---- */

typedef struct {
    unsigned kind;
    const file *of;  /* entering: the file */
    size_t room;     /* and the numbers of the row table */
    uint64_t owner;  /* any number */
    uint64_t number; /* the file's, or the entry's */
} call;

/* The numbers of an answer, by kind. */
static const size_t answer_len[KINDS] = {13, 9, 9, 1, 1};

typedef struct {
    uint64_t answer[13];
    size_t used; /* numbers of the row table that are written */
    uint64_t after[BOOK_MOST];
    uint64_t taken_after[LIST_MOST];
} outcome;

/* Why an owner's file does not fit beside what is there, a bit for each cause; 0 if it does. Rows and places are free for both owners alike. */
static unsigned why_full(const file *f, uint64_t owner) {
    unsigned causes = f->letters > free_rows();
    if (places_claimed() == places_there()) causes |= 4u << SIX;
    if ((wide)part_of(owner, LAST) + f->letters > UINT64_MAX) causes |= 2;
    for (size_t figure = 0; figure < SIX; figure++)
        if ((wide)part_of(owner, TOTALS + figure) + sum_of_letters(f, figure) > UINT64_MAX) causes |= 4u << figure;
    return causes;
}

/* What a file does to the net position of its owner. */
static int64_t net_of_letters(const file *f) { return (int64_t)(sum_of_letters(f, CREDIT_CENTS) - sum_of_letters(f, DEBIT_CENTS)); }

/* Where the owner's net position with all letters of a file would lie; from A_CENT_BEYOND on it is RANGE. */
#define BOUND INT64_C(1000000000000000000)
static unsigned lies(wide_net net) {
    wide_net far = net < 0 ? -net : net;
    if (far < BOUND) return WITHIN;
    return far == BOUND ? AT_THE_BOUND : far == BOUND + 1 ? A_CENT_BEYOND : BEYOND;
}
static unsigned net_with(const file *f, uint64_t owner) { return lies(net_of(owner) + net_of_letters(f)); }

/* Each letter in a row of its own, the lowest that are free, numbered on from the owner's last, and the owner's running totals and net position updated
 * where they stand. */
static void set_down(const call *c, uint64_t after[BOOK_MOST]) {
    uint64_t *part = after + place_of(c->owner, 0);
    for (size_t letter = 0, at = 0; letter < c->of->letters; letter++, at++) {
        while (!is_free(at)) at++;
        uint64_t *row = after + HEAD + WIDTH * at;
        row[OWNER] = c->owner, row[ENTRY_NUMBER] = ++part[LAST], row[FILE_NUMBER] = c->number;
        memcpy(row + FIGURES, c->of->figures[letter], SIX * 8);
        if (at >= after[CLAIMED]) after[CLAIMED] = at + 1;
    }
    for (size_t figure = 0; figure < SIX; figure++) part[TOTALS + figure] += sum_of_letters(c->of, figure);
    part[NET] += (uint64_t)net_of_letters(c->of);
}

/* One more place, with the owner and its file number. */
static void put_place(const call *c, uint64_t list[LIST_MOST]) {
    uint64_t *place = list + 1 + PAIR * list[0]++;
    place[0] = c->owner, place[1] = c->number;
}

static void due_of_entering(const call *c, outcome *due) {
    const uint64_t *read = c->of->answer;
    if (read[0] != ACCEPTED) {
        memcpy(due->answer, read, ANSWER * 8);
        return;
    }
    COUNT(nets, net_with(c->of, c->owner));
    if (read[4] > c->room / TABLE_ROW) {
        due->answer[0] = ROOM, due->answer[1] = read[4];
    } else if (is_taken(c->owner, c->number)) {
        due->answer[0] = DUPLICATE;
    } else if (net_with(c->of, c->owner) >= A_CENT_BEYOND) {
        due->answer[0] = RANGE;
    } else if (why_full(c->of, c->owner)) {
        due->answer[0] = FULL;
        COUNT(full, why_full(c->of, c->owner));
    } else {
        memcpy(due->answer, read, ANSWER * 8);
        due->answer[ANSWER] = part_of(c->owner, LAST) + 1;
        due->used = TABLE_ROW * (size_t)read[4];
        set_down(c, due->after);
        put_place(c, due->taken_after);
    }
}

/* The first row of the owner with the number becomes zeros, and its figures leave the owner's part of the head. */
static void due_of_withdrawing(const call *c, outcome *due) {
    const uint64_t *row = first_with(c->owner, ENTRY_NUMBER, c->number);
    uint64_t *part = due->after + place_of(c->owner, 0);
    if (!row) {
        due->answer[0] = NOENTRY;
        return;
    }
    wide_net left = net_of(c->owner) - row[FIGURES + CREDIT_CENTS] + row[FIGURES + DEBIT_CENTS];
    COUNT(nets, NETS + lies(left));
    if (lies(left) >= A_CENT_BEYOND) {
        due->answer[0] = RANGE;
        return;
    }
    for (size_t figure = 0; figure < SIX; figure++) part[TOTALS + figure] -= row[FIGURES + figure];
    part[NET] = (uint64_t)(int64_t)left;
    memset(due->after + (row - book), 0, WIDTH * 8);
}

/* The entries stand in their order from the first row on, zeros in the rows that were claimed behind them. */
static void due_of_tidying(outcome *due) {
    size_t rows = (size_t)head_of(CLAIMED), kept = 0;
    if (!rows) return;
    memset(due->after + HEAD, 0, rows * WIDTH * 8);
    for (size_t row = 0; row < rows; row++)
        if (is_owner(row_of(row)[OWNER])) memcpy(due->after + HEAD + WIDTH * kept++, row_of(row), WIDTH * 8);
    due->after[CLAIMED] = kept;
}

static void due_of_finding(const call *c, uint64_t answer[]) {
    const uint64_t *row = first_with(c->owner, ENTRY_NUMBER, c->number);
    answer[0] = row ? ACCEPTED : NOENTRY;
    if (row) memcpy(answer + 1, row + ENTRY_NUMBER, (WIDTH - 1) * 8);
}

static void due_of_totals(uint64_t owner, uint64_t answer[]) {
    answer[0] = ACCEPTED, answer[1] = entries_of(owner);
    for (size_t figure = 0; figure < SIX; figure++) answer[2 + figure] = (uint64_t)sum_of(owner, figure);
    answer[2 + SIX] = (uint64_t)net_of(owner);
}

/* Whether a call is lent the list, for which it may then be BOOK. */
static int lent_list(unsigned kind) { return kind == ENTER || kind == WITHDRAW || kind == TIDY; }

/* What a call is to answer and to leave. A refusal leaves everything as it was, and the book's own have 0 in all behind the number. */
static void work_out(const call *c, outcome *due) {
    memset(due->answer, 0, sizeof due->answer);
    due->used = 0;
    memcpy(due->after, book, book_len * 8);
    memcpy(due->taken_after, taken, taken_len * 8);
    COUNT(no_book, why_no_book(1));
    COUNT(no_book, BOOK_CAUSES + why_no_book(2));
    if (!is_book() || (lent_list(c->kind) && !is_list())) due->answer[0] = BOOK;
    else if (c->kind == TIDY) due_of_tidying(due);
    else if (!is_owner(c->owner)) due->answer[0] = NOENTRY;
    else if (c->kind == ENTER) due_of_entering(c, due);
    else if (c->kind == WITHDRAW) due_of_withdrawing(c, due);
    else if (c->kind == FIND) due_of_finding(c, due->answer);
    else due_of_totals(c->owner, due->answer);
}

/* ---- What is lent ---- */

static region file_regions[FILES_MOST][2], book_regions[2], list_regions[2], book_region, list_region, table_region;
static uint64_t *lent_book[PLACES], *lent_taken[PLACES]; /* to be read */

/* Beside what is lent to be written stands, where no page without access does, a margin that no call may touch. */
#define MARGIN (2 * WIDTH)

static void make_regions(void) {
    for (size_t i = 0; i < FILES_MOST; i++)
        file_regions[i][END] = region_of(FILE_MOST), file_regions[i][BEGIN] = region_of(FILE_MOST);
    book_regions[END] = region_of(BOOK_MOST * 8), book_regions[BEGIN] = region_of(BOOK_MOST * 8);
    list_regions[END] = region_of(LIST_MOST * 8), list_regions[BEGIN] = region_of(LIST_MOST * 8);
    book_region = region_of(2 * BOOK_MOST * 8);
    list_region = region_of(2 * LIST_MOST * 8);
    table_region = region_of(2 * TABLE_MOST * 8);
    now_what = "input";
}

static uint64_t *margin_of(int place, uint64_t *lent, size_t count) { return place == END ? lent - MARGIN : lent + count; }

/* Numbers to be written: those given, or, where none are, a pattern. */
static uint64_t *lend_numbers(region r, int place, const uint64_t *from, size_t count, uint64_t pattern) {
    uint64_t *lent = place == HEAP ? malloc(count * 8) : (uint64_t *)stand(r, place, count * 8);
    for (size_t i = 0; i < count; i++) lent[i] = from ? from[i] : pattern;
    for (size_t i = 0; place != HEAP && i < MARGIN; i++) margin_of(place, lent, count)[i] = ~pattern + i;
    return lent;
}

static void check_margin(int place, uint64_t *lent, size_t count, uint64_t pattern, const char *what) {
    for (size_t i = 0; place != HEAP && i < MARGIN; i++)
        MUST(margin_of(place, lent, count)[i] == ~pattern + i, "a number beside the %s was changed", what);
}

/* ---- The calls ---- */

static const char *const names[KINDS] = {"x9_book_enter", "x9_book_find", "x9_book_totals", "x9_book_withdraw", "x9_book_tidy"};

static void check_answer(const call *c, uint64_t number, const uint64_t *answer, const outcome *due) {
    MUST(number == answer[0], "%s returns %" PRIu64 ", answer %" PRIu64, names[c->kind], number, answer[0]);
    MUST(number == due->answer[0], "%s gives %" PRIu64 " where %" PRIu64 " is due", names[c->kind], number, due->answer[0]);
    for (size_t i = 1; i < answer_len[c->kind]; i++)
        MUST(answer[i] == due->answer[i], "%s with %" PRIu64 ": [%zu] is %" PRIu64 ", due %" PRIu64, names[c->kind], number, i, answer[i], due->answer[i]);
}

static void check_rows(const call *c, const uint64_t *rows, const outcome *due, uint64_t pattern) {
    for (size_t i = 0; i < due->used; i++) MUST(rows[i] == c->of->rows[i], "number %zu of the row table is not as x9_read leaves it", i);
    for (size_t i = due->used; i < c->room; i++)
        MUST(rows[i] == pattern, "number %zu of the row table was written, answer %" PRIu64, i, due->answer[0]);
}

static void check_book(const uint64_t *after, const outcome *due) {
    for (size_t i = 0; i < book_len; i++)
        MUST(after[i] == due->after[i], "number %zu of the book is %" PRIu64 ", due %" PRIu64 ", answer %" PRIu64, i, after[i], due->after[i], due->answer[0]);
}

static void check_list(const uint64_t *after, const outcome *due) {
    for (size_t i = 0; i < taken_len; i++)
        MUST(after[i] == due->taken_after[i], "number %zu of the list is %" PRIu64 ", due %" PRIu64 ", answer %" PRIu64, i, after[i], due->taken_after[i], due->answer[0]);
}

/* One entering with everything lent at one place. */
static void enter_at(int place, const call *c, uint64_t pattern, const outcome *due) {
    uint64_t *a = lend_answer(place, answer_len[ENTER], pattern);
    uint64_t *rows = lend_numbers(table_region, place, NULL, c->room, pattern);
    uint64_t *lent = lend_numbers(book_region, place, book, book_len, pattern);
    uint64_t *list = lend_numbers(list_region, place, taken, taken_len, pattern);
    uint64_t number = x9_book_enter(c->of->lent[place], c->of->len, c->number, c->owner, rows, c->room, lent, book_len, list, taken_len, a);
    enterings++;
    check_list(list, due);
    check_margin(place, list, taken_len, pattern, "list");
    check_answer(c, number, a, due);
    check_rows(c, rows, due, pattern);
    check_book(lent, due);
    check_margin(place, rows, c->room, pattern, "row table");
    check_margin(place, lent, book_len, pattern, "book");
    drop(place, list), drop(place, lent), drop(place, rows), drop(place, a);
}

/* One withdrawal or tidy-up: the book is lent to be written, the list stands at all places where it cannot be. */
static void change_at(int place, const call *c, uint64_t pattern, const outcome *due) {
    uint64_t *lent = lend_numbers(book_region, place, book, book_len, pattern);
    uint64_t number = c->kind == WITHDRAW ? x9_book_withdraw(lent, book_len, lent_taken[place], taken_len, c->owner, c->number)
                                          : x9_book_tidy(lent, book_len, lent_taken[place], taken_len);
    ++*(c->kind == WITHDRAW ? &withdrawals : &tidyings);
    check_answer(c, number, &number, due);
    check_book(lent, due);
    check_margin(place, lent, book_len, pattern, "book");
    drop(place, lent);
}

/* One call that only reads the book, which stands at all places where it cannot be written. */
static void ask_at(int place, const call *c, uint64_t pattern, const outcome *due) {
    uint64_t *a = lend_answer(place, answer_len[c->kind], pattern);
    uint64_t number = c->kind == FIND ? x9_book_find(lent_book[place], book_len, c->owner, c->number, a) : x9_book_totals(lent_book[place], book_len, c->owner, a);
    ++*(c->kind == FIND ? &look_ups : &sums);
    check_answer(c, number, a, due);
    drop(place, a);
}

/* A call twice, at two places and with two patterns. */
static void put_twice(const call *c, uint64_t pattern, const outcome *due) {
    int first = turn++ % PLACES, second = turn % PLACES;
    if (c->kind == ENTER) {
        enter_at(first, c, pattern, due), enter_at(second, c, ~pattern, due);
        return;
    }
    if (c->kind == WITHDRAW || c->kind == TIDY) {
        lend(list_regions, (uint8_t **)lent_taken, taken, taken_len * 8);
        change_at(first, c, pattern, due), change_at(second, c, ~pattern, due);
        take_back((uint8_t **)lent_taken, taken, taken_len * 8, "list");
        return;
    }
    lend(book_regions, (uint8_t **)lent_book, book, book_len * 8);
    ask_at(first, c, pattern, due), ask_at(second, c, ~pattern, due);
    take_back((uint8_t **)lent_book, book, book_len * 8, "book");
}

/* What was due, and so was answered, beside the independent book's answer. */
static void compare(const call *c, uint64_t pattern, const outcome *due) {
    static uint64_t rows[TABLE_MOST], after[BOOK_MOST], list_after[LIST_MOST];
    uint64_t answer[13] = {0};
    memcpy(after, book, book_len * 8);
    memcpy(list_after, taken, taken_len * 8);
    for (size_t i = 0; i < c->room; i++) rows[i] = pattern;
    if (c->kind == ENTER) peer_enter(c->of->peer, c->number, c->owner, rows, c->room, after, book_len, list_after, taken_len, answer);
    else if (c->kind == WITHDRAW) answer[0] = peer_withdraw(after, book_len, list_after, taken_len, c->owner, c->number);
    else if (c->kind == TIDY) answer[0] = peer_tidy(after, book_len, list_after, taken_len);
    else if (c->kind == FIND) peer_find(after, book_len, c->owner, c->number, answer);
    else peer_totals(after, book_len, c->owner, answer);
    int alike = !memcmp(answer, due->answer, sizeof answer) && !memcmp(after, due->after, book_len * 8) && !memcmp(rows, c->of->rows, due->used * 8);
    alike &= !memcmp(list_after, due->taken_after, taken_len * 8);
    for (size_t i = due->used; i < c->room; i++) alike &= rows[i] == pattern;
    if (alike) return;
    show("proved     ", due->answer, (int)answer_len[c->kind]);
    show("independent", answer, (int)answer_len[c->kind]);
    fail("DIFFERENCE", "%s: answer, book, list or row table", names[c->kind]);
}

/* ---- The plain list of entries, which no call is lent ---- */

static uint64_t list[BOOK_MOST / WIDTH][WIDTH];
static size_t list_len;
static size_t least_of(size_t one, size_t other) { return one < other ? one : other; }

/* The entries that the book begins with. */
static void take_down(void) {
    for (size_t row = 0; row < head_of(CLAIMED); row++)
        if (is_owner(row_of(row)[OWNER])) memcpy(list[list_len++], row_of(row), sizeof list[0]);
}

/* What a call that was answered with 0 does to the list: a file's letters at its end, an entry taken out of it. A tidy-up does nothing. The book is as it
 * was before the call: where a number stands twice, on a book that no calls have made, its first row tells which entry is meant. */
static void note_down(const call *c, const outcome *due) {
    const uint64_t *row = c->kind == WITHDRAW ? first_with(c->owner, ENTRY_NUMBER, c->number) : NULL;
    for (size_t letter = 0; c->kind == ENTER && letter < c->of->letters; letter++) {
        uint64_t *entry = list[list_len++];
        entry[OWNER] = c->owner, entry[ENTRY_NUMBER] = due->answer[ANSWER] + letter, entry[FILE_NUMBER] = c->number;
        memcpy(entry + FIGURES, c->of->figures[letter], SIX * 8);
    }
    for (size_t i = 0; row && i < list_len; i++)
        if (!memcmp(list[i], row, sizeof list[0])) {
            memmove(list[i], list[i + 1], (--list_len - i) * sizeof list[0]);
            return;
        }
}

/* The first of an owner's in the list with an entry number; NULL if there is none. */
static const uint64_t *first_in_list(uint64_t owner, uint64_t entry_number) {
    for (size_t i = 0; i < list_len; i++)
        if (list[i][OWNER] == owner && list[i][ENTRY_NUMBER] == entry_number) return list[i];
    return NULL;
}

static wide sum_of_list(uint64_t owner, size_t figure) {
    wide sum = 0;
    for (size_t i = 0; i < list_len; i++)
        if (list[i][OWNER] == owner) sum += list[i][FIGURES + figure];
    return sum;
}

static size_t entries_in_list(uint64_t owner) {
    size_t entries = 0;
    for (size_t i = 0; i < list_len; i++) entries += list[i][OWNER] == owner;
    return entries;
}

/* Whether a number stands twice among an owner's; which of them is first hangs on where they stand, and no list tells. */
static int stands_twice(uint64_t owner, uint64_t entry_number) {
    size_t count = 0;
    for (size_t i = 0; i < list_len; i++) count += list[i][OWNER] == owner && list[i][ENTRY_NUMBER] == entry_number;
    return count > 1;
}

/* An owner is given what the list has of it under a number, and nothing where it has none, the other owner's entry no more than any. */
static void find_once_more(uint64_t owner, uint64_t entry_number) {
    uint64_t found[9], number = x9_book_find(book, book_len, owner, entry_number, found);
    const uint64_t *first = first_in_list(owner, entry_number);
    uint64_t due = first ? ACCEPTED : NOENTRY;
    look_ups++;
    if (stands_twice(owner, entry_number)) first = NULL;
    MUST(number == due && found[0] == due, "entry %" PRIu64 " of owner %" PRIu64 " gives %" PRIu64 " in the end", entry_number, owner, number);
    MUST(!first || !memcmp(found + 1, first + ENTRY_NUMBER, (WIDTH - 1) * 8), "entry %" PRIu64 " of owner %" PRIu64 " is not found as entered", entry_number, owner);
}

/* The last entry numbers that were withdrawn, which are nobody's again, whatever came after; a book that no calls have made may give one again. */
#define WITHDRAWN 16
static uint64_t gone[WITHDRAWN][2];
static size_t gone_count;

static void note_withdrawn(const call *c) { gone[gone_count % WITHDRAWN][0] = c->owner, gone[gone_count++ % WITHDRAWN][1] = c->number; }

static void find_withdrawn(void) {
    for (size_t i = 0; i < least_of(gone_count, WITHDRAWN); i++) find_once_more(gone[i][0], gone[i][1]);
}

/* The history is over: the numbers of entries, LOOKED_UP or somewhat fewer of more than that, are looked up for both owners. */
#define LOOKED_UP 64
static void find_again(void) {
    for (size_t i = 0; i < list_len; i += 1 + list_len / LOOKED_UP)
        for (uint64_t owner = 1; owner <= OWNERS; owner++) find_once_more(owner, list[i][ENTRY_NUMBER]);
}

/* And an owner's totals and net position are the sums of what the list has of it. */
static void sum_up_again(uint64_t owner) {
    uint64_t totals[9];
    wide_net net = (wide_net)sum_of_list(owner, CREDIT_CENTS) - (wide_net)sum_of_list(owner, DEBIT_CENTS);
    x9_book_totals(book, book_len, owner, totals);
    sums++;
    MUST(totals[0] == ACCEPTED && totals[1] == entries_in_list(owner), "%" PRIu64 " entries of %zu, answer %" PRIu64, totals[1], entries_in_list(owner), totals[0]);
    for (size_t figure = 0; figure < SIX; figure++)
        MUST(totals[2 + figure] == sum_of_list(owner, figure), "total %zu is not the sum of the owner's entries", figure);
    MUST((int64_t)totals[2 + SIX] == net, "the net position %" PRId64 " is not that of the owner's entries", (int64_t)totals[2 + SIX]);
}

/* ---- One input ---- */

static size_t two(const uint8_t *at) { return (size_t)at[0] | (size_t)at[1] << 8; }

static uint64_t eight(const uint8_t *at) {
    uint64_t number = 0;
    for (int byte = 7; byte >= 0; byte--) number = number << 8 | at[byte];
    return number;
}

/* What is left of an input, taken from its front. */
typedef struct {
    const uint8_t *at;
    size_t left;
} bytes;

static const uint8_t *take(bytes *from, size_t count) {
    const uint8_t *taken = from->at;
    from->at += count, from->left -= count;
    return taken;
}

static size_t least(size_t one, size_t other) { return one < other ? one : other; }

static void take_book(bytes *from, const uint8_t c[CONTROL]) {
    size_t given = least(least(two(c + 1), from->left / 8), BOOK_MOST);
    book_len = least(given + two(c + 4), BOOK_MOST);
    for (size_t i = 0; i < book_len; i++) book[i] = i < given ? eight(take(from, 8)) : 0;
}

static void take_list(bytes *from, const uint8_t c[CONTROL]) {
    size_t given = least(least(two(c + 8), from->left / 8), LIST_MOST);
    taken_len = least(given + two(c + 10), LIST_MOST);
    for (size_t i = 0; i < taken_len; i++) taken[i] = i < given ? eight(take(from, 8)) : 0;
}

static void take_files(bytes *from, size_t count) {
    size_t told_len[FILES_MOST] = {0};
    file_count = least(count, FILES_MOST);
    for (size_t i = 0; i + 1 < file_count && from->left >= 2; i++) told_len[i] = two(take(from, 2));
    for (size_t i = 0; i < file_count; i++) {
        file *f = &files[i];
        f->len = i + 1 == file_count ? from->left : least(told_len[i], from->left);
        f->bytes = take(from, f->len);
        lend(file_regions[i], f->lent, f->bytes, f->len);
        f->peer = peer_paper(f->bytes, f->len);
        read_file(f);
    }
}

static void drop_files(void) {
    for (size_t i = 0; i < file_count; i++) {
        take_back(files[i].lent, files[i].bytes, files[i].len, "file");
        peer_drop_paper(files[i].peer);
    }
}

/* The length of a row table: the bytes' own, ample, short, exact. */
static size_t room_of(const uint8_t c[CALL], const file *f) {
    size_t own = two(c + 4), enough = f->answer[0] == ACCEPTED ? TABLE_ROW * (size_t)f->answer[4] : 0;
    size_t lengths[] = {own, enough + own % 30, enough - least(1 + own % 8, enough), enough};
    return least(lengths[c[2] % 4], TABLE_MOST);
}

/* A number: the bytes' own; that of a claimed row, or for a file that of a claimed place, whosesoever; a small one, or one near the owner's last entry
 * number; that of a row or place but for one high bit. */
static uint64_t number_of(const uint8_t c[CALL], unsigned kind, uint64_t owner) {
    uint64_t own = eight(c + 8), rows = least((size_t)head_of(CLAIMED), rows_there());
    uint64_t places = least((size_t)places_claimed(), places_there());
    uint64_t of_row = kind != ENTER && rows ? row_of(own % rows)[ENTRY_NUMBER] : kind == ENTER && places ? taken[2 + PAIR * (own % places)] : own;
    uint64_t last = part_of(is_owner(owner) ? owner : 1, LAST);
    uint64_t numbers[] = {own, of_row, own % 8 + (kind == ENTER ? 0 : last - 4), of_row ^ UINT64_C(1) << (32 + own % 32)};
    return numbers[c[3] % 4];
}

/* An owner by its byte: below 128 the number itself; above, 1 or 2 but for one high bit; at the top the largest number. */
static uint64_t owner_of(uint8_t told) {
    if (told < 128) return told;
    return told == 255 ? UINT64_MAX : (1u + (told & 1)) | UINT64_C(1) << (32 + (told >> 1 & 31));
}

static call call_of(const uint8_t c[CALL]) {
    static const file no_file;
    unsigned kind = c[0] % KINDS;
    if (kind == ENTER && !file_count) kind = SUM_UP;
    const file *of = kind == ENTER ? &files[c[1] % file_count] : &no_file;
    uint64_t owner = owner_of(c[6]);
    return (call){kind, of, kind == ENTER ? room_of(c, of) : 0, owner, number_of(c, kind, owner)};
}

/* What guidance tells calls apart by: which call and which number, and whose it was beside the call before it. */
typedef struct {
    size_t told_apart;
    uint64_t owner;
} trace;

static size_t relation_of(uint64_t owner, uint64_t before) {
    if (!is_owner(owner)) return NO_OWNER;
    return owner == before ? SAME_OWNER : OTHER_OWNER;
}

/* A call is put to both sides; the book goes on as it was left. */
static trace go_on(const call *c, uint64_t pattern, trace before, int keep_list) {
    static outcome due;
    work_out(c, &due);
    put_twice(c, pattern, &due);
    compare(c, pattern, &due);
    if (keep_list && due.answer[0] == ACCEPTED) note_down(c, &due);
    memcpy(book, due.after, book_len * 8);
    memcpy(taken, due.taken_after, taken_len * 8);
    if (due.used) entered++;
    if (c->kind == WITHDRAW && due.answer[0] == ACCEPTED) withdrawn++, note_withdrawn(c);
    by_number[due.answer[0]]++;
    size_t told_apart = c->kind * ALL_NUMBERS + (size_t)due.answer[0];
    COUNT(pairs, (before.told_apart * KINDS * ALL_NUMBERS + told_apart) * RELATIONS + relation_of(c->owner, before.owner));
    if (due.answer[0] < NUMBERS) COUNT(answers, due.answer[0] * TYPES * FIELDS + (c->kind == ENTER ? due.answer[2] : 0) % FIELDS);
    COUNT(claims, least((size_t)head_of(CLAIMED), CLAIMS - 1));
    if (is_book()) COUNT(gaps, least(free_rows() - (rows_there() - (size_t)head_of(CLAIMED)), CLAIMS - 1));
    if (is_list()) COUNT(places, 2 * least((size_t)places_claimed(), CLAIMS - 1) + (places_claimed() == places_there()));
    return (trace){told_apart, c->owner};
}

int LLVMFuzzerTestOneInput(const uint8_t *data, size_t size) {
    uint8_t c[CONTROL] = {0};
    size_t held = least(size, CONTROL);
    trace before = {0, 1};
    if (size > INPUT_MOST) return -1;
    memcpy(c, data, held);
    bytes left = {data + held, size - held};
    uint64_t pattern = c[3] * UINT64_C(0x0101010101010101) ^ UINT64_C(0x9E3779B97F4A7C15);
    inputs++;
    now_len = size;
    turn = c[0] % PLACES;
    take_book(&left, c);
    take_list(&left, c);
    size_t calls = least(least(c[6], CALLS_MOST), left.left / CALL);
    const uint8_t *of_calls = take(&left, calls * CALL);
    take_files(&left, c[7]);

    int began_as_book = is_book();
    list_len = gone_count = 0;
    if (began_as_book) take_down();
    for (size_t i = 0; i < calls; i++) {
        call next = call_of(of_calls + i * CALL);
        before = go_on(&next, pattern + i, before, began_as_book);
    }
    if (began_as_book) find_again(), find_withdrawn(), sum_up_again(1), sum_up_again(2);
    drop_files();
    return 0;
}

static void tell_counts(FILE *to) {
    fprintf(to, " enterings %" PRIu64 " entered %" PRIu64 " look_ups %" PRIu64 " sums %" PRIu64, enterings, entered, look_ups, sums);
    fprintf(to, " withdrawals %" PRIu64 " withdrawn %" PRIu64 " tidyings %" PRIu64, withdrawals, withdrawn, tidyings);
    fprintf(to, " no_book %zu full %zu nets %zu pairs %zu", held_in(seen.no_book, OWNERS * BOOK_CAUSES), held_in(seen.full, FULL_CAUSES), held_in(seen.nets, 2 * NETS),
            held_in(seen.pairs, sizeof seen.pairs));
}
