/* The target `tiff`: one input is sixteen control bytes and an image.
 *
 * Each input is put to the proved library (x9_tiff) and to the independent judge, whole, as a beginning, and with a tail. The target aborts with
 *   ORACLE      an answer that breaks what include/x9180.h promises, whatever any other judge says
 *   DIFFERENCE  an answer other than the independent judge's
 * and a read or write outside what was lent ends at a page without access, or in AddressSanitizer's report.
 *
 * Control bytes: 0 where buffers stand; 1-2 the length of a beginning; 3 the pattern of what is untouched; 4-5 the length of a tail, 6 how long it
 * may be; 7 the byte that the tail is made of; 8 whether every beginning is judged. */
#define IMAGE_MOST ((size_t)1 << 17)
#define TAIL_MOST ((size_t)1 << 20) /* room for 65,535 entries */
#define INPUT_MOST (CONTROL + IMAGE_MOST)
#define GROUNDS 32
#define TAGS 11 /* none, the nine that are required, any other */
#define COUNTERS                      \
    uint8_t grounds[GROUNDS * TAGS];  \
    uint8_t others[GROUNDS];
#define MUTATE peer_mutate_image
#define CROSS peer_cross_images
#include "common.h"

/* The call, as reading 48 has it. */
uint64_t x9_tiff(const uint8_t *image, size_t image_len, uint64_t answer[2]);

/* The independent judge (peer_c): number, tag, and what the answer rests on, below GROUNDS. */
uint64_t peer_tags(const uint8_t *image, size_t len, uint64_t answer[3]);

static uint64_t judgements;

static const uint64_t required[] = {256, 257, 259, 262, 273, 278, 279, 282, 283};

/* ---- What is lent ---- */

static region image_regions[2];
static uint8_t *lent_image[PLACES];
static uint8_t *whole; /* the image with its tail */

static void make_regions(void) {
    for (int place = END; place <= BEGIN; place++) image_regions[place] = region_of(IMAGE_MOST + TAIL_MOST);
    whole = region_of(IMAGE_MOST + TAIL_MOST).base;
    now_what = "image";
}

/* ---- What the header promises, checked without any other judge ---- */

typedef struct {
    uint64_t number, tag;
} verdict;

/* A number of some bytes, the lowest first. */
static uint64_t low_first(const uint8_t *at, int bytes) {
    uint64_t number = 0;
    for (int i = bytes - 1; i >= 0; i--) number = number << 8 | at[i];
    return number;
}

static int is_required(uint64_t tag) {
    for (size_t i = 0; i < sizeof required / sizeof required[0]; i++)
        if (required[i] == tag) return (int)i + 1;
    return 0;
}

/* The tags of a directory that lies within the image: the lowest that is not above the one before it (-1: none), and how many of the required are there. */
static void walk_tags(const uint8_t *image, size_t len, int64_t *lowest, size_t *there) {
    uint64_t at = low_first(image + 4, 4), before = 0;
    MUST(at + 2 <= len, "no CUT, and the directory begins at %" PRIu64, at);
    uint64_t count = low_first(image + at, 2);
    MUST(at + 2 + 12 * count + 4 <= len, "no CUT, and the directory at %" PRIu64 " has %" PRIu64 " entries", at, count);
    unsigned met = 0;
    *lowest = -1, *there = 0;
    for (uint64_t i = 0; i < count; i++) {
        uint64_t tag = low_first(image + at + 2 + 12 * i, 2);
        if (i && tag <= before && (*lowest < 0 || (int64_t)tag < *lowest)) *lowest = (int64_t)tag;
        met |= 1u << is_required(tag);
        before = tag;
    }
    for (unsigned bits = met >> 1; bits; bits &= bits - 1) ++*there;
}

static void check(const uint8_t *image, size_t len, verdict v) {
    MUST(v.number == ACCEPTED || v.number == CUT || v.number == TAGORDER || v.number == TAGVALUE, "x9_tiff gives %" PRIu64, v.number);
    MUST(v.tag <= 65535, "tag %" PRIu64, v.tag);
    MUST((v.number != ACCEPTED && v.number != CUT) || v.tag == 0, "number %" PRIu64 " with tag %" PRIu64, v.number, v.tag);
    MUST(len >= 8 || v.number == CUT, "%zu bytes are no CUT", len);
    if (len < 8) return;
    int header = !memcmp(image, "II*\0", 4);
    MUST((v.number == TAGVALUE && v.tag == 0) == !header, "mark and number are %s, answer %" PRIu64 ", tag %" PRIu64, header ? "right" : "wrong", v.number, v.tag);
    if (!header || v.number == CUT) return;
    int64_t lowest;
    size_t there;
    walk_tags(image, len, &lowest, &there);
    MUST((v.number == TAGORDER) == (lowest >= 0), "TAGORDER or not: answer %" PRIu64 ", lowest tag out of order %" PRId64, v.number, lowest);
    MUST(v.number != TAGORDER || (int64_t)v.tag == lowest, "TAGORDER at %" PRIu64 ", lowest tag out of order %" PRId64, v.tag, lowest);
    MUST(v.number != TAGVALUE || is_required(v.tag), "TAGVALUE at %" PRIu64, v.tag);
    MUST(v.number != ACCEPTED || there == sizeof required / sizeof required[0], "accepted with %zu of the required tags", there);
}

/* Of an image that has a beginning with this answer: everything that is looked at lies within the beginning, or that one is CUT. */
static void check_longer(verdict beginning, size_t len, verdict longer) {
    if (len < 8 || beginning.number == CUT) return;
    MUST(beginning.number == longer.number && beginning.tag == longer.tag,
         "a beginning of %zu bytes gets %" PRIu64 ", tag %" PRIu64 ", the whole %" PRIu64 ", tag %" PRIu64, len, beginning.number, beginning.tag, longer.number, longer.tag);
}

/* ---- The calls ---- */

static verdict judge_at(int place, size_t len, uint64_t pattern) {
    uint64_t *a = lend_answer(place, 2, pattern);
    uint64_t number = x9_tiff(lent_image[place], len, a);
    judgements++;
    MUST(number == a[0], "x9_tiff returns %" PRIu64 ", answer %" PRIu64, number, a[0]);
    verdict v = {a[0], a[1]};
    drop(place, a);
    return v;
}

/* An image twice, at two places and with two patterns. Gives the answer and what it rests on. */
static verdict judge(const uint8_t *image, size_t len, uint64_t pattern, uint64_t *ground) {
    uint64_t due[3];
    int first = turn++ % PLACES, second = turn % PLACES;
    now_len = len;
    lend(image_regions, lent_image, image, len);
    verdict v = judge_at(first, len, pattern), again = judge_at(second, len, ~pattern);
    take_back(lent_image, image, len, "image");
    MUST(v.number == again.number && v.tag == again.tag, "the second answer is another");
    check(image, len, v);
    peer_tags(image, len, due);
    if (v.number != due[0] || v.tag != due[1]) {
        show("proved     ", (uint64_t[]){v.number, v.tag}, 2);
        show("independent", due, 2);
        fail("DIFFERENCE", "x9_tiff");
    }
    *ground = due[2];
    return v;
}

/* ---- One input ---- */

static size_t two(const uint8_t *at) { return (size_t)at[0] | (size_t)at[1] << 8; }

/* Tails of up to 64 bytes, of up to 4,096, and now and then of enough for 65,535 entries. */
static size_t tail_length(const uint8_t c[CONTROL]) {
    if (c[6] % 64 == 5) return TAIL_MOST - two(c + 4);
    return 1 + two(c + 4) % (c[6] % 2 ? 64 : 4096);
}

int LLVMFuzzerTestOneInput(const uint8_t *data, size_t size) {
    uint8_t c[CONTROL] = {0};
    uint64_t ground, other;
    size_t held = size < CONTROL ? size : CONTROL;
    if (size > INPUT_MOST) return -1;
    memcpy(c, data, held);
    const uint8_t *image = data + held;
    size_t len = size - held;
    uint64_t pattern = c[3] * UINT64_C(0x0101010101010101) ^ UINT64_C(0x9E3779B97F4A7C15);
    inputs++;
    turn = c[0] % PLACES;

    verdict v = judge(image, len, pattern, &ground);
    by_number[v.number]++;
    COUNT(grounds, ground * TAGS + (v.tag == 0 ? 0 : is_required(v.tag) ? (uint64_t)is_required(v.tag) : TAGS - 1));

    /* Beginnings: without the last byte, of the control bytes' own length, and now and then all. */
    size_t from = c[8] % 32 == 1 && len <= 1024 ? 0 : len;
    for (size_t shorter = from; shorter < len; shorter++) check_longer(judge(image, shorter, pattern, &other), shorter, v);
    if (len) check_longer(judge(image, len - 1, pattern, &other), len - 1, v);
    size_t shorter = two(c + 1) % (len + 1);
    check_longer(judge(image, shorter, pattern, &other), shorter, v);
    COUNT(others, other);

    /* And a longer image. */
    size_t tail = tail_length(c);
    if (len) memcpy(whole, image, len);
    memset(whole + len, c[7], tail);
    check_longer(v, len, judge(whole, len + tail, pattern, &other));
    COUNT(others, other);
    return 0;
}

static void tell_counts(FILE *to) {
    fprintf(to, " judgements %" PRIu64 " grounds %zu", judgements, held_in(seen.grounds, GROUNDS * TAGS));
}
