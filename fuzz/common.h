/* What the targets share: failing, guidance, the library's blocks, what is lent and where it stands, start and end.
 *
 * Before it is included a target defines INPUT_MOST, the most bytes of an input; COUNTERS, the members that it adds to the counters; MUTATE and
 * CROSS, the names of its two functions in peer_c that change an input and join two. Behind it, it defines what is declared under "Start and end". */
#define _GNU_SOURCE
#include <inttypes.h>
#include <signal.h>
#include <stdarg.h>
#include <stdio.h>
#include <stdlib.h>
#include <string.h>
#include <sys/mman.h>
#include <ucontext.h>
#include <unistd.h>

#include "x9180.h"

#define ANSWER 12 /* numbers of an answer */
#define CONTROL 16
#define LARGEST ((size_t)268435456)

/* The numbers of the reader and the writer, below NUMBERS, and those that the calls of the day book, x9_salvage and x9_tiff have besides. */
enum { ACCEPTED, SIZE, ROOM, CUT, LENGTH, TYPE, PLACE, FIELD, LINK, TOTAL, OPEN, AFTER, NUMBERS };
enum { DUPLICATE = 12, FULL, NOENTRY = 15, RANGE, NOTHING, TAGORDER, TAGVALUE, BOOK, ALL_NUMBERS };

/* ---- Failing ---- */

static const char *now_what = "file"; /* what is at hand, and how long it is */
static size_t now_len;

__attribute__((noreturn, format(printf, 2, 3))) static void fail(const char *kind, const char *form, ...) {
    va_list list;
    fprintf(stderr, "%s: ", kind);
    va_start(list, form);
    vfprintf(stderr, form, list);
    va_end(list);
    fprintf(stderr, " (%s of %zu bytes)\n", now_what, now_len);
    fflush(stderr);
    abort();
}

#define MUST(holds, ...)                       \
    do {                                       \
        if (!(holds)) fail("ORACLE", __VA_ARGS__); \
    } while (0)

static void show(const char *who, const uint64_t *numbers, int count) {
    fprintf(stderr, "  %s", who);
    for (int i = 0; i < count; i++) fprintf(stderr, " %" PRIu64, numbers[i]);
    fprintf(stderr, "\n");
}

/* ---- Guidance and counts ----
 * Counters that the fuzzer reads besides its own: a block of the library reached for the first time, and each answer given, by number,
 * type of the record at fault and field. */

#define BLOCKS_MOST 8192
#define TYPES 20
#define FIELDS 64
#define ANSWERS (NUMBERS * TYPES * FIELDS)

struct counters {
    uint8_t blocks[BLOCKS_MOST];
    uint8_t answers[ANSWERS];
    COUNTERS
};
/* Volatile, since nothing in this file reads them. */
#ifdef REPLAY
static volatile struct counters counted;
#else
__attribute__((used, section("__libfuzzer_extra_counters"))) static volatile struct counters counted;
#endif

static struct counters seen; /* over the whole process */
static uint64_t inputs, by_number[ALL_NUMBERS];

#define COUNT(part, at)        \
    do {                       \
        counted.part[at] = 1;  \
        seen.part[at] = 1;     \
    } while (0)

/* ---- The library's blocks ----
 * The library is linked as it is. For guidance by its own blocks, each block's first byte is replaced by a breakpoint that puts the byte
 * back when it is first reached. The offsets come from the disassembly (blocks.awk), relative to x9_read.
 * The breakpoints are those of x86-64; on another processor, with a library for it, the target runs without this guidance. */

#if !defined(REPLAY) && defined(__x86_64__)
#define BY_BLOCKS
static struct {
    uint8_t *at;
    uint8_t was;
} blocks[BLOCKS_MOST];
static size_t block_count;

static int block_order(const void *a, const void *b) {
    const uint8_t *x = *(uint8_t *const *)a, *y = *(uint8_t *const *)b;
    return x < y ? -1 : x > y;
}

static void on_trap(int sig, siginfo_t *info, void *context) {
    ucontext_t *machine = context;
    uint8_t *at = (uint8_t *)machine->uc_mcontext.gregs[REG_RIP] - 1;
    size_t low = 0, high = block_count;
    (void)info;
    while (low < high) {
        size_t mid = (low + high) / 2;
        if (blocks[mid].at < at) low = mid + 1;
        else high = mid;
    }
    if (low == block_count || blocks[low].at != at) {
        signal(sig, SIG_DFL);
        return;
    }
    *at = blocks[low].was;
    machine->uc_mcontext.gregs[REG_RIP] = (greg_t)at;
    COUNT(blocks, low);
}

static void arm_blocks(const char *list) {
    FILE *from = fopen(list, "r");
    long long offset;
    uintptr_t page = (uintptr_t)sysconf(_SC_PAGESIZE), first, last;
    struct sigaction action = {0};
    if (!from) {
        fprintf(stderr, "no list of blocks: %s\n", list);
        exit(2);
    }
    while (block_count < BLOCKS_MOST && fscanf(from, "%lld", &offset) == 1)
        blocks[block_count++].at = (uint8_t *)(uintptr_t)&x9_read + offset;
    fclose(from);
    if (!block_count) return;
    qsort(blocks, block_count, sizeof blocks[0], block_order);
    first = (uintptr_t)blocks[0].at & -page;
    last = ((uintptr_t)blocks[block_count - 1].at + page) & -page;
    if (mprotect((void *)first, last - first, PROT_READ | PROT_WRITE | PROT_EXEC)) {
        perror("mprotect");
        exit(2);
    }
    action.sa_sigaction = on_trap;
    action.sa_flags = SA_SIGINFO | SA_NODEFER | SA_ONSTACK;
    sigaction(SIGTRAP, &action, NULL);
    for (size_t i = 0; i < block_count; i++) {
        blocks[i].was = *blocks[i].at;
        *blocks[i].at = 0xCC;
    }
}
#else
static const size_t block_count = 0;
#endif

/* ---- Buffers ----
 * A region has a page without access on either side: what is lent ends at the one (END) or begins at the other (BEGIN). The third place
 * is the heap (HEAP), where AddressSanitizer looks on. */

enum { END, BEGIN, HEAP, PLACES };

typedef struct {
    uint8_t *base;
    size_t cap;
} region;

static region region_of(size_t cap) {
    size_t page = (size_t)sysconf(_SC_PAGESIZE);
    uint8_t *all = mmap(NULL, cap + 2 * page, PROT_NONE, MAP_PRIVATE | MAP_ANONYMOUS, -1, 0);
    if (all == MAP_FAILED || mprotect(all + page, cap, PROT_READ | PROT_WRITE)) {
        perror("mmap");
        exit(2);
    }
    return (region){all + page, cap};
}

static uint8_t *stand(region r, int place, size_t len) { return place == END ? r.base + r.cap - len : r.base; }

static region answer_region;
static int turn; /* from the control bytes: which place comes next */

static uint64_t *lend_answer(int place, size_t count, uint64_t pattern) {
    uint64_t *answer = place == HEAP ? malloc(count * 8) : (uint64_t *)stand(answer_region, place, count * 8);
    for (size_t i = 0; i < count; i++) answer[i] = pattern;
    return answer;
}

static void drop(int place, void *lent) {
    if (place == HEAP) free(lent);
}

/* Bytes at all three places; in the regions they cannot be written while the library has them. */
static void lend(const region regions[2], uint8_t *lent[PLACES], const void *bytes, size_t len) {
    for (int place = END; place <= BEGIN; place++) {
        region r = regions[place];
        lent[place] = stand(r, place, len);
        mprotect(r.base, r.cap, PROT_READ | PROT_WRITE);
        if (len) memcpy(lent[place], bytes, len);
        mprotect(r.base, r.cap, PROT_READ);
    }
    lent[HEAP] = malloc(len);
    if (len) memcpy(lent[HEAP], bytes, len);
}

static void take_back(uint8_t *lent[PLACES], const void *bytes, size_t len, const char *what) {
    for (int place = 0; len && place < PLACES; place++) MUST(!memcmp(lent[place], bytes, len), "the %s was changed", what);
    free(lent[HEAP]);
}

/* The number in a length field. */
static inline size_t told(const uint8_t *at) {
    return (size_t)at[0] << 24 | (size_t)at[1] << 16 | (size_t)at[2] << 8 | at[3];
}

/* ---- Start and end ---- */

static size_t held_in(const uint8_t *from, size_t count) {
    size_t held = 0;
    for (size_t i = 0; i < count; i++) held += from[i];
    return held;
}

/* By the target: the regions that it lends from, what it has counted, and an input. */
static void make_regions(void);
static void tell_counts(FILE *to);
int LLVMFuzzerTestOneInput(const uint8_t *data, size_t size);

/* By peer_c. */
void peer_setup(void);

static void report(void) {
    const char *path = getenv("X9FUZZ_STATS");
    FILE *to = path ? fopen(path, "a") : stderr;
    if (!to) return;
    fprintf(to, "inputs %" PRIu64, inputs);
    tell_counts(to);
    for (int i = 0; i < ALL_NUMBERS; i++)
        if (i < NUMBERS || by_number[i]) fprintf(to, " n%d %" PRIu64, i, by_number[i]);
    fprintf(to, " answers %zu blocks %zu of %zu\n", held_in(seen.answers, ANSWERS), held_in(seen.blocks, BLOCKS_MOST), block_count);
#ifdef BY_BLOCKS
    path = getenv("X9FUZZ_UNREACHED");
    if (path) {
        FILE *list = fopen(path, "w");
        for (size_t i = 0; list && i < block_count; i++)
            if (!seen.blocks[i]) fprintf(list, "%td\n", blocks[i].at - (uint8_t *)(uintptr_t)&x9_read);
        if (list) fclose(list);
    }
#endif
    if (to != stderr) fclose(to);
}

static void begin(void) {
    answer_region = region_of((size_t)sysconf(_SC_PAGESIZE));
    make_regions();
    peer_setup();
    atexit(report);
}

#ifdef REPLAY
/* Without a fuzzer and without AddressSanitizer: each file named is put through once. For valgrind. */
int main(int count, char **names) {
    uint8_t *data = malloc(INPUT_MOST);
    begin();
    for (int i = 1; i < count; i++) {
        FILE *from = fopen(names[i], "rb");
        if (!from) {
            perror(names[i]);
            return 2;
        }
        size_t size = fread(data, 1, INPUT_MOST, from);
        fclose(from);
        LLVMFuzzerTestOneInput(data, size);
    }
    free(data);
    return 0;
}
#else
size_t LLVMFuzzerMutate(uint8_t *data, size_t size, size_t max);
size_t MUTATE(uint8_t *data, size_t size, size_t max, unsigned seed, size_t (*bytewise)(uint8_t *, size_t, size_t));
size_t CROSS(const uint8_t *one, size_t one_size, const uint8_t *two, size_t two_size, uint8_t *out, size_t max, unsigned seed);

int LLVMFuzzerInitialize(int *argc, char ***argv);
int LLVMFuzzerInitialize(int *argc, char ***argv) {
    const char *list = getenv("X9FUZZ_BLOCKS");
    (void)argc, (void)argv;
    begin();
#ifdef BY_BLOCKS
    if (list) arm_blocks(list);
#else
    (void)list;
#endif
    return 0;
}

size_t LLVMFuzzerCustomMutator(uint8_t *data, size_t size, size_t max, unsigned seed);
size_t LLVMFuzzerCustomMutator(uint8_t *data, size_t size, size_t max, unsigned seed) {
    return MUTATE(data, size, max, seed, LLVMFuzzerMutate);
}

size_t LLVMFuzzerCustomCrossOver(const uint8_t *one, size_t one_size, const uint8_t *two, size_t two_size, uint8_t *out, size_t max,
                                 unsigned seed);
size_t LLVMFuzzerCustomCrossOver(const uint8_t *one, size_t one_size, const uint8_t *two, size_t two_size, uint8_t *out, size_t max,
                                 unsigned seed) {
    return CROSS(one, one_size, two, two_size, out, max, seed);
}
#endif
