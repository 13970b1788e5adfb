/* visits BEFORE.so AFTER.so: map, protect and unmap by two builds of the library, in turn, on equal boards. bench/visits/run builds both and
 * runs it. Times are told as ratios of this one run: to the time that memset takes to fill one frame, and to each other.
 *
 * A board has F 512, U 0, P 1. Its pages from 0x200000 up are mapped to the first 256 frames and every line of theirs is loaded, so that
 * every place holds a line of another page than the ones that are measured. These are 200 more pages: all are mapped, then all protected,
 * then all unmapped, each call 200 times in a row. The two builds take turns, 31 rounds, and the shortest time of a round counts. After each
 * round the two boards must be equal, byte by byte. */
#include "oaledva.h"
#include <dlfcn.h>
#include <stdio.h>
#include <stdlib.h>
#include <time.h>

#define FRAMES 512
#define HELD 256
#define PAGES 200
#define PAGE UINT64_C(0x200000)
#define ROUNDS 31

/* REFUSED is an unmap of a page that is not mapped: like map it asks every frame word, and then it does nothing. */
enum { MAP, PROTECT, UNMAP, CALLS, REFUSED = CALLS, KINDS };
static const char *const CALL[CALLS] = {"map", "protect", "unmap"};
static const size_t LINES[] = {1, 256, 4096, 65536};
#define SIZES (sizeof LINES / sizeof *LINES)

typedef struct library {
    __typeof__(oaledva_map) *map;
    __typeof__(oaledva_unmap) *unmap;
    __typeof__(oaledva_protect) *protect;
    __typeof__(oaledva_supervisor_access) *access;
} library;

typedef struct buffers {
    size_t lines;
    uint32_t slots[OALEDVA_SLOTS(1)];
    uint64_t words[OALEDVA_WORDS(FRAMES)];
    uint64_t records[OALEDVA_RECORDS(OALEDVA_LINES_MAX)];
    uint8_t cache[OALEDVA_CACHE(OALEDVA_LINES_MAX)];
    uint8_t memory[OALEDVA_MEMORY(FRAMES)];
} buffers;

#define LEND(b)                                                                                                    \
    FRAMES, 0, 1, (b)->lines, (b)->slots, OALEDVA_SLOTS(1), (b)->words, FRAMES, (b)->records,                      \
        OALEDVA_RECORDS((b)->lines), (b)->cache, OALEDVA_CACHE((b)->lines), (b)->memory, OALEDVA_MEMORY(FRAMES)

static void stop(const char *words) {
    fprintf(stderr, "visits: %s\n", words);
    exit(1);
}

static void gave(oaledva_answer answer, uint32_t number) {
    if (oaledva_number(answer) != number) stop("a call did not give the number that it should");
}

static void *symbol(void *from, const char *name) {
    void *found = dlsym(from, name);
    if (!found) stop(dlerror());
    return found;
}

static library opened(const char *path) {
    void *from = dlopen(path, RTLD_NOW | RTLD_LOCAL);
    if (!from) stop(dlerror());
    library l;
    *(void **)&l.map = symbol(from, "oaledva_map");
    *(void **)&l.unmap = symbol(from, "oaledva_unmap");
    *(void **)&l.protect = symbol(from, "oaledva_protect");
    *(void **)&l.access = symbol(from, "oaledva_supervisor_access");
    return l;
}

static void prepare(const library *l, buffers *b, size_t lines) {
    memset(b, 0, sizeof *b);
    b->lines = lines;
    const oaledva_pending none = {0, 0};
    for (size_t i = 0; i < HELD; i++) gave(l->map(LEND(b), PAGE + i, i, OALEDVA_WRITABLE), 0);
    for (uint64_t at = 0; at < OALEDVA_MEMORY(HELD); at += OALEDVA_LINE_BYTES)
        gave(l->access(LEND(b), none, OALEDVA_LOAD, 4, PAGE * OALEDVA_MEMORY(1) + at, 0), 0);
}

static void call(const library *l, buffers *b, int kind) {
    for (size_t i = 0; i < PAGES; i++) {
        const uint64_t page = PAGE + HELD + i;
        if (kind == MAP) gave(l->map(LEND(b), page, HELD + i, OALEDVA_WRITABLE), 0);
        else if (kind == PROTECT) gave(l->protect(LEND(b), page, OALEDVA_READ_ONLY), 0);
        else gave(l->unmap(LEND(b), page), kind == UNMAP ? 0 : OALEDVA_NOT_MAPPED);
    }
}

static void fill(buffers *b) {
    for (size_t i = 0; i < PAGES; i++) {
        void *frame = b->memory + OALEDVA_MEMORY(HELD + i);
        memset(frame, 0, OALEDVA_MEMORY(1));
        __asm__ volatile("" : : "r"(frame) : "memory");
    }
}

static double now(void) {
    struct timespec t;
    clock_gettime(CLOCK_MONOTONIC, &t);
    return (double)t.tv_sec * 1e9 + (double)t.tv_nsec;
}

static void least(double *time, double began) {
    const double took = now() - began;
    if (*time == 0 || took < *time) *time = took;
}

int main(int words, char **word) {
    if (words != 3) stop("two libraries are wanted, before and after");
    const library side[2] = {opened(word[1]), opened(word[2])};
    static buffers board[2];
    static double took[SIZES][KINDS][2];
    double filled = 0;
    for (size_t size = 0; size < SIZES; size++) {
        for (int s = 0; s < 2; s++) prepare(&side[s], &board[s], LINES[size]);
        for (int round = 0; round < ROUNDS; round++) {
            for (int turn = 0; turn < 2; turn++) {
                const int s = (round + turn) % 2;
                for (int kind = 0; kind < KINDS; kind++) {
                    const double began = now();
                    call(&side[s], &board[s], kind);
                    least(&took[size][kind][s], began);
                }
                const double began = now();
                fill(&board[s]);
                least(&filled, began);
            }
            if (memcmp(&board[0], &board[1], sizeof *board)) stop("the two libraries left different bytes");
        }
    }
    puts("One call, in fills of a frame by memset; and how much longer it took before.");
    puts("lines    call       before     after   before/after");
    for (size_t size = 0; size < SIZES; size++)
        for (int kind = 0; kind < CALLS; kind++) {
            const double *t = took[size][kind];
            printf("%5zu    %-8s %8.2f  %8.2f   %8.2f\n", LINES[size], CALL[kind], t[0] / filled, t[1] / filled, t[0] / t[1]);
        }
    puts("\nThe visit alone: what the call took longer than the same call with one line.");
    puts("lines    call       before     after   before/after");
    for (size_t size = 1; size < SIZES; size++)
        for (int kind = 0; kind < CALLS; kind++) {
            const double b = took[size][kind][0] - took[0][kind][0], a = took[size][kind][1] - took[0][kind][1];
            printf("%5zu    %-8s %8.2f  %8.2f   %8.2f\n", LINES[size], CALL[kind], b / filled, a / filled, b / a);
        }
    printf("\nThe zeroing: with one line, map took %.2f fills more than a call that asks the same frame words and does nothing.\n",
           (took[0][MAP][1] - took[0][REFUSED][1]) / filled);
    return 0;
}
