/* Checking and repairing dumped boards: how the cost grows with their size, and that the library reports and repairs as a check by
 * pairs does. README.md says how to run it. */
#include "boards.h"
#include "compare.h"
#include "pairs.h"
#include "turns.h"
#include <cpuid.h>
#include <stdio.h>
#include <stdlib.h>
#include <time.h>

static const char USAGE[] = "usage: dumps [--rounds N] [--emulated] [--counts FILE]\n"
                            "       dumps --brief\n"
                            "       dumps --count SORT CALL FRAMES\n"
                            "       dumps --counted\n";

static const size_t SIZES[] = {1 << 10, 1 << 12, 1 << 14, 1 << 16, 1 << 18, 1 << 20};
#define SIZES_MANY OALEDVA_COUNT(SIZES)
/* A check by pairs is made of the first so many, and its instructions are counted of one less. */
#define PAIRS_MANY 4
#define BRIEF_BOARDS 30000
#define ROUNDS 15
#define PAIRS_ROUNDS 5
#define ROUNDS_MAX 1000

/* What is timed: the check and the repair of a sound board, and the repair of one whose lines are all stale, so that it drops
 * them all; and by itself the check by pairs. */
enum { CHECK, REPAIR, REPAIR_ALL, CALLS, PAIRS = CALLS, KINDS };
static const char *const CALL[KINDS] = {"check", "repair", "repair-all", "pairs"};

static oaledva_report called(bench_board *of, int call) {
    const size_t keys = OALEDVA_KEYS(of->b.frames, of->b.lines), links = OALEDVA_LINKS(of->b.frames, of->b.lines);
    if (call == CHECK) return oaledva_board_check(&of->b, of->keys, keys, of->links, links);
    if (call == PAIRS) return pairs_check(&of->b);
    return oaledva_board_repair(&of->b, of->keys, keys, of->links, links, of->dropped, of->b.lines);
}

/* Before and after a call: the records as they were; and that it did what it should. */
static void prepare(bench_board *of, int call) {
    memcpy(of->b.records, of->records, sizeof(uint64_t) * of->b.records_length);
    memset(of->b.cache, call == REPAIR_ALL, of->b.cache_length);
}

static void asked(const bench_board *of, int call, oaledva_report report) {
    const size_t many = call == REPAIR_ALL ? of->b.lines : 0;
    const oaledva_report right = pairs_report(0, call == REPAIR_ALL ? OALEDVA_RULE_STALE : 0, 0, many);
    if (report.packed != right.packed) stop("a call did not report what it should");
    for (size_t i = 0; i < of->b.records_length; i++)
        if (of->b.records[i] != (many == 0 ? of->records[i] : 0)) stop("a call left other records than it should");
}

static double now(void) {
    struct timespec t;
    clock_gettime(CLOCK_MONOTONIC, &t);
    return (double)t.tv_sec * 1e9 + (double)t.tv_nsec;
}

/* Nanoseconds of one call; of small boards the mean of many. */
static double took(bench_board *of, int call) {
    const size_t many = call != PAIRS && of->b.frames < 1 << 18 ? (1 << 18) / of->b.frames : 1;
    double sum = 0;
    for (size_t i = 0; i < many; i++) {
        prepare(of, call);
        const double began = now();
        const oaledva_report report = called(of, call);
        sum += now() - began;
        asked(of, call, report);
    }
    return sum / (double)many;
}

/* The middle of some numbers, and the ends of their middle half. */
typedef struct spread {
    double low, median, high;
} spread;

static int by_size(const void *one, const void *other) {
    const double a = *(const double *)one, b = *(const double *)other;
    return (a > b) - (a < b);
}

static double quantile(const double *sorted, size_t many, double part) {
    const double at = part * (double)(many - 1);
    const size_t below = (size_t)at, above = below + 1 < many ? below + 1 : below;
    return sorted[below] + (sorted[above] - sorted[below]) * (at - (double)below);
}

static spread spread_of(double *numbers, size_t many) {
    qsort(numbers, many, sizeof *numbers, by_size);
    const spread of = {quantile(numbers, many, 0.25), quantile(numbers, many, 0.5), quantile(numbers, many, 0.75)};
    return of;
}

/* Two rows of times, of the same rounds, as ratios; each divided by how many it is for. */
static spread ratio(const double *one, double many, const double *other, double others, size_t rounds) {
    static double ratios[ROUNDS_MAX];
    for (size_t i = 0; i < rounds; i++) ratios[i] = one[i] / many / (other[i] / others);
    return spread_of(ratios, rounds);
}

static const char *told(spread of) {
    static char words[4][32];
    static int next;
    char *const at = words[next++ % 4];
    snprintf(at, sizeof *words, "%.2f (%.2f to %.2f)", of.median, of.low, of.high);
    return at;
}

/* ---- instructions, as bench/dumps/run has had them counted: lines of a sort, a call, frames and the number. */
static double counts[SORTS][KINDS][SIZES_MANY];
static int counted;

static int named(const char *const *names, int many, const char *word) {
    for (int i = 0; i < many; i++)
        if (strcmp(names[i], word) == 0) return i;
    return -1;
}

static int size_of(size_t frames) {
    for (size_t i = 0; i < SIZES_MANY; i++)
        if (SIZES[i] == frames) return (int)i;
    return -1;
}

static void read_counts(const char *file) {
    char which[32], call[32];
    size_t frames;
    double count;
    FILE *from = fopen(file, "r");
    if (from == NULL) stop("the file of counts can't be read");
    while (fscanf(from, "%31s %31s %zu %lf", which, call, &frames, &count) == 4) {
        const int s = named(SORT_NAME, SORTS, which), c = named(CALL, KINDS, call), f = size_of(frames);
        if (s < 0 || c < 0 || f < 0) stop("a count of something else");
        counts[s][c][f] = count;
        counted = 1;
    }
    fclose(from);
}

static const char *counted_ratio(double one, double other) {
    static char words[4][16];
    static int next;
    char *const at = words[next++ % 4];
    if (one == 0 || other == 0) return "-";
    snprintf(at, sizeof *words, "%.2f", one / other);
    return at;
}

/* ---- how the cost grows */
static turns turns_of_board(bench_board *of, int lines) {
    const size_t many = lines ? of->b.lines : of->b.frames;
    (lines ? line_keys : page_keys)(&of->b, of->keys);
    const turns all = turns_of(of->keys, many, of->links);
    if (all.doubled || all.most > (lines ? LINE_TURNS : PAGE_TURNS)) stop("a search makes more turns than it can");
    return all;
}

/* Whether the count is of the library's own method: the links that it leaves are those that the copy leaves. */
static int same_links(bench_board *of) {
    const size_t many = 2 * of->b.lines;
    uint64_t *const links = malloc(many * sizeof *links);
    if (links == NULL) stop("there is no memory");
    prepare(of, CHECK);
    asked(of, CHECK, called(of, CHECK));
    memcpy(links, of->links, many * sizeof *links);
    turns_of_board(of, 1);
    const int same = memcmp(links, of->links, many * sizeof *links) == 0;
    free(links);
    return same;
}

static void growth(sort which, size_t rounds, int times) {
    static double time[SIZES_MANY][CALLS][ROUNDS_MAX];
    bench_board boards[SIZES_MANY];
    for (size_t i = 0; i < SIZES_MANY; i++) boards[i] = board_of(which, SIZES[i]);
    for (size_t round = 0; round <= rounds && times; round++) /* the first warms up */
        for (size_t turn = 0; turn < SIZES_MANY * CALLS; turn++) {
            const size_t at = (turn + round) % (SIZES_MANY * CALLS), i = at / CALLS, call = at % CALLS;
            const double one = took(&boards[i], (int)call);
            if (round != 0) time[i][call][round - 1] = one;
        }
    printf("\n%c%s\n", SORT_WORDS[which][0] - 'a' + 'A', SORT_WORDS[which] + 1);
    printf("                  turns, mean and most    a check, for each frame, to the size before    to a check of the same board, time and instructions\n");
    printf("  frames  lines   page        line        time                     ns  instructions      repair                     all dropped\n");
    for (size_t i = 0; i < SIZES_MANY; i++) {
        prepare(&boards[i], CHECK);
        const turns page = turns_of_board(&boards[i], 0), line = turns_of_board(&boards[i], 1);
        const double frames = (double)SIZES[i], *const count = counts[which][CHECK];
        printf("%8zu  %5zu   %4.1f  %2zu    %4.1f  %2zu  ", SIZES[i], boards[i].b.lines, page.mean, page.most, line.mean, line.most);
        if (times) {
            double each[ROUNDS_MAX];
            memcpy(each, time[i][CHECK], rounds * sizeof *each);
            printf("  %-20s", i == 0 ? "" : told(ratio(time[i][CHECK], frames, time[i - 1][CHECK], (double)SIZES[i - 1], rounds)));
            printf("  %6.1f", spread_of(each, rounds).median / frames);
        } else {
            printf("  %-20s  %6s", "-", "-");
        }
        if (counted)
            printf("  %7.1f  %4s", count[i] / frames, i == 0 ? "" : counted_ratio(count[i] / frames, count[i - 1] / (double)SIZES[i - 1]));
        else
            printf("  %7s  %4s", "-", "-");
        for (int call = REPAIR; call < CALLS; call++)
            printf("   %-20s  %-4s", times ? told(ratio(time[i][call], 1, time[i][CHECK], 1, rounds)) : "-",
                   counted_ratio(counts[which][call][i], count[i]));
        puts("");
    }
    printf("  The turns are counted in a copy of the method; the links that it leaves are %s.\n",
           same_links(&boards[SIZES_MANY - 1]) ? "the library's" : "NOT the library's, so that its turns may be others");
    for (size_t i = 0; i < SIZES_MANY; i++) board_free(&boards[i]);
}

/* ---- beside a check by pairs */
static void beside_pairs(size_t rounds) {
    static double ours[PAIRS_MANY][ROUNDS_MAX], pairs[PAIRS_MANY][ROUNDS_MAX];
    bench_board boards[PAIRS_MANY];
    for (size_t i = 0; i < PAIRS_MANY; i++) boards[i] = board_of(SCATTERED, SIZES[i]);
    for (size_t round = 0; round <= rounds; round++)
        for (size_t turn = 0; turn < 2 * PAIRS_MANY; turn++) {
            const size_t at = (turn + round) % (2 * PAIRS_MANY), i = at / 2;
            const double one = took(&boards[i], at % 2 == 0 ? CHECK : PAIRS);
            if (round != 0) (at % 2 == 0 ? ours : pairs)[i][round - 1] = one;
        }
    printf("\nA check by pairs, to the library's, on the boards with %s\n", SORT_WORDS[SCATTERED]);
    printf("                                                          time for each frame, to the size before\n");
    printf("  frames  lines   time                      instructions  by pairs              the library\n");
    for (size_t i = 0; i < PAIRS_MANY; i++) {
        printf("%8zu  %5zu   %-24s  %12s  ", SIZES[i], boards[i].b.lines, told(ratio(pairs[i], 1, ours[i], 1, rounds)),
               counted_ratio(counts[SCATTERED][PAIRS][i], counts[SCATTERED][CHECK][i]));
        if (i != 0) {
            const double frames = (double)SIZES[i], before = (double)SIZES[i - 1];
            printf("%-20s  ", told(ratio(pairs[i], frames, pairs[i - 1], before, rounds)));
            printf("%s", told(ratio(ours[i], frames, ours[i - 1], before, rounds)));
        }
        puts("");
    }
    for (size_t i = 0; i < PAIRS_MANY; i++) board_free(&boards[i]);
}

/* ---- keys made to be worst: each agrees with the last in one low bit more than the one before, so that all are on its way. */
static void put_chain(uint64_t *keys, size_t bits, uint64_t last) {
    for (size_t i = 0; i < bits; i++) keys[i] = last ^ (UINT64_C(1) << i);
    keys[bits] = last;
}

static void worst(void) {
    enum { PAGE_BITS = 32, LINE_BITS = 28 };
    /* The largest board, all of it zeros, and then such pages in its first frames and such lines in its first records. */
    bench_board of = board_of(RISING, SIZES[SIZES_MANY - 1]);
    oaledva_board *const b = &of.b;
    uint64_t keys[PAGE_BITS + 1];
    memset(b->words, 0, sizeof *b->words * b->words_length);
    memset(b->records, 0, sizeof *b->records * b->records_length);
    b->uncached = 0;
    put_chain(keys, PAGE_BITS, 0x40200001);
    for (size_t f = 0; f <= PAGE_BITS; f++) b->words[f] = keys[f] * 4 + 3;
    if (!oaledva_sound(called(&of, CHECK))) stop("pages made to be worst are not sound");
    const turns page = turns_of_board(&of, 0);
    put_chain(keys, LINE_BITS, 0x2aaaaaa);
    for (size_t i = 0; i <= LINE_BITS; i++) {
        b->records[2 * i] = i; /* under prefix 0, which maps to nothing: rule 4 is asked after the search */
        b->records[2 * i + 1] = (keys[i] - 1) * 8 + 1;
    }
    if (called(&of, CHECK).packed != pairs_report(0, OALEDVA_RULE_ASTRAY, 0, 0).packed) stop("lines made to be worst are not astray");
    const turns line = turns_of_board(&of, 1);
    printf("\nKeys made to be worst: each agrees with the last in one low bit more\n");
    printf("  %2d pages: %.1f turns of a search on average, %zu at most; by the method %d at most\n", PAGE_BITS + 1, page.mean, page.most,
           PAGE_TURNS);
    printf("  %2d lines: %.1f turns of a search on average, %zu at most; by the method %d at most\n", LINE_BITS + 1, line.mean, line.most,
           LINE_TURNS);
    board_free(&of);
}

/* ---- the processor's own name */
static const char *processor(void) {
    static unsigned name[13];
    for (unsigned i = 0; i < 3; i++)
        if (!__get_cpuid(0x80000002 + i, &name[4 * i], &name[4 * i + 1], &name[4 * i + 2], &name[4 * i + 3])) return "one without a name";
    return (const char *)name + strspn((const char *)name, " ");
}

static void method(size_t rounds, int times) {
    printf("\nMethod\n"
           "- Boards: F frames, of which F / 512 are uncached; F / 16 lines; one process. Every other frame has a page, and every\n"
           "  record holds an unchanged line at home, so that all five rules are asked of everything. Memory is zeros that the\n"
           "  system keeps as one page: to compare a line takes less than it would of a real dump, by a cache miss.\n"
           "- Pages that agree in their low bits: with F = 2^k frames they differ in the upper k bits alone. A search goes through\n"
           "  the equal bits, then through those that tell the pages apart. Their lines stand in frames that agree in their low\n"
           "  bits, too.\n"
           "- The library is proved, and compiled by its kit's clang at -O3 for any x86-64. What is around it, the check by pairs\n"
           "  too, is compiled by gcc %s at -O2 for any x86-64.\n"
           "- After every call the report and the records are what they should be.\n"
           "- Instructions: valgrind's callgrind counts those of one call, with all that it calls. They don't move with the\n"
           "  machine's load; - is not counted.\n",
           __VERSION__);
    if (times)
        printf("- Times: a round to warm up, then %zu rounds (by pairs %d), in each of which every board and every call has its turn;\n"
               "  each begins with another. A ratio is of two times of the same round; told are the median and, in brackets, the\n"
               "  quartiles. The nanoseconds are of this one run, and move with the machine's load. Where a board is too large for\n"
               "  the processor's caches a turn takes longer, so that times grow more than instructions do.\n",
               rounds, PAIRS_ROUNDS);
    else printf("- No times are told: they would be the emulator's.\n");
    printf("- Processor: %s.\n", processor());
}

static void full(size_t rounds, int times) {
    compare(BRIEF_BOARDS);
    for (int which = 0; which < SORTS; which++) growth((sort)which, rounds, times);
    worst();
    if (times) beside_pairs(PAIRS_ROUNDS);
    method(rounds, times);
    puts("\ndumps: the library reports and repairs as the check by pairs does");
}

/* One call of one kind, for a count. */
static void count_one(const char *which, const char *call, const char *frames) {
    const int s = named(SORT_NAME, SORTS, which), c = named(CALL, KINDS, call), f = size_of(strtoull(frames, NULL, 10));
    if (s < 0 || c < 0 || f < 0) stop("nothing that is counted");
    bench_board of = board_of((sort)s, SIZES[f]);
    prepare(&of, c);
    asked(&of, c, called(&of, c));
}

int main(int words, char **word) {
    size_t rounds = ROUNDS;
    int times = strstr(processor(), "QEMU") == NULL && strstr(processor(), "TCG") == NULL;
    for (int i = 1; i < words; i++) {
        const int left = words - i - 1;
        if (strcmp(word[i], "--brief") == 0) {
            compare(BRIEF_BOARDS);
            puts("dumps: the library reports and repairs as the check by pairs does");
            return 0;
        } else if (strcmp(word[i], "--counted") == 0) { /* what there is to count, for bench/dumps/run */
            for (int s = 0; s < SORTS; s++)
                for (int c = 0; c < (s == SCATTERED ? KINDS : CALLS); c++)
                    for (size_t f = 0; f < (c == PAIRS ? PAIRS_MANY - 1 : SIZES_MANY); f++)
                        printf("%s %s %zu\n", SORT_NAME[s], CALL[c], SIZES[f]);
            return 0;
        } else if (strcmp(word[i], "--count") == 0 && left == 3) {
            count_one(word[i + 1], word[i + 2], word[i + 3]);
            return 0;
        } else if (strcmp(word[i], "--emulated") == 0) {
            times = 0;
        } else if (strcmp(word[i], "--counts") == 0 && left > 0) {
            read_counts(word[++i]);
        } else if (strcmp(word[i], "--rounds") == 0 && left > 0 && strtoull(word[i + 1], NULL, 10) - 1 < ROUNDS_MAX) {
            rounds = strtoull(word[++i], NULL, 10);
        } else {
            fputs(USAGE, stderr);
            return 2;
        }
    }
    full(rounds, times);
    return 0;
}
