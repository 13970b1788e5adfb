#include "boards.h"
#include <stdio.h>
#include <stdlib.h>
#include <sys/mman.h>

#define PAGE UINT64_C(0x200000)
#define PAGE_END UINT64_C(0xFFC00000)
#define FRAME_LINES 256

const char *const SORT_NAME[SORTS] = {"rising", "scattered", "alike"};
const char *const SORT_WORDS[SORTS] = {"pages that rise with their frames", "pages in no order",
                                       "pages that agree in their low bits, so that searches are as long as they get"};

void stop(const char *words) {
    fprintf(stderr, "dumps: %s\n", words);
    exit(1);
}

uint64_t random_at(uint64_t place) {
    uint64_t x = (place + 1) * UINT64_C(0x9E3779B97F4A7C15);
    x = (x ^ (x >> 30)) * UINT64_C(0xBF58476D1CE4E5B9);
    x = (x ^ (x >> 27)) * UINT64_C(0x94D049BB133111EB);
    return x ^ (x >> 31);
}

/* A number of 32 bits in no order; no two are equal. */
static uint32_t scattered(uint32_t i) {
    i ^= i >> 16, i *= 0x85ebca6b;
    i ^= i >> 13, i *= 0xc2b2ae35;
    return i ^ (i >> 16);
}

static int ordinary(uint64_t page) { return page >= PAGE && page < PAGE_END; }

static void *mapped(size_t bytes, int protection) {
    void *at = mmap(NULL, bytes, protection, MAP_PRIVATE | MAP_ANONYMOUS | MAP_NORESERVE, -1, 0);
    if (at == MAP_FAILED) stop("there is no memory for a board");
    return at;
}

/* Lines with one place are 256 apart by name or more, so L lines take G pages that differ in their low bits. */
static size_t groups(size_t lines) { return lines < FRAME_LINES ? 1 : lines / FRAME_LINES; }

/* In a board whose pages are alike: the frame whose page has the lines of a group. Such frames agree in their low bits too. */
static size_t group_frame(size_t frames, size_t lines, size_t group) {
    const size_t apart = frames / groups(lines);
    return group * apart + apart / 2;
}

static void put_words(sort which, oaledva_board *b) {
    const size_t frames = b->frames;
    uint64_t next = 0;
    for (size_t f = b->uncached; f < frames; f++) {
        uint64_t page = PAGE + f;
        if (which == SCATTERED)
            do page = scattered((uint32_t)next++);
            while (!ordinary(page));
        if (which == ALIKE) /* with F frames the upper log2 F bits differ */
            do page = next++ * ((UINT64_C(1) << 32) / frames);
            while (!ordinary(page));
        b->words[f] = page * 4 + 3;
    }
    if (which == ALIKE)
        for (size_t g = 0; g < groups(b->lines); g++) b->words[group_frame(frames, b->lines, g)] = (PAGE + 256 + g) * 4 + 3;
}

/* The frames from U up, sorted by the group for which their pages' low bits make them fit: those of group g from from[g] on. */
static uint32_t *by_group(const oaledva_board *b, size_t *from) {
    const size_t many = groups(b->lines);
    uint32_t *frames = malloc(b->frames * sizeof *frames);
    if (frames == NULL) stop("there is no memory for a board");
    memset(from, 0, (many + 1) * sizeof *from);
    for (size_t f = b->uncached; f < b->frames; f++) from[b->words[f] / 4 % many]++;
    for (size_t g = 0, before = 0; g <= many; g++) {
        const size_t next = before + from[g];
        if (g < many && next == before) stop("a place has no line");
        from[g] = before, before = next;
    }
    for (size_t f = b->uncached; f < b->frames; f++) frames[from[b->words[f] / 4 % many]++] = (uint32_t)f;
    memmove(from + 1, from, many * sizeof *from);
    from[0] = 0;
    return frames;
}

static void put_records(sort which, oaledva_board *b) {
    const size_t lines = b->lines, many = groups(lines), first = (b->uncached * FRAME_LINES + lines - 1) / lines * lines;
    size_t from[OALEDVA_LINES_MAX / FRAME_LINES + 1];
    uint32_t *frames = which == SCATTERED ? by_group(b, from) : NULL;
    for (size_t i = 0; i < lines; i++) {
        const size_t group = i / FRAME_LINES % many;
        size_t frame = 0, offset = i % FRAME_LINES;
        if (which == RISING) frame = (first + i) / FRAME_LINES, offset = (first + i) % FRAME_LINES;
        if (which == SCATTERED) {
            const uint64_t random = random_at(i);
            frame = frames[from[group] + random % (from[group + 1] - from[group])];
            if (lines < FRAME_LINES) offset += lines * (random >> 40) % FRAME_LINES;
        }
        if (which == ALIKE) frame = group_frame(b->frames, lines, group);
        const uint64_t name = b->words[frame] / 4 * FRAME_LINES + offset;
        if (name % lines != i) stop("a line is not at its place");
        b->records[2 * i] = name;
        b->records[2 * i + 1] = (frame * FRAME_LINES + offset) * 8 + 2 + 1;
    }
    free(frames);
}

bench_board board_of(sort which, size_t frames) {
    const size_t lines = LINES_OF(frames), uncached = UNCACHED_OF(frames);
    const int both = PROT_READ | PROT_WRITE;
    oaledva_board b = {frames, uncached, 1, lines,
                       mapped(sizeof(uint32_t) * OALEDVA_SLOTS(1), both), OALEDVA_SLOTS(1),
                       mapped(sizeof(uint64_t) * OALEDVA_WORDS(frames), both), OALEDVA_WORDS(frames),
                       mapped(sizeof(uint64_t) * OALEDVA_RECORDS(lines), both), OALEDVA_RECORDS(lines),
                       mapped(OALEDVA_CACHE(lines), both), OALEDVA_CACHE(lines),
                       mapped(OALEDVA_MEMORY(frames), PROT_READ), OALEDVA_MEMORY(frames), {0, 0}};
    put_words(which, &b);
    put_records(which, &b);
    bench_board of = {b, mapped(sizeof(uint64_t) * OALEDVA_KEYS(frames, lines), both),
                      mapped(sizeof(uint64_t) * OALEDVA_LINKS(frames, lines), both), mapped(lines, both),
                      mapped(sizeof(uint64_t) * OALEDVA_RECORDS(lines), both)};
    memcpy(of.records, b.records, sizeof(uint64_t) * b.records_length);
    return of;
}

void board_free(bench_board *of) {
    const oaledva_board *b = &of->b;
    munmap(b->slots, sizeof(uint32_t) * b->slots_length);
    munmap(b->words, sizeof(uint64_t) * b->words_length);
    munmap(b->records, sizeof(uint64_t) * b->records_length);
    munmap(b->cache, b->cache_length);
    munmap(b->memory, b->memory_length);
    munmap(of->keys, sizeof(uint64_t) * OALEDVA_KEYS(b->frames, b->lines));
    munmap(of->links, sizeof(uint64_t) * OALEDVA_LINKS(b->frames, b->lines));
    munmap(of->dropped, b->lines);
    munmap(of->records, sizeof(uint64_t) * b->records_length);
}
