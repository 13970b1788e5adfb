/* What the header adds to the library's functions, tried: boards in static buffers and in a block, limits, the calls on a
 * board, lists of accesses, values and widths, marks, moved pages, look's bytes, entries. tests/c/run compiles this as C99, C11,
 * C++11 and C++17 and runs each. */
#include "expect.h"
#include <oaledva.h> /* twice is once */
#include <string.h>

OALEDVA_STATIC_BOARD(outside, 4, 1, 2, 2);
OALEDVA_STATIC_BOARD(largest, 4, 1, OALEDVA_PROCESSES_MAX, OALEDVA_LINES_MAX);
OALEDVA_STATIC_BOARD(reckoned, 0 ? 3 : 5, 1 ? 1 : 7, 1 + 2, 2 + 2);

/* Every call of a board, on a fresh one of F 4, U 1 and any P and L, by its last process. */
static void every_call(oaledva_board *b) {
    const uint64_t name = PAGE * 256;
    const size_t last = b->processes - 1;
    const oaledva_permission two = {2}; /* anything but 0 says yes */
    EXPECT(gives(oaledva_board_map(b, PAGE, 1, OALEDVA_WRITABLE), 0, 0, 0));
    EXPECT(gives(oaledva_board_attach(b, last, 511, 2048, OALEDVA_READ_ONLY), 0, 0, 0));
    EXPECT(gives(oaledva_board_store(b, last, 4, 511u << 22, 50), OALEDVA_SLOT_READ_ONLY, 0, 0));
    EXPECT(gives(oaledva_board_attach(b, last, 511, 2048, OALEDVA_WRITABLE), 0, 0, 0));
    EXPECT(gives(oaledva_board_store(b, last, 4, 511u << 22, 0x01020304), 0, 0, OALEDVA_REFILLED));
    EXPECT(gives(oaledva_board_load(b, last, 1, (511u << 22) + 3), 0, 4, OALEDVA_HIT));
    /* An address that does not fit 32 bits, as a global one of an ordinary page, is not cut: it is refused by 5, or by a lower
     * number that applies. */
    EXPECT(gives(oaledva_board_load(b, last, 1, PAGE * 4096 + 3), OALEDVA_KERNEL, 0, 0));
    EXPECT(gives(oaledva_board_store(b, last, 4, PAGE * 4096, 50), OALEDVA_KERNEL, 0, 0));
    EXPECT(gives(oaledva_board_load(b, last, 4, PAGE * 4096 + 3), OALEDVA_ALIGNMENT, 0, 0));
    EXPECT(gives(oaledva_board_load(b, last + 1, 1, (uint64_t)1 << 32), OALEDVA_RANGE, 0, 0));
    EXPECT(gives(oaledva_board_load(b, last, 1, (uint64_t)1 << 31), OALEDVA_KERNEL, 0, 0));
    EXPECT(gives(oaledva_board_load(b, last, 1, ((uint64_t)1 << 32) + (511u << 22) + 3), OALEDVA_KERNEL, 0, 0));
    EXPECT(gives(oaledva_board_load(b, last, 1, UINT64_MAX), OALEDVA_KERNEL, 0, 0));
    EXPECT(oaledva_board_look(b, 256) == b->cache && b->cache[3] == 4 && b->memory[4096 + 3] == 0);
    EXPECT(gives(oaledva_board_flush_all(b), 0, 0, 0));
    EXPECT(oaledva_board_look(b, 256) == b->memory + 4096 && b->memory[4096 + 3] == 4);
    EXPECT(oaledva_board_look(b, 4 * 256) == NULL && oaledva_board_look_number(b, 4 * 256).number == OALEDVA_RANGE);
    EXPECT(oaledva_board_look_number(b, 4 * 256 - 1).number == 0);
    EXPECT(gives(oaledva_board_protect(b, PAGE, OALEDVA_READ_ONLY), 0, 0, 0));
    EXPECT(gives(oaledva_board_store(b, last, 1, 511u << 22, 1), OALEDVA_PAGE_READ_ONLY, 0, 0));
    EXPECT(gives(oaledva_board_supervisor_store(b, 2, PAGE * 4096, 0x0a0b), 0, 0, OALEDVA_REFILLED));
    EXPECT(gives(oaledva_board_supervisor_load(b, 4, PAGE * 4096), 0, 0x0a0b0304, OALEDVA_HIT));
    EXPECT(gives(oaledva_board_move(b, PAGE, PAGE + 1), 0, 0, 0) && b->memory[4096] == 0x0a);
    EXPECT(gives(oaledva_board_load(b, last, 1, 511u << 22), OALEDVA_NOT_MAPPED, 0, 0));
    EXPECT(gives(oaledva_board_load(b, last, 4, (511u << 22) + 4096), 0, 0x0a0b0304, OALEDVA_REFILLED));
    EXPECT(gives(oaledva_board_store(b, last, 1, (511u << 22) + 4096, 1), OALEDVA_PAGE_READ_ONLY, 0, 0));
    EXPECT(gives(oaledva_board_unmap(b, PAGE + 1), 0, 0, 0));
    EXPECT(gives(oaledva_board_map(b, PAGE, 3, two), 0, 0, 0));
    EXPECT(gives(oaledva_board_load_and_map(b, 3 * 256), OALEDVA_TAG, 0, 0));
    EXPECT(gives(oaledva_board_tag(b, name), 0, 0, 0) && b->tag.set == 1 && b->tag.name == name);
    EXPECT(gives(oaledva_board_load(b, last, 1, 511u << 22), OALEDVA_TAG, 0, 0));
    EXPECT(gives(oaledva_board_store(b, last, 1, 511u << 22, 1), OALEDVA_TAG, 0, 0));
    EXPECT(gives(oaledva_board_supervisor_load(b, 1, PAGE * 4096), OALEDVA_TAG, 0, 0));
    EXPECT(gives(oaledva_board_supervisor_store(b, 1, PAGE * 4096, 1), OALEDVA_TAG, 0, 0));
    EXPECT(gives(oaledva_board_load_and_map(b, 256), OALEDVA_OTHER_LINE, 0, 0) && b->tag.set == 1);
    EXPECT(gives(oaledva_board_load_and_map(b, 3 * 256), 0, 0, 0) && b->tag.set == 0 && b->tag.name == 0);
    EXPECT(gives(oaledva_board_store(b, last, 1, 511u << 22, 1), 0, 0, OALEDVA_HIT));
    EXPECT(gives(oaledva_board_tag(b, name), 0, 0, 0));
    EXPECT(gives(oaledva_board_drop_tag(b), 0, 0, 0) && b->tag.set == 0 && b->tag.name == 0);
    EXPECT(gives(oaledva_board_detach(b, last, 511), 0, 0, 0));
    EXPECT(gives(oaledva_board_load(b, last, 1, 511u << 22), OALEDVA_SLOT_EMPTY, 0, 0));
}

/* A store's value has to fit its width; else the store is refused by 2 and no byte of the board changes. By a user; by a
 * supervisor, to the same byte by its global address, under prefix 0 and under prefix 1. */
static void values(void) {
    static const uint32_t widths[] = {1, 2, 4}, largest_of[] = {0xff, 0xffff, 0xffffffff};
    static const uint64_t addresses[] = {PAGE * 4096, 0, ((uint64_t)1 << 32) + 2 * 4096 + 16};
    const size_t bytes = oaledva_board_bytes(4, 1, 2, 2);
    void *const block = malloc(bytes), *const kept = malloc(bytes);
    oaledva_board b;
    EXPECT(kept != NULL && gives(oaledva_board_fresh(&b, 4, 1, 2, 2, block, bytes), 0, 0, 0));
    EXPECT(gives(oaledva_board_map(&b, PAGE, 1, OALEDVA_WRITABLE), 0, 0, 0));
    EXPECT(gives(oaledva_board_attach(&b, 0, 0, 2048, OALEDVA_WRITABLE), 0, 0, 0));
    for (size_t i = 0; i < OALEDVA_COUNT(widths); i++) {
        const uint32_t width = widths[i], largest = largest_of[i], next = largest + 1;
        EXPECT(oaledva_done(oaledva_board_store(&b, 0, width, 0, largest)));
        EXPECT(gives(oaledva_board_load(&b, 0, width, 0), 0, largest, OALEDVA_HIT));
        for (size_t j = 0; j < OALEDVA_COUNT(addresses); j++) {
            EXPECT(oaledva_done(oaledva_board_supervisor_store(&b, width, addresses[j], largest)));
            EXPECT(oaledva_value(oaledva_board_supervisor_load(&b, width, addresses[j])) == largest);
        }
        memcpy(kept, block, bytes);
        if (width < 4) {
            EXPECT(gives(oaledva_board_store(&b, 0, width, 0, next), OALEDVA_RANGE, 0, 0));
            EXPECT(gives(oaledva_board_store(&b, 0, width, 0, UINT32_MAX), OALEDVA_RANGE, 0, 0));
            /* Before every number but 1: here at an odd address, and the kernel's. */
            EXPECT(gives(oaledva_board_store(&b, 1, width, UINT64_MAX, next), OALEDVA_RANGE, 0, 0));
            for (size_t j = 0; j < OALEDVA_COUNT(addresses); j++)
                EXPECT(gives(oaledva_board_supervisor_store(&b, width, addresses[j], next), OALEDVA_RANGE, 0, 0));
            /* A load's value is not asked. */
            EXPECT(gives(oaledva_user_access(OALEDVA_LEND(b), b.tag, 0, OALEDVA_LOAD, width, 0, next), 0, largest,
                         OALEDVA_HIT));
        }
        EXPECT(gives(oaledva_board_store(&b, 0, 3, 0, UINT32_MAX), OALEDVA_ALIGNMENT, 0, 0));
        EXPECT(memcmp(kept, block, bytes) == 0);
    }
    free(kept);
    free(block);
}

/* The mark as a program tells it apart. */
static const char *went(oaledva_answer answer) {
    switch (oaledva_mark(answer).mark) {
    case OALEDVA_NO_ACCESS: return "no access";
    case OALEDVA_HIT: return "hit";
    case OALEDVA_REFILLED: return "refilled";
    case OALEDVA_WROTE_BACK: return "wrote back";
    case OALEDVA_UNCACHED: return "uncached";
    }
    return "none";
}

/* Each mark, by a load and by a store; the largest value beside it. The two lines of each pair below have one place, 0, so
 * they push each other out: a user's at 0 and 32, a supervisor's at the start of the page and under prefix 1. */
static void marks(void) {
    OALEDVA_STATIC_BOARD(b, 4, 1, 2, 2);
    const uint32_t most = UINT32_MAX;
    const uint64_t ordinary = PAGE * 4096, prefix_1 = ((uint64_t)1 << 32) + 2 * 4096;
    EXPECT(gives(oaledva_board_map(&b, PAGE, 1, OALEDVA_WRITABLE), 0, 0, OALEDVA_NO_ACCESS));
    EXPECT(gives(oaledva_board_attach(&b, 0, 0, 2048, OALEDVA_WRITABLE), 0, 0, OALEDVA_NO_ACCESS));

    EXPECT(gives(oaledva_board_load(&b, 0, 4, 0), 0, 0, OALEDVA_REFILLED));
    EXPECT(gives(oaledva_board_store(&b, 0, 4, 0, most), 0, 0, OALEDVA_HIT));
    EXPECT(gives(oaledva_board_load(&b, 0, 4, 0), 0, most, OALEDVA_HIT));
    EXPECT(b.memory[4096] == 0);
    EXPECT(gives(oaledva_board_load(&b, 0, 4, 32), 0, 0, OALEDVA_WROTE_BACK));
    EXPECT(b.memory[4096] == 0xff);
    EXPECT(gives(oaledva_board_load(&b, 0, 4, 0), 0, most, OALEDVA_REFILLED));
    EXPECT(gives(oaledva_board_store(&b, 0, 4, 32, most), 0, 0, OALEDVA_REFILLED));
    EXPECT(gives(oaledva_board_load(&b, 0, 4, 0), 0, most, OALEDVA_WROTE_BACK));
    EXPECT(gives(oaledva_board_store(&b, 0, 1, 0, 0xff), 0, 0, OALEDVA_HIT));
    EXPECT(gives(oaledva_board_store(&b, 0, 1, 32, 0xff), 0, 0, OALEDVA_WROTE_BACK));

    EXPECT(gives(oaledva_board_supervisor_store(&b, 4, prefix_1, most), 0, 0, OALEDVA_WROTE_BACK));
    EXPECT(gives(oaledva_board_supervisor_load(&b, 4, prefix_1), 0, most, OALEDVA_HIT));
    EXPECT(gives(oaledva_board_supervisor_load(&b, 4, ordinary), 0, most, OALEDVA_WROTE_BACK));
    EXPECT(gives(oaledva_board_supervisor_load(&b, 4, prefix_1), 0, most, OALEDVA_REFILLED));
    EXPECT(gives(oaledva_board_supervisor_store(&b, 4, ordinary, most), 0, 0, OALEDVA_REFILLED));
    EXPECT(gives(oaledva_board_load(&b, 0, 4, 0), 0, most, OALEDVA_HIT));
    for (int i = 0; i < 2; i++) {
        EXPECT(gives(oaledva_board_supervisor_store(&b, 4, 8, most), 0, 0, OALEDVA_UNCACHED));
        EXPECT(gives(oaledva_board_supervisor_load(&b, 4, 8), 0, most, OALEDVA_UNCACHED));
    }

    /* Refused: 0, though the line is held. No access: 0, though load-and-map refills and writes back, and unmap writes back. */
    EXPECT(gives(oaledva_board_load(&b, 0, 4, 2), OALEDVA_ALIGNMENT, 0, OALEDVA_NO_ACCESS));
    EXPECT(gives(oaledva_board_supervisor_load(&b, 4, 4096), OALEDVA_OUTSIDE, 0, OALEDVA_NO_ACCESS));
    EXPECT(gives(oaledva_board_store(&b, 0, 4, 0, 1), 0, 0, OALEDVA_HIT) && b.memory[4096 + 3] == 0xff);
    EXPECT(gives(oaledva_board_tag(&b, PAGE * 256 + 2), 0, 0, OALEDVA_NO_ACCESS));
    EXPECT(gives(oaledva_board_load(&b, 0, 4, 0), OALEDVA_TAG, 0, OALEDVA_NO_ACCESS));
    EXPECT(gives(oaledva_board_load_and_map(&b, 256), OALEDVA_OTHER_LINE, 0, OALEDVA_NO_ACCESS));
    EXPECT(gives(oaledva_board_load_and_map(&b, 256 + 2), 0, 0, OALEDVA_NO_ACCESS) && b.memory[4096 + 3] == 1);
    EXPECT(gives(oaledva_board_store(&b, 0, 1, 32, 2), 0, 0, OALEDVA_HIT) && b.memory[4096 + 32] == 0xff);
    EXPECT(gives(oaledva_board_unmap(&b, PAGE), 0, 0, OALEDVA_NO_ACCESS) && b.memory[4096 + 32] == 2);
    EXPECT(gives(oaledva_board_load(&b, 0, 1, 32), OALEDVA_NOT_MAPPED, 0, OALEDVA_NO_ACCESS));

    /* The same by each buffer, and told apart by name. */
    EXPECT(strcmp(went(oaledva_map(OALEDVA_LEND(b), PAGE, 1, OALEDVA_WRITABLE)), "no access") == 0);
    EXPECT(strcmp(went(oaledva_user_access(OALEDVA_LEND(b), b.tag, 0, OALEDVA_STORE, 4, 0, most)), "refilled") == 0);
    EXPECT(strcmp(went(oaledva_user_access(OALEDVA_LEND(b), b.tag, 0, OALEDVA_LOAD, 4, 0, 0)), "hit") == 0);
    EXPECT(strcmp(went(oaledva_user_access(OALEDVA_LEND(b), b.tag, 0, OALEDVA_LOAD, 4, 32, 0)), "wrote back") == 0);
    EXPECT(strcmp(went(oaledva_supervisor_access(OALEDVA_LEND(b), b.tag, OALEDVA_LOAD, 4, 8, 0)), "uncached") == 0);
}

/* A page that is moved keeps its bytes, those in the cache too, and its write bit. Refused, no byte of the board changes. */
static void moves(void) {
    const uint64_t new_page = PAGE + 1024, last = 0xFFBFFFFF;
    const struct {
        uint64_t page, new_page;
        uint32_t number;
    } refused[] = {{PAGE - 1, new_page, OALEDVA_RANGE},          {last + 1, new_page, OALEDVA_RANGE},
                   {PAGE, PAGE - 1, OALEDVA_RANGE},              {PAGE, last + 1, OALEDVA_RANGE},
                   {PAGE, ((uint64_t)1 << 32) + new_page, OALEDVA_RANGE},
                   {PAGE + 2, last + 1, OALEDVA_RANGE},          {PAGE + 2, new_page, OALEDVA_NOT_MAPPED},
                   {PAGE + 2, PAGE + 1, OALEDVA_NOT_MAPPED},     {PAGE + 2, PAGE + 2, OALEDVA_NOT_MAPPED},
                   {PAGE, PAGE + 1, OALEDVA_MAPPED_ALREADY},     {PAGE, PAGE, OALEDVA_MAPPED_ALREADY}};
    const size_t bytes = oaledva_board_bytes(4, 1, 2, 2);
    void *const block = malloc(bytes), *const kept = malloc(bytes);
    oaledva_board b;
    EXPECT(kept != NULL && gives(oaledva_board_fresh(&b, 4, 1, 2, 2, block, bytes), 0, 0, 0));
    EXPECT(oaledva_done(oaledva_board_map(&b, PAGE, 1, OALEDVA_WRITABLE)));
    EXPECT(oaledva_done(oaledva_board_map(&b, PAGE + 1, 2, OALEDVA_READ_ONLY)));
    EXPECT(oaledva_done(oaledva_board_attach(&b, 0, 0, 2048, OALEDVA_WRITABLE)));
    EXPECT(oaledva_done(oaledva_board_attach(&b, 1, 0, 2049, OALEDVA_READ_ONLY)));
    /* One line more than the cache has: the first is in memory, the others held and changed. */
    for (uint32_t line = 0; line < 3; line++) EXPECT(oaledva_done(oaledva_board_store(&b, 0, 4, 16 * line, 50 + line)));
    EXPECT(oaledva_done(oaledva_board_tag(&b, PAGE * 256)));
    memcpy(kept, block, bytes);
    for (size_t i = 0; i < OALEDVA_COUNT(refused); i++) {
        EXPECT(gives(oaledva_board_move(&b, refused[i].page, refused[i].new_page), refused[i].number, 0, OALEDVA_NO_ACCESS));
        EXPECT(memcmp(kept, block, bytes) == 0 && b.tag.set == 1 && b.tag.name == PAGE * 256);
    }
    /* A pending tag is not asked, and stays. */
    EXPECT(gives(oaledva_board_move(&b, PAGE, new_page), 0, 0, OALEDVA_NO_ACCESS));
    EXPECT(b.tag.set == 1 && b.tag.name == PAGE * 256 && oaledva_done(oaledva_board_drop_tag(&b)));
    EXPECT(b.words[1] == new_page * 4 + 3 && b.words[2] == (PAGE + 1) * 4 + 1);
    for (uint32_t i = 0; i < 4; i++) EXPECT(b.records[i] == 0);
    for (uint32_t line = 0; line < 3; line++) {
        EXPECT(b.memory[4096 + 16 * line + 3] == 50 + line);
        EXPECT(gives(oaledva_board_load(&b, 0, 4, 16 * line), OALEDVA_NOT_MAPPED, 0, 0));
        EXPECT(gives(oaledva_board_load(&b, 1, 4, 16 * line), 0, 50 + line, OALEDVA_REFILLED));
    }
    /* By each buffer; a page that is read-only stays so. */
    EXPECT(gives(oaledva_move(OALEDVA_LEND(b), PAGE + 1, last), 0, 0, OALEDVA_NO_ACCESS) && b.words[2] == last * 4 + 1);
    b.lines = 4;
    EXPECT(gives(oaledva_move(OALEDVA_LEND(b), last, PAGE), OALEDVA_SHAPE, 0, 0) && b.words[2] == last * 4 + 1);
    free(kept);
    free(block);
}

/* The page under segment 2048 may be written, the one under 2049 not; process 1 has 2048 read-only; slot 2 of process 0 has no
 * page. */
static void listed_board(oaledva_board *b, void *block, size_t bytes) {
    EXPECT(gives(oaledva_board_fresh(b, 4, 1, 2, 2, block, bytes), 0, 0, 0));
    EXPECT(oaledva_done(oaledva_board_map(b, PAGE, 1, OALEDVA_WRITABLE)));
    EXPECT(oaledva_done(oaledva_board_map(b, PAGE + 1024, 2, OALEDVA_READ_ONLY)));
    for (size_t slot = 0; slot < 3; slot++)
        EXPECT(oaledva_done(oaledva_board_attach(b, 0, slot, 2048 + slot, OALEDVA_WRITABLE)));
    EXPECT(oaledva_done(oaledva_board_attach(b, 1, 0, 2048, OALEDVA_READ_ONLY)));
}

/* A list has the answers of its accesses by themselves, and leaves the same board: the list goes to one board, the single
 * accesses to an equal one. */
static void lists(void) {
    /* Each number that an access may get but 1 and 3, and between them hits, refills and a write-back. */
    const struct {
        oaledva_access access;
        uint32_t number, value, mark;
    } given[] = {{oaledva_store_access(0, 4, 0, 50), 0, 0, OALEDVA_REFILLED},
                 {oaledva_store_access(1, 4, 0, 51), OALEDVA_SLOT_READ_ONLY, 0, 0},
                 {oaledva_load_access(1, 1, 3), 0, 50, OALEDVA_HIT},
                 {oaledva_load_access(2, 1, 3), OALEDVA_RANGE, 0, 0},
                 {oaledva_load_access((size_t)1 << 32, 1, 3), OALEDVA_RANGE, 0, 0}, /* not cut to process 0 */
                 {oaledva_store_access(0, 1, 3, 256), OALEDVA_RANGE, 0, 0},
                 {oaledva_load_access(0, 4, 32), 0, 0, OALEDVA_WROTE_BACK},
                 {oaledva_load_access(0, 4, 2), OALEDVA_ALIGNMENT, 0, 0},
                 {oaledva_load_access(0, 1, (uint64_t)1 << 31), OALEDVA_KERNEL, 0, 0},
                 {oaledva_store_access(0, 1, (uint64_t)1 << 32, 1), OALEDVA_KERNEL, 0, 0}, /* not cut to address 0 */
                 {oaledva_load_access(0, 1, 3u << 22), OALEDVA_SLOT_EMPTY, 0, 0},
                 {oaledva_load_access(0, 1, 2u << 22), OALEDVA_NOT_MAPPED, 0, 0},
                 {oaledva_store_access(0, 1, 1u << 22, 1), OALEDVA_PAGE_READ_ONLY, 0, 0},
                 {oaledva_load_access(0, 4, 0), 0, 50, OALEDVA_REFILLED},
                 {oaledva_store_access(0, 1, 2, 0x51), 0, 0, OALEDVA_HIT},
                 {oaledva_load_access(0, 2, 2), 0, 0x5132, OALEDVA_HIT}};
    enum { LISTED = OALEDVA_COUNT(given) };
    oaledva_access list[LISTED];
    const size_t bytes = oaledva_board_bytes(4, 1, 2, 2);
    void *const blocks[2] = {malloc(bytes), malloc(bytes)};
    oaledva_board b, single;
    oaledva_answer answers[LISTED + 1], before[LISTED + 1]; /* one more, which no list here may touch */
    for (size_t i = 0; i < LISTED; i++) list[i] = given[i].access;
    memset(answers, 0xa5, sizeof answers);
    memcpy(before, answers, sizeof answers);
    listed_board(&b, blocks[0], bytes);
    listed_board(&single, blocks[1], bytes);

    /* Lengths that differ, also where five times the longer does not fit, and an empty list. Nothing changes. */
    EXPECT(gives(oaledva_board_accesses(&b, list, LISTED, answers, LISTED - 1), OALEDVA_SHAPE, 0, 0));
    EXPECT(gives(oaledva_board_accesses(&b, list, LISTED - 1, answers, LISTED), OALEDVA_SHAPE, 0, 0));
    EXPECT(gives(oaledva_board_accesses(&b, list, LISTED, NULL, 0), OALEDVA_SHAPE, 0, 0));
    EXPECT(gives(oaledva_board_accesses(&b, NULL, 0, answers, LISTED), OALEDVA_SHAPE, 0, 0));
    EXPECT(gives(oaledva_board_accesses(&b, list, SIZE_MAX / 5 + 1, answers, LISTED), OALEDVA_SHAPE, 0, 0));
    EXPECT(gives(oaledva_board_accesses(&b, list, SIZE_MAX, answers, 0), OALEDVA_SHAPE, 0, 0));
    EXPECT(gives(oaledva_board_accesses(&b, list, SIZE_MAX, answers, LISTED), OALEDVA_SHAPE, 0, 0));
    EXPECT(gives(oaledva_board_accesses(&b, NULL, 0, NULL, 0), 0, 0, 0));
    EXPECT(gives(oaledva_board_accesses(&b, list, 0, answers, 0), 0, 0, 0));
    EXPECT(memcmp(answers, before, sizeof answers) == 0 && memcmp(blocks[0], blocks[1], bytes) == 0);

    EXPECT(gives(oaledva_board_accesses(&b, list, LISTED, answers, LISTED), 0, 0, OALEDVA_NO_ACCESS));
    for (size_t i = 0; i < LISTED; i++) {
        const oaledva_access one = list[i];
        const oaledva_answer alone = oaledva_user_access(OALEDVA_LEND(single), single.tag, one.process, one.kind, one.width,
                                                         one.address, one.value);
        EXPECT(gives(answers[i], given[i].number, given[i].value, given[i].mark) && answers[i].packed == alone.packed);
    }
    EXPECT(memcmp(&answers[LISTED], &before[LISTED], sizeof *answers) == 0 && memcmp(blocks[0], blocks[1], bytes) == 0);

    /* While a tag is pending each is refused by 3, or by 2, and the board and its tag stay. */
    EXPECT(oaledva_done(oaledva_board_tag(&b, PAGE * 256)));
    EXPECT(gives(oaledva_board_accesses(&b, list, LISTED, answers, LISTED), 0, 0, OALEDVA_NO_ACCESS));
    for (size_t i = 0; i < LISTED; i++)
        EXPECT(gives(answers[i], given[i].number == OALEDVA_RANGE ? OALEDVA_RANGE : OALEDVA_TAG, 0, 0));
    EXPECT(b.tag.set == 1 && b.tag.name == PAGE * 256 && memcmp(blocks[0], blocks[1], bytes) == 0);
    EXPECT(oaledva_done(oaledva_board_drop_tag(&b)));

    /* The same by each buffer, in words: anything but 0 is a store. */
    {
        static const uint32_t words[2 * OALEDVA_ACCESS_WORDS] = {0, 2, 4, 8, 77, 0, 0, 1, 11, UINT32_MAX};
        memcpy(answers, before, sizeof answers);
        EXPECT(gives(oaledva_user_accesses(OALEDVA_LEND(b), b.tag, words, 9, answers, 2), OALEDVA_SHAPE, 0, 0));
        EXPECT(gives(oaledva_user_accesses(OALEDVA_LEND(b), b.tag, words, 10, answers, 1), OALEDVA_SHAPE, 0, 0));
        EXPECT(gives(oaledva_user_accesses(OALEDVA_LEND(b), b.tag, words, 2, answers, 2), OALEDVA_SHAPE, 0, 0));
        EXPECT(memcmp(answers, before, sizeof answers) == 0 && memcmp(blocks[0], blocks[1], bytes) == 0);
        EXPECT(gives(oaledva_user_accesses(OALEDVA_LEND(b), b.tag, words, 10, answers, 2), 0, 0, OALEDVA_NO_ACCESS));
        EXPECT(gives(answers[0], 0, 0, OALEDVA_HIT) && gives(answers[1], 0, 77, OALEDVA_HIT));
    }

    /* A board that does not fit: no answer is written, and an empty list is refused too. */
    b.lines = 4;
    memcpy(answers, before, sizeof answers);
    EXPECT(gives(oaledva_board_accesses(&b, list, LISTED, answers, LISTED), OALEDVA_SHAPE, 0, 0));
    EXPECT(gives(oaledva_board_accesses(&b, NULL, 0, NULL, 0), OALEDVA_SHAPE, 0, 0));
    EXPECT(memcmp(answers, before, sizeof answers) == 0);
    free(blocks[0]);
    free(blocks[1]);
}

/* What the two make of numbers that are no process and no user's address, and of those that are. */
static void made_accesses(void) {
    const oaledva_access load = oaledva_load_access(3, 2, 0x7ffffffe);
    const oaledva_access store = oaledva_store_access(UINT32_MAX, 1, ((uint64_t)1 << 32) + 5, 9);
    EXPECT(load.process == 3 && load.kind.store == 0 && load.width == 2 && load.address == 0x7ffffffe && load.value == 0);
    EXPECT(store.process == UINT32_MAX && store.kind.store != 0 && store.width == 1 && store.value == 9);
    EXPECT(store.address == ((uint32_t)1 << 31) + 5);
    EXPECT(oaledva_load_access((size_t)1 << 32, 1, 0).process == UINT32_MAX);
    EXPECT(oaledva_store_access(SIZE_MAX, 1, 0, 0).process == UINT32_MAX);
    EXPECT(sizeof(oaledva_access) == 20 && OALEDVA_ACCESS_WORDS == 5);
}

/* How an answer is taken apart, at the ends of its parts: each alone, all at once, and the bits between, which are no part. */
static void packing(void) {
    static const struct {
        uint64_t packed;
        uint32_t number, value, mark;
    } given[] = {{0, 0, 0, 0},
                 {1, 0, 1, 0},
                 {0xffffffff, 0, 0xffffffff, 0},
                 {(uint64_t)1 << 32, 0, 0, 1},
                 {(uint64_t)0xff << 32, 0, 0, 0xff},
                 {(uint64_t)0xffff << 40, 0, 0, 0},
                 {(uint64_t)1 << 56, 1, 0, 0},
                 {(uint64_t)0xff << 56, 0xff, 0, 0},
                 {UINT64_MAX, 0xff, 0xffffffff, 0xff}};
    for (size_t i = 0; i < OALEDVA_COUNT(given); i++) {
        const oaledva_answer answer = {given[i].packed};
        EXPECT(oaledva_number(answer) == given[i].number && oaledva_done(answer) == (given[i].number == 0));
        EXPECT(oaledva_mark(answer).mark == given[i].mark && oaledva_hit(answer) == (given[i].mark == 1));
        EXPECT(oaledva_value(answer) == given[i].value);
    }
    EXPECT(sizeof(oaledva_answer) == 8 && sizeof(oaledva_marked) == 4);
    EXPECT(OALEDVA_NO_ACCESS == 0 && OALEDVA_HIT == 1 && OALEDVA_REFILLED == 2 && OALEDVA_WROTE_BACK == 3);
    EXPECT(OALEDVA_UNCACHED == 4);
}

/* The entry of a page, at the ends of what is refused, and three of 01's. */
static void entries(void) {
    static const struct {
        uint64_t page, address;
    } given[] = {{0x200000, 0xFFC00800000}, {0xFFFFFFFF, 0xFFFFFFFFFFC}, {0x048D1401, 0xFFC12345004},
                 {0xFFC12345, 0xFFFFF048D14}};
    static const uint64_t refused[] = {0, 1, 0x1FFFFF, (uint64_t)1 << 32, ((uint64_t)1 << 32) + 0x200000, UINT64_MAX};
    for (size_t i = 0; i < OALEDVA_COUNT(given); i++) {
        const oaledva_entry entry = oaledva_entry_of_page(given[i].page);
        EXPECT(oaledva_entry_number(entry) == 0 && oaledva_entry_address(entry) == given[i].address);
        EXPECT(gives(oaledva_board_supervisor_load(&outside, 4, given[i].address), OALEDVA_OUTSIDE, 0, 0));
    }
    for (size_t i = 0; i < OALEDVA_COUNT(refused); i++) {
        const oaledva_entry entry = oaledva_entry_of_page(refused[i]);
        EXPECT(oaledva_entry_number(entry) == OALEDVA_RANGE && oaledva_entry_address(entry) == 0);
    }
}

/* The numbers and the lengths of a board, and no tag. */
static void has(const oaledva_board *b, size_t frames, size_t uncached, size_t processes, size_t lines) {
    EXPECT(b->frames == frames && b->uncached == uncached && b->processes == processes && b->lines == lines);
    EXPECT(b->slots_length == 512 * processes && b->words_length == frames && b->records_length == 2 * lines);
    EXPECT(b->cache_length == 16 * lines && b->memory_length == 4096 * frames);
    EXPECT(b->tag.set == 0 && b->tag.name == 0);
}

/* A static board, its numbers written as expressions: each buffer is an array of just its length. */
static void in_static_buffers(void) {
    has(&reckoned, 5, 1, 3, 4);
    EXPECT(reckoned.slots == reckoned_slots && sizeof reckoned_slots == 4 * 512 * 3);
    EXPECT(reckoned.words == reckoned_words && sizeof reckoned_words == 8 * 5);
    EXPECT(reckoned.records == reckoned_records && sizeof reckoned_records == 8 * 2 * 4);
    EXPECT(reckoned.cache == reckoned_cache && sizeof reckoned_cache == 16 * 4);
    EXPECT(reckoned.memory == reckoned_memory && sizeof reckoned_memory == 4096 * 5);
    EXPECT(gives(oaledva_board_flush_all(&reckoned), 0, 0, 0));
    EXPECT(OALEDVA_STATIC_FRAMES_MAX == 262144);
}

/* The buffers of a board in a block: in this order, without gaps, to the end. */
static void lies_in(const oaledva_board *b, const void *block, size_t bytes) {
    has(b, 4, 1, 2, 2);
    EXPECT((const void *)b->words == block && b->records == b->words + 4);
    EXPECT((const void *)b->slots == b->records + 4 && (const void *)b->cache == b->slots + 1024);
    EXPECT(b->memory == b->cache + 32 && b->memory + 4096 * 4 == (const uint8_t *)block + bytes);
}

/* A board without buffers: every call is refused by 1. */
static void has_none(oaledva_board *b) {
    EXPECT(b->slots == NULL && b->words == NULL && b->records == NULL && b->cache == NULL && b->memory == NULL);
    EXPECT(gives(oaledva_board_load(b, 0, 1, 0), OALEDVA_SHAPE, 0, 0));
    EXPECT(gives(oaledva_board_flush_all(b), OALEDVA_SHAPE, 0, 0));
    EXPECT(gives(oaledva_board_drop_tag(b), OALEDVA_SHAPE, 0, 0));
    EXPECT(gives(oaledva_board_accesses(b, NULL, 0, NULL, 0), OALEDVA_SHAPE, 0, 0));
    EXPECT(oaledva_board_look(b, 0) == NULL && oaledva_board_look_number(b, 0).number == OALEDVA_SHAPE);
}

static void in_a_block(void) {
    const size_t bytes = oaledva_board_bytes(4, 1, 2, 2), all = 8 + bytes + 8;
    uint8_t *const room = (uint8_t *)malloc(all), *const block = room + 8;
    oaledva_board b;
    EXPECT(room != NULL);
    memset(room, 0xa5, all);
    EXPECT(gives(oaledva_board_over(&b, 4, 1, 2, 2, block, bytes), 0, 0, 0));
    lies_in(&b, block, bytes);
    for (size_t i = 0; i < all; i++) EXPECT(room[i] == 0xa5);

    EXPECT(gives(oaledva_board_fresh(&b, 4, 1, 2, 2, block, bytes + 8), 0, 0, 0));
    lies_in(&b, block, bytes);
    for (size_t i = 0; i < all; i++) EXPECT(room[i] == (i < 8 || i >= 8 + bytes ? 0xa5 : 0));

    every_call(&b);
    for (size_t i = 0; i < 8; i++) EXPECT(room[i] == 0xa5 && block[bytes + i] == 0xa5);

    /* Refused: too few bytes, no block, not aligned, a number out of its limits. No byte of the block changes. */
    memset(room, 0xa5, all);
    EXPECT(gives(oaledva_board_fresh(&b, 4, 1, 2, 2, block, bytes - 1), OALEDVA_SHAPE, 0, 0));
    has_none(&b);
    EXPECT(gives(oaledva_board_fresh(&b, 4, 1, 2, 2, NULL, bytes), OALEDVA_SHAPE, 0, 0));
    has_none(&b);
    EXPECT(gives(oaledva_board_fresh(&b, 4, 1, 2, 2, block + 4, bytes), OALEDVA_SHAPE, 0, 0));
    has_none(&b);
    EXPECT(gives(oaledva_board_fresh(&b, 4, 5, 2, 2, block, bytes), OALEDVA_SHAPE, 0, 0));
    has_none(&b);
    EXPECT(gives(oaledva_board_over(&b, 4, 1, 2, 3, block, bytes), OALEDVA_SHAPE, 0, 0));
    has_none(&b);
    for (size_t i = 0; i < all; i++) EXPECT(room[i] == 0xa5);
    free(room);
}

/* The limits here are the library's: look is refused where they say so, whatever fits otherwise. */
static void limits(void) {
    enum { P_MAX = OALEDVA_PROCESSES_MAX, P_OVER = P_MAX + 1, L_MAX = OALEDVA_LINES_MAX, L_OVER = 2 * L_MAX };
    static const size_t frames[] = {0, 1, 4}, processes[] = {0, 1, P_MAX, P_OVER}, lines[] = {0, 1, 2, 3, L_MAX, L_OVER};
    static uint32_t slots[OALEDVA_SLOTS(P_OVER)];
    static uint64_t words[OALEDVA_WORDS(4)], records[OALEDVA_RECORDS(L_OVER)];
    static uint8_t cache[OALEDVA_CACHE(L_OVER)], memory[OALEDVA_MEMORY(4)];
    for (int i = 0; i < 3 * 3 * 4 * 6; i++) {
        const size_t F = frames[i % 3], U = i / 3 % 3 == 0 ? 0 : F + (size_t)(i / 3 % 3) - 1;
        const size_t P = processes[i / 9 % 4], L = lines[i / 36];
        const oaledva_board b = {F, U, P, L, slots, OALEDVA_SLOTS(P), words, OALEDVA_WORDS(F), records,
                                 OALEDVA_RECORDS(L), cache, OALEDVA_CACHE(L), memory, OALEDVA_MEMORY(F), {0, 0}};
        const int keeps = OALEDVA_KEEPS_LIMITS(F, U, P, L);
        EXPECT(keeps == (oaledva_board_look_number(&b, 0).number == 0));
        EXPECT(keeps == (oaledva_board_bytes(F, U, P, L) != 0));
    }
    /* Expressions as numbers, and arrays that do not fit. */
    EXPECT(!OALEDVA_KEEPS_LIMITS(1 ? 4 : 0, 0, P_OVER, 1) && !OALEDVA_KEEPS_LIMITS(4, 1 ? 5 : 0, 1, 1));
    EXPECT(OALEDVA_KEEPS_LIMITS(4, 1, 0 ? 0 : 1, 3 ^ 1) && !OALEDVA_KEEPS_LIMITS(4, 1, 1, 2 | 1));
    {
        oaledva_board board = OALEDVA_BOARD(4, 1, P_OVER - 1, L_OVER / 2, slots, words, records, cache, memory);
        EXPECT(gives(oaledva_board_flush_all(&board), OALEDVA_SHAPE, 0, 0));
        board.slots_length -= OALEDVA_SLOTS(1), board.records_length /= 2, board.cache_length /= 2;
        EXPECT(gives(oaledva_board_flush_all(&board), 0, 0, 0));
    }
    EXPECT(oaledva_board_bytes(4, 1, 2, 2) == 8 * (4 + 4) + 4 * 1024 + 16 * 2 + 4096 * 4);
    EXPECT(oaledva_board_bytes(OALEDVA_FRAMES_MAX, 0, P_MAX, L_MAX)
           == 8 * (OALEDVA_FRAMES_MAX + 2 * L_MAX) + 4 * 512 * P_MAX + 16 * L_MAX + (uint64_t)4096 * OALEDVA_FRAMES_MAX);
    EXPECT(oaledva_board_bytes(OALEDVA_FRAMES_MAX + 1, 0, 1, 1) == 0 && oaledva_board_bytes(SIZE_MAX, SIZE_MAX, 1, 1) == 0);
    EXPECT(oaledva_board_bytes(1, SIZE_MAX, 1, 1) == 0 && oaledva_board_bytes(1, 0, SIZE_MAX, SIZE_MAX) == 0);
}

int main(void) {
    OALEDVA_STATIC_BOARD(inside, 4, 1, 2, 2);
    every_call(&outside);
    every_call(&inside);
    every_call(&largest);
    in_static_buffers();
    in_a_block();
    limits();
    values();
    marks();
    moves();
    lists();
    made_accesses();
    packing();
    entries();
    return 0;
}
