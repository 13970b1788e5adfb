/* A hundred equal calls of one kind on one board, after what they need: F 64, U 1, P 2, L 16, pages from 0x200000 up mapped to frames 1 to
 * 62. What is listed is one call, with a hundred accesses in its list. tests/counts/run counts the library's instructions. With no argument
 * it writes the kinds; kind `nothing` makes no call at the end. Compiled with SETS defined, the board has sets of four. */
#include "oaledva.h"
#include <stdio.h>
#include <string.h>

#define PAGE 0x200000ull
#define CALLS 100
#define LINES 16

#ifdef SETS
OALEDVA_SETS_STATIC_BOARD(b, 64, 1, 2, LINES);
#define LEND OALEDVA_SETS_LEND(b)
#define TAG b.common.tag
#define TAG_OF OALEDVA_SETS_TAG_OF(b)
#define CALL(name) oaledva_sets_##name
#define SET_LINES OALEDVA_SET_LINES
#else
OALEDVA_STATIC_BOARD(b, 64, 1, 2, LINES);
#define LEND OALEDVA_LEND(b)
#define TAG b.tag
#define TAG_OF OALEDVA_TAG_OF(b)
#define CALL(name) oaledva_##name
#define SET_LINES 1
#endif

/* Lines of one page that have one place, by their number in the page: one more than a set has, in turn, so that each pushes another out. */
#define PUSHING (i % (SET_LINES + 1) * (LINES / SET_LINES))

static uint64_t user(uint32_t store, uint32_t width, uint32_t address) {
    oaledva_kind kind = {store};
    return CALL(user_access)(LEND, TAG, 0, kind, width, address, 7).packed;
}

static uint64_t supervisor(uint32_t store, uint64_t address) {
    oaledva_kind kind = {store};
    return CALL(supervisor_access)(LEND, TAG, kind, 4, address, 7).packed;
}

/* Access i of one list, which is called with the last. */
static uint64_t listed(uint32_t i, uint32_t store, uint32_t address) {
    static oaledva_access list[CALLS];
    static oaledva_answer answers[CALLS];
    const oaledva_access access = {0, {store}, 4, address, 7};
    list[i] = access;
    if (i < CALLS - 1) return 0;
    const uint32_t *words = (const uint32_t *)list;
    return CALL(user_accesses)(LEND, TAG, words, OALEDVA_ACCESS_WORDS * CALLS, answers, CALLS).packed;
}

#ifndef SETS
/* The board checked, or repaired, with a line held in every record. The lines are put by hand, so that no call is counted for
 * them. */
static uint64_t dumped(uint32_t i, int repair) {
    static uint64_t keys[OALEDVA_KEYS(64, LINES)], links[OALEDVA_LINKS(64, LINES)];
    static uint8_t dropped[LINES];
    for (uint64_t line = 0; line < LINES && i == 0; line++) {
        b.records[2 * line] = (PAGE + line) * 256 + line;
        b.records[2 * line + 1] = ((1 + line) * 256 + line) * 8 + 2 + 1;
    }
    return (repair ? oaledva_repair(LEND, keys, OALEDVA_COUNT(keys), links, OALEDVA_COUNT(links), dropped, LINES)
                   : oaledva_check(LEND, keys, OALEDVA_COUNT(keys), links, OALEDVA_COUNT(links)))
        .packed;
}
#endif

/* A call by its name, on the board. */
#define ON_BOARD(call, ...) CALL(call)(LEND, __VA_ARGS__).packed

/* Call i of a kind. In a set of four a hit may be in any line. Dumps have one place to a line. */
#ifdef SETS
#define KINDS_OF_SETS KIND("user load, hit, four lines in turn", user(0, 4, i % SET_LINES * (LINES / SET_LINES) * 16))
#define KINDS_OF_DUMPS
#else
#define KINDS_OF_SETS
#define KINDS_OF_DUMPS                                                                                             \
    KIND("check, 62 pages and 16 lines", dumped(i, 0))                                                             \
    KIND("repair, 62 pages and 16 lines", dumped(i, 1))
#endif
#define KINDS                                                                                                      \
    KIND("nothing", 0)                                                                                             \
    KIND("user load, hit, width 4", user(0, 4, 0))                                                                 \
    KIND("user load, hit, width 2", user(0, 2, 0))                                                                 \
    KIND("user load, hit, width 1", user(0, 1, 0))                                                                 \
    KIND("user store, hit, width 4", user(1, 4, 0))                                                                \
    KIND("user store, hit, width 2", user(1, 2, 0))                                                                \
    KIND("user store, hit, width 1", user(1, 1, 0))                                                                \
    KINDS_OF_SETS                                                                                                  \
    KIND("user load, miss", user(0, 4, 16 * PUSHING))                                                              \
    KIND("user store, miss with write-back", user(1, 4, 16 * PUSHING))                                             \
    KIND("user load, 62 pages", user(0, 4, i % 62 * 4096 + i % 16 * 16))                                           \
    KIND("user store, 62 pages", user(1, 4, i % 62 * 4096 + i % 16 * 16))                                          \
    KIND("user load, refused by 4", user(0, 4, 2))                                                                 \
    KIND("user load, refused by 6", user(0, 4, 0x400000))                                                          \
    KIND("user load, refused by 8", user(0, 4, 0x3f0000))                                                          \
    KIND("listed user load, hit, width 4", listed(i, 0, 0))                                                        \
    KIND("listed user store, hit, width 4", listed(i, 1, 0))                                                       \
    KIND("listed user load, miss", listed(i, 0, 16 * PUSHING))                                                     \
    KIND("supervisor load, hit", supervisor(0, PAGE * 4096))                                                       \
    KIND("supervisor store, hit", supervisor(1, PAGE * 4096))                                                      \
    KIND("supervisor load, miss", supervisor(0, PAGE * 4096 + 16 * PUSHING))                                       \
    KIND("supervisor store, miss with write-back", supervisor(1, PAGE * 4096 + 16 * PUSHING))                      \
    KIND("prefix 1 load, hit", supervisor(0, 0x100000000 + 63 * 4096))                                             \
    KIND("prefix 1 store, miss with write-back", supervisor(1, 0x100000000 + 63 * 4096 + 16 * PUSHING))            \
    KIND("prefix 0 load", supervisor(0, 8))                                                                        \
    KIND("map and unmap", ON_BOARD(map, 0x300000, 63, OALEDVA_WRITABLE) + ON_BOARD(unmap, 0x300000))               \
    KIND("protect", ON_BOARD(protect, PAGE, i % 2 ? OALEDVA_WRITABLE : OALEDVA_READ_ONLY))                         \
    KIND("move", ON_BOARD(move, i % 2 ? 0x300000 : PAGE, i % 2 ? PAGE : 0x300000))                                 \
    KIND("flush all", CALL(flush_all)(LEND).packed)                                                                \
    KIND("tag and load-and-map",                                                                                   \
         ON_BOARD(tag, TAG_OF, PAGE * 256 + PUSHING)                                                               \
             + ON_BOARD(load_and_map, TAG_OF, 256 + PUSHING))                                                      \
    KIND("attach and detach", ON_BOARD(attach, 1, 3, 2048, OALEDVA_READ_ONLY) + ON_BOARD(detach, 1, 3))            \
    KIND("look", CALL(look)(LEND, 256).at)                                                                         \
    KINDS_OF_DUMPS

int main(int words, char **word) {
    if (words < 2) {
#define KIND(name, call) puts(name);
        KINDS
#undef KIND
        return 0;
    }
    uint64_t given = ON_BOARD(attach, 0, 0, 2048, OALEDVA_WRITABLE);
    for (uint64_t frame = 1; frame < 63; frame++) given |= ON_BOARD(map, PAGE + frame - 1, frame, OALEDVA_WRITABLE);
    for (uint32_t i = 0; i < CALLS; i++) {
#define KIND(name, call) \
    if (!strcmp(word[1], name)) given ^= call;
        KINDS
#undef KIND
    }
    return given == 1;
}
