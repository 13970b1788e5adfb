/* Sets of four, as board.c tries the other edition: boards in static buffers and in a block, limits, the calls on a board and by
 * each buffer, which line is pushed out, the matrices, lists of accesses, look's bytes, calls of a log; and the same calls on
 * boards of both editions. tests/c/run compiles this as C99, C11, C++11 and C++17 and runs each. */
#include "expect.h"
#include <string.h>

OALEDVA_SETS_STATIC_BOARD(outside, 4, 1, 2, 4);
OALEDVA_SETS_STATIC_BOARD(largest, 4, 1, OALEDVA_PROCESSES_MAX, OALEDVA_LINES_MAX);
OALEDVA_SETS_STATIC_BOARD(reckoned, 0 ? 3 : 5, 1 ? 1 : 7, 1 + 2, 4 + 4);

/* A matrix is this, row after row. */
static int reads(const oaledva_uses *uses, const char *rows) {
    for (size_t i = 0; i < 16; i++)
        if (uses->after[i / 4][i % 4] != (uint8_t)(rows[i + i / 4] - '0')) return 0;
    return 1;
}

/* Every call of a board, on a fresh one of F 4, U 1 and any P and L, by its last process. The line is the first of its set. */
static void every_call(oaledva_sets_board *b) {
    const uint64_t name = PAGE * 256;
    const size_t last = b->common.processes - 1;
    const uint8_t *const memory = b->common.memory;
    const oaledva_permission two = {2}; /* anything but 0 says yes */
    EXPECT(gives(oaledva_sets_board_map(b, PAGE, 1, OALEDVA_WRITABLE), 0, 0, 0));
    EXPECT(gives(oaledva_sets_board_attach(b, last, 511, 2048, OALEDVA_READ_ONLY), 0, 0, 0));
    EXPECT(gives(oaledva_sets_board_store(b, last, 4, 511u << 22, 50), OALEDVA_SLOT_READ_ONLY, 0, 0));
    EXPECT(gives(oaledva_sets_board_attach(b, last, 511, 2048, OALEDVA_WRITABLE), 0, 0, 0));
    EXPECT(reads(b->uses, "0000 0000 0000 0000"));
    EXPECT(gives(oaledva_sets_board_store(b, last, 4, 511u << 22, 0x01020304), 0, 0, OALEDVA_REFILLED));
    EXPECT(reads(b->uses, "0111 0000 0000 0000"));
    EXPECT(gives(oaledva_sets_board_load(b, last, 1, (511u << 22) + 3), 0, 4, OALEDVA_HIT));
    EXPECT(gives(oaledva_sets_board_load(b, last, 1, PAGE * 4096 + 3), OALEDVA_KERNEL, 0, 0)); /* it is not cut to 32 bits */
    EXPECT(gives(oaledva_sets_board_store(b, last, 4, (uint64_t)1 << 32, 50), OALEDVA_KERNEL, 0, 0));
    EXPECT(gives(oaledva_sets_board_load(b, last + 1, 1, 0), OALEDVA_RANGE, 0, 0));
    EXPECT(oaledva_sets_board_look(b, 256) == b->common.cache && b->common.cache[3] == 4 && memory[4096 + 3] == 0);
    EXPECT(gives(oaledva_sets_board_flush_all(b), 0, 0, 0));
    EXPECT(oaledva_sets_board_look(b, 256) == memory + 4096 && memory[4096 + 3] == 4);
    EXPECT(oaledva_sets_board_look(b, 4 * 256) == NULL);
    EXPECT(oaledva_sets_board_look_number(b, 4 * 256).number == OALEDVA_RANGE);
    EXPECT(oaledva_sets_board_look_number(b, 4 * 256 - 1).number == 0);
    EXPECT(gives(oaledva_sets_board_protect(b, PAGE, OALEDVA_READ_ONLY), 0, 0, 0));
    EXPECT(gives(oaledva_sets_board_store(b, last, 1, 511u << 22, 1), OALEDVA_PAGE_READ_ONLY, 0, 0));
    EXPECT(reads(b->uses, "0111 0000 0000 0000"));
    EXPECT(gives(oaledva_sets_board_supervisor_store(b, 2, PAGE * 4096, 0x0a0b), 0, 0, OALEDVA_REFILLED));
    EXPECT(gives(oaledva_sets_board_supervisor_load(b, 4, PAGE * 4096), 0, 0x0a0b0304, OALEDVA_HIT));
    EXPECT(gives(oaledva_sets_board_supervisor_store(b, 4, 8, 7), 0, 0, OALEDVA_UNCACHED));
    EXPECT(gives(oaledva_sets_board_move(b, PAGE, PAGE + 1), 0, 0, 0) && memory[4096] == 0x0a);
    EXPECT(gives(oaledva_sets_board_load(b, last, 1, 511u << 22), OALEDVA_NOT_MAPPED, 0, 0));
    EXPECT(gives(oaledva_sets_board_load(b, last, 4, (511u << 22) + 4096), 0, 0x0a0b0304, OALEDVA_REFILLED));
    EXPECT(gives(oaledva_sets_board_store(b, last, 1, (511u << 22) + 4096, 1), OALEDVA_PAGE_READ_ONLY, 0, 0));
    EXPECT(gives(oaledva_sets_board_move(b, PAGE + 1, PAGE + 1), OALEDVA_MAPPED_ALREADY, 0, 0));
    EXPECT(gives(oaledva_sets_board_move(b, PAGE, PAGE), OALEDVA_NOT_MAPPED, 0, 0));
    EXPECT(gives(oaledva_sets_board_move(b, PAGE, PAGE - 1), OALEDVA_RANGE, 0, 0));
    EXPECT(gives(oaledva_sets_board_unmap(b, PAGE + 1), 0, 0, 0));
    EXPECT(gives(oaledva_sets_board_map(b, PAGE, 3, two), 0, 0, 0));
    EXPECT(gives(oaledva_sets_board_load_and_map(b, 3 * 256), OALEDVA_TAG, 0, 0));
    EXPECT(gives(oaledva_sets_board_tag(b, name), 0, 0, 0) && b->common.tag.set == 1 && b->common.tag.name == name);
    EXPECT(gives(oaledva_sets_board_load(b, last, 1, 511u << 22), OALEDVA_TAG, 0, 0));
    EXPECT(gives(oaledva_sets_board_store(b, last, 1, 511u << 22, 1), OALEDVA_TAG, 0, 0));
    EXPECT(gives(oaledva_sets_board_supervisor_load(b, 1, PAGE * 4096), OALEDVA_TAG, 0, 0));
    EXPECT(gives(oaledva_sets_board_supervisor_store(b, 1, PAGE * 4096, 1), OALEDVA_TAG, 0, 0));
    EXPECT(gives(oaledva_sets_board_load_and_map(b, 256), OALEDVA_OTHER_LINE, 0, 0) && b->common.tag.set == 1);
    EXPECT(gives(oaledva_sets_board_load_and_map(b, 3 * 256), 0, 0, 0));
    EXPECT(b->common.tag.set == 0 && b->common.tag.name == 0);
    EXPECT(gives(oaledva_sets_board_store(b, last, 1, 511u << 22, 1), 0, 0, OALEDVA_HIT));
    EXPECT(gives(oaledva_sets_board_tag(b, name), 0, 0, 0));
    EXPECT(gives(oaledva_sets_board_drop_tag(b), 0, 0, 0) && b->common.tag.set == 0 && b->common.tag.name == 0);
    EXPECT(gives(oaledva_sets_board_detach(b, last, 511), 0, 0, 0));
    EXPECT(gives(oaledva_sets_board_load(b, last, 1, 511u << 22), OALEDVA_SLOT_EMPTY, 0, 0));
}

/* Five lines of one set, which has four: each record, byte and matrix. L is 8, so set 0 has the lines at 0, 32, 64, ... */
static void pushed_out(void) {
    OALEDVA_SETS_STATIC_BOARD(b, 4, 1, 2, 8);
    EXPECT(oaledva_done(oaledva_sets_board_map(&b, PAGE, 1, OALEDVA_WRITABLE)));
    EXPECT(oaledva_done(oaledva_sets_board_attach(&b, 0, 0, 2048, OALEDVA_WRITABLE)));
    for (uint32_t line = 0; line < 4; line++) {
        EXPECT(gives(oaledva_sets_board_store(&b, 0, 1, 32 * line, 10 + line), 0, 0, OALEDVA_REFILLED));
        EXPECT(b.common.records[2 * line] == PAGE * 256 + 2 * line && b.common.cache[16 * line] == 10 + line);
    }
    EXPECT(reads(b.uses, "0000 1000 1100 1110") && reads(b.uses + 1, "0000 0000 0000 0000"));
    EXPECT(gives(oaledva_sets_board_load(&b, 0, 1, 0), 0, 10, OALEDVA_HIT));
    EXPECT(reads(b.uses, "0111 0000 0100 0110"));
    /* The line at 32 was not used for longest. It is changed, so it is written back. */
    EXPECT(gives(oaledva_sets_board_load(&b, 0, 1, 128), 0, 0, OALEDVA_WROTE_BACK));
    EXPECT(b.common.records[2] == PAGE * 256 + 8 && b.common.memory[4096 + 32] == 11);
    EXPECT(reads(b.uses, "0011 1011 0000 0010") && reads(b.uses + 1, "0000 0000 0000 0000"));
    EXPECT(gives(oaledva_sets_board_load(&b, 0, 1, 32), 0, 11, OALEDVA_WROTE_BACK)); /* the one at 64 */
    EXPECT(b.common.records[4] == PAGE * 256 + 2 && b.common.memory[4096 + 64] == 12);
    EXPECT(oaledva_sets_board_look(&b, 256 + 2) == b.common.cache + 32);
    /* Any entry but 0 is a one, and of equal rows the lowest goes: here the last has a one less. The use writes ones. */
    memset(b.uses, 0xff, sizeof *b.uses);
    b.uses->after[3][0] = 0;
    EXPECT(gives(oaledva_sets_board_load(&b, 0, 1, 160), 0, 0, OALEDVA_WROTE_BACK));
    EXPECT(b.common.records[6] == PAGE * 256 + 10 && b.common.memory[4096 + 96] == 13);
    EXPECT(b.uses->after[3][0] == 1 && b.uses->after[3][3] == 0 && b.uses->after[0][3] == 0 && b.uses->after[0][0] == 0xff);
    memset(b.uses, 2, sizeof *b.uses);
    EXPECT(gives(oaledva_sets_board_load(&b, 0, 1, 192), 0, 0, OALEDVA_WROTE_BACK));
    EXPECT(b.common.records[0] == PAGE * 256 + 12 && b.common.memory[4096] == 10);
    /* A record that was given up is taken, whatever the matrix says. */
    EXPECT(oaledva_done(oaledva_sets_board_unmap(&b, PAGE)));
    EXPECT(oaledva_done(oaledva_sets_board_map(&b, PAGE, 1, OALEDVA_WRITABLE)));
    EXPECT(reads(b.uses, "0111 0222 0222 0222"));
    EXPECT(gives(oaledva_sets_board_load(&b, 0, 1, 0), 0, 0, OALEDVA_REFILLED) && b.common.records[0] == PAGE * 256);
}

/* Accesses by each edition's functions, made by the same numbers: two pages whose lines share places. Every number and value is
 * the same, and what look shows; only marks differ, and in this edition there are more hits. */
static void both_editions(void) {
    OALEDVA_STATIC_BOARD(one, 4, 1, 2, 16);
    OALEDVA_SETS_STATIC_BOARD(sets, 4, 1, 2, 16);
    uint32_t hits[2] = {0, 0}, seed = 1;
    for (size_t i = 0; i < 2; i++) {
        EXPECT(oaledva_done(oaledva_board_map(&one, PAGE + i, 1 + i, OALEDVA_WRITABLE)));
        EXPECT(oaledva_done(oaledva_sets_board_map(&sets, PAGE + i, 1 + i, OALEDVA_WRITABLE)));
    }
    EXPECT(oaledva_done(oaledva_board_attach(&one, 0, 0, 2048, OALEDVA_WRITABLE)));
    EXPECT(oaledva_done(oaledva_sets_board_attach(&sets, 0, 0, 2048, OALEDVA_WRITABLE)));
    for (uint32_t i = 0; i < 2000; i++) {
        const uint32_t address = (seed >> 16) % 3 * 4096 + (seed >> 20) % 8 * 16; /* the third page is not mapped */
        const oaledva_log_entry call =
            seed >> 30 == 0 ? oaledva_store_call(0, 1, address, i & 0x1ff) : oaledva_load_call(0, 1, address);
        const oaledva_answer a = oaledva_board_perform(&one, call), b = oaledva_sets_board_perform(&sets, call);
        EXPECT(oaledva_number(a) == oaledva_number(b) && oaledva_value(a) == oaledva_value(b));
        hits[0] += (uint32_t)oaledva_hit(a), hits[1] += (uint32_t)oaledva_hit(b);
        seed = seed * 1664525 + 1013904223;
    }
    EXPECT(hits[0] > 300 && hits[1] > hits[0] + 300);
    for (size_t line = 0; line < 4 * 256; line++)
        EXPECT(memcmp(oaledva_board_look(&one, line), oaledva_sets_board_look(&sets, line), 16) == 0);
}

/* A list has the answers of its accesses by themselves, and leaves the same board and matrices. */
static void lists(void) {
    const oaledva_access list[] = {oaledva_store_access(0, 4, 0, 50),   oaledva_load_access(1, 4, 0),
                                   oaledva_store_access(0, 1, 32, 256), oaledva_store_access(0, 4, 64, 7),
                                   oaledva_load_access(0, 4, 128),      oaledva_load_access(0, 4, 192),
                                   oaledva_load_access(0, 1, 3),        oaledva_load_access(0, 4, 256),
                                   oaledva_load_access(0, 4, 64)};
    static const uint32_t numbers[] = {0, 6, 2, 0, 0, 0, 0, 0, 0}, values[] = {0, 0, 0, 0, 0, 0, 50, 0, 7};
    static const uint32_t marks[] = {2, 0, 0, 2, 2, 2, 1, 3, 2};
    enum { LISTED = OALEDVA_COUNT(list) };
    const size_t bytes = oaledva_sets_board_bytes(4, 1, 2, 8);
    void *const blocks[2] = {malloc(bytes), malloc(bytes)};
    oaledva_sets_board b[2];
    oaledva_answer answers[LISTED + 1], before[LISTED + 1]; /* one more, which no list here may touch */
    memset(answers, 0xa5, sizeof answers);
    memcpy(before, answers, sizeof answers);
    for (int i = 0; i < 2; i++) {
        EXPECT(gives(oaledva_sets_board_fresh(&b[i], 4, 1, 2, 8, blocks[i], bytes), 0, 0, 0));
        EXPECT(oaledva_done(oaledva_sets_board_map(&b[i], PAGE, 1, OALEDVA_WRITABLE)));
        EXPECT(oaledva_done(oaledva_sets_board_attach(&b[i], 0, 0, 2048, OALEDVA_WRITABLE)));
    }
    EXPECT(gives(oaledva_sets_board_accesses(&b[0], list, LISTED, answers, LISTED - 1), OALEDVA_SHAPE, 0, 0));
    EXPECT(gives(oaledva_sets_board_accesses(&b[0], list, SIZE_MAX / 5 + 1, answers, LISTED), OALEDVA_SHAPE, 0, 0));
    EXPECT(gives(oaledva_sets_board_accesses(&b[0], NULL, 0, NULL, 0), 0, 0, 0));
    EXPECT(memcmp(answers, before, sizeof answers) == 0 && memcmp(blocks[0], blocks[1], bytes) == 0);

    EXPECT(gives(oaledva_sets_board_accesses(&b[0], list, LISTED, answers, LISTED), 0, 0, OALEDVA_NO_ACCESS));
    for (size_t i = 0; i < LISTED; i++) {
        const oaledva_answer alone =
            oaledva_sets_user_access(OALEDVA_SETS_LEND(b[1]), b[1].common.tag, list[i].process, list[i].kind,
                                     list[i].width, list[i].address, list[i].value);
        EXPECT(gives(answers[i], numbers[i], values[i], marks[i]) && answers[i].packed == alone.packed);
    }
    EXPECT(answers[LISTED].packed == before[LISTED].packed && memcmp(blocks[0], blocks[1], bytes) == 0);

    /* The same in words. */
    {
        static const uint32_t words[2 * OALEDVA_ACCESS_WORDS] = {0, 2, 4, 8, 77, 0, 0, 1, 11, UINT32_MAX};
        EXPECT(gives(oaledva_sets_user_accesses(OALEDVA_SETS_LEND(b[0]), b[0].common.tag, words, 10, answers, 2), 0, 0, 0));
        EXPECT(gives(answers[0], 0, 0, OALEDVA_HIT) && gives(answers[1], 0, 77, OALEDVA_HIT));
    }
    /* Another number of matrices: no answer is written. */
    b[0].uses_length = 1;
    memcpy(answers, before, sizeof answers);
    EXPECT(gives(oaledva_sets_board_accesses(&b[0], list, LISTED, answers, LISTED), OALEDVA_SHAPE, 0, 0));
    EXPECT(memcmp(answers, before, sizeof answers) == 0);
    free(blocks[0]);
    free(blocks[1]);
}

/* Each call by each buffer, on a board that fits, and with a matrix too many, where every call is refused by 1. */
static void by_each_buffer(void) {
    OALEDVA_SETS_STATIC_BOARD(b, 4, 1, 2, 4);
    for (size_t length = 1; length < 3; length++) {
        const uint32_t refused = length == 1 ? 0 : OALEDVA_SHAPE;
        oaledva_pending *const tag = &b.common.tag;
        b.uses_length = length;
        tag->set = 0;
        EXPECT(gives(oaledva_sets_map(OALEDVA_SETS_LEND(b), PAGE, 1, OALEDVA_WRITABLE), refused, 0, 0));
        EXPECT(gives(oaledva_sets_attach(OALEDVA_SETS_LEND(b), 0, 0, 2048, OALEDVA_WRITABLE), refused, 0, 0));
        EXPECT(gives(oaledva_sets_user_access(OALEDVA_SETS_LEND(b), *tag, 0, OALEDVA_STORE, 4, 0, 9), refused, 0,
                     refused == 0 ? OALEDVA_REFILLED : 0));
        EXPECT(gives(oaledva_sets_supervisor_access(OALEDVA_SETS_LEND(b), *tag, OALEDVA_LOAD, 4, PAGE * 4096, 0), refused,
                     refused == 0 ? 9 : 0, refused == 0 ? OALEDVA_HIT : 0));
        EXPECT(gives(oaledva_sets_protect(OALEDVA_SETS_LEND(b), PAGE, OALEDVA_READ_ONLY), refused, 0, 0));
        EXPECT(gives(oaledva_sets_tag(OALEDVA_SETS_LEND(b), OALEDVA_SETS_TAG_OF(b), PAGE * 256 + 1), refused, 0, 0));
        tag->set = 1, tag->name = PAGE * 256 + 1;
        EXPECT(gives(oaledva_sets_load_and_map(OALEDVA_SETS_LEND(b), &tag->set, &tag->name, 257), refused, 0, 0));
        EXPECT(tag->set == (refused == 0 ? 0 : 1));
        tag->set = 1;
        EXPECT(gives(oaledva_sets_drop_tag(OALEDVA_SETS_LEND(b), OALEDVA_SETS_TAG_OF(b)), refused, 0, 0));
        EXPECT(oaledva_sets_look_number(OALEDVA_SETS_LEND(b), 257).number == refused);
        EXPECT(oaledva_sets_look(OALEDVA_SETS_LEND(b), 257).at == (refused == 0 ? 16 : OALEDVA_NOWHERE));
        EXPECT(gives(oaledva_sets_move(OALEDVA_SETS_LEND(b), PAGE, PAGE + 1), refused, 0, 0) && b.common.memory[4096 + 3] == 9);
        EXPECT(reads(b.uses, "0011 1011 0000 0000"));
        EXPECT(gives(oaledva_sets_flush_all(OALEDVA_SETS_LEND(b)), refused, 0, 0));
        EXPECT(gives(oaledva_sets_unmap(OALEDVA_SETS_LEND(b), PAGE + 1), refused, 0, 0));
        EXPECT(gives(oaledva_sets_detach(OALEDVA_SETS_LEND(b), 0, 0), refused, 0, 0));
    }
}

/* A static board, its numbers written as expressions: each buffer is an array of just its length. */
static void in_static_buffers(void) {
    const oaledva_board *const b = &reckoned.common;
    EXPECT(b->frames == 5 && b->uncached == 1 && b->processes == 3 && b->lines == 8);
    EXPECT(b->slots == reckoned_slots && b->words == reckoned_words && b->records == reckoned_records);
    EXPECT(b->cache == reckoned_cache && b->memory == reckoned_memory && reckoned.uses == reckoned_uses);
    EXPECT(sizeof reckoned_uses == 16 * 2 && reckoned.uses_length == 2 && OALEDVA_USES(4 + 4) == 2);
    EXPECT(gives(oaledva_sets_board_flush_all(&reckoned), 0, 0, 0));
    EXPECT(sizeof(oaledva_uses) == 16 && OALEDVA_SET_LINES == 4);
}

/* A board without buffers: every call is refused by 1. */
static void has_none(oaledva_sets_board *b) {
    EXPECT(b->common.slots == NULL && b->common.memory == NULL && b->uses == NULL && b->uses_length == 0);
    EXPECT(gives(oaledva_sets_board_load(b, 0, 1, 0), OALEDVA_SHAPE, 0, 0));
    EXPECT(gives(oaledva_sets_board_flush_all(b), OALEDVA_SHAPE, 0, 0));
    EXPECT(oaledva_sets_board_look(b, 0) == NULL && oaledva_sets_board_look_number(b, 0).number == OALEDVA_SHAPE);
}

/* In a block: what the other edition has, then the matrices, without gaps, to the end. */
static void in_a_block(void) {
    const size_t bytes = oaledva_sets_board_bytes(4, 1, 2, 8), all = 8 + bytes + 8;
    uint8_t *const room = (uint8_t *)malloc(all), *const block = room + 8;
    oaledva_sets_board b;
    oaledva_board other;
    EXPECT(room != NULL && bytes == oaledva_board_bytes(4, 1, 2, 8) + 2 * 16);
    memset(room, 0xa5, all);
    EXPECT(gives(oaledva_sets_board_over(&b, 4, 1, 2, 8, block, bytes), 0, 0, 0));
    EXPECT(oaledva_done(oaledva_board_over(&other, 4, 1, 2, 8, block, bytes)));
    EXPECT(b.common.words == other.words && b.common.records == other.records && b.common.slots == other.slots);
    EXPECT(b.common.cache == other.cache && b.common.memory == other.memory && b.common.lines == 8);
    EXPECT((uint8_t *)b.uses == b.common.memory + 4096 * 4 && b.uses_length == 2);
    EXPECT((uint8_t *)(b.uses + 2) == block + bytes && b.common.tag.set == 0);
    for (size_t i = 0; i < all; i++) EXPECT(room[i] == 0xa5);

    EXPECT(gives(oaledva_sets_board_fresh(&b, 4, 1, 2, 8, block, bytes + 8), 0, 0, 0));
    for (size_t i = 0; i < all; i++) EXPECT(room[i] == (i < 8 || i >= 8 + bytes ? 0xa5 : 0));
    every_call(&b);
    for (size_t i = 0; i < 8; i++) EXPECT(room[i] == 0xa5 && block[bytes + i] == 0xa5);

    /* Refused: too few bytes, though enough for the other edition; no block; not aligned; too few lines. No byte changes. */
    memset(room, 0xa5, all);
    EXPECT(gives(oaledva_sets_board_fresh(&b, 4, 1, 2, 8, block, bytes - 1), OALEDVA_SHAPE, 0, 0));
    has_none(&b);
    EXPECT(gives(oaledva_sets_board_fresh(&b, 4, 1, 2, 8, NULL, bytes), OALEDVA_SHAPE, 0, 0));
    has_none(&b);
    EXPECT(gives(oaledva_sets_board_fresh(&b, 4, 1, 2, 8, block + 4, bytes), OALEDVA_SHAPE, 0, 0));
    has_none(&b);
    EXPECT(gives(oaledva_sets_board_over(&b, 4, 1, 2, 2, block, bytes), OALEDVA_SHAPE, 0, 0));
    has_none(&b);
    for (size_t i = 0; i < all; i++) EXPECT(room[i] == 0xa5);
    free(room);
}

/* The limits here are the library's, and so is the number of matrices. */
static void limits(void) {
    enum { L_MAX = OALEDVA_LINES_MAX, L_OVER = 2 * L_MAX };
    static const size_t lines[] = {0, 1, 2, 3, 4, 6, 8, L_MAX, L_OVER};
    static uint32_t slots[OALEDVA_SLOTS(1)];
    static uint64_t words[OALEDVA_WORDS(1)], records[OALEDVA_RECORDS(L_OVER)];
    static uint8_t cache[OALEDVA_CACHE(L_OVER)], memory[OALEDVA_MEMORY(1)];
    static oaledva_uses uses[OALEDVA_USES(L_OVER) + 1];
    for (size_t i = 0; i < OALEDVA_COUNT(lines); i++)
        for (size_t length = OALEDVA_USES(lines[i]); length < OALEDVA_USES(lines[i]) + 2; length++) {
            const size_t L = lines[i];
            const oaledva_sets_board b = {{1, 0, 1, L, slots, OALEDVA_SLOTS(1), words, 1, records, OALEDVA_RECORDS(L), cache,
                                           OALEDVA_CACHE(L), memory, OALEDVA_MEMORY(1), {0, 0}}, uses, length};
            const int keeps = OALEDVA_SETS_KEEPS_LIMITS(1, 0, 1, L);
            EXPECT(keeps == (OALEDVA_KEEPS_LIMITS(1, 0, 1, L) && L >= 4));
            EXPECT((keeps && length == L / 4) == (oaledva_sets_board_look_number(&b, 0).number == 0));
            EXPECT(keeps == (oaledva_sets_board_bytes(1, 0, 1, L) != 0));
        }
    {
        oaledva_sets_board b = OALEDVA_SETS_BOARD(1, 0, 1, L_MAX, slots, words, records, cache, memory, uses);
        EXPECT(gives(oaledva_sets_board_flush_all(&b), OALEDVA_SHAPE, 0, 0));
        b.common.records_length /= 2, b.common.cache_length /= 2, b.uses_length /= 2;
        EXPECT(gives(oaledva_sets_board_flush_all(&b), 0, 0, 0));
        b.uses_length = 0, b.uses = NULL;
        EXPECT(gives(oaledva_sets_board_flush_all(&b), OALEDVA_SHAPE, 0, 0));
    }
    EXPECT(OALEDVA_SETS_KEEPS_LIMITS(4, 1, 1, 3 ^ 7) && !OALEDVA_SETS_KEEPS_LIMITS(4, 5, 1, 4));
}

/* What no reader gives as a call is refused, and so on both kinds of board; the rest does what the functions do. */
static void performed(void) {
    OALEDVA_SETS_STATIC_BOARD(b, 4, 1, 2, 4);
    const oaledva_log_entry kind = {13, {0, 0, 0, 0, 0}}, load = {1, {0, 0, 4, 0, 1}}, far = {1, {0, 0, 4, (uint64_t)1 << 32, 0}};
    const oaledva_log_entry supervisor = {2, {0, 4, 0, 1, 0}}, wide = {2, {0, (uint64_t)1 << 32, 0, 0, 0}};
    EXPECT(gives(oaledva_sets_board_perform(&b, oaledva_log_header(4, 1, 2, 4)), OALEDVA_SHAPE, 0, 0));
    EXPECT(gives(oaledva_sets_board_perform(&b, kind), OALEDVA_SHAPE, 0, 0));
    EXPECT(gives(oaledva_sets_board_perform(&b, load), OALEDVA_SHAPE, 0, 0));
    EXPECT(gives(oaledva_sets_board_perform(&b, far), OALEDVA_SHAPE, 0, 0));
    EXPECT(gives(oaledva_sets_board_perform(&b, supervisor), OALEDVA_SHAPE, 0, 0));
    EXPECT(gives(oaledva_sets_board_perform(&b, wide), OALEDVA_SHAPE, 0, 0));
    EXPECT(gives(oaledva_sets_board_perform(&b, oaledva_map_call(PAGE, 1, OALEDVA_READ_ONLY)), 0, 0, 0));
    EXPECT(gives(oaledva_sets_board_perform(&b, oaledva_attach_call(1, 2, 2048, OALEDVA_WRITABLE)), 0, 0, 0));
    EXPECT(gives(oaledva_sets_board_perform(&b, oaledva_store_call(1, 2, 2u << 22, 300)), OALEDVA_PAGE_READ_ONLY, 0, 0));
    EXPECT(gives(oaledva_sets_board_perform(&b, oaledva_protect_call(PAGE, OALEDVA_WRITABLE)), 0, 0, 0));
    EXPECT(gives(oaledva_sets_board_perform(&b, oaledva_store_call(1, 2, 2u << 22, 300)), 0, 0, OALEDVA_REFILLED));
    EXPECT(gives(oaledva_sets_board_perform(&b, oaledva_load_call(1, 1, (2u << 22) + 1)), 0, 44, OALEDVA_HIT));
    EXPECT(gives(oaledva_sets_board_perform(&b, oaledva_supervisor_store_call(4, 8, 5)), 0, 0, OALEDVA_UNCACHED));
    EXPECT(gives(oaledva_sets_board_perform(&b, oaledva_supervisor_load_call(2, PAGE * 4096)), 0, 300, OALEDVA_HIT));
    EXPECT(gives(oaledva_sets_board_perform(&b, oaledva_tag_call(PAGE * 256 + 1)), 0, 0, 0) && b.common.tag.set == 1);
    EXPECT(gives(oaledva_sets_board_perform(&b, oaledva_load_and_map_call(257)), 0, 0, 0) && b.common.tag.set == 0);
    EXPECT(gives(oaledva_sets_board_perform(&b, oaledva_drop_tag_call()), OALEDVA_TAG, 0, 0));
    EXPECT(gives(oaledva_sets_board_perform(&b, oaledva_flush_all_call()), 0, 0, 0) && b.common.memory[4097] == 44);
    EXPECT(gives(oaledva_sets_board_perform(&b, oaledva_move_call(PAGE, PAGE + 1)), 0, 0, 0));
    EXPECT(b.common.words[1] == (PAGE + 1) * 4 + 3);
    EXPECT(gives(oaledva_sets_board_perform(&b, oaledva_unmap_call(PAGE + 1)), 0, 0, 0));
    EXPECT(gives(oaledva_sets_board_perform(&b, oaledva_detach_call(1, 2)), 0, 0, 0) && b.common.slots[512 + 2] == 0);
    EXPECT(reads(b.uses, "0011 1011 0000 0000"));
}

int main(void) {
    OALEDVA_SETS_STATIC_BOARD(inside, 4, 1, 2, 4);
    every_call(&outside);
    every_call(&inside);
    every_call(&largest);
    in_static_buffers();
    in_a_block();
    limits();
    pushed_out();
    both_editions();
    lists();
    by_each_buffer();
    performed();
    return 0;
}
