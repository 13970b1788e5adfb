/* A dumped board, checked and repaired: how a report is taken apart, the scratch, each rule with what keeps it and what breaks it,
 * the order of the rules, the refusals, what a repair drops and what it leaves; and calls on boards that were accepted.
 * tests/c/run compiles this as C99, C11, C++11 and C++17 and runs each. */
#include "expect.h"
#include <string.h>

enum { F = 8, U = 2, P = 1, L = 8, FRAME_LINES = 256 };
enum { VALID = 1, WRITE = 2, CHANGED = 4 }; /* of a record's second word */

static const uint64_t PREFIX_1 = (uint64_t)1 << 28; /* of a name */
static const uint64_t LAST_PAGE = 0xFFBFFFFF;

/* The board under test, in a block; the block as it was before a call; and what is lent besides. */
static oaledva_board b;
static uint8_t *block, *kept;
static size_t bytes;
static uint64_t keys[OALEDVA_KEYS(F, L)], links[OALEDVA_LINKS(F, L)];
static uint8_t dropped[L];

/* A report is of these four, and it is packed of them with nothing between. */
static int says(oaledva_report report, uint32_t number, uint32_t rule, size_t place, size_t many) {
    return oaledva_report_number(report) == number && oaledva_report_rule(report) == rule
           && oaledva_report_place(report) == place && oaledva_report_dropped(report) == many
           && oaledva_sound(report) == (number == 0 && rule == 0)
           && report.packed == ((uint64_t)number << 56) + ((uint64_t)rule << 48) + ((uint64_t)many << 24) + place;
}

/* Bytes that no call before has left, into what is lent besides the board. */
static uint8_t noise_of_now;
static void noise(void) {
    noise_of_now = (uint8_t)(noise_of_now + 0x5b);
    memset(keys, noise_of_now, sizeof keys);
    memset(links, noise_of_now, sizeof links);
    memset(dropped, noise_of_now, sizeof dropped);
}

static int noise_stays(void) {
    for (size_t i = 0; i < sizeof keys; i++)
        if (((const uint8_t *)keys)[i] != noise_of_now) return 0;
    for (size_t i = 0; i < sizeof links; i++)
        if (((const uint8_t *)links)[i] != noise_of_now) return 0;
    for (size_t i = 0; i < sizeof dropped; i++)
        if (dropped[i] != noise_of_now) return 0;
    return 1;
}

/* Puts a line into a record, with memory's bytes. */
static void hold(size_t record, uint64_t name, uint64_t physical, uint64_t bits) {
    b.records[2 * record] = name;
    b.records[2 * record + 1] = physical * 8 + bits;
    if (physical < FRAME_LINES * F) memcpy(b.cache + 16 * record, b.memory + 16 * physical, 16);
}

/* A sound board that has every kind of record. Frames 2, 3 and 5 have pages; 4, 6 and 7 are free. */
static void sound_board(void) {
    EXPECT(oaledva_done(oaledva_board_fresh(&b, F, U, P, L, block, bytes)));
    for (size_t i = 0; i < b.memory_length; i++) b.memory[i] = (uint8_t)(i * 7 + i / 256);
    b.slots[3] = 2048 * 2 + 1;
    b.words[2] = PAGE * 4 + 3;
    b.words[3] = (PAGE + 1) * 4 + 1;
    b.words[5] = LAST_PAGE * 4 + 3;
    hold(0, PAGE * 256, 2 * 256, VALID + WRITE);
    hold(1, PAGE * 256 + 1, 2 * 256 + 1, VALID + WRITE + CHANGED);
    b.cache[16 + 5] ^= 0xff;                                           /* what a store has left there */
    hold(2, (PAGE + 1) * 256 + 10, 3 * 256 + 10, VALID);               /* read-only */
    hold(3, PREFIX_1 + 4 * 256 + 3, 4 * 256 + 3, VALID + WRITE);       /* under prefix 1 */
    hold(4, LAST_PAGE * 256 + 252, 5 * 256 + 252, VALID + WRITE);
    /* These hold nothing: not valid, not at its place, beyond memory. */
    hold(5, PAGE * 256, 2 * 256, WRITE + CHANGED);
    hold(6, PAGE * 256, 2 * 256, VALID + WRITE);
    hold(7, PAGE * 256 + 7, 256 * F, VALID + WRITE);
}

/* What the check says. It changes nothing of the board, whatever the scratch holds; and by each buffer it says the same. */
static oaledva_report check(void) {
    oaledva_report report, same;
    memcpy(kept, block, bytes);
    noise();
    report = oaledva_board_check(&b, keys, OALEDVA_COUNT(keys), links, OALEDVA_COUNT(links));
    noise();
    same = oaledva_check(OALEDVA_LEND(b), keys, OALEDVA_COUNT(keys), links, OALEDVA_COUNT(links));
    EXPECT(report.packed == same.packed && memcmp(kept, block, bytes) == 0);
    EXPECT(oaledva_report_dropped(report) == 0);
    return report;
}

static oaledva_report repair(void) {
    memcpy(kept, block, bytes);
    noise();
    return oaledva_board_repair(&b, keys, OALEDVA_COUNT(keys), links, OALEDVA_COUNT(links), dropped, L);
}

/* Of a repair: it drops the records that have a 1 here and changes nothing else, says so, and leaves a sound board. */
static void repairs(uint32_t rule, size_t place, const char *drops) {
    uint8_t *after;
    size_t many = 0;
    for (size_t i = 0; i < L; i++) many += drops[i] == '1';
    EXPECT(says(check(), 0, rule, place, 0));
    EXPECT(says(repair(), 0, rule, place, many));
    /* What the repair left, against what was before with those records emptied. */
    after = (uint8_t *)malloc(bytes);
    EXPECT(after != NULL);
    memcpy(after, block, bytes);
    memcpy(block, kept, bytes);
    for (size_t i = 0; i < L; i++) {
        EXPECT(dropped[i] == (drops[i] == '1' ? 1 : 0));
        if (dropped[i]) b.records[2 * i] = b.records[2 * i + 1] = 0;
    }
    EXPECT(memcmp(after, block, bytes) == 0);
    free(after);
    EXPECT(says(check(), 0, 0, 0, 0));
    EXPECT(says(repair(), 0, 0, 0, 0) && memcmp(kept, block, bytes) == 0);
    for (size_t i = 0; i < L; i++) EXPECT(dropped[i] == 0);
}

/* Of one that can't be repaired: nothing changes, not in `dropped` either. */
static void stays(uint32_t rule, size_t place) {
    EXPECT(says(check(), 0, rule, place, 0));
    EXPECT(says(repair(), 0, rule, place, 0) && memcmp(kept, block, bytes) == 0);
    for (size_t i = 0; i < L; i++) EXPECT(dropped[i] == noise_of_now);
}

/* How a report is taken apart, at the ends of its parts: each alone, and all at once. */
static void packing(void) {
    static const struct {
        uint64_t packed;
        uint32_t number, rule;
        size_t place, dropped;
    } given[] = {{0, 0, 0, 0, 0},
                 {1, 0, 0, 1, 0},
                 {0xffffff, 0, 0, 0xffffff, 0},
                 {(uint64_t)1 << 24, 0, 0, 0, 1},
                 {(uint64_t)0xffffff << 24, 0, 0, 0, 0xffffff},
                 {(uint64_t)1 << 48, 0, 1, 0, 0},
                 {(uint64_t)0xff << 48, 0, 0xff, 0, 0},
                 {(uint64_t)1 << 56, 1, 0, 0, 0},
                 {(uint64_t)0xff << 56, 0xff, 0, 0, 0},
                 {UINT64_MAX, 0xff, 0xff, 0xffffff, 0xffffff}};
    for (size_t i = 0; i < OALEDVA_COUNT(given); i++) {
        const oaledva_report report = {given[i].packed};
        EXPECT(says(report, given[i].number, given[i].rule, given[i].place, given[i].dropped));
    }
    EXPECT(sizeof(oaledva_report) == 8);
    EXPECT(OALEDVA_RULE_NONE == 0 && OALEDVA_RULE_LENGTHS == 1 && OALEDVA_RULE_PAGE_TWICE == 2);
    EXPECT(OALEDVA_RULE_LINE_TWICE == 3 && OALEDVA_RULE_ASTRAY == 4 && OALEDVA_RULE_STALE == 5);
    EXPECT(strcmp(oaledva_rule_words(OALEDVA_RULE_LINE_TWICE), "a physical line is held twice") == 0);
    for (uint32_t rule = 0; rule < 8; rule++) EXPECT((oaledva_rule_words(rule)[0] != 0) == (rule >= 1 && rule <= 5));
    /* A place and a number of dropped lines fit their parts. */
    EXPECT(OALEDVA_FRAMES_MAX <= 0xffffff && OALEDVA_LINES_MAX <= 0xffffff);
}

/* The lengths of the scratch, for numbers and for expressions. */
static void lengths_of_scratch(void) {
    static uint64_t some[OALEDVA_KEYS(2 + 1, 4 * 2)];
    EXPECT(sizeof some == 8 * 8 && OALEDVA_KEYS(9, 8) == 9 && OALEDVA_LINKS(9, 8) == 18 && OALEDVA_LINKS(1, 0 ? 1 : 4) == 8);
    EXPECT(8 * (OALEDVA_KEYS(OALEDVA_FRAMES_MAX, OALEDVA_LINES_MAX) + OALEDVA_LINKS(OALEDVA_FRAMES_MAX, OALEDVA_LINES_MAX))
           == 24 << 20);
}

/* Refused by 1: scratch that is too short, and `dropped` of another length. Nothing changes then. Longer scratch is taken. */
static void scratch(void) {
    static const size_t shapes[][2] = {{8, 8}, {8, 2}, {3, 8}, {1, 1}, {1, 8}}; /* frames, lines */
    static uint64_t more_keys[2 * OALEDVA_KEYS(F, L)], more_links[2 * OALEDVA_LINKS(F, L)];
    static uint8_t more[L + 1];
    for (size_t i = 0; i < OALEDVA_COUNT(shapes); i++) {
        const size_t frames = shapes[i][0], lines = shapes[i][1], k = frames > lines ? frames : lines;
        const size_t size = oaledva_board_bytes(frames, 1, P, lines);
        EXPECT(oaledva_done(oaledva_board_fresh(&b, frames, 1, P, lines, block, bytes)));
        b.words[frames - 1] = PAGE * 4 + 3; /* a frame from U up, but where there is one frame */
        memcpy(kept, block, size);
        EXPECT(says(oaledva_board_check(&b, keys, k, links, 2 * k), 0, 0, 0, 0));
        EXPECT(says(oaledva_board_repair(&b, keys, k, links, 2 * k, dropped, lines), 0, 0, 0, 0));
        EXPECT(says(oaledva_board_check(&b, more_keys, 2 * k, more_links, 4 * k), 0, 0, 0, 0));
        EXPECT(says(oaledva_board_repair(&b, more_keys, k + 1, more_links, 2 * k + 1, dropped, lines), 0, 0, 0, 0));
        /* Refused also where the board breaks a later rule. */
        for (int broken = 0; broken < 2; broken++) {
            b.records[1] = broken ? (uint64_t)(8 * 256 * frames - 8 + VALID) : 0; /* name 0, which maps to nothing */
            memcpy(kept, block, size);
            noise();
            memset(more, noise_of_now, sizeof more);
            EXPECT(says(oaledva_board_check(&b, keys, k - 1, links, 2 * k), OALEDVA_SHAPE, 0, 0, 0));
            EXPECT(says(oaledva_board_check(&b, keys, k, links, 2 * k - 1), OALEDVA_SHAPE, 0, 0, 0));
            EXPECT(says(oaledva_board_check(&b, NULL, 0, NULL, 0), OALEDVA_SHAPE, 0, 0, 0));
            EXPECT(says(oaledva_board_check(&b, NULL, 0, links, 2 * k), OALEDVA_SHAPE, 0, 0, 0));
            EXPECT(says(oaledva_board_check(&b, keys, k, NULL, 0), OALEDVA_SHAPE, 0, 0, 0));
            EXPECT(says(oaledva_board_repair(&b, keys, k - 1, links, 2 * k, dropped, lines), OALEDVA_SHAPE, 0, 0, 0));
            EXPECT(says(oaledva_board_repair(&b, keys, k, links, 2 * k - 1, dropped, lines), OALEDVA_SHAPE, 0, 0, 0));
            EXPECT(says(oaledva_board_repair(&b, keys, k, links, 2 * k, dropped, lines - 1), OALEDVA_SHAPE, 0, 0, 0));
            EXPECT(says(oaledva_board_repair(&b, keys, k, links, 2 * k, more, lines + 1), OALEDVA_SHAPE, 0, 0, 0));
            EXPECT(says(oaledva_board_repair(&b, keys, k, links, 2 * k, NULL, 0), OALEDVA_SHAPE, 0, 0, 0));
            EXPECT(says(oaledva_board_repair(&b, NULL, 0, NULL, 0, NULL, 0), OALEDVA_SHAPE, 0, 0, 0));
            EXPECT(noise_stays() && memcmp(kept, block, size) == 0);
            for (size_t j = 0; j < sizeof more; j++) EXPECT(more[j] == noise_of_now);
        }
        EXPECT(says(oaledva_board_check(&b, keys, k, links, 2 * k), 0, OALEDVA_RULE_ASTRAY, 0, 0));
    }
}

/* Rule 1: each length and each number, one off. It comes before the scratch, which may be anything and is not touched. */
static void lengths(void) {
    size_t *const of[] = {&b.slots_length, &b.words_length, &b.records_length, &b.cache_length, &b.memory_length,
                          &b.frames,       &b.uncached,     &b.processes,      &b.lines};
    static const size_t limits[][4] = {{0, 0, 1, 1}, {1, 2, 1, 1}, {1, 0, 0, 1}, {1, 0, OALEDVA_PROCESSES_MAX + 1, 1},
                                       {1, 0, 1, 0}, {1, 0, 1, 3}, {1, 0, 1, 2 * OALEDVA_LINES_MAX},
                                       {OALEDVA_FRAMES_MAX + 1, 0, 1, 1}, {SIZE_MAX, 0, SIZE_MAX, SIZE_MAX}};
    for (size_t i = 0; i < OALEDVA_COUNT(of); i++)
        for (int more = 0; more < 2; more++) {
            sound_board();
            if (of[i] == &b.uncached) *of[i] = F; /* one less than U is a board too, so only one more than F is tried */
            *of[i] += more || of[i] == &b.uncached ? 1 : (size_t)-1;
            EXPECT(oaledva_board_look_number(&b, 0).number == OALEDVA_SHAPE);
            stays(OALEDVA_RULE_LENGTHS, 0);
            memcpy(kept, block, bytes);
            noise();
            EXPECT(says(oaledva_board_check(&b, keys, 0, links, 0), 0, OALEDVA_RULE_LENGTHS, 0, 0));
            EXPECT(says(oaledva_board_check(&b, NULL, 0, NULL, 0), 0, OALEDVA_RULE_LENGTHS, 0, 0));
            EXPECT(says(oaledva_board_check(&b, keys, F, links, 2 * F), 0, OALEDVA_RULE_LENGTHS, 0, 0));
            EXPECT(says(oaledva_board_repair(&b, NULL, 0, NULL, 0, NULL, 0), 0, OALEDVA_RULE_LENGTHS, 0, 0));
            EXPECT(says(oaledva_board_repair(&b, keys, F, links, 2 * F, dropped, L), 0, OALEDVA_RULE_LENGTHS, 0, 0));
            EXPECT(noise_stays() && memcmp(kept, block, bytes) == 0);
        }
    /* Numbers out of their limits, and a board without buffers: those that no board can have. */
    for (size_t i = 0; i < OALEDVA_COUNT(limits); i++) {
        const size_t *const n = limits[i];
        const oaledva_board none = {n[0], n[1], n[2], n[3], NULL, 0, NULL, 0, NULL, 0, NULL, 0, NULL, 0, {0, 0}};
        EXPECT(says(oaledva_board_check(&none, NULL, 0, NULL, 0), 0, OALEDVA_RULE_LENGTHS, 0, 0));
        EXPECT(says(oaledva_check(n[0], n[1], n[2], n[3], NULL, OALEDVA_SLOTS(n[2]), NULL, n[0], NULL, OALEDVA_RECORDS(n[3]),
                                  NULL, OALEDVA_CACHE(n[3]), NULL, OALEDVA_MEMORY(n[0]), keys, F, links, 2 * F),
                    0, OALEDVA_RULE_LENGTHS, 0, 0));
    }
}

/* Rule 2: of a page with two frames the lower frame, and the lowest of all such. */
static void pages(void) {
    sound_board();
    b.words[7] = PAGE * 4 + 3;
    stays(OALEDVA_RULE_PAGE_TWICE, 2);
    b.words[7] = PAGE * 4 + 1; /* the write bit is not of the page */
    stays(OALEDVA_RULE_PAGE_TWICE, 2);
    b.words[6] = b.words[7] = LAST_PAGE * 4 + 1;
    stays(OALEDVA_RULE_PAGE_TWICE, 5);
    b.words[6] = (PAGE + 1) * 4 + 1, b.words[7] = PAGE * 4 + 1; /* 2 and 7, and between them 3 and 6 */
    stays(OALEDVA_RULE_PAGE_TWICE, 2);
    b.words[6] = PAGE * 4 + 1, b.words[7] = (PAGE + 1) * 4 + 1;
    stays(OALEDVA_RULE_PAGE_TWICE, 2);

    /* Frames below U have no page, whatever their words say; words of no page's form name nothing. */
    sound_board();
    b.words[0] = b.words[1] = PAGE * 4 + 3;
    repairs(0, 0, "00000000");
    b.words[6] = b.words[7] = PAGE * 4 + 2;
    repairs(0, 0, "00000000");
    b.words[6] = b.words[7] = PAGE * 4;
    repairs(0, 0, "00000000");
    b.words[6] = b.words[7] = (PAGE - 1) * 4 + 3; /* the pages before and after the ordinary ones, and one from 2^32 up */
    repairs(0, 0, "00000000");
    b.words[6] = b.words[7] = (LAST_PAGE + 1) * 4 + 3;
    repairs(0, 0, "00000000");
    b.words[6] = b.words[7] = (((uint64_t)1 << 32) + PAGE) * 4 + 3;
    repairs(0, 0, "00000000");
    b.words[6] = b.words[7] = UINT64_MAX;
    repairs(0, 0, "00000000");
    b.uncached = 1; /* U is the board's own: with another it is another board */
    stays(OALEDVA_RULE_PAGE_TWICE, 1);
}

/* Pages for which a search makes as many turns as it can: each agrees with the last in one bit more, from the lowest up. */
static void deepest_search(void) {
    enum { FRAMES = 34 };
    static uint64_t many_keys[OALEDVA_KEYS(FRAMES, 1)], many_links[OALEDVA_LINKS(FRAMES, 1)];
    OALEDVA_STATIC_BOARD(deep, FRAMES, 0, 1, 1);
    const uint64_t last = 0x40200001;
    for (size_t i = 0; i < 32; i++) deep.words[i] = (last ^ ((uint64_t)1 << i)) * 4 + 1;
    deep.words[32] = last * 4 + 1;
    EXPECT(says(oaledva_board_check(&deep, many_keys, FRAMES, many_links, 2 * FRAMES), 0, 0, 0, 0));
    for (size_t i = 0; i < 33; i++) {
        deep.words[33] = deep.words[i] ^ 2;
        EXPECT(says(oaledva_board_check(&deep, many_keys, FRAMES, many_links, 2 * FRAMES), 0, OALEDVA_RULE_PAGE_TWICE, i, 0));
    }
}

/* Rule 3: of a physical line that is held twice the lower record, and the lowest of all such. At most one of two is at home. */
static void lines(void) {
    sound_board();
    hold(5, PREFIX_1 + 2 * 256 + 5, 2 * 256, VALID + WRITE);
    repairs(OALEDVA_RULE_LINE_TWICE, 0, "00000100");
    /* The lower one goes, where it is the one astray. */
    sound_board();
    hold(5, PAGE * 256 + 5, 2 * 256 + 5, VALID + WRITE + CHANGED);
    hold(2, PAGE * 256 + 2, 2 * 256 + 5, VALID + WRITE + CHANGED);
    repairs(OALEDVA_RULE_LINE_TWICE, 2, "00100000");
    /* Both go, where the one at home is stale. */
    sound_board();
    hold(5, PREFIX_1 + 2 * 256 + 5, 2 * 256, VALID + WRITE);
    b.cache[0] ^= 1;
    repairs(OALEDVA_RULE_LINE_TWICE, 0, "10000100");
    /* Two pairs, one inside the other; and three of one line. */
    sound_board();
    hold(6, PREFIX_1 + 6, 3 * 256 + 10, VALID + WRITE);
    hold(7, PREFIX_1 + 7, 2 * 256 + 1, VALID + WRITE);
    repairs(OALEDVA_RULE_LINE_TWICE, 1, "00000011");
    sound_board();
    hold(6, PREFIX_1 + 6, 2 * 256 + 1, VALID + WRITE);
    hold(7, PREFIX_1 + 7, 2 * 256 + 1, VALID + WRITE);
    repairs(OALEDVA_RULE_LINE_TWICE, 1, "00000011");
    /* The first line of memory, and the last. */
    sound_board();
    hold(5, 5, 0, VALID), hold(6, 6, 0, VALID);
    repairs(OALEDVA_RULE_LINE_TWICE, 5, "00000110");
    sound_board();
    hold(5, PREFIX_1 + 256 * F - 3, 256 * F - 1, VALID + WRITE), hold(7, PREFIX_1 + 256 * F - 1, 256 * F - 1, VALID + WRITE);
    repairs(OALEDVA_RULE_LINE_TWICE, 5, "00000100");
}

/* Rule 4, with a line in record 5: what is at home and what is astray. Each line here is marked changed, so that rule 5 says
 * nothing of it. */
static void homes(void) {
    const uint64_t page = PAGE * 256 + 5, read_only = (PAGE + 1) * 256 + 5, last = LAST_PAGE * 256 + 253;
    const uint64_t table = (LAST_PAGE + 1) * 256 + 5, far = (uint64_t)1 << 40;
    const struct {
        uint64_t name, physical, bits;
        int at_home;
    } given[] = {{page, 2 * 256 + 5, WRITE, 1},
                 {page, 2 * 256 + 5, 0, 0},              /* the page's permission, not another */
                 {page, 2 * 256 + 13, WRITE, 0},         /* another line of the frame */
                 {page, 3 * 256 + 5, WRITE, 0},          /* another page's frame */
                 {page, 6 * 256 + 5, WRITE, 0},          /* a free frame */
                 {page, 1 * 256 + 5, WRITE, 0},          /* a frame below U */
                 {page + 8, 2 * 256 + 13, WRITE, 1},
                 {read_only, 3 * 256 + 5, 0, 1},
                 {read_only, 3 * 256 + 5, WRITE, 0},
                 {last, 5 * 256 + 253, WRITE, 1},
                 {last, 5 * 256 + 253, 0, 0},
                 {(PAGE + 7) * 256 + 5, 2 * 256 + 5, WRITE, 0}, /* a page that has no frame */
                 {PREFIX_1 + 6 * 256 + 5, 6 * 256 + 5, WRITE, 1},
                 {PREFIX_1 + 6 * 256 + 5, 6 * 256 + 5, 0, 0}, /* it may be written */
                 {PREFIX_1 + 6 * 256 + 5, 6 * 256 + 13, WRITE, 0},
                 {PREFIX_1 + 6 * 256 + 5, 7 * 256 + 5, WRITE, 0},
                 {PREFIX_1 + 2 * 256 + 5, 2 * 256 + 5, WRITE, 0}, /* the frame has a page */
                 {PREFIX_1 + 256 + 5, 256 + 5, WRITE, 0},         /* below U */
                 {PREFIX_1 + 256 * F + 5, 6 * 256 + 5, WRITE, 0}, /* beyond memory */
                 {6 * 256 + 5, 6 * 256 + 5, WRITE, 0},            /* under prefix 0 */
                 {256 + 5, 256 + 5, WRITE, 0},
                 {table, 2 * 256 + 5, WRITE, 0}, /* the page table region */
                 {far + page, 2 * 256 + 5, WRITE, 0}, /* no line's name: only its low 40 bits are */
                 {far + PREFIX_1 + 6 * 256 + 5, 6 * 256 + 5, WRITE, 0},
                 {UINT64_MAX - 2, 2 * 256 + 5, WRITE, 0}};
    const uint64_t other = PAGE + 7, too_far = ((uint64_t)1 << 32) + other;
    const struct {
        size_t frame;
        uint64_t word, page;
    } naming_nothing[] = {{1, other * 4 + 3, other},
                          {6, other * 4 + 2, other},
                          {6, other * 4, other},
                          {6, too_far * 4 + 3, other}, /* no page, though its low bits are */
                          {6, too_far * 4 + 3, too_far},
                          {6, (LAST_PAGE + 1) * 4 + 3, LAST_PAGE + 1},
                          {6, (PAGE - 1) * 4 + 3, PAGE - 1},
                          {6, 5 * 4 + 3, 5}};
    for (size_t i = 0; i < OALEDVA_COUNT(given); i++) {
        sound_board();
        hold(5, given[i].name, given[i].physical, given[i].bits + VALID + CHANGED);
        if (given[i].at_home) repairs(0, 0, "00000000");
        else repairs(OALEDVA_RULE_ASTRAY, 5, "00000100");
    }
    /* A word that names no page maps no line, though the line's name has what the word says. Frame 1 is below U. */
    for (size_t i = 0; i < OALEDVA_COUNT(naming_nothing); i++) {
        const uint64_t word = naming_nothing[i].word;
        sound_board();
        b.words[naming_nothing[i].frame] = word;
        hold(5, naming_nothing[i].page * 256 + 5, naming_nothing[i].frame * 256 + 5, (word & WRITE) + VALID + CHANGED);
        repairs(OALEDVA_RULE_ASTRAY, 5, "00000100");
    }
    /* A word that is not 0 and names nothing: its frame is not free, and has no page. */
    sound_board();
    b.words[4] = PAGE * 4 + 2;
    repairs(OALEDVA_RULE_ASTRAY, 3, "00010000");
    sound_board();
    b.words[2] = 0;
    repairs(OALEDVA_RULE_ASTRAY, 0, "11000000");
    sound_board();
    b.words[2] = 0, b.words[6] = PAGE * 4 + 3; /* the page is elsewhere now */
    repairs(OALEDVA_RULE_ASTRAY, 0, "11000000");
    /* With a physical line as large as 61 bits hold, a record holds nothing. */
    sound_board();
    b.records[2 * 5] = page, b.records[2 * 5 + 1] = UINT64_MAX;
    repairs(0, 0, "00000000");
}

/* Rule 5: each of the sixteen bytes counts, in memory as in the cache, and only of lines that are not marked changed. */
static void bytes_of_lines(void) {
    for (size_t i = 0; i < 16; i++) {
        sound_board();
        b.cache[i] ^= (uint8_t)(1 << i % 8);
        repairs(OALEDVA_RULE_STALE, 0, "10000000");
        sound_board();
        b.memory[16 * (4 * 256 + 3) + i] ^= (uint8_t)(1 << i % 8);
        repairs(OALEDVA_RULE_STALE, 3, "00010000");
        sound_board();
        b.records[1] |= CHANGED;
        b.cache[i] ^= 1, b.cache[16 + i] ^= 1, b.cache[16 * 5 + i] ^= 1, b.memory[16 * (2 * 256 + 2) + i] ^= 1;
        repairs(0, 0, "00000000");
    }
    sound_board();
    for (size_t i = 0; i < L; i++) b.cache[16 * i + 15] ^= 0x80;
    repairs(OALEDVA_RULE_STALE, 0, "10111000");
}

/* A board that breaks all rules, mended one by one: each time the first of those left is told, and the lowest place in it. The
 * repair drops all that breaks a rule at once, by whichever it is. */
static void order(void) {
    sound_board();
    hold(5, PREFIX_1 + 6 * 256 + 5, 6 * 256 + 5, VALID + WRITE);
    hold(6, PAGE * 256 + 6, 6 * 256 + 5, VALID + WRITE + CHANGED); /* the same line, and astray */
    b.cache[16 * 3] ^= 1;                                          /* stale */
    hold(2, (PAGE + 1) * 256 + 10, 3 * 256 + 10, VALID + WRITE);   /* astray: the page is read-only */
    b.words[7] = PAGE * 4 + 1;
    b.lines = 4;
    stays(OALEDVA_RULE_LENGTHS, 0);
    b.lines = L;
    stays(OALEDVA_RULE_PAGE_TWICE, 2);
    b.words[7] = 0;
    EXPECT(says(check(), 0, OALEDVA_RULE_LINE_TWICE, 5, 0));
    b.records[2 * 5 + 1] = 0;
    EXPECT(says(check(), 0, OALEDVA_RULE_ASTRAY, 2, 0));
    b.records[2 * 2 + 1] -= WRITE;
    EXPECT(says(check(), 0, OALEDVA_RULE_ASTRAY, 6, 0));
    b.records[2 * 6 + 1] = 0;
    EXPECT(says(check(), 0, OALEDVA_RULE_STALE, 3, 0));
    b.cache[16 * 3] ^= 1;
    repairs(0, 0, "00000000");

    sound_board();
    hold(5, PREFIX_1 + 6 * 256 + 5, 6 * 256 + 5, VALID + WRITE);
    hold(6, PAGE * 256 + 6, 6 * 256 + 5, VALID + WRITE + CHANGED);
    b.cache[16 * 3] ^= 1;
    hold(2, (PAGE + 1) * 256 + 10, 3 * 256 + 10, VALID + WRITE);
    repairs(OALEDVA_RULE_LINE_TWICE, 5, "00110010");
}

/* More lines than frames, and all the lines there can be: every record holds one. */
static void many_lines(void) {
    static uint64_t many_keys[OALEDVA_KEYS(1, OALEDVA_LINES_MAX)], many_links[OALEDVA_LINKS(1, OALEDVA_LINES_MAX)];
    static uint8_t drops[OALEDVA_LINES_MAX];
    OALEDVA_STATIC_BOARD(wide, 1, 0, OALEDVA_PROCESSES_MAX, OALEDVA_LINES_MAX);
    OALEDVA_STATIC_BOARD(most, 256, 0, 1, OALEDVA_LINES_MAX);
    for (size_t i = 0; i < OALEDVA_LINES_MAX; i++) {
        most.records[2 * i] = PREFIX_1 + i, most.records[2 * i + 1] = 8 * i + WRITE + VALID;
        wide.records[2 * i] = PREFIX_1 + i, wide.records[2 * i + 1] = 8 * (i % 256) + WRITE + VALID;
    }
    EXPECT(says(oaledva_board_check(&most, many_keys, OALEDVA_LINES_MAX, many_links, 2 * OALEDVA_LINES_MAX), 0, 0, 0, 0));
    most.records[2 * (OALEDVA_LINES_MAX - 1) + 1] -= 8; /* the last two lines are one */
    EXPECT(says(oaledva_board_check(&most, many_keys, OALEDVA_LINES_MAX, many_links, 2 * OALEDVA_LINES_MAX), 0,
                OALEDVA_RULE_LINE_TWICE, OALEDVA_LINES_MAX - 2, 0));
    /* All of frame 0's lines, 256 times each: only the first 256 are at home. */
    EXPECT(says(oaledva_board_repair(&wide, many_keys, OALEDVA_LINES_MAX, many_links, 2 * OALEDVA_LINES_MAX, drops,
                                     OALEDVA_LINES_MAX),
                0, OALEDVA_RULE_LINE_TWICE, 0, OALEDVA_LINES_MAX - 256));
    for (size_t i = 0; i < OALEDVA_LINES_MAX; i++) {
        EXPECT(drops[i] == (i < 256 ? 0 : 1) && wide.records[2 * i] == (i < 256 ? PREFIX_1 + i : 0));
        EXPECT(wide.records[2 * i + 1] == (i < 256 ? 8 * i + WRITE + VALID : 0));
    }
}

/* Calls on a board that was made by calls, then on one that was repaired: what look shows is what is loaded, and flush all
 * writes it to memory. */
static void goes_on(void) {
    EXPECT(oaledva_done(oaledva_board_fresh(&b, F, U, P, L, block, bytes)));
    EXPECT(says(check(), 0, 0, 0, 0));
    EXPECT(oaledva_done(oaledva_board_map(&b, PAGE, 2, OALEDVA_WRITABLE)));
    EXPECT(oaledva_done(oaledva_board_map(&b, PAGE + 1, 3, OALEDVA_READ_ONLY)));
    EXPECT(oaledva_done(oaledva_board_attach(&b, 0, 0, 2048, OALEDVA_WRITABLE)));
    for (uint32_t i = 0; i < 2 * L; i++) EXPECT(oaledva_done(oaledva_board_store(&b, 0, 4, 16 * i, 50 + i)));
    EXPECT(oaledva_done(oaledva_board_supervisor_store(&b, 4, ((uint64_t)1 << 32) + 4 * 4096 + 16 * 3, 7)));
    EXPECT(oaledva_done(oaledva_board_load(&b, 0, 4, 4096 + 16 * 4)));
    EXPECT(oaledva_done(oaledva_board_tag(&b, PAGE * 256)));
    repairs(0, 0, "00000000");
    EXPECT(b.tag.set == 1 && b.tag.name == PAGE * 256 && oaledva_done(oaledva_board_drop_tag(&b)));

    /* Record 5 holds line 13 of the page, with 63 stored and not yet in memory. It loses its permission, so it is astray, and is
     * dropped: what was stored is lost, and memory's bytes count. The other lines stay. */
    b.records[2 * 5 + 1] -= WRITE;
    EXPECT(oaledva_board_look(&b, 2 * 256 + 13)[3] == 63 && b.memory[2 * 4096 + 16 * 13 + 3] == 0);
    repairs(OALEDVA_RULE_ASTRAY, 5, "00000100");
    EXPECT(oaledva_board_look(&b, 2 * 256 + 13) == b.memory + 2 * 4096 + 16 * 13);
    for (uint32_t i = 0; i < 2 * L; i++) {
        const uint8_t *const line = oaledva_board_look(&b, 2 * 256 + i);
        const uint32_t shown = line[3], mark = i < L && i != 4 && i != 5 ? OALEDVA_WROTE_BACK : OALEDVA_REFILLED;
        EXPECT(shown == (i == 13 ? 0 : 50 + i));
        EXPECT(gives(oaledva_board_load(&b, 0, 4, 16 * i), 0, shown, mark));
    }
    EXPECT(says(check(), 0, 0, 0, 0));
    EXPECT(oaledva_done(oaledva_board_flush_all(&b)) && b.memory[4 * 4096 + 16 * 3 + 3] == 7);
    EXPECT(b.memory[2 * 4096 + 16 * 12 + 3] == 62 && b.memory[2 * 4096 + 16 * 13 + 3] == 0);
    EXPECT(says(check(), 0, 0, 0, 0));
}

int main(void) {
    bytes = oaledva_board_bytes(F, U, P, L);
    block = (uint8_t *)malloc(bytes), kept = (uint8_t *)malloc(bytes);
    EXPECT(block != NULL && kept != NULL);
    packing();
    lengths_of_scratch();
    scratch();
    lengths();
    sound_board();
    repairs(0, 0, "00000000");
    pages();
    deepest_search();
    lines();
    homes();
    bytes_of_lines();
    order();
    many_lines();
    goes_on();
    free(block);
    free(kept);
    return 0;
}
