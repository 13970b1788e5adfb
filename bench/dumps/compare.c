#include "compare.h"
#include "boards.h"
#include "pairs.h"
#include <stdio.h>
#include <stdlib.h>

enum { F_MAX = 40, P_MAX = 2, L_MAX = 16, K_MAX = F_MAX + 2, FRAME_LINES = 256 };
enum { VALID = 1, WRITE = 2, CHANGED = 4 };

static uint64_t drawn;
static uint64_t below(uint64_t end) { return random_at(drawn++) % end; }
static int one_in(uint64_t many) { return below(many) == 0; }

/* What the two are lent, and what they leave. */
typedef struct side {
    uint32_t slots[OALEDVA_SLOTS(P_MAX)];
    uint64_t words[F_MAX + 1], records[OALEDVA_RECORDS(L_MAX) + 1];
    uint8_t cache[OALEDVA_CACHE(L_MAX) + 1], dropped[L_MAX + 1];
    uint64_t keys[K_MAX], links[2 * K_MAX];
    oaledva_report checked, repaired, again; /* again: checked after the repair */
} side;

/* Both read one memory. It has few kinds of line, so that another line's bytes are sometimes the same. */
static uint8_t memory[OALEDVA_MEMORY(F_MAX) + 1], memory_before[OALEDVA_MEMORY(F_MAX) + 1];

static const uint64_t ODD_PAGES[] = {0, 1, 0x1FFFFF, 0xFFC00000, 0xFFFFFFFF, UINT64_C(0x100200000), UINT64_C(1) << 61};

static uint64_t page_at(size_t i) {
    static const uint64_t pages[] = {0x200000, 0xFFBFFFFF, 0x200001, 0x200400, 0x40200001, 0xC0200001, 0x600000, 0x80200001};
    return i < OALEDVA_COUNT(pages) ? pages[i] : 0x300000 + 7 * i;
}

/* Pages that a search takes for one another longest: each agrees with 0x40200001 in one low bit more. */
static uint64_t chain_at(size_t i) { return i < 32 ? 0x40200001 ^ (UINT64_C(1) << i) : 0x40200001 + (i - 32); }

static void put_words(oaledva_board *b, int harm) {
    const int chain = one_in(8);
    for (size_t f = 0; f < b->frames; f++) {
        const uint64_t page = chain ? chain_at(f) : page_at(f), write = 2 * below(2) + 1;
        b->words[f] = one_in(4) ? 0 : page * 4 + write;
    }
    if (one_in(4)) b->words[below(b->frames)] = ODD_PAGES[below(OALEDVA_COUNT(ODD_PAGES))] * 4 + below(4);
    if (one_in(8)) b->words[below(b->frames)] = page_at(below(b->frames)) * 4 + 2 * below(2);
    if (harm && one_in(3))
        for (uint64_t i = below(3); i < 3; i++) /* a page twice, if the frames are from U up */
            b->words[below(b->frames)] = b->words[below(b->frames)] ^ (2 * below(2));
}

/* The line at home in some frame that stands in a record: its name, its physical line and its write bit; 0 if there is none. */
static int put_home(oaledva_board *b, size_t i) {
    const size_t f = below(b->frames), offset = i + b->lines * below(FRAME_LINES / b->lines);
    const uint64_t word = b->words[f], physical = f * FRAME_LINES + offset;
    if (f < b->uncached && !one_in(16)) return 0; /* below U no line is at home */
    b->records[2 * i] = word == 0 ? (UINT64_C(1) << 28) + physical : word / 4 * FRAME_LINES + offset;
    b->records[2 * i + 1] = physical * 8 + (word == 0 ? WRITE : word & WRITE) + VALID;
    return 1;
}

static void harm_record(oaledva_board *b, size_t i) {
    uint64_t *const record = b->records + 2 * i;
    const size_t other = below(b->lines);
    switch (below(10)) {
    case 0: record[1] ^= VALID; break;
    case 1: record[1] ^= WRITE; break;
    case 2: record[1] ^= CHANGED; break;
    case 3: record[1] ^= UINT64_C(8) << below(61); break;
    case 4: record[0] ^= UINT64_C(1) << below(64); break;
    case 5: record[0] ^= b->lines << below(30); break;             /* it stays at its place */
    case 6: record[1] = (record[1] & 7) + (b->records[2 * other + 1] & ~UINT64_C(7)); break; /* another's physical line */
    case 7: b->cache[16 * i + below(16)] ^= (uint8_t)(1 << below(8)); break;
    case 8: record[0] = random_at(drawn++), record[1] = random_at(drawn++) >> below(64); break;
    case 9: record[0] &= (UINT64_C(1) << 40) - 1; break;           /* the part of a name that is one */
    }
}

static void put_records(oaledva_board *b, int harm) {
    for (size_t i = 0; i < b->lines; i++) {
        b->records[2 * i] = b->records[2 * i + 1] = 0;
        if (!one_in(5) && put_home(b, i)) {
            memcpy(b->cache + 16 * i, b->memory + 16 * (b->records[2 * i + 1] / 8), 16);
            if (one_in(3)) {
                b->records[2 * i + 1] += CHANGED;
                b->cache[16 * i + below(16)] = (uint8_t)below(256);
            }
        }
    }
    if (harm)
        for (uint64_t i = below(4); i < 4; i++) harm_record(b, below(b->lines));
}

static oaledva_board lent(side *s, const oaledva_board *like) {
    oaledva_board b = *like;
    b.slots = s->slots, b.words = s->words, b.records = s->records, b.cache = s->cache, b.memory = memory;
    return b;
}

/* A board of some kind: its numbers and lengths, and what stands in its buffers. */
static oaledva_board some_board(side *s) {
    const size_t frames = one_in(10) ? 1 + below(F_MAX) : 1 + below(8), lines = (size_t)1 << below(5);
    const size_t uncached = one_in(10) ? below(frames + 1) : below(frames < 3 ? frames : 3), processes = 1 + below(P_MAX);
    const oaledva_board like = {frames, uncached, processes, lines, NULL, OALEDVA_SLOTS(processes), NULL, frames, NULL,
                                OALEDVA_RECORDS(lines), NULL, OALEDVA_CACHE(lines), NULL, OALEDVA_MEMORY(frames), {0, 0}};
    oaledva_board b = lent(s, &like);
    const int harm = !one_in(3);
    put_words(&b, harm);
    put_records(&b, harm);
    if (one_in(12)) {
        size_t *const of[] = {&b.slots_length, &b.words_length, &b.records_length, &b.cache_length, &b.memory_length,
                              &b.frames,       &b.uncached,     &b.processes,      &b.lines};
        size_t *const one = of[below(OALEDVA_COUNT(of))];
        *one = one_in(3) ? random_at(drawn++) : *one + (one_in(2) ? 1 : (size_t)-1);
        if (pairs_fits(&b)) b.uncached = b.frames + 1;
    }
    return b;
}

static int same(const side *one, const side *other) {
    return memcmp(one, other, sizeof *one) == 0 && memcmp(memory, memory_before, sizeof memory) == 0;
}

/* How often each kind of board came, and each kind of repair. */
enum { SOUND, RULE_1, RULE_2, RULE_3, RULE_4, RULE_5, REFUSED, DROPPED, DROPPED_MORE, LOWER_LEFT, BOTH_LEFT, CHANGED_KEPT, KINDS };
static const char *const KIND[KINDS] = {"sound",          "rule 1",        "rule 2",
                                        "rule 3",         "rule 4",        "rule 5",
                                        "refused",        "a line dropped", "three lines or more dropped",
                                        "of a doubled line the lower record dropped, the higher kept",
                                        "both records of a doubled line dropped",
                                        "a changed line kept beside a dropped one"};
static size_t came[KINDS];

static void count(const oaledva_board *before, const side *s) {
    const size_t many = oaledva_report_dropped(s->repaired);
    int kept = 0;
    if (oaledva_report_number(s->repaired) != 0) {
        came[REFUSED]++;
        return;
    }
    came[SOUND + oaledva_report_rule(s->repaired)]++;
    if (many == 0) return;
    came[DROPPED]++;
    came[DROPPED_MORE] += many >= 3;
    for (size_t i = 0; i < before->lines; i++) {
        kept |= pairs_holds(before, i) && !s->dropped[i] && (before->records[2 * i + 1] & CHANGED);
        for (size_t j = i + 1; j < before->lines && s->dropped[i] && pairs_holds(before, i); j++)
            if (pairs_holds(before, j) && before->records[2 * j + 1] / 8 == before->records[2 * i + 1] / 8)
                came[s->dropped[j] ? BOTH_LEFT : LOWER_LEFT]++;
    }
    came[CHANGED_KEPT] += (size_t)kept;
}

/* Every bit of what is compared counts: changed, it is found. */
static void plant(const side *of) {
    static side planted;
    memcpy(&planted, of, sizeof planted);
    for (size_t i = 0; i < sizeof planted; i++) {
        ((uint8_t *)&planted)[i] ^= (uint8_t)(1 << i % 8);
        if (same(of, &planted)) stop("a difference that was planted is not found");
        ((uint8_t *)&planted)[i] ^= (uint8_t)(1 << i % 8);
    }
    memory[below(sizeof memory)] ^= 1;
    if (same(of, &planted)) stop("a change of memory that was planted is not found");
    memcpy(memory, memory_before, sizeof memory);
}

static void compare_one(size_t number) {
    static side start, ours, theirs, after_check;
    for (size_t i = 0; i < sizeof start / 8; i++) {
        const uint64_t random = random_at(drawn++);
        memcpy((uint8_t *)&start + 8 * i, &random, 8);
    }
    const oaledva_board like = some_board(&start);
    const int fits = pairs_fits(&like);
    const size_t k = fits ? OALEDVA_KEYS(like.frames, like.lines) : 0;
    const int shorter = one_in(16) && fits; /* of the three lengths one is wrong */
    const uint64_t which = below(4);
    const size_t keys = fits ? k + below(2) - (shorter && which == 0 ? 1 + below(2) : 0) : below(K_MAX);
    const size_t links = fits ? 2 * k + below(2) - (shorter && which == 1 ? 2 : 0) : below(2 * K_MAX);
    const size_t dropped = fits ? like.lines + (shorter && which == 2 ? 1 : 0) - (shorter && which == 3 ? 1 : 0) : below(L_MAX);
    const int short_scratch = fits && (keys < k || links < 2 * k), refused = fits && (short_scratch || dropped != like.lines);

    memcpy(&ours, &start, sizeof start);
    memcpy(&theirs, &start, sizeof start);
    oaledva_board b = lent(&theirs, &like);
    theirs.checked = oaledva_board_check(&b, theirs.keys, keys, theirs.links, links);
    memcpy(&after_check, &theirs, sizeof theirs); /* nothing but the scratch may have changed */
    theirs.repaired = oaledva_board_repair(&b, theirs.keys, keys, theirs.links, links, theirs.dropped, dropped);
    theirs.again = oaledva_board_check(&b, theirs.keys, keys, theirs.links, links);

    b = lent(&ours, &like);
    ours.checked = short_scratch ? pairs_report(OALEDVA_SHAPE, 0, 0, 0) : pairs_check(&b);
    if (memcmp(after_check.words, start.words, sizeof start.words) != 0
        || memcmp(after_check.records, start.records, sizeof start.records) != 0
        || memcmp(after_check.dropped, start.dropped, sizeof start.dropped) != 0)
        stop("a check changed the board");
    ours.repaired = refused ? pairs_report(OALEDVA_SHAPE, 0, 0, 0) : pairs_repair(&b, ours.dropped);
    ours.again = short_scratch ? pairs_report(OALEDVA_SHAPE, 0, 0, 0) : pairs_check(&b);
    /* The scratch means nothing after a call, unless the call is refused or the board breaks rule 1: then it stays. */
    if (fits && !short_scratch) {
        memcpy(ours.keys, theirs.keys, sizeof ours.keys);
        memcpy(ours.links, theirs.links, sizeof ours.links);
    }
    if (!same(&ours, &theirs)) {
        fprintf(stderr, "dumps: board %zu: frames %zu, uncached %zu, lines %zu: reports %llx %llx %llx, by pairs %llx %llx %llx\n",
                number, like.frames, like.uncached, like.lines, (unsigned long long)theirs.checked.packed,
                (unsigned long long)theirs.repaired.packed, (unsigned long long)theirs.again.packed,
                (unsigned long long)ours.checked.packed, (unsigned long long)ours.repaired.packed,
                (unsigned long long)ours.again.packed);
        stop("the library reports or leaves something else than the check by pairs");
    }
    b = lent(&start, &like);
    if (fits) count(&b, &theirs);
    else came[RULE_1]++;
    if (number < 20) plant(&theirs);
    /* What was repaired is sound, and a second repair has nothing to do. */
    const uint32_t rule = oaledva_report_rule(theirs.repaired);
    if (fits && !refused && rule != OALEDVA_RULE_PAGE_TWICE && !oaledva_sound(theirs.again)) stop("a repaired board is not sound");
}

void compare(size_t boards) {
    for (size_t i = 0; i < sizeof memory; i++) memory[i] = (uint8_t)(random_at(i / 16 % 5) >> (i % 16 * 4));
    memcpy(memory_before, memory, sizeof memory);
    for (size_t i = 0; i < boards; i++) compare_one(i);
    printf("%zu small boards:", boards);
    for (size_t i = 0; i < KINDS; i++) {
        printf("%s %s %zu", i == 0 ? "" : i == DROPPED || i == LOWER_LEFT ? ";\n " : ",", KIND[i], came[i]);
        if (came[i] < boards / 300) stop("too few boards of a kind came");
    }
    puts("");
}
