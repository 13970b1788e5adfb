#include "pairs.h"

oaledva_report pairs_report(uint64_t number, uint64_t rule, uint64_t place, uint64_t dropped) {
    const oaledva_report report = {(number << OALEDVA_REPORT_NUMBER_AT) + (rule << OALEDVA_REPORT_RULE_AT)
                                   + (dropped << OALEDVA_REPORT_DROPPED_AT) + place};
    return report;
}

/* Rule 1. */
int pairs_fits(const oaledva_board *b) {
    return OALEDVA_KEEPS_LIMITS(b->frames, b->uncached, b->processes, b->lines)
           && b->slots_length == OALEDVA_SLOTS(b->processes) && b->words_length == OALEDVA_WORDS(b->frames)
           && b->records_length == OALEDVA_RECORDS(b->lines) && b->cache_length == OALEDVA_CACHE(b->lines)
           && b->memory_length == OALEDVA_MEMORY(b->frames);
}

/* A record, taken apart. */
static uint64_t name_of(const oaledva_board *b, size_t i) { return b->records[2 * i]; }
static uint64_t line_of(const oaledva_board *b, size_t i) { return b->records[2 * i + 1] >> 3; }
static int is_changed(const oaledva_board *b, size_t i) { return (b->records[2 * i + 1] & 4) != 0; }
static int may_write(const oaledva_board *b, size_t i) { return (b->records[2 * i + 1] & 2) != 0; }
static int is_valid(const oaledva_board *b, size_t i) { return (b->records[2 * i + 1] & 1) != 0; }

int pairs_holds(const oaledva_board *b, size_t i) {
    return is_valid(b, i) && name_of(b, i) % b->lines == i && line_of(b, i) < 256 * (uint64_t)b->frames;
}

static int ordinary(uint64_t page) { return page >= 0x200000 && page <= 0xFFBFFFFF; }

/* The word of a frame from U up names this page. */
static int names(const oaledva_board *b, size_t frame, uint64_t page) {
    return frame >= b->uncached && ordinary(page) && (b->words[frame] == page * 4 + 1 || b->words[frame] == page * 4 + 3);
}

/* Rule 2: the lowest frame whose page another has too; F where there is none. */
static size_t doubled_page(const oaledva_board *b) {
    for (size_t f = b->uncached; f < b->frames; f++) {
        const uint64_t page = b->words[f] / 4;
        if (!names(b, f, page)) continue;
        for (size_t g = f + 1; g < b->frames; g++)
            if (names(b, g, page)) return f;
    }
    return b->frames;
}

/* Rule 3: the lowest record whose physical line another holds too; L where there is none. */
static size_t doubled_line(const oaledva_board *b) {
    for (size_t i = 0; i < b->lines; i++) {
        if (!pairs_holds(b, i)) continue;
        for (size_t j = i + 1; j < b->lines; j++)
            if (pairs_holds(b, j) && line_of(b, j) == line_of(b, i)) return i;
    }
    return b->lines;
}

/* Rule 4, of one held line. */
static int is_astray(const oaledva_board *b, size_t i) {
    const uint64_t name = name_of(b, i), page = name / 256;
    if (name >> 28 == 1) { /* prefix 1 */
        const uint64_t line = name & 0xfffffff, frame = line / 256;
        return !(frame >= b->uncached && frame < b->frames && b->words[frame] == 0 && line == line_of(b, i) && may_write(b, i));
    }
    for (size_t f = b->uncached; f < b->frames; f++)
        if (names(b, f, page)) return line_of(b, i) != f * 256 + name % 256 || may_write(b, i) != (int)(b->words[f] / 2 % 2);
    return 1;
}

/* Rule 5, of one held line. */
static int is_stale(const oaledva_board *b, size_t i) {
    return !is_changed(b, i) && memcmp(b->cache + 16 * i, b->memory + 16 * line_of(b, i), 16) != 0;
}

oaledva_report pairs_check(const oaledva_board *b) {
    size_t at;
    if (!pairs_fits(b)) return pairs_report(0, OALEDVA_RULE_LENGTHS, 0, 0);
    at = doubled_page(b);
    if (at < b->frames) return pairs_report(0, OALEDVA_RULE_PAGE_TWICE, at, 0);
    at = doubled_line(b);
    if (at < b->lines) return pairs_report(0, OALEDVA_RULE_LINE_TWICE, at, 0);
    for (size_t i = 0; i < b->lines; i++)
        if (pairs_holds(b, i) && is_astray(b, i)) return pairs_report(0, OALEDVA_RULE_ASTRAY, i, 0);
    for (size_t i = 0; i < b->lines; i++)
        if (pairs_holds(b, i) && is_stale(b, i)) return pairs_report(0, OALEDVA_RULE_STALE, i, 0);
    return pairs_report(0, 0, 0, 0);
}

oaledva_report pairs_repair(oaledva_board *b, uint8_t *dropped) {
    const oaledva_report before = pairs_check(b);
    const uint32_t rule = oaledva_report_rule(before);
    size_t many = 0;
    if (rule == OALEDVA_RULE_LENGTHS || rule == OALEDVA_RULE_PAGE_TWICE) return before;
    for (size_t i = 0; i < b->lines; i++) {
        int breaks = pairs_holds(b, i) && (is_astray(b, i) || is_stale(b, i));
        /* Lower ones that are held still are those that are kept. */
        for (size_t j = 0; j < i && !breaks; j++)
            breaks = pairs_holds(b, i) && pairs_holds(b, j) && line_of(b, j) == line_of(b, i);
        if (breaks) b->records[2 * i] = b->records[2 * i + 1] = 0;
        dropped[i] = (uint8_t)breaks;
        many += (size_t)breaks;
    }
    return pairs_report(0, rule, oaledva_report_place(before), many);
}
