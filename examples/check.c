/* Checks a board that came back from the field, repairs it, and says what was found and what was lost. The board is made here, by
 * calls, and then harmed, as a memory that fails would do it. rust/examples/inspect does this with a dump in a file. */
#include <oaledva.h>
#include <stdio.h>
#include <stdlib.h>

enum { FRAMES = 8, UNCACHED = 1, PROCESSES = 1, LINES = 8 };
enum { PAGE = 0x200000, SEGMENT = 2048, FRAME = 1 };
enum { CHANGED = 4, FRAME_UNIT = 8 * 256 }; /* of a record's second word: a mark; what a frame more adds to it */

OALEDVA_STATIC_BOARD(b, FRAMES, UNCACHED, PROCESSES, LINES);
static uint64_t keys[OALEDVA_KEYS(FRAMES, LINES)], links[OALEDVA_LINKS(FRAMES, LINES)]; /* scratch: it may hold anything */
static uint8_t dropped[LINES];

/* The value of a call that has to be done. */
static uint32_t done(oaledva_answer answer) {
    if (!oaledva_done(answer)) {
        fprintf(stderr, "check: refused by number %u\n", oaledva_number(answer));
        exit(1);
    }
    return oaledva_value(answer);
}

/* What a check, or a repair, said of the board. */
static void tell(const char *when, oaledva_report report) {
    const uint32_t rule = oaledva_report_rule(report);
    if (oaledva_report_number(report) != 0) { /* about the call: it says nothing of the board */
        fprintf(stderr, "check: the scratch is too short\n");
        exit(1);
    }
    if (oaledva_sound(report)) printf("%s: sound\n", when);
    else if (rule == OALEDVA_RULE_LENGTHS) printf("%s: rule %u, %s\n", when, rule, oaledva_rule_words(rule));
    else
        printf("%s: rule %u, %s %zu: %s\n", when, rule, rule == OALEDVA_RULE_PAGE_TWICE ? "frame" : "record",
               oaledva_report_place(report), oaledva_rule_words(rule));
}

static oaledva_report check(void) {
    return oaledva_board_check(&b, keys, OALEDVA_COUNT(keys), links, OALEDVA_COUNT(links));
}

static oaledva_report repair(void) {
    return oaledva_board_repair(&b, keys, OALEDVA_COUNT(keys), links, OALEDVA_COUNT(links), dropped, OALEDVA_COUNT(dropped));
}

int main(void) {
    /* In the field: a word for each line, all of them in the cache and not yet in memory. */
    done(oaledva_board_map(&b, PAGE, FRAME, OALEDVA_WRITABLE));
    done(oaledva_board_attach(&b, 0, 0, SEGMENT, OALEDVA_WRITABLE));
    for (uint32_t line = 0; line < LINES; line++) done(oaledva_board_store(&b, 0, 4, 16 * line, 100 + line));
    tell("as it was", check());

    /* On the way two records lose a bit: one its mark that the line was changed, the other one of its physical line. */
    b.records[2 * 2 + 1] &= ~(uint64_t)CHANGED;
    b.records[2 * 5 + 1] ^= 2 * FRAME_UNIT; /* line 5 of frame 3, and not of frame 1 */
    tell("brought back", check());

    const oaledva_report report = repair();
    tell("before the repair", report);
    printf("dropped: %zu lines, in records", oaledva_report_dropped(report));
    for (size_t i = 0; i < LINES; i++)
        if (dropped[i]) printf(" %zu", i);
    puts("");
    tell("after the repair", check());

    /* What was stored in those two lines and never written to memory is lost. The rest is there. */
    printf("words:");
    for (uint32_t line = 0; line < LINES; line++) printf(" %u", done(oaledva_board_load(&b, 0, 4, 16 * line)));
    puts("");

    /* Which frame of a doubled page has the right bytes, no repair can know: it reports the page and changes nothing. */
    b.words[4] = b.words[FRAME];
    tell("with a page twice", repair());
    return 0;
}
