/* Hands pages over without a copy: an importer fills a page, the supervisor moves it into the recorder's segment, and the
 * recorder reads it there, from the same frame. The importer has it no longer, and gets another frame for its next page. */
#include <oaledva.h>
#include <stdio.h>
#include <stdlib.h>

OALEDVA_STATIC_BOARD(b, 4, 1, 2, 64);

enum { IMPORTER = 0, RECORDER = 1 };           /* processes */
enum { IMPORTED = 2048, RECORDED = 2049 };     /* segments */
enum { SEGMENT_PAGES = 1024, PAGE_BYTES = 4096 };
enum { SAMPLES = PAGE_BYTES / 2 };             /* two bytes each */

/* The value of a call that has to be done. */
static uint32_t done(oaledva_answer answer) {
    if (!oaledva_done(answer)) {
        fprintf(stderr, "hand_over: refused by number %u\n", oaledva_number(answer));
        exit(1);
    }
    return oaledva_value(answer);
}

int main(void) {
    const uint64_t filled = (uint64_t)IMPORTED * SEGMENT_PAGES;
    done(oaledva_board_attach(&b, IMPORTER, 0, IMPORTED, OALEDVA_WRITABLE));
    done(oaledva_board_attach(&b, RECORDER, 0, RECORDED, OALEDVA_READ_ONLY));
    for (uint32_t page = 0; page < 3; page++) {
        const uint64_t handed = (uint64_t)RECORDED * SEGMENT_PAGES + page;
        uint32_t sum = 0;
        done(oaledva_board_map(&b, filled, 1 + page, OALEDVA_WRITABLE)); /* zeros */
        for (uint32_t i = 0; i < SAMPLES; i++) done(oaledva_board_store(&b, IMPORTER, 2, 2 * i, 4000 + 10 * page + i % 8));

        /* The importer has finished: after this it finds nothing there. */
        done(oaledva_board_move(&b, filled, handed));
        const oaledva_answer late = oaledva_board_load(&b, IMPORTER, 2, 0);

        for (uint32_t i = 0; i < SAMPLES; i++) sum += done(oaledva_board_load(&b, RECORDER, 2, PAGE_BYTES * page + 2 * i));
        printf("page 0x%x: %d samples read, sum %u; the importer is refused by %u\n", (unsigned)handed, SAMPLES, sum,
               oaledva_number(late));
    }
    return 0;
}
