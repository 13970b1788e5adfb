/* The check and the repair as the rules' words say them, each rule by itself: every two frames and every two records are compared,
 * and for each line all frames are gone through. It takes no scratch, and its cost grows as the square. */
#ifndef PAIRS_H
#define PAIRS_H
#include <oaledva.h>

oaledva_report pairs_check(const oaledva_board *b);
/* `dropped` has as many elements as the board has lines, where it keeps rule 1. */
oaledva_report pairs_repair(oaledva_board *b, uint8_t *dropped);

/* Whether a board keeps rule 1; a record holds a line. */
int pairs_fits(const oaledva_board *b);
int pairs_holds(const oaledva_board *b, size_t record);

/* A report of its four parts. */
oaledva_report pairs_report(uint64_t number, uint64_t rule, uint64_t place, uint64_t dropped);

#endif
