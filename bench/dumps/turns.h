/* How many turns the library's search makes: its method, written from its description, with a count.
 * To find keys that stand twice, each place, a frame or a record, is a node of a tree, with two links. The search for a key goes
 * from place 0 by the key's bits, from the lowest up, until it meets a place that has the key or an open link, where the place
 * that it is made for is put. A turn is one place that is met and has another key. A key of 0 is no key, and such a place is not
 * put, but place 0 is the first of the tree in any case. */
#ifndef TURNS_H
#define TURNS_H
#include <oaledva.h>

typedef struct turns {
    size_t searches, most;
    double mean;
    int doubled;
} turns;

/* Links are two for each key, and may hold anything before. */
turns turns_of(const uint64_t *keys, size_t length, uint64_t *links);

/* The keys of a board that keeps rule 1: of each frame the page that it has, of each record one more than the physical line that
 * it holds; else 0. */
void page_keys(const oaledva_board *b, uint64_t *keys);
void line_keys(const oaledva_board *b, uint64_t *keys);

/* By the description, no search of a page makes more turns, and none of a line. */
#define PAGE_TURNS 32
#define LINE_TURNS 29

#endif
