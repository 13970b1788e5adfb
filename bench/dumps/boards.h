/* Boards of many sizes, each sound, with a page in every frame from U up and an unchanged line in every record. */
#ifndef BOARDS_H
#define BOARDS_H
#include <oaledva.h>

/* How a board's pages lie, and its lines. */
typedef enum sort {
    RISING,   /* pages rise with their frames, and lines with their places */
    SCATTERED, /* pages in no order, lines of frames in no order */
    ALIKE,    /* pages that agree in as many low bits as there are, so that a search of them is as long as it gets; the physical
                 lines likewise */
    SORTS
} sort;

extern const char *const SORT_NAME[SORTS], *const SORT_WORDS[SORTS];

/* A board, and what the two calls are lent besides. Its memory is zeros that nobody may write. */
typedef struct bench_board {
    oaledva_board b;
    uint64_t *keys, *links;
    uint8_t *dropped;
    uint64_t *records; /* as they were */
} bench_board;

#define FRAMES_LEAST 1024
#define LINES_OF(frames) ((frames) / 16)
#define UNCACHED_OF(frames) ((frames) / 512)

/* Frames are a power of two from FRAMES_LEAST up. Ends the program where there is no memory. */
bench_board board_of(sort which, size_t frames);
void board_free(bench_board *of);

/* A number in no order, by its place in a run: splitmix64. */
uint64_t random_at(uint64_t place);

void stop(const char *words);

#endif
