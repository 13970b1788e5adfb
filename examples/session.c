/* The session of the scope document, call by call. */
#include <oaledva.h>
#include <stdio.h>

OALEDVA_STATIC_BOARD(b, 4, 1, 2, 2);

static void row(oaledva_answer answer) {
    static int call;
    printf("%d %u %u %u\n", ++call, oaledva_number(answer), oaledva_value(answer), oaledva_mark(answer).mark);
}

int main(void) {
    puts("call answer value hit"); /* the scope document's words: the last is the mark, 1 for a hit */
    row(oaledva_board_map(&b, 0x200000, 1, OALEDVA_WRITABLE));
    row(oaledva_board_attach(&b, 0, 0, 2048, OALEDVA_WRITABLE));
    row(oaledva_board_store(&b, 0, 4, 0, 50));
    row(oaledva_board_load(&b, 0, 1, 3));
    row(oaledva_board_load(&b, 0, 1, 32));
    row(oaledva_board_load(&b, 0, 1, 3));
    row(oaledva_board_load(&b, 1, 1, 3));
    row(oaledva_board_unmap(&b, 0x200000));
    row(oaledva_board_load(&b, 0, 1, 3));
    row(oaledva_board_map(&b, 0x200000, 1, OALEDVA_READ_ONLY));
    row(oaledva_board_load(&b, 0, 1, 3));
    row(oaledva_board_store(&b, 0, 1, 3, 1));
    return 0;
}
