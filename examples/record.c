/* Writes a log while it runs, to standard output: the session of the scope document, call by call. `record | replay` makes the
 * same calls again. */
#include <oaledva.h>
#include <stdio.h>
#include <stdlib.h>

OALEDVA_STATIC_BOARD(b, 4, 1, 2, 2);

static void put(oaledva_log_entry entry) {
    const oaledva_log_bytes e = oaledva_log_encode(entry);
    if (e.length == 0) {
        fprintf(stderr, "record: %s: kind %u, field %u\n", oaledva_log_words(e.reason), (unsigned)entry.kind, e.field);
        exit(1);
    }
    if (fwrite(e.bytes, 1, e.length, stdout) != e.length) {
        perror("record");
        exit(1);
    }
}

/* To the log, then to the board: so what was called is logged even if the program ends in the call. */
static void call(oaledva_log_entry entry) {
    put(entry);
    const oaledva_answer answer = oaledva_board_perform(&b, entry);
    if (!oaledva_done(answer)) fprintf(stderr, "record: a call was refused by %u\n", oaledva_number(answer));
}

int main(void) {
    put(oaledva_log_header(b.frames, b.uncached, b.processes, b.lines));
    call(oaledva_map_call(0x200000, 1, OALEDVA_WRITABLE));
    call(oaledva_attach_call(0, 0, 2048, OALEDVA_WRITABLE));
    call(oaledva_store_call(0, 4, 0, 50));
    call(oaledva_load_call(0, 1, 3));
    call(oaledva_load_call(0, 1, 32));
    call(oaledva_load_call(0, 1, 3));
    call(oaledva_load_call(1, 1, 3));
    call(oaledva_unmap_call(0x200000));
    call(oaledva_load_call(0, 1, 3));
    call(oaledva_map_call(0x200000, 1, OALEDVA_READ_ONLY));
    call(oaledva_load_call(0, 1, 3));
    call(oaledva_store_call(0, 1, 3, 1));
    return 0;
}
