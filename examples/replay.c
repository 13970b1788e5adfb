/* Replays a log from standard input on a fresh board of its own size, memory zero, and writes a row for each call. Where the log
 * is refused it says where and why, after the rows of the calls before, and ends with status 1. */
#include <inttypes.h>
#include <oaledva.h>
#include <stdio.h>
#include <stdlib.h>

/* A board of a header's numbers. Where they are out of their limits it has no buffers, and every call is refused by 1. */
static oaledva_board board_of(oaledva_log_entry header) {
    const size_t frames = header.fields[0], uncached = header.fields[1];
    const size_t processes = header.fields[2], lines = header.fields[3];
    const size_t bytes = oaledva_board_bytes(frames, uncached, processes, lines);
    void *const block = bytes == 0 ? NULL : calloc(bytes, 1);
    oaledva_board b;
    if (bytes != 0 && block == NULL) {
        fprintf(stderr, "replay: a board of %zu frames takes %zu bytes, and there is no memory for it\n", frames, bytes);
        exit(1);
    }
    if (oaledva_done(oaledva_board_over(&b, frames, uncached, processes, lines, block, bytes))) {}
    return b;
}

static void row(uint64_t call, oaledva_answer answer) {
    printf("%" PRIu64 " %u %u %u\n", call, oaledva_number(answer), oaledva_value(answer), oaledva_mark(answer).mark);
}

int main(void) {
    static uint8_t bytes[1 << 16];
    static oaledva_log_entry entries[256];
    oaledva_log_reader reader = OALEDVA_LOG_READER;
    oaledva_board b = {0};
    uint64_t calls = 0, reason;
    size_t length, given;
    puts("call answer value mark");
    while ((length = fread(bytes, 1, sizeof bytes, stdin)) != 0) {
        oaledva_log_piece piece = {bytes, length};
        while ((given = oaledva_log_reader_take(&reader, &piece, entries, OALEDVA_COUNT(entries))) != 0)
            for (size_t i = 0; i < given; i++)
                if (entries[i].kind == OALEDVA_LOG_HEADER) b = board_of(entries[i]);
                else row(++calls, oaledva_board_perform(&b, entries[i]));
        if (oaledva_log_reader_reason(&reader) != 0) break;
    }
    if (ferror(stdin)) {
        perror("replay");
        return 1;
    }
    if ((reason = oaledva_log_reader_end(&reader)) != 0) {
        fflush(stdout);
        fprintf(stderr, "replay: log refused at byte %" PRIu64 ", after %" PRIu64 " calls: %s\n",
                oaledva_log_reader_place(&reader), calls, oaledva_log_words(reason));
        return 1;
    }
    free(b.words); /* where the block begins */
    return 0;
}
