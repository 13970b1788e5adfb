/* What the header adds for logs of calls, tried: entries of calls and their bytes, reading in pieces, refusals and where they
 * are, calls made again on a board, and the library's four functions with buffers that do not fit. tests/c/run compiles this as
 * C99, C11, C++11 and C++17 and runs each. */
#include "expect.h"
#include <string.h>

#define BEYOND ((uint64_t)1 << 32)

/* A log of a call of each kind, loads and stores apart, and of one of a list: in bytes, an entry to a line. */
static const uint8_t LOG[] = {
    4, 1, 2, 2,
    5, 0x80, 0x80, 0x80, 1, 3, 0,
    7, 0x80, 0x80, 0x80, 1, 1,
    3, 1, 0xff, 3, 0x80, 16, 1,
    1, 1, 1, 4, 0x80, 0x80, 0x80, 0xfe, 7, 0xff, 0xff, 0xff, 0xff, 15,
    1, 1, 0, 1, 0x83, 0x80, 0x80, 0xfe, 7, 0,
    2, 1, 2, 8, 0x8b, 20,
    2, 0, 4, 0x80, 0x80, 0x80, 0x80, 32, 0,
    8,
    9, 0x80, 0x80, 0x80, 0x80, 2,
    10, 0x80, 6,
    9, 0x80, 0x80, 0x80, 0x80, 2,
    11,
    1, 3, 1, 1, 9, 7,
    4, 1, 0xff, 3,
    12, 0x80, 0x80, 0x80, 1, 0x81, 0x80, 0x80, 1,
    6, 0x81, 0x80, 0x80, 1,
};
enum { LOG_ENTRIES = 17, LOG_BYTES = sizeof LOG };

/* The same, made by the header's functions. */
static void made(oaledva_log_entry *entries) {
    const oaledva_permission two = {2}; /* anything but 0 says yes, and is logged as 1 */
    oaledva_access listed = oaledva_store_access(3, 1, 9, 7);
    size_t n = 0;
    listed.kind.store = UINT32_MAX;
    entries[n++] = oaledva_log_header(4, 1, 2, 2);
    entries[n++] = oaledva_map_call(PAGE, 3, OALEDVA_READ_ONLY);
    entries[n++] = oaledva_protect_call(PAGE, OALEDVA_WRITABLE);
    entries[n++] = oaledva_attach_call(1, 511, 2048, two);
    entries[n++] = oaledva_store_call(1, 4, 511u << 22, UINT32_MAX);
    entries[n++] = oaledva_load_call(1, 1, (511u << 22) + 3);
    entries[n++] = oaledva_supervisor_store_call(2, 8, 0x0a0b);
    entries[n++] = oaledva_supervisor_load_call(4, PAGE * 4096);
    entries[n++] = oaledva_flush_all_call();
    entries[n++] = oaledva_tag_call(PAGE * 256);
    entries[n++] = oaledva_load_and_map_call(3 * 256);
    entries[n++] = oaledva_tag_call(PAGE * 256);
    entries[n++] = oaledva_drop_tag_call();
    entries[n++] = oaledva_access_call(listed);
    entries[n++] = oaledva_detach_call(1, 511);
    entries[n++] = oaledva_move_call(PAGE, PAGE + 1);
    entries[n++] = oaledva_unmap_call(PAGE + 1);
    EXPECT(n == LOG_ENTRIES);
}

static int same(oaledva_log_entry entry, uint64_t kind, const uint64_t *fields) {
    return entry.kind == kind && memcmp(entry.fields, fields, sizeof entry.fields) == 0;
}

/* An entry's words stand where they should: kind by kind, in the order of the fields. */
static void in_words(void) {
    static const uint64_t words[LOG_ENTRIES][6] = {
        {0, 4, 1, 2, 2, 0},
        {5, PAGE, 3, 0, 0, 0},
        {7, PAGE, 1, 0, 0, 0},
        {3, 1, 511, 2048, 1, 0},
        {1, 1, 1, 4, 0x7fc00000, 0xffffffff},
        {1, 1, 0, 1, 0x7fc00003, 0},
        {2, 1, 2, 8, 0x0a0b, 0},
        {2, 0, 4, PAGE * 4096, 0, 0},
        {8, 0, 0, 0, 0, 0},
        {9, PAGE * 256, 0, 0, 0, 0},
        {10, 3 * 256, 0, 0, 0, 0},
        {9, PAGE * 256, 0, 0, 0, 0},
        {11, 0, 0, 0, 0, 0},
        {1, 3, 1, 1, 9, 7},
        {4, 1, 511, 0, 0, 0},
        {12, PAGE, PAGE + 1, 0, 0, 0},
        {6, PAGE + 1, 0, 0, 0, 0},
    };
    oaledva_log_entry entries[LOG_ENTRIES];
    made(entries);
    for (size_t i = 0; i < LOG_ENTRIES; i++) EXPECT(same(entries[i], words[i][0], words[i] + 1));
    EXPECT(sizeof(oaledva_log_entry) == 48 && OALEDVA_LOG_ENTRY_WORDS == 6);
    /* An address that does not fit 32 bits is the kernel's, as in a single call. No other number is changed. */
    EXPECT(oaledva_load_call(SIZE_MAX, 3, BEYOND + 5).fields[3] == ((uint64_t)1 << 31) + 5);
    EXPECT(oaledva_store_call(SIZE_MAX, 3, UINT64_MAX, 1).fields[3] == UINT32_MAX);
    EXPECT(oaledva_load_call(SIZE_MAX, 3, 0).fields[0] == SIZE_MAX);
    EXPECT(oaledva_supervisor_load_call(3, UINT64_MAX).fields[2] == UINT64_MAX);
    EXPECT(oaledva_map_call(UINT64_MAX, SIZE_MAX, OALEDVA_WRITABLE).fields[1] == SIZE_MAX);
    EXPECT(oaledva_move_call(UINT64_MAX, 5).fields[0] == UINT64_MAX && oaledva_move_call(5, UINT64_MAX).fields[1] == UINT64_MAX);
}

/* The bytes of each entry, one behind the other. */
static void in_bytes(void) {
    oaledva_log_entry entries[LOG_ENTRIES];
    size_t at = 0;
    made(entries);
    for (size_t i = 0; i < LOG_ENTRIES; i++) {
        const oaledva_log_bytes e = oaledva_log_encode(entries[i]);
        EXPECT(e.length != 0 && at + e.length <= LOG_BYTES && e.reason == 0 && e.field == 0);
        EXPECT(memcmp(e.bytes, LOG + at, e.length) == 0);
        at += e.length;
    }
    EXPECT(at == LOG_BYTES);
}

/* What no log can hold: why, and which field; and no byte of it. */
static void refused_entries(void) {
    static const struct {
        oaledva_log_entry entry;
        uint32_t reason, field;
    } given[] = {
        {{13, {0, 0, 0, 0, 0}}, OALEDVA_LOG_UNKNOWN_KIND, 0},
        {{UINT64_MAX, {0, 9, 0, 0, 0}}, OALEDVA_LOG_UNKNOWN_KIND, 0},
        {{BEYOND + 8, {0, 0, 0, 0, 0}}, OALEDVA_LOG_UNKNOWN_KIND, 0},
        {{1, {0, 2, 4, 0, 0}}, OALEDVA_LOG_TOO_LARGE, 2},
        {{1, {0, 1, BEYOND, 0, 0}}, OALEDVA_LOG_TOO_LARGE, 3},
        {{1, {0, 0, 4, BEYOND, 0}}, OALEDVA_LOG_TOO_LARGE, 4},
        {{1, {0, 1, 4, 0, BEYOND}}, OALEDVA_LOG_TOO_LARGE, 5},
        {{1, {0, 0, 4, 0, 1}}, OALEDVA_LOG_TOO_LARGE, 5},          /* a load with a value */
        {{1, {0, 0, 4, UINT64_MAX, 1}}, OALEDVA_LOG_TOO_LARGE, 4}, /* the first of two */
        {{2, {2, 4, 0, 0, 0}}, OALEDVA_LOG_TOO_LARGE, 1},
        {{2, {0, UINT64_MAX, 0, 0, 0}}, OALEDVA_LOG_TOO_LARGE, 2},
        {{2, {1, 4, 0, BEYOND, 0}}, OALEDVA_LOG_TOO_LARGE, 4},
        {{2, {0, 4, 0, 1, 0}}, OALEDVA_LOG_TOO_LARGE, 4},
        {{2, {1, 4, 0, 1, 1}}, OALEDVA_LOG_TOO_LARGE, 5}, /* a field that it does not have */
        {{3, {0, 0, 2048, 2, 0}}, OALEDVA_LOG_TOO_LARGE, 4},
        {{4, {0, 0, 1, 0, 0}}, OALEDVA_LOG_TOO_LARGE, 3},
        {{5, {0, 0, UINT64_MAX, 0, 0}}, OALEDVA_LOG_TOO_LARGE, 3},
        {{7, {0, 2, 0, 0, 0}}, OALEDVA_LOG_TOO_LARGE, 2},
        {{8, {1, 0, 0, 0, 0}}, OALEDVA_LOG_TOO_LARGE, 1},
        {{12, {0, 0, 1, 0, 0}}, OALEDVA_LOG_TOO_LARGE, 3},
        {{0, {1, 1, 1, 1, 1}}, OALEDVA_LOG_TOO_LARGE, 5},
    };
    oaledva_access load = oaledva_load_access(0, 4, 0);
    for (size_t i = 0; i < OALEDVA_COUNT(given); i++) {
        const oaledva_log_bytes e = oaledva_log_encode(given[i].entry);
        EXPECT(e.length == 0 && e.reason == given[i].reason && e.field == given[i].field);
    }
    load.value = 50;
    EXPECT(oaledva_log_encode(oaledva_access_call(load)).field == 5);
    /* The largest that it can, of 64 bits and of 32: ten bytes and five. */
    EXPECT(oaledva_log_encode(oaledva_log_header(SIZE_MAX, SIZE_MAX, SIZE_MAX, SIZE_MAX)).length == 40);
    EXPECT(oaledva_log_encode(oaledva_store_call(SIZE_MAX, UINT32_MAX, BEYOND - 1, UINT32_MAX)).length == 1 + 10 + 1 + 15);
    EXPECT(oaledva_log_encode(oaledva_move_call(UINT64_MAX, UINT64_MAX)).length == 1 + 20);
}

/* The library's own function to write: its lengths, and that it touches no byte that is not the entry's. */
static void written(void) {
    static const uint64_t unmap[7] = {6, PAGE + 1, 0, 0, 0, 0, 0}, wrong[6] = {6, PAGE, 1, 0, 0, 0};
    static const struct {
        size_t words, bytes;
    } lengths[] = {{5, 60}, {7, 60}, {0, 60}, {6, 59}, {6, 0}};
    uint8_t bytes[64], before[64];
    oaledva_log_written w;
    memset(bytes, 0xa5, sizeof bytes);
    memcpy(before, bytes, sizeof bytes);
    for (size_t i = 0; i < OALEDVA_COUNT(lengths); i++) {
        w = oaledva_log_write(unmap, lengths[i].words, bytes, lengths[i].bytes);
        EXPECT(w.packed == BEYOND && oaledva_log_written_reason(w) == OALEDVA_LOG_MISFIT);
        EXPECT(oaledva_log_written_bytes(w) == 0 && oaledva_log_written_field(w) == 0);
    }
    w = oaledva_log_write(NULL, 0, NULL, 0);
    EXPECT(oaledva_log_written_reason(w) == OALEDVA_LOG_MISFIT);
    w = oaledva_log_write(wrong, 6, bytes, 60);
    EXPECT(w.packed == ((uint64_t)6 << 32) + 2 && oaledva_log_written_reason(w) == OALEDVA_LOG_TOO_LARGE);
    EXPECT(oaledva_log_written_bytes(w) == 0 && oaledva_log_written_field(w) == 2);
    EXPECT(memcmp(bytes, before, sizeof bytes) == 0);
    for (size_t room = 60; room <= 64; room++) {
        w = oaledva_log_write(unmap, 6, bytes, room);
        EXPECT(w.packed == 5 && oaledva_log_written_bytes(w) == 5);
        EXPECT(oaledva_log_written_reason(w) == 0 && oaledva_log_written_field(w) == 0);
        EXPECT(memcmp(bytes, LOG + LOG_BYTES - 5, 5) == 0 && memcmp(bytes + 5, before + 5, sizeof bytes - 5) == 0);
    }
    EXPECT(OALEDVA_LOG_ENTRY_BYTES == 60);
}

/* Reads bytes in pieces of a length, with room for so many entries, and gives how many came. Behind those that come nothing is
 * written. */
static size_t read_all(
    oaledva_log_reader *reader, const uint8_t *bytes, size_t length, size_t cut, size_t room, oaledva_log_entry *all) {
    oaledva_log_entry entries[9], untouched;
    size_t count = 0, given;
    memset(&untouched, 0x5a, sizeof untouched);
    for (size_t at = 0; at < length; at += cut) {
        oaledva_log_piece piece = {bytes + at, length - at < cut ? length - at : cut};
        do {
            const size_t left = piece.length;
            const uint64_t taken = reader->state[0];
            for (size_t i = 0; i < 9; i++) entries[i] = untouched;
            given = oaledva_log_reader_take(reader, &piece, entries, room);
            EXPECT(given <= room && left - piece.length == reader->state[0] - taken);
            EXPECT(piece.bytes + piece.length == bytes + at + (length - at < cut ? length - at : cut));
            for (size_t i = given; i < 9; i++) EXPECT(memcmp(&entries[i], &untouched, sizeof untouched) == 0);
            memcpy(all + count, entries, given * sizeof *entries);
            count += given;
        } while (given != 0);
        EXPECT(room == 0 || piece.length == 0 || oaledva_log_reader_reason(reader) != 0);
    }
    return count;
}

/* Wherever the log is cut, and however much room there is, the same entries come. */
static void in_pieces(void) {
    oaledva_log_entry expected[LOG_ENTRIES], all[LOG_ENTRIES];
    made(expected);
    for (size_t cut = 1; cut <= LOG_BYTES; cut++)
        for (size_t room = 1; room <= 9; room++) {
            oaledva_log_reader reader = OALEDVA_LOG_READER;
            EXPECT(read_all(&reader, LOG, LOG_BYTES, cut, room, all) == LOG_ENTRIES);
            EXPECT(memcmp(all, expected, sizeof all) == 0);
            EXPECT(oaledva_log_reader_reason(&reader) == 0 && oaledva_log_reader_end(&reader) == 0);
            EXPECT(oaledva_log_reader_place(&reader) == LOG_BYTES);
        }
    {
        /* Zeros are a reader too, without room nothing is taken, and an empty piece may be NULL. */
        static oaledva_log_reader zeros;
        oaledva_log_piece none = {NULL, 0}, piece = {LOG, LOG_BYTES};
        EXPECT(oaledva_log_reader_end(&zeros) == OALEDVA_LOG_CUT && oaledva_log_reader_place(&zeros) == 0);
        EXPECT(oaledva_log_reader_take(&zeros, &none, all, LOG_ENTRIES) == 0 && none.bytes == NULL);
        EXPECT(oaledva_log_reader_take(&zeros, &piece, NULL, 0) == 0 && piece.length == LOG_BYTES);
        EXPECT(oaledva_log_reader_reason(&zeros) == 0 && oaledva_log_reader_end(&zeros) == OALEDVA_LOG_CUT);
        EXPECT(oaledva_log_reader_take(&zeros, &piece, all, LOG_ENTRIES) == LOG_ENTRIES && piece.length == 0);
        EXPECT(memcmp(all, expected, sizeof all) == 0 && oaledva_log_reader_end(&zeros) == 0);
    }
}

/* Logs that are refused: where, why, and after how many entries. In pieces of every length. */
static void refused_logs(void) {
    static const struct {
        uint8_t length, bytes[20];
        uint8_t entries, place, reason;
    } given[] = {
        {0, {0}, 0, 0, OALEDVA_LOG_CUT},
        {3, {4, 1, 2}, 0, 3, OALEDVA_LOG_CUT},
        {5, {4, 1, 2, 2, 5}, 1, 5, OALEDVA_LOG_CUT},
        {6, {4, 1, 2, 2, 6, 0x80}, 1, 6, OALEDVA_LOG_CUT},
        {6, {4, 1, 2, 2, 12, 5}, 1, 6, OALEDVA_LOG_CUT},
        {2, {0x80, 0}, 0, 0, OALEDVA_LOG_PADDED},
        {8, {4, 1, 2, 2, 8, 9, 0x81, 0}, 2, 6, OALEDVA_LOG_PADDED},
        {15, {4, 1, 2, 2, 9, 0x80, 0x80, 0x80, 0x80, 0x80, 0x80, 0x80, 0x80, 0x80, 0}, 1, 5, OALEDVA_LOG_PADDED},
        {15, {4, 1, 2, 2, 9, 0x80, 0x80, 0x80, 0x80, 0x80, 0x80, 0x80, 0x80, 0x80, 2}, 1, 5, OALEDVA_LOG_TENTH_BYTE},
        {15, {4, 1, 2, 2, 9, 0x80, 0x80, 0x80, 0x80, 0x80, 0x80, 0x80, 0x80, 0x80, 0x81}, 1, 5, OALEDVA_LOG_TENTH_BYTE},
        {6, {4, 1, 2, 2, 0, 8}, 1, 4, OALEDVA_LOG_UNKNOWN_KIND},
        {6, {4, 1, 2, 2, 13, 8}, 1, 4, OALEDVA_LOG_UNKNOWN_KIND},
        {7, {4, 1, 2, 2, 8, 0x8c, 1}, 2, 5, OALEDVA_LOG_UNKNOWN_KIND},
        {9, {4, 1, 2, 2, 7, 0x80, 1, 2, 8}, 1, 7, OALEDVA_LOG_TOO_LARGE},
        {10, {4, 1, 2, 2, 8, 1, 0, 2, 4, 0}, 2, 7, OALEDVA_LOG_TOO_LARGE},
        {10, {4, 1, 2, 2, 1, 0, 0, 4, 0, 1}, 1, 9, OALEDVA_LOG_TOO_LARGE},
        {12, {4, 1, 2, 2, 2, 1, 0x80, 0x80, 0x80, 0x80, 0x10, 8}, 1, 6, OALEDVA_LOG_TOO_LARGE},
    };
    oaledva_log_entry all[4];
    for (size_t i = 0; i < OALEDVA_COUNT(given); i++)
        for (size_t cut = 1; cut <= 20; cut++) {
            oaledva_log_reader reader = OALEDVA_LOG_READER, after;
            oaledva_log_piece more = {LOG, LOG_BYTES};
            const size_t count = read_all(&reader, given[i].bytes, given[i].length, cut, 1 + cut % 9, all);
            EXPECT(count == given[i].entries && oaledva_log_reader_end(&reader) == given[i].reason);
            EXPECT(oaledva_log_reader_place(&reader) == given[i].place);
            EXPECT(oaledva_log_reader_reason(&reader) == (given[i].reason == OALEDVA_LOG_CUT ? 0 : given[i].reason));
            if (given[i].reason == OALEDVA_LOG_CUT) continue;
            after = reader; /* nothing more is taken */
            EXPECT(oaledva_log_reader_take(&reader, &more, all, 4) == 0 && more.length == LOG_BYTES);
            EXPECT(memcmp(&after, &reader, sizeof reader) == 0);
        }
}

/* The library's own functions to read: lengths and states that do not fit change nothing. */
static void misfits(void) {
    static const oaledva_log_reader fresh = OALEDVA_LOG_READER;
    oaledva_log_entry entries[2], before[2];
    uint64_t *const words = (uint64_t *)entries;
    oaledva_log_piece piece = {LOG, LOG_BYTES};
    oaledva_log_reader reader = fresh, wild;
    memset(entries, 0x5a, sizeof entries);
    memcpy(before, entries, sizeof before);
    for (size_t length = 0; length <= 10; length++)
        EXPECT(oaledva_log_read(reader.state, length, LOG, LOG_BYTES, words, 12) == OALEDVA_LOG_NOTHING);
    for (size_t room = 1; room < 12; room++)
        EXPECT(room == 6 || oaledva_log_read(reader.state, 11, LOG, LOG_BYTES, words, room) == OALEDVA_LOG_NOTHING);
    EXPECT(memcmp(&reader, &fresh, sizeof reader) == 0);
    EXPECT(oaledva_log_reason(reader.state, 10, 1) == OALEDVA_LOG_MISFIT && oaledva_log_place(reader.state, 10) == 0);
    EXPECT(oaledva_log_reader_take(&reader, &piece, entries, SIZE_MAX) == 0 && piece.length == LOG_BYTES);
    EXPECT(oaledva_log_reader_take(&reader, &piece, entries, SIZE_MAX / 6 + 1) == 0 && piece.length == LOG_BYTES);
    memset(&wild, 0xff, sizeof wild);
    EXPECT(oaledva_log_reader_take(&wild, &piece, entries, 2) == 0 && piece.length == LOG_BYTES);
    EXPECT(oaledva_log_reader_reason(&wild) == OALEDVA_LOG_MISFIT);
    EXPECT(oaledva_log_reader_end(&wild) == OALEDVA_LOG_MISFIT && oaledva_log_reader_place(&wild) == 0);
    EXPECT(memcmp(entries, before, sizeof before) == 0);
    /* Entries are words. */
    EXPECT(oaledva_log_read(reader.state, 11, LOG, 5, words, 6) == 1 && reader.state[0] == 4 && entries[0].fields[3] == 2);
    EXPECT(entries[0].fields[4] == 0 && memcmp(&entries[1], &before[1], sizeof *before) == 0);
    EXPECT(OALEDVA_LOG_STATE_WORDS == 11 && sizeof(oaledva_log_reader) == 88);
}

/* What a call of a log does on a board is what the function of its name does on an equal one. */
static void performed(void) {
    OALEDVA_STATIC_BOARD(b, 4, 1, 2, 2);
    OALEDVA_STATIC_BOARD(by_name, 4, 1, 2, 2);
    static const oaledva_log_entry none[] = {
        {0, {4, 1, 2, 2, 0}},
        {13, {0, 0, 0, 0, 0}},
        {BEYOND + 8, {0, 0, 0, 0, 0}},
        {1, {1, 2, 4, 0x7fc00000, 0}},
        {1, {1, 1, BEYOND + 4, 0x7fc00000, 0}},
        {1, {1, 1, 4, BEYOND + 0x7fc00000, 0}},
        {1, {1, 1, 4, 0x7fc00000, BEYOND}},
        {1, {1, 0, 4, 0x7fc00000, 1}},
        {2, {2, 4, 8, 0, 0}},
        {2, {1, BEYOND + 4, 8, 0, 0}},
        {2, {1, 4, 8, BEYOND, 0}},
        {2, {0, 4, 8, 1, 0}},
        {3, {0, 0, 2048, 2, 0}},
        {5, {PAGE + 1, 2, 2, 0, 0}},
        {7, {PAGE, 2, 0, 0, 0}},
    };
    oaledva_log_entry calls[LOG_ENTRIES];
    oaledva_answer answers[LOG_ENTRIES];
    size_t n = 1, middle = 8; /* before flush all, when a line is held and changed */
    made(calls);
    answers[n++] = oaledva_board_map(&by_name, PAGE, 3, OALEDVA_READ_ONLY);
    answers[n++] = oaledva_board_protect(&by_name, PAGE, OALEDVA_WRITABLE);
    answers[n++] = oaledva_board_attach(&by_name, 1, 511, 2048, OALEDVA_WRITABLE);
    answers[n++] = oaledva_board_store(&by_name, 1, 4, 511u << 22, UINT32_MAX);
    answers[n++] = oaledva_board_load(&by_name, 1, 1, (511u << 22) + 3);
    answers[n++] = oaledva_board_supervisor_store(&by_name, 2, 8, 0x0a0b);
    answers[n++] = oaledva_board_supervisor_load(&by_name, 4, PAGE * 4096);
    answers[n++] = oaledva_board_flush_all(&by_name);
    answers[n++] = oaledva_board_tag(&by_name, PAGE * 256);
    answers[n++] = oaledva_board_load_and_map(&by_name, 3 * 256);
    answers[n++] = oaledva_board_tag(&by_name, PAGE * 256);
    answers[n++] = oaledva_board_drop_tag(&by_name);
    answers[n++] = oaledva_board_store(&by_name, 3, 1, 9, 7);
    answers[n++] = oaledva_board_detach(&by_name, 1, 511);
    answers[n++] = oaledva_board_move(&by_name, PAGE, PAGE + 1);
    answers[n++] = oaledva_board_unmap(&by_name, PAGE + 1);
    for (size_t i = 1; i < n; i++) {
        if (i == middle) {
            static uint8_t cache[sizeof b_cache];
            static uint64_t records[OALEDVA_COUNT(b_records)];
            memcpy(cache, b_cache, sizeof cache);
            memcpy(records, b_records, sizeof records);
            for (size_t j = 0; j < OALEDVA_COUNT(none); j++)
                EXPECT(gives(oaledva_board_perform(&b, none[j]), OALEDVA_SHAPE, 0, 0));
            EXPECT(memcmp(cache, b_cache, sizeof cache) == 0 && memcmp(records, b_records, sizeof records) == 0);
            EXPECT(b_words[2] == 0 && b_slots[0] == 0);
        }
        EXPECT(oaledva_board_perform(&b, calls[i]).packed == answers[i].packed);
    }
    EXPECT(gives(answers[5], 0, 0xff, OALEDVA_HIT) && gives(answers[7], 0, UINT32_MAX, OALEDVA_HIT));
    EXPECT(gives(answers[13], OALEDVA_RANGE, 0, 0) && gives(answers[15], 0, 0, 0) && gives(answers[16], 0, 0, 0));
    EXPECT(memcmp(b_slots, by_name_slots, sizeof b_slots) == 0 && memcmp(b_words, by_name_words, sizeof b_words) == 0);
    EXPECT(memcmp(b_records, by_name_records, sizeof b_records) == 0 && memcmp(b_cache, by_name_cache, sizeof b_cache) == 0);
    EXPECT(memcmp(b_memory, by_name_memory, sizeof b_memory) == 0 && b.tag.set == 0 && by_name.tag.set == 0);
    /* An address that does not fit 32 bits is refused as by name. */
    EXPECT(gives(oaledva_board_perform(&b, oaledva_load_call(1, 1, PAGE * 4096)), OALEDVA_KERNEL, 0, 0));
    /* What is read-only in a log is so on the board. */
    EXPECT(gives(oaledva_board_perform(&b, oaledva_map_call(PAGE, 1, OALEDVA_READ_ONLY)), 0, 0, 0) && b_words[1] % 4 == 1);
    EXPECT(gives(oaledva_board_perform(&b, oaledva_attach_call(0, 0, 2048, OALEDVA_READ_ONLY)), 0, 0, 0));
    EXPECT(b_slots[0] == 2048 * 2);
    EXPECT(gives(oaledva_board_perform(&b, oaledva_protect_call(PAGE, OALEDVA_WRITABLE)), 0, 0, 0) && b_words[1] % 4 == 3);
    EXPECT(gives(oaledva_board_perform(&b, oaledva_protect_call(PAGE, OALEDVA_READ_ONLY)), 0, 0, 0) && b_words[1] % 4 == 1);
    /* On a board without buffers every call is refused by 1. */
    memset(&b, 0, sizeof b);
    for (size_t i = 0; i < LOG_ENTRIES; i++) EXPECT(gives(oaledva_board_perform(&b, calls[i]), OALEDVA_SHAPE, 0, 0));
}

static void words(void) {
    for (uint64_t one = 1; one <= 6; one++) {
        EXPECT(strlen(oaledva_log_words(one)) != 0);
        for (uint64_t other = 1; other < one; other++)
            EXPECT(strcmp(oaledva_log_words(one), oaledva_log_words(other)) != 0);
    }
    EXPECT(strcmp(oaledva_log_words(OALEDVA_LOG_CUT), "the log is cut") == 0);
    EXPECT(strcmp(oaledva_log_words(0), "") == 0 && strcmp(oaledva_log_words(7), "") == 0);
    EXPECT(strcmp(oaledva_log_words(BEYOND + 4), "") == 0);
}

int main(void) {
    in_words();
    in_bytes();
    refused_entries();
    written();
    in_pieces();
    refused_logs();
    misfits();
    performed();
    words();
    return 0;
}
