/* The two routes through the C header, include/oaledva.h. The test in main.rs calls these; they add nothing of their own. */
#include "oaledva.h"
#include <stdbool.h>

typedef struct through_answer {
    uint32_t number, mark, value, hit;
    uint64_t packed;
} through_answer;

static through_answer unpacked(oaledva_answer answer) {
    through_answer parts = {oaledva_number(answer), oaledva_mark(answer).mark, oaledva_value(answer),
                            (uint32_t)oaledva_hit(answer), answer.packed};
    return parts;
}

/* What the test's mirror of the boards, and its lengths, must agree with. */
size_t through_board_bytes(void) { return sizeof(oaledva_board); }
size_t through_sets_board_bytes(void) { return sizeof(oaledva_sets_board); }

void through_lengths(size_t frames, size_t processes, size_t lines, size_t lengths[6]) {
    lengths[0] = OALEDVA_SLOTS(processes);
    lengths[1] = OALEDVA_WORDS(frames);
    lengths[2] = OALEDVA_RECORDS(lines);
    lengths[3] = OALEDVA_CACHE(lines);
    lengths[4] = OALEDVA_MEMORY(frames);
    lengths[5] = OALEDVA_USES(lines);
}

/* The refusal numbers by their names, 1 to 13, then the marks, 0 to 4, then the limits, how many words an access has, and how many
 * lines a set of four. */
enum { CONSTANTS = 24 };

void through_constants(size_t constants[CONSTANTS]) {
    static const size_t all[CONSTANTS] = {
        OALEDVA_SHAPE, OALEDVA_RANGE, OALEDVA_TAG, OALEDVA_ALIGNMENT, OALEDVA_KERNEL, OALEDVA_SLOT_EMPTY,
        OALEDVA_SLOT_READ_ONLY, OALEDVA_NOT_MAPPED, OALEDVA_PAGE_READ_ONLY, OALEDVA_FRAME_IN_USE,
        OALEDVA_MAPPED_ALREADY, OALEDVA_OUTSIDE, OALEDVA_OTHER_LINE, OALEDVA_NO_ACCESS, OALEDVA_HIT, OALEDVA_REFILLED,
        OALEDVA_WROTE_BACK, OALEDVA_UNCACHED, OALEDVA_FRAMES_MAX, OALEDVA_PROCESSES_MAX, OALEDVA_LINES_MAX,
        OALEDVA_LINE_BYTES, OALEDVA_ACCESS_WORDS, OALEDVA_SET_LINES,
    };
    for (int i = 0; i < CONSTANTS; i++) constants[i] = all[i];
}

/* The entry of a page asks no board, so there is one function for both routes. */
typedef struct through_entry {
    uint32_t number;
    uint64_t address;
} through_entry;

through_entry through_entry_of_page(uint64_t page) {
    const oaledva_entry entry = oaledva_entry_of_page(page);
    through_entry parts = {oaledva_entry_number(entry), oaledva_entry_address(entry)};
    return parts;
}

/* Which of the header's functions: in which edition; and those over a board, or those over each number and buffer. A board of 01's
 * edition is the common part of the other's. */
typedef struct through_way {
    bool sets, by_board;
} through_way;

#define OF_BUFFERS(name, ...)                                                                                      \
    (way.sets ? oaledva_sets_##name(OALEDVA_SETS_LEND(*b), __VA_ARGS__)                                            \
              : oaledva_##name(OALEDVA_LEND(b->common), __VA_ARGS__))
#define OF_BOARD(name, ...)                                                                                        \
    (way.sets ? oaledva_sets_board_##name(b, __VA_ARGS__) : oaledva_board_##name(&b->common, __VA_ARGS__))
#define EITHER(name, ...) (way.by_board ? OF_BOARD(name, __VA_ARGS__) : OF_BUFFERS(name, __VA_ARGS__))

/* Of those over a board a load and a store are two. */
through_answer through_user_access(oaledva_sets_board *b, through_way way, size_t process, uint32_t store,
                                   uint32_t width, uint32_t address, uint32_t value) {
    oaledva_kind kind = {store};
    return unpacked(!way.by_board ? OF_BUFFERS(user_access, b->common.tag, process, kind, width, address, value)
                    : store       ? OF_BOARD(store, process, width, address, value)
                                  : OF_BOARD(load, process, width, address));
}

/* A list, by either kind; and an access of one, by the header's own functions. */
through_answer through_user_accesses(oaledva_sets_board *b, through_way way, const uint32_t *accesses,
                                     size_t accesses_length, oaledva_answer *answers, size_t answers_length) {
    return unpacked(
        OF_BUFFERS(user_accesses, b->common.tag, accesses, accesses_length, answers, answers_length));
}

through_answer through_board_accesses(oaledva_sets_board *b, through_way way, const oaledva_access *accesses,
                                      size_t accesses_length, oaledva_answer *answers, size_t answers_length) {
    return unpacked(OF_BOARD(accesses, accesses, accesses_length, answers, answers_length));
}

void through_make_access(oaledva_access *access, size_t process, bool store, uint32_t width, uint32_t address,
                         uint32_t value) {
    *access = store ? oaledva_store_access(process, width, address, value) : oaledva_load_access(process, width, address);
}

size_t through_access_words(void) { return sizeof(oaledva_access) / sizeof(uint32_t); }

/* An answer of a list, taken apart. */
through_answer through_unpacked(oaledva_answer answer) { return unpacked(answer); }

through_answer through_supervisor_access(oaledva_sets_board *b, through_way way, uint32_t store, uint32_t width,
                                         uint64_t address, uint32_t value) {
    oaledva_kind kind = {store};
    return unpacked(!way.by_board ? OF_BUFFERS(supervisor_access, b->common.tag, kind, width, address, value)
                    : store       ? OF_BOARD(supervisor_store, width, address, value)
                                  : OF_BOARD(supervisor_load, width, address));
}

through_answer through_attach(oaledva_sets_board *b, through_way way, size_t process, size_t slot, uint64_t segment,
                              uint32_t write) {
    oaledva_permission permission = {write};
    return unpacked(EITHER(attach, process, slot, segment, permission));
}

through_answer through_detach(oaledva_sets_board *b, through_way way, size_t process, size_t slot) {
    return unpacked(EITHER(detach, process, slot));
}

through_answer through_map(oaledva_sets_board *b, through_way way, uint64_t page, size_t frame, uint32_t write) {
    oaledva_permission permission = {write};
    return unpacked(EITHER(map, page, frame, permission));
}

through_answer through_unmap(oaledva_sets_board *b, through_way way, uint64_t page) {
    return unpacked(EITHER(unmap, page));
}

through_answer through_protect(oaledva_sets_board *b, through_way way, uint64_t page, uint32_t write) {
    oaledva_permission permission = {write};
    return unpacked(EITHER(protect, page, permission));
}

through_answer through_move(oaledva_sets_board *b, through_way way, uint64_t page, uint64_t new_page) {
    return unpacked(EITHER(move, page, new_page));
}

through_answer through_flush_all(oaledva_sets_board *b, through_way way) {
    if (way.sets) {
        return unpacked(way.by_board ? oaledva_sets_board_flush_all(b) : oaledva_sets_flush_all(OALEDVA_SETS_LEND(*b)));
    }
    return unpacked(way.by_board ? oaledva_board_flush_all(&b->common) : oaledva_flush_all(OALEDVA_LEND(b->common)));
}

through_answer through_tag(oaledva_sets_board *b, through_way way, uint64_t line) {
    return unpacked(way.by_board ? OF_BOARD(tag, line) : OF_BUFFERS(tag, OALEDVA_SETS_TAG_OF(*b), line));
}

through_answer through_load_and_map(oaledva_sets_board *b, through_way way, size_t line) {
    return unpacked(
        way.by_board ? OF_BOARD(load_and_map, line) : OF_BUFFERS(load_and_map, OALEDVA_SETS_TAG_OF(*b), line));
}

through_answer through_drop_tag(oaledva_sets_board *b, through_way way) {
    if (!way.by_board) return unpacked(OF_BUFFERS(drop_tag, OALEDVA_SETS_TAG_OF(*b)));
    return unpacked(way.sets ? oaledva_sets_board_drop_tag(b) : oaledva_board_drop_tag(&b->common));
}

/* Where the bytes stand; NULL where look is refused. */
const uint8_t *through_look(oaledva_sets_board *b, through_way way, size_t line) {
    if (way.by_board) return OF_BOARD(look, line);
    return oaledva_bytes_at(b->common.cache, b->common.memory, OF_BUFFERS(look, line));
}

uint32_t through_look_number(oaledva_sets_board *b, through_way way, size_t line) {
    return EITHER(look_number, line).number;
}

/* ---- logs: kinds and reasons by their names, and the sizes */
enum { LOG_CONSTANTS = 13 + 6 + 3 };

void through_log_constants(size_t constants[LOG_CONSTANTS]) {
    static const size_t all[LOG_CONSTANTS] = {
        OALEDVA_LOG_HEADER, OALEDVA_LOG_USER_ACCESS, OALEDVA_LOG_SUPERVISOR_ACCESS, OALEDVA_LOG_ATTACH,
        OALEDVA_LOG_DETACH, OALEDVA_LOG_MAP, OALEDVA_LOG_UNMAP, OALEDVA_LOG_PROTECT, OALEDVA_LOG_FLUSH_ALL,
        OALEDVA_LOG_TAG, OALEDVA_LOG_LOAD_AND_MAP, OALEDVA_LOG_DROP_TAG, OALEDVA_LOG_MOVE, OALEDVA_LOG_MISFIT,
        OALEDVA_LOG_PADDED, OALEDVA_LOG_TENTH_BYTE, OALEDVA_LOG_CUT, OALEDVA_LOG_UNKNOWN_KIND, OALEDVA_LOG_TOO_LARGE,
        OALEDVA_LOG_ENTRY_WORDS, OALEDVA_LOG_ENTRY_BYTES, OALEDVA_LOG_STATE_WORDS,
    };
    for (int i = 0; i < LOG_CONSTANTS; i++) constants[i] = all[i];
}

void through_log_fresh(oaledva_log_reader *reader) {
    const oaledva_log_reader fresh = OALEDVA_LOG_READER;
    *reader = fresh;
}

const char *through_log_words(uint64_t reason) { return oaledva_log_words(reason); }

/* The functions over each buffer. */
uint64_t through_log_read(uint64_t *state, size_t state_length, const uint8_t *piece, size_t piece_length,
                          uint64_t *entries, size_t entries_length) {
    return oaledva_log_read(state, state_length, piece, piece_length, entries, entries_length);
}

uint64_t through_log_reason(const uint64_t *state, size_t state_length, uint32_t ended) {
    return oaledva_log_reason(state, state_length, ended);
}

uint64_t through_log_place(const uint64_t *state, size_t state_length) {
    return oaledva_log_place(state, state_length);
}

typedef struct through_written {
    uint64_t packed;
    uint32_t reason, field;
    size_t bytes;
} through_written;

through_written through_log_write(const uint64_t *entry, size_t entry_length, uint8_t *bytes, size_t bytes_length) {
    const oaledva_log_written written = oaledva_log_write(entry, entry_length, bytes, bytes_length);
    through_written parts = {written.packed, oaledva_log_written_reason(written), oaledva_log_written_field(written),
                             oaledva_log_written_bytes(written)};
    return parts;
}

/* Those over a reader. */
size_t through_reader_take(oaledva_log_reader *reader, const uint8_t **bytes, size_t *length,
                           oaledva_log_entry *entries, size_t entries_length) {
    oaledva_log_piece piece = {*bytes, *length};
    const size_t given = oaledva_log_reader_take(reader, &piece, entries, entries_length);
    *bytes = piece.bytes;
    *length = piece.length;
    return given;
}

uint64_t through_reader_reason(const oaledva_log_reader *reader) { return oaledva_log_reader_reason(reader); }
uint64_t through_reader_end(const oaledva_log_reader *reader) { return oaledva_log_reader_end(reader); }
uint64_t through_reader_place(const oaledva_log_reader *reader) { return oaledva_log_reader_place(reader); }

/* Those over an entry: its bytes; and the entry of a call made again, by the function for that call. */
through_written through_log_encode(const oaledva_log_entry *entry, uint8_t *bytes) {
    const oaledva_log_bytes encoded = oaledva_log_encode(*entry);
    const uint64_t refused = ((uint64_t)encoded.reason << OALEDVA_LOG_REASON_AT) + encoded.field;
    through_written parts = {encoded.reason ? refused : encoded.length, encoded.reason, encoded.field, encoded.length};
    for (size_t i = 0; i < encoded.length; i++) bytes[i] = encoded.bytes[i];
    return parts;
}

static oaledva_permission permission(uint64_t write, uint32_t yes) {
    const oaledva_permission permission = {write ? yes : 0};
    return permission;
}

static oaledva_log_entry made(const oaledva_log_entry *entry, uint32_t yes) {
    const uint64_t *const of = entry->fields;
    switch (entry->kind) {
    case OALEDVA_LOG_HEADER: return oaledva_log_header(of[0], of[1], of[2], of[3]);
    case OALEDVA_LOG_USER_ACCESS:
        return of[1] ? oaledva_store_call(of[0], (uint32_t)of[2], of[3], (uint32_t)of[4])
                     : oaledva_load_call(of[0], (uint32_t)of[2], of[3]);
    case OALEDVA_LOG_SUPERVISOR_ACCESS:
        return of[0] ? oaledva_supervisor_store_call((uint32_t)of[1], of[2], (uint32_t)of[3])
                     : oaledva_supervisor_load_call((uint32_t)of[1], of[2]);
    case OALEDVA_LOG_ATTACH: return oaledva_attach_call(of[0], of[1], of[2], permission(of[3], yes));
    case OALEDVA_LOG_DETACH: return oaledva_detach_call(of[0], of[1]);
    case OALEDVA_LOG_MAP: return oaledva_map_call(of[0], of[1], permission(of[2], yes));
    case OALEDVA_LOG_UNMAP: return oaledva_unmap_call(of[0]);
    case OALEDVA_LOG_PROTECT: return oaledva_protect_call(of[0], permission(of[1], yes));
    case OALEDVA_LOG_FLUSH_ALL: return oaledva_flush_all_call();
    case OALEDVA_LOG_TAG: return oaledva_tag_call(of[0]);
    case OALEDVA_LOG_LOAD_AND_MAP: return oaledva_load_and_map_call(of[0]);
    case OALEDVA_LOG_DROP_TAG: return oaledva_drop_tag_call();
    case OALEDVA_LOG_MOVE: return oaledva_move_call(of[0], of[1]);
    }
    return *entry;
}

void through_log_make(oaledva_log_entry *entry, uint32_t yes) { *entry = made(entry, yes); }

/* A call of a log, made on a board. */
through_answer through_board_perform(oaledva_sets_board *b, through_way way, const oaledva_log_entry *entry) {
    return unpacked(OF_BOARD(perform, *entry));
}

/* ---- a dumped board, of 01's edition: its rules by their names, and how much scratch it takes */
enum { DUMP_CONSTANTS = 6 + 2 };

void through_dump_constants(size_t frames, size_t lines, size_t constants[DUMP_CONSTANTS]) {
    const size_t all[DUMP_CONSTANTS] = {
        OALEDVA_RULE_NONE, OALEDVA_RULE_LENGTHS, OALEDVA_RULE_PAGE_TWICE, OALEDVA_RULE_LINE_TWICE, OALEDVA_RULE_ASTRAY,
        OALEDVA_RULE_STALE, OALEDVA_KEYS(frames, lines), OALEDVA_LINKS(frames, lines),
    };
    for (int i = 0; i < DUMP_CONSTANTS; i++) constants[i] = all[i];
}

typedef struct through_report {
    uint64_t packed;
    uint32_t number, rule, sound;
    size_t place, dropped;
} through_report;

static through_report reported(oaledva_report report) {
    through_report parts = {report.packed, oaledva_report_number(report), oaledva_report_rule(report),
                            (uint32_t)oaledva_sound(report), oaledva_report_place(report), oaledva_report_dropped(report)};
    return parts;
}

through_report through_check(oaledva_sets_board *b, through_way way, uint64_t *keys, size_t keys_length,
                             uint64_t *links, size_t links_length) {
    return reported(way.by_board
                        ? oaledva_board_check(&b->common, keys, keys_length, links, links_length)
                        : oaledva_check(OALEDVA_LEND(b->common), keys, keys_length, links, links_length));
}

through_report through_repair(oaledva_sets_board *b, through_way way, uint64_t *keys, size_t keys_length,
                              uint64_t *links, size_t links_length, uint8_t *dropped, size_t dropped_length) {
    return reported(way.by_board ? oaledva_board_repair(&b->common, keys, keys_length, links, links_length, dropped,
                                                        dropped_length)
                                 : oaledva_repair(OALEDVA_LEND(b->common), keys, keys_length, links, links_length,
                                                  dropped, dropped_length));
}
