/* The calls of the board, proved in Rattle, for C (from C99) and C++ (from C++11) on x86-64 Linux. Link liboaledva.a: `make
 * library` builds it, and once it is installed `pkg-config --cflags --libs oaledva` says where it and this file are. It needs
 * memcpy and memset, keeps no data of its own and allocates nothing. Attach and detach take the most stack: one process's slot
 * words, sizeof(uint32_t) * OALEDVA_SLOTS(1) bytes, and a few registers more, whatever the number of processes.
 *
 * Most programs keep their board in an oaledva_board and use the functions oaledva_board_... at the end of this file. The
 * functions before those take each number and each buffer by itself, for programs that hold the buffers elsewhere; what a
 * call does, and by which numbers it is refused, is said there. One call takes no board: oaledva_entry_of_page. Then come logs
 * of calls, written and read in pieces, which take no board either; then the check of a dumped board, and its repair. Last
 * comes a second edition of the cache, with sets of four: the same calls, on boards where two busy lines of one place need not
 * push each other out.
 *
 * What is proved of each call, for whatever numbers and buffer lengths the caller brings: on the language's own machine it
 * ends, it takes no step outside the buffers that it is lent, and the answer, the buffers and the tag after it are those that
 * the call's definition in crates/machine/specs gives of the buffers and the tag before it. A shape or a length that does not
 * agree is no fault of the caller's: the call answers number 1 and changes nothing. (oaledva_entry_of_page has no buffers,
 * and its definition is in crates/address/specs. The four functions of logs are proved likewise; their definitions are in the
 * specs of crates/log_numbers, log_entries, log_reader and log_writer. So are the check of a dumped board and its repair; their
 * definitions are in the specs of crates/dumps and crates/repairs, and those of the rules in crates/dump_pages and dump_lines.)
 *
 * What the proof rests on, and no proof checks:
 *   - each pointer points to as many elements as the length after it says, readable, and writable where the prototype has
 *     no const. Lengths count elements, not bytes. Where the length is 0 the pointer may be NULL. `set` and `name` of the
 *     calls on the tag have no length: each points to one element and is never NULL;
 *   - alignment: each pointer is aligned for its elements (4 for uint32_t, 8 for uint64_t and oaledva_answer), as every C
 *     array of them is;
 *   - aliasing: what a call may write (a pointer without const) overlaps nothing else that is passed to it, and no other
 *     thread writes what a call reads, or touches what it writes, until it returns. Pointers with const may overlap. So the
 *     answers of a list stand apart from its accesses and from the board, and a reader's state and entries from its piece.
 *     Calls on different boards may run at the same time, and so may different readers;
 *   - the types of their own below (oaledva_answer and the like) are passed and returned as the numbers in them: one number
 *     as that number is, the two of oaledva_pending one after the other on the stack, because the six arguments that go in
 *     registers come before it. An array of oaledva_answer or oaledva_log_entry is one of uint64_t, one of oaledva_access of
 *     uint32_t, and one of oaledva_uses of uint8_t. So it is on x86-64 Linux, in C and in C++;
 *   - the stack has room (see above), and the compiler, the linker and the processor do as they should.
 *
 * What is promised of a run of calls from a fresh board (docs/PROMISES.md: the answers of a machine without a cache, and one
 * process apart from the others; a list counts as its accesses, one after another) is promised as well of a run from any board
 * of the first edition that oaledva_check accepts. There the machine without a cache begins with the board's slots, words and
 * tag, and with the bytes that look shows. It asks two things more:
 *   - between two calls nobody else changes the buffers or the tag's two words. Reading them is fine;
 *   - U belongs to the board. The buffers' lengths pin F, P and L: a call that brings others is answered by number 1. They
 *     do not pin U, and a call that brings another U than the board's, up to F, is not refused. Example: with U = 0 a page is
 *     mapped to frame 0 and its line is held; then a load with U = 1 finds the line and is answered 0, where a machine without
 *     a cache sees no frame from 1 up with that page, and says 8. Bring the same U in every call, as a board's functions do.
 * One process apart from the others asks a third: a page that is moved into a segment which the process holds at any moment of
 * the run, even if only later, has the same bytes when it is moved, whatever the others did; or it comes from such a segment.
 *
 * Whose access comes first: two processes are strangers while neither holds for writing a segment that the other holds, by the
 * slots of that moment. In such a run their accesses may change places, single or in lists, as long as no two accesses by
 * processes that are no strangers do (so none of one process), and no access gets to the other side of a supervisor's call.
 * Every call then gets the same number and value, and look shows the same at each supervisor's call and at the end. The marks
 * may differ, and so may the records.
 */
#ifndef OALEDVA_H
#define OALEDVA_H

#if !defined(__x86_64__) || defined(__ILP32__) || !defined(__linux__)
#error "liboaledva.a is for x86-64 Linux with 64-bit pointers"
#endif

#include <stddef.h>
#include <stdint.h>
#include <string.h>

#ifdef __cplusplus
extern "C" {
#endif

/* Of a function, or of a type where the language can say so: the compiler warns where what is returned is thrown away. */
#ifdef __GNUC__
#define OALEDVA_MUST_USE __attribute__((warn_unused_result))
#else
#define OALEDVA_MUST_USE
#endif
#if (defined(__cplusplus) && __cplusplus >= 201703L) || (defined(__STDC_VERSION__) && __STDC_VERSION__ > 201710L)
#define OALEDVA_MUST_USE_TYPE [[nodiscard]]
#elif defined(__clang__)
#define OALEDVA_MUST_USE_TYPE __attribute__((warn_unused_result))
#else
#define OALEDVA_MUST_USE_TYPE
#endif

/* Does not compile where a constant condition fails: with words where the language has them, else by a field's width. */
#if defined(__cplusplus)
#define OALEDVA_ASSERT(name, condition, words) static_assert(condition, words)
#elif defined(__STDC_VERSION__) && __STDC_VERSION__ >= 201112L
#define OALEDVA_ASSERT(name, condition, words) _Static_assert(condition, words)
#else
#define OALEDVA_ASSERT(name, condition, words) struct name { unsigned fails : (condition) ? 1 : -1; }
#endif

/* ---- limits and sizes
 * The shape is four numbers: frames F, uncached frames U (0 to F), processes P and lines L (a power of two). F, P and L are
 * from 1 to these. A program has them compiled in: with a later library that takes more, compile it again. */
#define OALEDVA_FRAMES_MAX 1048576
#define OALEDVA_PROCESSES_MAX 64
#define OALEDVA_LINES_MAX 65536

/* A number as a size_t, without a cast. */
#define OALEDVA_SIZE(n) (sizeof(char) * (n))

/* Whether the four numbers keep these limits. */
#define OALEDVA_KEEPS_LIMITS(F, U, P, L)                                                                           \
    (OALEDVA_SIZE(F) >= 1 && OALEDVA_SIZE(F) <= OALEDVA_FRAMES_MAX && OALEDVA_SIZE(U) <= OALEDVA_SIZE(F)           \
     && OALEDVA_SIZE(P) >= 1 && OALEDVA_SIZE(P) <= OALEDVA_PROCESSES_MAX && OALEDVA_SIZE(L) >= 1                   \
     && OALEDVA_SIZE(L) <= OALEDVA_LINES_MAX && (OALEDVA_SIZE(L) & (OALEDVA_SIZE(L) - 1)) == 0)

#define OALEDVA_LINE_BYTES 16

/* The buffers' lengths, in elements:
 *   slots    uint32_t: 512 slot words for each process; segment * 2 + write bit, or 0
 *   words    uint64_t: a word for each frame; page * 4 + 2 * write bit + 1, or 0
 *   records  uint64_t: two words for each line: the name; physical line * 8 + 4 * changed + 2 * write + valid
 *   cache    uint8_t: the bytes of the lines
 *   memory   uint8_t: the bytes of the frames */
#define OALEDVA_SLOTS(P) (512 * OALEDVA_SIZE(P))
#define OALEDVA_WORDS(F) OALEDVA_SIZE(F)
#define OALEDVA_RECORDS(L) (2 * OALEDVA_SIZE(L))
#define OALEDVA_CACHE(L) (OALEDVA_LINE_BYTES * OALEDVA_SIZE(L))
#define OALEDVA_MEMORY(F) (4096 * OALEDVA_SIZE(F))

/* A fresh board: slots and words 0, no record valid (zeros will do), no tag pending; cache and memory may hold any bytes. */

/* ---- numbers: 0 for done, else why the call was refused. A refused call changes nothing, and its value and mark are 0. */
enum {
    OALEDVA_SHAPE = 1,           /* lengths or F, U, P, L disagree or are out of limits */
    OALEDVA_RANGE = 2,           /* process, slot, segment, frame, physical line, line name, page or global address outside its
                                    range; or a store's value does not fit its width: 256 or more at width 1, 65536 or more
                                    at width 2 */
    OALEDVA_TAG = 3,             /* a tag is pending (user access, supervisor access to an ordinary address, tag), or none is
                                    (load-and-map, drop tag) */
    OALEDVA_ALIGNMENT = 4,       /* width not 1, 2 or 4, or the address no multiple of it */
    OALEDVA_KERNEL = 5,          /* user address from 2^31 up */
    OALEDVA_SLOT_EMPTY = 6,      /* nothing is attached at the address's slot */
    OALEDVA_SLOT_READ_ONLY = 7,  /* store, and the segment is attached read-only */
    OALEDVA_NOT_MAPPED = 8,      /* the page is not mapped (of an access: and the line not held) */
    OALEDVA_PAGE_READ_ONLY = 9,  /* user store, and the page is read-only */
    OALEDVA_FRAME_IN_USE = 10,   /* map, or an access under prefix 1: the frame's word is not 0 */
    OALEDVA_MAPPED_ALREADY = 11, /* map: the page is mapped already; move: the new page is */
    OALEDVA_OUTSIDE = 12,        /* supervisor access: page table region, beyond memory, prefix 0 from U up, prefix 1
                                    below U */
    OALEDVA_OTHER_LINE = 13      /* load-and-map: not the physical line to which the tag is mapped */
};

/* ---- marks: how an access went. An access that is done has one of 1 to 4; a refused one has 0, and so has every call that
 * is no access, even where it reads lines from memory or writes them back. A mark is no yes or no: compare it with a name. */
enum {
    OALEDVA_NO_ACCESS = 0,  /* the call was refused, or it is no access (map, attach, load-and-map and the like; a list, whose
                               accesses have their own) */
    OALEDVA_HIT = 1,        /* the line was held when the access came: the cache had it, and memory was not touched */
    OALEDVA_REFILLED = 2,   /* the line was not held, and was read from memory; nothing was written back */
    OALEDVA_WROTE_BACK = 3, /* the line was not held, and was read from memory; in that call a changed line was written back
                               to memory to make room */
    OALEDVA_UNCACHED = 4    /* a supervisor's access under prefix 0: memory itself, past the cache */
};

/* ---- answers
 * What a call gives, as one number in a type of its own: number * 2^56 + mark * 2^32 + value. The value has bits 0 to 31, the
 * mark 32 to 39, the number 56 to 63; the sixteen between are 0, and left to a later library. Nothing compares an answer,
 * converts it or tests it by mistake; the functions below take it apart. Only calls make one. The compiler warns of a call
 * whose answer is thrown away; to do so on purpose, write if (oaledva_done(...)) {}.
 *
 * A program of before, when a mark was 1 for a hit and else 0, has to change in two things. Where it asked oaledva_mark as a
 * yes or no it asks oaledva_hit: every access that is done has a mark that is not 0 now, and oaledva_mark gives a type of its
 * own, so that the old way doesn't compile. And it must be compiled again, even if it never asks a mark: the number stands at
 * another bit. With the old header and this library it would take a refilled access for one refused by 1; with this header and
 * the old library, a refused call for one that is done. */
typedef struct OALEDVA_MUST_USE_TYPE oaledva_answer {
    uint64_t packed;
} oaledva_answer;

#define OALEDVA_NUMBER_AT 56
#define OALEDVA_MARK_AT 32
#define OALEDVA_MARK_MASK 0xff

/* The mark of an answer, in a type of its own: it is no answer, and no yes or no. */
typedef struct OALEDVA_MUST_USE_TYPE oaledva_marked {
    uint32_t mark;
} oaledva_marked;

OALEDVA_MUST_USE static inline uint32_t oaledva_number(oaledva_answer answer) {
    return (uint32_t)(answer.packed >> OALEDVA_NUMBER_AT);
}
/* Compare it by its number: oaledva_mark(a).mark == OALEDVA_REFILLED, or switch (oaledva_mark(a).mark). */
OALEDVA_MUST_USE static inline oaledva_marked oaledva_mark(oaledva_answer answer) {
    const oaledva_marked marked = {(uint32_t)(answer.packed >> OALEDVA_MARK_AT) & OALEDVA_MARK_MASK};
    return marked;
}
OALEDVA_MUST_USE static inline uint32_t oaledva_value(oaledva_answer answer) { return (uint32_t)answer.packed; }
/* 1 where the call was done (number 0), 0 where it was refused. */
OALEDVA_MUST_USE static inline int oaledva_done(oaledva_answer answer) { return oaledva_number(answer) == 0; }
/* 1 where the call was an access that found its line held (mark OALEDVA_HIT), else 0. */
OALEDVA_MUST_USE static inline int oaledva_hit(oaledva_answer answer) { return oaledva_mark(answer).mark == OALEDVA_HIT; }

/* Where look's bytes stand in the caller's own buffers: an offset in cache, or OALEDVA_IN_MEMORY + an offset in memory;
 * OALEDVA_NOWHERE where look was refused. It is no answer. */
typedef struct OALEDVA_MUST_USE_TYPE oaledva_place {
    uint64_t at;
} oaledva_place;

#define OALEDVA_IN_MEMORY (UINT64_C(1) << 63)
#define OALEDVA_NOWHERE UINT64_MAX

/* The number of a look: 0 for done, else why it was refused. It is no answer. */
typedef struct OALEDVA_MUST_USE_TYPE oaledva_looked {
    uint32_t number;
} oaledva_looked;

/* The sixteen bytes at such a place; NULL where look was refused. */
OALEDVA_MUST_USE static inline const uint8_t *oaledva_bytes_at(
    const uint8_t *cache, const uint8_t *memory, oaledva_place place) {
    if (place.at == OALEDVA_NOWHERE) return NULL;
    return place.at < OALEDVA_IN_MEMORY ? cache + place.at : memory + (place.at - OALEDVA_IN_MEMORY);
}

/* What asking for the page table entry of a page gives: number * 2^44 + the entry's global address. It is no answer. */
typedef struct OALEDVA_MUST_USE_TYPE oaledva_entry {
    uint64_t packed;
} oaledva_entry;

#define OALEDVA_ENTRY_NUMBER_AT 44

/* 0 where the page has an entry, else why the asking was refused. */
OALEDVA_MUST_USE static inline uint32_t oaledva_entry_number(oaledva_entry entry) {
    return (uint32_t)(entry.packed >> OALEDVA_ENTRY_NUMBER_AT);
}
/* The entry's global address; 0 where the asking was refused. Ask the number first: no entry stands at 0, but a supervisor's
 * access takes the address 0, which is memory's first byte under prefix 0. */
OALEDVA_MUST_USE static inline uint64_t oaledva_entry_address(oaledva_entry entry) {
    return entry.packed & ((UINT64_C(1) << OALEDVA_ENTRY_NUMBER_AT) - 1);
}

/* ---- what a call is told, in types of their own, so that no number is taken for them
 * A load or a store; read-only or writable. Each is a number, of which 0 is no and anything else is yes: where it comes from
 * a variable, write (oaledva_permission){w != 0} in C, oaledva_permission{w != 0} in C++. In the initialiser of static data
 * write {0} or {1}: not every C compiler takes the names below there. */
typedef struct oaledva_kind {
    uint32_t store;
} oaledva_kind;

typedef struct oaledva_permission {
    uint32_t write;
} oaledva_permission;

static const oaledva_kind OALEDVA_LOAD = {0}, OALEDVA_STORE = {1};
static const oaledva_permission OALEDVA_READ_ONLY = {0}, OALEDVA_WRITABLE = {1};

/* The tag: set is not 0 where one is pending, and name is its line name. Begin with {0, 0} and let the calls change it; who
 * fills it by hand names the fields. */
typedef struct oaledva_pending {
    uint32_t set;
    uint64_t name;
} oaledva_pending;
OALEDVA_ASSERT(oaledva_pending_layout, sizeof(oaledva_pending) == 16, "oaledva_pending must not be packed");

/* A user's access, as a list has it: what oaledva_user_access takes one by one, in five words. oaledva_load_access and
 * oaledva_store_access make one. */
typedef struct oaledva_access {
    uint32_t process;
    oaledva_kind kind;
    uint32_t width;
    uint32_t address;
    uint32_t value;
} oaledva_access;

#define OALEDVA_ACCESS_WORDS 5
OALEDVA_ASSERT(oaledva_access_layout, sizeof(oaledva_access) == OALEDVA_ACCESS_WORDS * sizeof(uint32_t),
               "oaledva_access must be five words without gaps");

/* ==== each number and each buffer by itself
 * Every call takes the shape and the five buffers first, in this order. */
#define OALEDVA_SHAPE_ARGS size_t frames, size_t uncached, size_t processes, size_t lines

/* ---- accesses
 * A user's load or store: process, kind, width in bytes (1, 2 or 4), effective address, the value to store. Bytes stand most
 * significant first. The tag goes in by value. Refused by 1 to 9; done, its mark is one of 1 to 3.
 * A store whose value does not fit its width is refused by 2, whatever the address is, also where it is no multiple of the
 * width or a tag is pending. With a width that is not 1, 2 or 4 the value is not asked, and a load ignores it. A value has 32
 * bits. C cuts a longer number to its low 32 before the call sees it, so the call can't refuse it; a negative number becomes a
 * large value, which fits width 4 only. To store the low byte of a number, pass number & 0xff. */
OALEDVA_MUST_USE oaledva_answer oaledva_user_access(
    OALEDVA_SHAPE_ARGS,
    const uint32_t *slots, size_t slots_length,
    const uint64_t *words, size_t words_length,
    uint64_t *records, size_t records_length,
    uint8_t *cache, size_t cache_length,
    uint8_t *memory, size_t memory_length,
    oaledva_pending tag,
    size_t process, oaledva_kind kind, uint32_t width, uint32_t address, uint32_t value);

/* Many users' accesses in one call: to feed a run of samples, to replay a log. `accesses` has five words for each: process;
 * kind (0 is a load, anything else a store); width; effective address; value. `answers` has room for one answer for each, and
 * may hold anything before. So accesses_length is OALEDVA_ACCESS_WORDS times answers_length.
 * They are done one after another, in the list's order, each as oaledva_user_access does it on the board that the one before
 * left. The answer of each, with its number, value and mark, is written to its place in `answers`. A refused access changes
 * nothing but that; those after it are done all the same. While a tag is pending every one is refused, by 3 or by 2.
 * The call's own answer says whether the list was done, and not how its accesses went: number 0, also where each of them was
 * refused, value 0 and mark 0. It is refused by 1 only: where a single access on this board is, or where the two lengths do
 * not agree. Then nothing changes, in `answers` neither: what stands there is none of this call's. An empty list is done. */
OALEDVA_MUST_USE oaledva_answer oaledva_user_accesses(
    OALEDVA_SHAPE_ARGS,
    const uint32_t *slots, size_t slots_length,
    const uint64_t *words, size_t words_length,
    uint64_t *records, size_t records_length,
    uint8_t *cache, size_t cache_length,
    uint8_t *memory, size_t memory_length,
    oaledva_pending tag,
    const uint32_t *accesses, size_t accesses_length,
    oaledva_answer *answers, size_t answers_length);

/* A supervisor's load or store by global address (below 2^44): ordinary; prefix 0, the physical address itself, uncached, in
 * frames below U; or prefix 1, 2^32 + the physical address, cached, in frames from U up whose word is 0. The page's write bit
 * is not asked. The value is asked as a user's is. Refused by 1 to 4, 8, 10 and 12; done, its mark is 4 under prefix 0, else
 * one of 1 to 3. */
OALEDVA_MUST_USE oaledva_answer oaledva_supervisor_access(
    OALEDVA_SHAPE_ARGS,
    const uint32_t *slots, size_t slots_length,
    const uint64_t *words, size_t words_length,
    uint64_t *records, size_t records_length,
    uint8_t *cache, size_t cache_length,
    uint8_t *memory, size_t memory_length,
    oaledva_pending tag,
    oaledva_kind kind, uint32_t width, uint64_t address, uint32_t value);

/* ---- slots
 * Attaches a segment (2048 to 4190207) to a slot (below 512) of a process, with or without permission to write; replaces what
 * was there. Refused by 1 and 2. */
OALEDVA_MUST_USE oaledva_answer oaledva_attach(
    OALEDVA_SHAPE_ARGS,
    uint32_t *slots, size_t slots_length,
    const uint64_t *words, size_t words_length,
    const uint64_t *records, size_t records_length,
    const uint8_t *cache, size_t cache_length,
    const uint8_t *memory, size_t memory_length,
    size_t process, size_t slot, uint64_t segment, oaledva_permission permission);

/* Empties a slot of a process; an empty one stays empty. Refused by 1 and 2. */
OALEDVA_MUST_USE oaledva_answer oaledva_detach(
    OALEDVA_SHAPE_ARGS,
    uint32_t *slots, size_t slots_length,
    const uint64_t *words, size_t words_length,
    const uint64_t *records, size_t records_length,
    const uint8_t *cache, size_t cache_length,
    const uint8_t *memory, size_t memory_length,
    size_t process, size_t slot);

/* ---- pages
 * Maps an ordinary page (0x200000 to 0xFFBFFFFF) to a frame (from U up), which is filled with zeros. Held lines named in the
 * page or in the frame's prefix 1 range are dropped: at most 512 records are visited, however many lines the cache has.
 * Refused by 1, 2, 10 and 11. */
OALEDVA_MUST_USE oaledva_answer oaledva_map(
    OALEDVA_SHAPE_ARGS,
    const uint32_t *slots, size_t slots_length,
    uint64_t *words, size_t words_length,
    uint64_t *records, size_t records_length,
    const uint8_t *cache, size_t cache_length,
    uint8_t *memory, size_t memory_length,
    uint64_t page, size_t frame, oaledva_permission permission);

/* Unmaps a page: its changed lines are written back, by rising place, its lines dropped, its frame freed. At most 256
 * records are visited. Refused by 1, 2 and 8. */
OALEDVA_MUST_USE oaledva_answer oaledva_unmap(
    OALEDVA_SHAPE_ARGS,
    const uint32_t *slots, size_t slots_length,
    uint64_t *words, size_t words_length,
    uint64_t *records, size_t records_length,
    const uint8_t *cache, size_t cache_length,
    uint8_t *memory, size_t memory_length,
    uint64_t page);

/* Changes the write bit of a page and of its held lines. At most 256 records are visited. Refused by 1, 2 and 8. */
OALEDVA_MUST_USE oaledva_answer oaledva_protect(
    OALEDVA_SHAPE_ARGS,
    const uint32_t *slots, size_t slots_length,
    uint64_t *words, size_t words_length,
    uint64_t *records, size_t records_length,
    const uint8_t *cache, size_t cache_length,
    uint8_t *memory, size_t memory_length,
    uint64_t page, oaledva_permission permission);

/* Moves a page, to hand it over: its frame gets the new page, with the same write bit, and keeps its bytes; nothing is copied.
 * First the changed lines of both pages are written back, by rising place, and their lines dropped: at most 512 records are
 * visited. A pending tag doesn't refuse it, and stays pending. Refused by 1; 2, either page is not ordinary; 8, the old one is
 * not mapped; and 11, the new one is mapped already. So a page is never moved to itself: 11, or 8 where it isn't mapped. */
OALEDVA_MUST_USE oaledva_answer oaledva_move(
    OALEDVA_SHAPE_ARGS,
    const uint32_t *slots, size_t slots_length,
    uint64_t *words, size_t words_length,
    uint64_t *records, size_t records_length,
    const uint8_t *cache, size_t cache_length,
    uint8_t *memory, size_t memory_length,
    uint64_t page, uint64_t new_page);

/* Writes back every changed line, by rising place, and drops all lines. Every record is visited. Refused by 1. */
OALEDVA_MUST_USE oaledva_answer oaledva_flush_all(
    OALEDVA_SHAPE_ARGS,
    const uint32_t *slots, size_t slots_length,
    const uint64_t *words, size_t words_length,
    uint64_t *records, size_t records_length,
    const uint8_t *cache, size_t cache_length,
    uint8_t *memory, size_t memory_length);

/* ---- the tag: its two words are changed in place. A refused call leaves both as they are.
 * Remembers the line name (global address / 16) of a line of an ordinary page, 0x20000000 to 0xFFBFFFFFFF: *set is then 1.
 * Refused by 1, 2 and 3. */
OALEDVA_MUST_USE oaledva_answer oaledva_tag(
    OALEDVA_SHAPE_ARGS,
    const uint32_t *slots, size_t slots_length,
    const uint64_t *words, size_t words_length,
    const uint64_t *records, size_t records_length,
    const uint8_t *cache, size_t cache_length,
    const uint8_t *memory, size_t memory_length,
    uint32_t *set, uint64_t *name,
    uint64_t line_name);

/* Loads the line of the pending name from the physical line (physical address / 16) to which it is mapped, and forgets the
 * name: *set and *name are then 0. A line that is held already stays as it is. Refused by 1, 2, 3, 8 and 13. */
OALEDVA_MUST_USE oaledva_answer oaledva_load_and_map(
    OALEDVA_SHAPE_ARGS,
    const uint32_t *slots, size_t slots_length,
    const uint64_t *words, size_t words_length,
    uint64_t *records, size_t records_length,
    uint8_t *cache, size_t cache_length,
    uint8_t *memory, size_t memory_length,
    uint32_t *set, uint64_t *name,
    size_t physical_line);

/* Forgets the pending name: *set and *name are then 0. Refused by 1 and 3. */
OALEDVA_MUST_USE oaledva_answer oaledva_drop_tag(
    OALEDVA_SHAPE_ARGS,
    const uint32_t *slots, size_t slots_length,
    const uint64_t *words, size_t words_length,
    const uint64_t *records, size_t records_length,
    const uint8_t *cache, size_t cache_length,
    const uint8_t *memory, size_t memory_length,
    uint32_t *set, uint64_t *name);

/* ---- look: the current sixteen bytes of a physical line (below 256 * F). Changes nothing. Refused by 1 and 2.
 * Returns their place, which holds until another call changes the board. */
OALEDVA_MUST_USE oaledva_place oaledva_look(
    OALEDVA_SHAPE_ARGS,
    const uint32_t *slots, size_t slots_length,
    const uint64_t *words, size_t words_length,
    const uint64_t *records, size_t records_length,
    const uint8_t *cache, size_t cache_length,
    const uint8_t *memory, size_t memory_length,
    size_t physical_line);

/* Its number alone: 0, 1 or 2. */
OALEDVA_MUST_USE oaledva_looked oaledva_look_number(
    OALEDVA_SHAPE_ARGS,
    const uint32_t *slots, size_t slots_length,
    const uint64_t *words, size_t words_length,
    const uint64_t *records, size_t records_length,
    const uint8_t *cache, size_t cache_length,
    const uint8_t *memory, size_t memory_length,
    size_t physical_line);

/* ==== no board at all
 * The page table entry of a page (global address / 4096): the global address at which it stands, 1023 * 2^34 + 4 * page. It
 * asks no board, so it is never refused by 1. Refused by 2: a page below 0x200000, which lies under prefix 0 or 1 and is never
 * translated, so that it has no entry; and a number from 2^32 up, which is no page. Nothing stands at an entry's address: no
 * tables are kept, and a supervisor's access to it is refused, by 12 if no lower number applies. */
OALEDVA_MUST_USE oaledva_entry oaledva_entry_of_page(uint64_t page);

/* ==== a board in one place: the shape, the buffers with their lengths, and the tag. A copy of it shares the buffers but has a
 * tag of its own: keep one, and hand on its address. */
typedef struct oaledva_board {
    size_t frames, uncached, processes, lines;
    uint32_t *slots;
    size_t slots_length;
    uint64_t *words;
    size_t words_length;
    uint64_t *records;
    size_t records_length;
    uint8_t *cache;
    size_t cache_length;
    uint8_t *memory;
    size_t memory_length;
    oaledva_pending tag;
} oaledva_board;

/* The fourteen arguments that every call on a board takes first, above, and the tag's two, where a call may change it. `b` is
 * written out fourteen times: let it be a name, or *name. */
#define OALEDVA_LEND(b)                                                                                            \
    (b).frames, (b).uncached, (b).processes, (b).lines, (b).slots, (b).slots_length, (b).words, (b).words_length,  \
        (b).records, (b).records_length, (b).cache, (b).cache_length, (b).memory, (b).memory_length
#define OALEDVA_TAG_OF(b) &(b).tag.set, &(b).tag.name

/* An initialiser for a board over five arrays, with no tag pending. The lengths are the arrays' own: where one does not fit,
 * every call is refused by 1. */
#define OALEDVA_BOARD(F, U, P, L, slots, words, records, cache, memory)                                            \
    {F, U, P, L, slots, OALEDVA_COUNT(slots), words, OALEDVA_COUNT(words), records, OALEDVA_COUNT(records), cache, \
     OALEDVA_COUNT(cache), memory, OALEDVA_COUNT(memory), {0, 0}}
#define OALEDVA_COUNT(array) (sizeof(array) / sizeof(*(array)))

/* ---- static: declares a fresh board `b` with static buffers, for constants F, U, P and L. It does not compile where they
 * are out of their limits. The linker takes some 2 GiB of static data for a whole program, so F is at most 262144 here, 1 GiB
 * of memory; for more, make the board in a block, below. In a function the board is fresh at its first call only; in a header,
 * every file that includes it has a board of its own. */
#define OALEDVA_STATIC_FRAMES_MAX 262144
#define OALEDVA_STATIC_BOARD(b, F, U, P, L)                                                                        \
    OALEDVA_STATIC_BUFFERS(b##_, F, U, P, L);                                                                      \
    static oaledva_board b = OALEDVA_BOARD(F, U, P, L, b##_slots, b##_words, b##_records, b##_cache, b##_memory)
#define OALEDVA_STATIC_BUFFERS(of, F, U, P, L)                                                                     \
    OALEDVA_ASSERT(of##numbers, OALEDVA_KEEPS_LIMITS(F, U, P, L), "the board's four numbers are out of limits");   \
    OALEDVA_ASSERT(of##frames, (F) <= OALEDVA_STATIC_FRAMES_MAX, "too many frames for a static board");            \
    static uint32_t of##slots[OALEDVA_SLOTS(P)];                                                                   \
    static uint64_t of##words[OALEDVA_WORDS(F)], of##records[OALEDVA_RECORDS(L)];                                  \
    static uint8_t of##cache[OALEDVA_CACHE(L)], of##memory[OALEDVA_MEMORY(F)]

/* ---- in a block of memory: how many bytes the block must have; 0 where a number is out of its limits. */
OALEDVA_MUST_USE static inline size_t oaledva_board_bytes(size_t frames, size_t uncached, size_t processes, size_t lines) {
    if (!OALEDVA_KEEPS_LIMITS(frames, uncached, processes, lines)) return 0;
    return sizeof(uint64_t) * (OALEDVA_WORDS(frames) + OALEDVA_RECORDS(lines))
           + sizeof(uint32_t) * OALEDVA_SLOTS(processes) + OALEDVA_CACHE(lines) + OALEDVA_MEMORY(frames);
}

/* Makes *b the board that stands in a block of `bytes` bytes, with no tag pending: from its start words, records, slots,
 * cache and memory, without gaps. No byte of the block is changed; a board that goes on with a tag pending needs it put back
 * into b->tag. The block is malloc's or the like (aligned to 8) and stays the caller's, to be freed when the board is no longer
 * used.
 * Refused by 1: a number out of its limits, too few bytes, NULL or not aligned. Then *b has no buffers, and every call on it
 * is refused by 1 too. */
OALEDVA_MUST_USE static inline oaledva_answer oaledva_board_over(
    oaledva_board *b, size_t frames, size_t uncached, size_t processes, size_t lines, void *block, size_t bytes) {
    const oaledva_answer done = {0}, refused = {(uint64_t)OALEDVA_SHAPE << OALEDVA_NUMBER_AT};
    const size_t needed = oaledva_board_bytes(frames, uncached, processes, lines);
    if (needed != 0 && bytes >= needed && block != NULL && (uintptr_t)block % sizeof(uint64_t) == 0) {
        uint64_t *const words = (uint64_t *)block;
        uint64_t *const records = words + OALEDVA_WORDS(frames);
        uint32_t *const slots = (uint32_t *)(records + OALEDVA_RECORDS(lines));
        uint8_t *const cache = (uint8_t *)(slots + OALEDVA_SLOTS(processes));
        uint8_t *const memory = cache + OALEDVA_CACHE(lines);
        const oaledva_board board = {frames,  uncached, processes, lines,
                                     slots,   OALEDVA_SLOTS(processes),
                                     words,   OALEDVA_WORDS(frames),
                                     records, OALEDVA_RECORDS(lines),
                                     cache,   OALEDVA_CACHE(lines),
                                     memory,  OALEDVA_MEMORY(frames),
                                     {0, 0}};
        *b = board;
        return done;
    }
    memset(b, 0, sizeof *b);
    return refused;
}

/* The same, and sets the board's bytes to 0, which is a fresh board. (A block of zeros, as calloc gives it, is one already:
 * oaledva_board_over is enough.) */
OALEDVA_MUST_USE static inline oaledva_answer oaledva_board_fresh(
    oaledva_board *b, size_t frames, size_t uncached, size_t processes, size_t lines, void *block, size_t bytes) {
    const oaledva_answer answer = oaledva_board_over(b, frames, uncached, processes, lines, block, bytes);
    if (oaledva_done(answer)) memset(block, 0, oaledva_board_bytes(frames, uncached, processes, lines));
    return answer;
}

/* ---- the calls on a board, with its own tag. What they do, and by which numbers they are refused, is said above: loads and
 * stores at the accesses, the others at the function of that name without `board`.
 * A user's accesses, by effective address: any from 2^31 up is refused, by 5 or by a lower number that applies; also one that
 * does not fit 32 bits, as the global address of an ordinary page. */
static inline uint32_t oaledva_effective(uint64_t address) {
    return (uint32_t)address | (address >> 32 != 0 ? UINT32_C(1) << 31 : 0);
}

OALEDVA_MUST_USE static inline oaledva_answer oaledva_board_load(
    oaledva_board *b, size_t process, uint32_t width, uint64_t address) {
    return oaledva_user_access(OALEDVA_LEND(*b), b->tag, process, OALEDVA_LOAD, width, oaledva_effective(address), 0);
}

OALEDVA_MUST_USE static inline oaledva_answer oaledva_board_store(
    oaledva_board *b, size_t process, uint32_t width, uint64_t address, uint32_t value) {
    return oaledva_user_access(OALEDVA_LEND(*b), b->tag, process, OALEDVA_STORE, width, oaledva_effective(address), value);
}

/* Many of them in one call: oaledva_user_accesses, over a list of accesses that these two make. Nothing is done until the list
 * is. An address is taken as in a single call. A process that does not fit 32 bits becomes UINT32_MAX, which is no process
 * either. */
static inline uint32_t oaledva_process_word(size_t process) {
    return process <= UINT32_MAX ? (uint32_t)process : UINT32_MAX;
}

OALEDVA_MUST_USE static inline oaledva_access oaledva_load_access(size_t process, uint32_t width, uint64_t address) {
    const oaledva_access access = {oaledva_process_word(process), {0}, width, oaledva_effective(address), 0};
    return access;
}

OALEDVA_MUST_USE static inline oaledva_access oaledva_store_access(
    size_t process, uint32_t width, uint64_t address, uint32_t value) {
    const oaledva_access access = {oaledva_process_word(process), {1}, width, oaledva_effective(address), value};
    return access;
}

/* Here the lengths count accesses and answers: they are equal, or the list is refused by 1. */
static inline size_t oaledva_accesses_words(size_t accesses_length) {
    /* No list is so long that its words can't be counted. Such a length is refused: one word is not five for each answer. */
    return accesses_length <= SIZE_MAX / OALEDVA_ACCESS_WORDS ? OALEDVA_ACCESS_WORDS * accesses_length : 1;
}

OALEDVA_MUST_USE static inline oaledva_answer oaledva_board_accesses(
    oaledva_board *b, const oaledva_access *accesses, size_t accesses_length, oaledva_answer *answers,
    size_t answers_length) {
    /* An access is five of uint32_t without gaps, so an array of them is read as the words it consists of. */
    return oaledva_user_accesses(OALEDVA_LEND(*b), b->tag, (const uint32_t *)accesses,
                                 oaledva_accesses_words(accesses_length), answers, answers_length);
}

/* A supervisor's, by global address. */
OALEDVA_MUST_USE static inline oaledva_answer oaledva_board_supervisor_load(
    oaledva_board *b, uint32_t width, uint64_t address) {
    return oaledva_supervisor_access(OALEDVA_LEND(*b), b->tag, OALEDVA_LOAD, width, address, 0);
}

OALEDVA_MUST_USE static inline oaledva_answer oaledva_board_supervisor_store(
    oaledva_board *b, uint32_t width, uint64_t address, uint32_t value) {
    return oaledva_supervisor_access(OALEDVA_LEND(*b), b->tag, OALEDVA_STORE, width, address, value);
}

/* Slots and pages. */
OALEDVA_MUST_USE static inline oaledva_answer oaledva_board_attach(
    oaledva_board *b, size_t process, size_t slot, uint64_t segment, oaledva_permission permission) {
    return oaledva_attach(OALEDVA_LEND(*b), process, slot, segment, permission);
}

OALEDVA_MUST_USE static inline oaledva_answer oaledva_board_detach(oaledva_board *b, size_t process, size_t slot) {
    return oaledva_detach(OALEDVA_LEND(*b), process, slot);
}

OALEDVA_MUST_USE static inline oaledva_answer oaledva_board_map(
    oaledva_board *b, uint64_t page, size_t frame, oaledva_permission permission) {
    return oaledva_map(OALEDVA_LEND(*b), page, frame, permission);
}

OALEDVA_MUST_USE static inline oaledva_answer oaledva_board_unmap(oaledva_board *b, uint64_t page) {
    return oaledva_unmap(OALEDVA_LEND(*b), page);
}

OALEDVA_MUST_USE static inline oaledva_answer oaledva_board_protect(
    oaledva_board *b, uint64_t page, oaledva_permission permission) {
    return oaledva_protect(OALEDVA_LEND(*b), page, permission);
}

OALEDVA_MUST_USE static inline oaledva_answer oaledva_board_move(oaledva_board *b, uint64_t page, uint64_t new_page) {
    return oaledva_move(OALEDVA_LEND(*b), page, new_page);
}

OALEDVA_MUST_USE static inline oaledva_answer oaledva_board_flush_all(oaledva_board *b) {
    return oaledva_flush_all(OALEDVA_LEND(*b));
}

/* The tag, b->tag. */
OALEDVA_MUST_USE static inline oaledva_answer oaledva_board_tag(oaledva_board *b, uint64_t line_name) {
    return oaledva_tag(OALEDVA_LEND(*b), OALEDVA_TAG_OF(*b), line_name);
}

OALEDVA_MUST_USE static inline oaledva_answer oaledva_board_load_and_map(oaledva_board *b, size_t physical_line) {
    return oaledva_load_and_map(OALEDVA_LEND(*b), OALEDVA_TAG_OF(*b), physical_line);
}

OALEDVA_MUST_USE static inline oaledva_answer oaledva_board_drop_tag(oaledva_board *b) {
    return oaledva_drop_tag(OALEDVA_LEND(*b), OALEDVA_TAG_OF(*b));
}

/* Look: the sixteen bytes themselves, in the board's own cache or memory; NULL where it is refused, and then the number says
 * why. They hold until another call changes the board. */
OALEDVA_MUST_USE static inline const uint8_t *oaledva_board_look(const oaledva_board *b, size_t physical_line) {
    return oaledva_bytes_at(b->cache, b->memory, oaledva_look(OALEDVA_LEND(*b), physical_line));
}

OALEDVA_MUST_USE static inline oaledva_looked oaledva_board_look_number(const oaledva_board *b, size_t physical_line) {
    return oaledva_look_number(OALEDVA_LEND(*b), physical_line);
}

/* ==== logs of calls
 * A log holds the four numbers of a board, and then calls that were made on it, one after another. A recorder writes one while
 * it runs. It has no answers: whoever makes the same calls again, on a fresh board of these numbers whose memory is zeros, gets
 * the same again. So begin a log with the board, and store into memory by logged calls what it has to hold. Look is not logged,
 * and a list is logged access by access.
 * To write: make a call's entry, oaledva_store_call(0, 4, 0, 50); oaledva_log_encode gives its bytes, oaledva_board_perform
 * makes the call. To read: oaledva_log_reader_take, piece by piece, and oaledva_board_perform. examples/record.c and
 * examples/replay.c are whole programs.
 *
 * In bytes a log is a run of numbers, in groups of seven bits, the low group first; each group is a byte, with the top bit set
 * on all but the last. A number takes one byte to ten, and there is one way to write it. The log opens with the header, the
 * four numbers. Then comes for each call the number of its kind and its fields, as many as the kind has.
 *
 * Kinds, and their fields. A load is 0 and a store 1; read-only is 0 and writable 1; widths, values and effective addresses are
 * below 2^32, and a load's value is 0. Any other field is any number of 64 bits. */
enum {
    OALEDVA_LOG_HEADER = 0,            /* frames, uncached frames, processes, lines: the first entry, and no later one. In a log
                                          it is these four alone; no call has the number 0 */
    OALEDVA_LOG_USER_ACCESS = 1,       /* process, load or store, width, effective address, value */
    OALEDVA_LOG_SUPERVISOR_ACCESS = 2, /* load or store, width, global address, value */
    OALEDVA_LOG_ATTACH = 3,            /* process, slot, segment, write bit */
    OALEDVA_LOG_DETACH = 4,            /* process, slot */
    OALEDVA_LOG_MAP = 5,               /* page, frame, write bit */
    OALEDVA_LOG_UNMAP = 6,             /* page */
    OALEDVA_LOG_PROTECT = 7,           /* page, write bit */
    OALEDVA_LOG_FLUSH_ALL = 8,         /* none */
    OALEDVA_LOG_TAG = 9,               /* line name */
    OALEDVA_LOG_LOAD_AND_MAP = 10,     /* physical line */
    OALEDVA_LOG_DROP_TAG = 11,         /* none */
    OALEDVA_LOG_MOVE = 12              /* page, new page */
};

/* Why a log was refused, or an entry that was to be written; 0 for neither. A log is refused for the first thing that is wrong in
   it; of an entry the lowest that applies is given. */
enum {
    OALEDVA_LOG_MISFIT = 1,       /* the buffers do not fit the call, or the state is no reader's: no fault of the log */
    OALEDVA_LOG_PADDED = 2,       /* a number's last group is 0 after others */
    OALEDVA_LOG_TENTH_BYTE = 3,   /* a number's tenth byte is above 1 */
    OALEDVA_LOG_CUT = 4,          /* the log ends inside a number or a call, or before its header is whole */
    OALEDVA_LOG_UNKNOWN_KIND = 5, /* a kind that is none of these */
    OALEDVA_LOG_TOO_LARGE = 6     /* a field that is too large */
};

/* Such a reason in words. */
OALEDVA_MUST_USE static inline const char *oaledva_log_words(uint64_t reason) {
    switch (reason) {
    case OALEDVA_LOG_MISFIT: return "the buffers do not fit the call";
    case OALEDVA_LOG_PADDED: return "a number's last group is 0 after others";
    case OALEDVA_LOG_TENTH_BYTE: return "a number's tenth byte is above 1";
    case OALEDVA_LOG_CUT: return "the log is cut";
    case OALEDVA_LOG_UNKNOWN_KIND: return "a kind that is not known";
    case OALEDVA_LOG_TOO_LARGE: return "a field that is too large";
    }
    return "";
}

/* What a log holds, header or call, as six numbers: its kind, then its fields; those that the kind does not have are 0. */
typedef struct oaledva_log_entry {
    uint64_t kind;
    uint64_t fields[5];
} oaledva_log_entry;

#define OALEDVA_LOG_ENTRY_WORDS 6
OALEDVA_ASSERT(oaledva_log_entry_layout, sizeof(oaledva_log_entry) == OALEDVA_LOG_ENTRY_WORDS * sizeof(uint64_t),
               "oaledva_log_entry must be six words without gaps");

/* ---- the four functions of the library, each buffer by itself
 * Takes bytes of a piece until there is no more room for an entry, the piece is used up or the log is refused. `state` has
 * OALEDVA_LOG_STATE_WORDS words: those of OALEDVA_LOG_READER for a log's first piece, then what the call before left. A piece
 * is any part of the log that follows the one before; it may be empty. `entries` has OALEDVA_LOG_ENTRY_WORDS words for each
 * entry. The entries that became whole are written from its start, the header first, and their number is returned; the words
 * behind them stay. state[0] is how many bytes of the log were taken so far, so that what it grew by is taken of this piece:
 * all of it, or as far as the last byte of the entry that filled the room, or as far as the byte at which the log is refused.
 * Once it is refused nothing more is taken.
 * Where the buffers do not fit OALEDVA_LOG_NOTHING is returned and nothing changes: the state has not so many words, or they
 * are no reader's; the entries have no multiple of so many; the log would reach 2^64 bytes. */
OALEDVA_MUST_USE uint64_t oaledva_log_read(
    uint64_t *state, size_t state_length,
    const uint8_t *piece, size_t piece_length,
    uint64_t *entries, size_t entries_length);

#define OALEDVA_LOG_STATE_WORDS 11
#define OALEDVA_LOG_NOTHING UINT64_MAX

/* Why the log was refused, or 0. With `ended` not 0 the log has no more bytes: it is refused if it is cut, too. */
OALEDVA_MUST_USE uint64_t oaledva_log_reason(const uint64_t *state, size_t state_length, uint32_t ended);

/* Where: the place, in bytes from the log's start, of the first byte of the number that is wrong. Where the log was not
 * refused, how many bytes were taken, which is the place of a cut. 0 if the state is no reader's. */
OALEDVA_MUST_USE uint64_t oaledva_log_place(const uint64_t *state, size_t state_length);

/* What writing an entry gives: how many bytes it is, or reason * 2^32 + the field that is too large. It is no length: a refused
 * entry's is far beyond its buffer. */
typedef struct OALEDVA_MUST_USE_TYPE oaledva_log_written {
    uint64_t packed;
} oaledva_log_written;

#define OALEDVA_LOG_REASON_AT 32

/* Writes an entry of OALEDVA_LOG_ENTRY_WORDS words to the start of a buffer of OALEDVA_LOG_ENTRY_BYTES bytes or more; the bytes
 * behind it stay. Nothing is written of an entry that is refused: by 5, its kind is above 12; by 6, a field is too large, of
 * which the first is told, counted from 1 (one that the kind does not have is too large unless it is 0). By 1: the lengths. */
OALEDVA_MUST_USE oaledva_log_written oaledva_log_write(
    const uint64_t *entry, size_t entry_length,
    uint8_t *bytes, size_t bytes_length);

#define OALEDVA_LOG_ENTRY_BYTES 60

/* Why the entry was refused; 0 where it was written. */
OALEDVA_MUST_USE static inline uint32_t oaledva_log_written_reason(oaledva_log_written written) {
    return (uint32_t)(written.packed >> OALEDVA_LOG_REASON_AT);
}
/* How many bytes were written; 0 where the entry was refused. */
OALEDVA_MUST_USE static inline size_t oaledva_log_written_bytes(oaledva_log_written written) {
    return oaledva_log_written_reason(written) == 0 ? (size_t)written.packed : 0;
}
/* The field that is too large, counted from 1; 0 where none is. */
OALEDVA_MUST_USE static inline uint32_t oaledva_log_written_field(oaledva_log_written written) {
    return oaledva_log_written_reason(written) == 0 ? 0 : (uint32_t)written.packed;
}

/* ---- writing: entries, and their bytes
 * The header. */
OALEDVA_MUST_USE static inline oaledva_log_entry oaledva_log_header(
    size_t frames, size_t uncached, size_t processes, size_t lines) {
    const oaledva_log_entry entry = {OALEDVA_LOG_HEADER, {frames, uncached, processes, lines, 0}};
    return entry;
}

/* A call, by the arguments that the function over a board of that name takes after the board. Nothing is done yet. The entry
 * has them as the call gets them, so that a call which is refused for them is refused likewise when it is made again. */
OALEDVA_MUST_USE static inline oaledva_log_entry oaledva_load_call(size_t process, uint32_t width, uint64_t address) {
    const oaledva_log_entry call = {OALEDVA_LOG_USER_ACCESS, {process, 0, width, oaledva_effective(address), 0}};
    return call;
}

OALEDVA_MUST_USE static inline oaledva_log_entry oaledva_store_call(
    size_t process, uint32_t width, uint64_t address, uint32_t value) {
    const oaledva_log_entry call = {OALEDVA_LOG_USER_ACCESS, {process, 1, width, oaledva_effective(address), value}};
    return call;
}

/* An access of a list. A load with a value, which oaledva_load_access never makes, keeps it, and then no log can hold it. */
OALEDVA_MUST_USE static inline oaledva_log_entry oaledva_access_call(oaledva_access access) {
    const oaledva_log_entry call = {
        OALEDVA_LOG_USER_ACCESS, {access.process, access.kind.store != 0, access.width, access.address, access.value}};
    return call;
}

OALEDVA_MUST_USE static inline oaledva_log_entry oaledva_supervisor_load_call(uint32_t width, uint64_t address) {
    const oaledva_log_entry call = {OALEDVA_LOG_SUPERVISOR_ACCESS, {0, width, address, 0, 0}};
    return call;
}

OALEDVA_MUST_USE static inline oaledva_log_entry oaledva_supervisor_store_call(
    uint32_t width, uint64_t address, uint32_t value) {
    const oaledva_log_entry call = {OALEDVA_LOG_SUPERVISOR_ACCESS, {1, width, address, value, 0}};
    return call;
}

OALEDVA_MUST_USE static inline oaledva_log_entry oaledva_attach_call(
    size_t process, size_t slot, uint64_t segment, oaledva_permission permission) {
    const oaledva_log_entry call = {OALEDVA_LOG_ATTACH, {process, slot, segment, permission.write != 0, 0}};
    return call;
}

OALEDVA_MUST_USE static inline oaledva_log_entry oaledva_detach_call(size_t process, size_t slot) {
    const oaledva_log_entry call = {OALEDVA_LOG_DETACH, {process, slot, 0, 0, 0}};
    return call;
}

OALEDVA_MUST_USE static inline oaledva_log_entry oaledva_map_call(
    uint64_t page, size_t frame, oaledva_permission permission) {
    const oaledva_log_entry call = {OALEDVA_LOG_MAP, {page, frame, permission.write != 0, 0, 0}};
    return call;
}

OALEDVA_MUST_USE static inline oaledva_log_entry oaledva_unmap_call(uint64_t page) {
    const oaledva_log_entry call = {OALEDVA_LOG_UNMAP, {page, 0, 0, 0, 0}};
    return call;
}

OALEDVA_MUST_USE static inline oaledva_log_entry oaledva_protect_call(uint64_t page, oaledva_permission permission) {
    const oaledva_log_entry call = {OALEDVA_LOG_PROTECT, {page, permission.write != 0, 0, 0, 0}};
    return call;
}

OALEDVA_MUST_USE static inline oaledva_log_entry oaledva_move_call(uint64_t page, uint64_t new_page) {
    const oaledva_log_entry call = {OALEDVA_LOG_MOVE, {page, new_page, 0, 0, 0}};
    return call;
}

OALEDVA_MUST_USE static inline oaledva_log_entry oaledva_flush_all_call(void) {
    const oaledva_log_entry call = {OALEDVA_LOG_FLUSH_ALL, {0, 0, 0, 0, 0}};
    return call;
}

OALEDVA_MUST_USE static inline oaledva_log_entry oaledva_tag_call(uint64_t line_name) {
    const oaledva_log_entry call = {OALEDVA_LOG_TAG, {line_name, 0, 0, 0, 0}};
    return call;
}

OALEDVA_MUST_USE static inline oaledva_log_entry oaledva_load_and_map_call(size_t physical_line) {
    const oaledva_log_entry call = {OALEDVA_LOG_LOAD_AND_MAP, {physical_line, 0, 0, 0, 0}};
    return call;
}

OALEDVA_MUST_USE static inline oaledva_log_entry oaledva_drop_tag_call(void) {
    const oaledva_log_entry call = {OALEDVA_LOG_DROP_TAG, {0, 0, 0, 0, 0}};
    return call;
}

/* An entry's bytes, from the start of `bytes`, to be written behind those of the entries before it. Where no log can hold the
 * entry `length` is 0, so that nothing of it is written; `reason` says why, and `field` which field is too large, counted from
 * 1 (0 where it is the kind). The entries that the functions above make have bytes, but for a list's load with a value. */
typedef struct OALEDVA_MUST_USE_TYPE oaledva_log_bytes {
    uint8_t bytes[OALEDVA_LOG_ENTRY_BYTES];
    uint32_t reason, field;
    size_t length;
} oaledva_log_bytes;

OALEDVA_MUST_USE static inline oaledva_log_bytes oaledva_log_encode(oaledva_log_entry entry) {
    oaledva_log_bytes encoded;
    /* An entry is six of uint64_t without gaps, so it is read as the words it consists of. */
    const oaledva_log_written written =
        oaledva_log_write((const uint64_t *)&entry, OALEDVA_LOG_ENTRY_WORDS, encoded.bytes, OALEDVA_LOG_ENTRY_BYTES);
    encoded.reason = oaledva_log_written_reason(written);
    encoded.field = oaledva_log_written_field(written);
    encoded.length = oaledva_log_written_bytes(written);
    return encoded;
}

/* ---- reading: a reader, and pieces of a log
 * A reader begins with OALEDVA_LOG_READER, or with zeros; its words are the library's. */
typedef struct oaledva_log_reader {
    uint64_t state[OALEDVA_LOG_STATE_WORDS];
} oaledva_log_reader;

#define OALEDVA_LOG_READER {{0, 0, 0, 1, 0, 0, 0, 0, 0, 0, 0}}

/* The bytes of a log that are at hand: its next piece, cut anywhere. */
typedef struct oaledva_log_piece {
    const uint8_t *bytes;
    size_t length;
} oaledva_log_piece;

/* One that has taken nothing is at a log's start, also where it was made of zeros. */
static inline oaledva_log_reader oaledva_log_reader_begun(const oaledva_log_reader *reader) {
    const oaledva_log_reader fresh = OALEDVA_LOG_READER;
    return reader->state[0] == 0 ? fresh : *reader;
}

/* Takes what it can of a piece, and gives how many entries became whole: at most entries_length, which counts entries. The
 * first of a log is its header. `piece` is then what is left of it. Where this gives 0, and there was room, the piece has no
 * more to give: the log goes on in the next one, or it is refused. */
OALEDVA_MUST_USE static inline size_t oaledva_log_reader_take(
    oaledva_log_reader *reader, oaledva_log_piece *piece, oaledva_log_entry *entries, size_t entries_length) {
    /* No list is so long that its words can't be counted. Such a length is refused: one word is no multiple of six. */
    const size_t words =
        entries_length <= SIZE_MAX / OALEDVA_LOG_ENTRY_WORDS ? OALEDVA_LOG_ENTRY_WORDS * entries_length : 1;
    const uint64_t before = reader->state[0];
    uint64_t given;
    if (before == 0) *reader = oaledva_log_reader_begun(reader);
    given = oaledva_log_read(reader->state, OALEDVA_LOG_STATE_WORDS, piece->bytes, piece->length, (uint64_t *)entries, words);
    if (reader->state[0] != before) {
        piece->bytes += reader->state[0] - before;
        piece->length -= reader->state[0] - before;
    }
    return given == OALEDVA_LOG_NOTHING ? 0 : given;
}

/* Why the log is refused, or 0. Then this reader takes nothing more. */
OALEDVA_MUST_USE static inline uint64_t oaledva_log_reader_reason(const oaledva_log_reader *reader) {
    return oaledva_log_reason(reader->state, OALEDVA_LOG_STATE_WORDS, 0);
}

/* The same where the log has ended here: it may be cut. 0 says that it is a log, from its first byte to its last. */
OALEDVA_MUST_USE static inline uint64_t oaledva_log_reader_end(const oaledva_log_reader *reader) {
    const oaledva_log_reader begun = oaledva_log_reader_begun(reader);
    return oaledva_log_reason(begun.state, OALEDVA_LOG_STATE_WORDS, 1);
}

/* Where it is refused, in bytes from its start; else how many bytes were taken. */
OALEDVA_MUST_USE static inline uint64_t oaledva_log_reader_place(const oaledva_log_reader *reader) {
    return oaledva_log_place(reader->state, OALEDVA_LOG_STATE_WORDS);
}

/* ---- making a call of a log, on a board of its header's numbers: oaledva_board_perform does what the function over a board of
 * that name does. An entry that no reader gives as a call is refused by 1, and nothing is done: the header, a kind that is none,
 * a field that is too large. (Fields that a kind does not have are not asked.) */
static inline int oaledva_log_fits(oaledva_log_entry call) {
    const uint64_t *const of = call.fields;
    switch (call.kind) {
    case OALEDVA_LOG_USER_ACCESS:
        return of[1] <= 1 && of[2] <= UINT32_MAX && of[3] <= UINT32_MAX && of[4] <= (of[1] == 0 ? 0 : UINT32_MAX);
    case OALEDVA_LOG_SUPERVISOR_ACCESS: return of[0] <= 1 && of[1] <= UINT32_MAX && of[3] <= (of[0] == 0 ? 0 : UINT32_MAX);
    case OALEDVA_LOG_ATTACH: return of[3] <= 1;
    case OALEDVA_LOG_MAP: return of[2] <= 1;
    case OALEDVA_LOG_PROTECT: return of[1] <= 1;
    }
    return 1;
}

static inline oaledva_permission oaledva_log_permission(uint64_t write_bit) {
    const oaledva_permission permission = {write_bit != 0};
    return permission;
}

/* The body of a function that makes the call by those whose names begin with `board`. */
#define OALEDVA_PERFORM(board, b, call)                                                                            \
    const uint64_t *const of = (call).fields;                                                                      \
    const oaledva_answer refused = {(uint64_t)OALEDVA_SHAPE << OALEDVA_NUMBER_AT};                                 \
    if (!oaledva_log_fits(call)) return refused;                                                                   \
    switch ((call).kind) {                                                                                         \
    case OALEDVA_LOG_USER_ACCESS:                                                                                  \
        return of[1] == 0 ? board##_load(b, of[0], (uint32_t)of[2], of[3])                                         \
                          : board##_store(b, of[0], (uint32_t)of[2], of[3], (uint32_t)of[4]);                      \
    case OALEDVA_LOG_SUPERVISOR_ACCESS:                                                                            \
        return of[0] == 0 ? board##_supervisor_load(b, (uint32_t)of[1], of[2])                                     \
                          : board##_supervisor_store(b, (uint32_t)of[1], of[2], (uint32_t)of[3]);                  \
    case OALEDVA_LOG_ATTACH: return board##_attach(b, of[0], of[1], of[2], oaledva_log_permission(of[3]));         \
    case OALEDVA_LOG_DETACH: return board##_detach(b, of[0], of[1]);                                               \
    case OALEDVA_LOG_MAP: return board##_map(b, of[0], of[1], oaledva_log_permission(of[2]));                      \
    case OALEDVA_LOG_UNMAP: return board##_unmap(b, of[0]);                                                        \
    case OALEDVA_LOG_PROTECT: return board##_protect(b, of[0], oaledva_log_permission(of[1]));                     \
    case OALEDVA_LOG_FLUSH_ALL: return board##_flush_all(b);                                                       \
    case OALEDVA_LOG_TAG: return board##_tag(b, of[0]);                                                            \
    case OALEDVA_LOG_LOAD_AND_MAP: return board##_load_and_map(b, of[0]);                                          \
    case OALEDVA_LOG_DROP_TAG: return board##_drop_tag(b);                                                         \
    case OALEDVA_LOG_MOVE: return board##_move(b, of[0], of[1]);                                                   \
    }                                                                                                              \
    return refused

OALEDVA_MUST_USE static inline oaledva_answer oaledva_board_perform(oaledva_board *b, oaledva_log_entry call) {
    OALEDVA_PERFORM(oaledva_board, b, call);
}

/* ==== a dumped board, checked and repaired
 * A board that comes back from the field, as its four numbers and five buffers stood there, may hold anything. The check says
 * whether it is sound: whether it keeps the five rules below. Every board that calls make of a fresh one is sound, and from
 * every sound board what is promised of runs holds (see the top of this file). The repair drops the lines that break a rule.
 * Both are for the edition above, where a line has one place, and not for boards with sets of four. No rule speaks of the tag, so
 * neither takes it; nor of what stands in the slots.
 *
 * A record holds a line where it is valid, it is record name mod L, and its physical line is in memory (below 256 * F). Any
 * other record counts as empty: no rule asks it. A word names an ordinary page where it is page * 4 + 1 or page * 4 + 3 and the
 * page is from 0x200000 to 0xFFBFFFFF.
 *
 * The rules, by number, in the order in which they are asked. A report names the first that is broken. */
enum {
    OALEDVA_RULE_NONE = 0,       /* none is broken */
    OALEDVA_RULE_LENGTHS = 1,    /* F, U, P and L keep their limits, and each buffer has the length that goes with them: what
                                    number 1 asks in every call */
    OALEDVA_RULE_PAGE_TWICE = 2, /* no two frames from U up have words that name one ordinary page */
    OALEDVA_RULE_LINE_TWICE = 3, /* no two records hold one physical line */
    OALEDVA_RULE_ASTRAY = 4,     /* each held line has the physical line that its name maps to, with the right write bit. A name
                                    of an ordinary page maps to line name mod 256 of the frame from U up whose word names the
                                    page, with that word's write bit. A name under prefix 1, 2^28 + a physical line, maps to that
                                    line where its frame is from U up and has word 0, with write bit 1. In every other
                                    case a name maps to nothing, and no record may hold it */
    OALEDVA_RULE_STALE = 5       /* each held line that is not marked changed has memory's sixteen bytes */
};

/* How a rule is broken, in words. */
OALEDVA_MUST_USE static inline const char *oaledva_rule_words(uint32_t rule) {
    switch (rule) {
    case OALEDVA_RULE_LENGTHS: return "the buffers' lengths or the board's four numbers disagree or are out of limits";
    case OALEDVA_RULE_PAGE_TWICE: return "a page has two frames from U up";
    case OALEDVA_RULE_LINE_TWICE: return "a physical line is held twice";
    case OALEDVA_RULE_ASTRAY: return "a held line's physical line or permission is not the one that its name maps to";
    case OALEDVA_RULE_STALE: return "a held line is not marked as changed, and differs from memory";
    }
    return "";
}

/* What the two give, as one number in a type of its own: number * 2^56 + rule * 2^48 + dropped * 2^24 + place. It is no answer.
 *   number   of the call itself. 0: the board was checked, or repaired. 1: it was not, because the scratch is too short for it
 *            (of a repair also: because `dropped` has not L elements); then the rest is 0, and nothing at all has changed
 *   rule     the first rule that the board breaks; 0 where it breaks none
 *   place    the lowest frame (rule 2) or record (rules 3 to 5) that breaks it, of a doubled pair the lower; 0 for rule 1, and
 *            where no rule is broken
 *   dropped  how many lines the repair dropped; 0 in a check's
 * So 1 has two meanings. Number 1 is about the call, and says of the board only that it keeps rule 1; rule 1 is about the board. And
 * rule 0 alone is no yes, because a refused call has it too: ask oaledva_sound. */
typedef struct OALEDVA_MUST_USE_TYPE oaledva_report {
    uint64_t packed;
} oaledva_report;

#define OALEDVA_REPORT_NUMBER_AT 56
#define OALEDVA_REPORT_RULE_AT 48
#define OALEDVA_REPORT_RULE_MASK 0xff
#define OALEDVA_REPORT_DROPPED_AT 24
#define OALEDVA_REPORT_PLACE_MASK 0xffffff

OALEDVA_MUST_USE static inline uint32_t oaledva_report_number(oaledva_report report) {
    return (uint32_t)(report.packed >> OALEDVA_REPORT_NUMBER_AT);
}
OALEDVA_MUST_USE static inline uint32_t oaledva_report_rule(oaledva_report report) {
    return (uint32_t)(report.packed >> OALEDVA_REPORT_RULE_AT) & OALEDVA_REPORT_RULE_MASK;
}
OALEDVA_MUST_USE static inline size_t oaledva_report_dropped(oaledva_report report) {
    return (size_t)(report.packed >> OALEDVA_REPORT_DROPPED_AT) & OALEDVA_REPORT_PLACE_MASK; /* as wide as a place */
}
OALEDVA_MUST_USE static inline size_t oaledva_report_place(oaledva_report report) {
    return (size_t)report.packed & OALEDVA_REPORT_PLACE_MASK;
}
/* The yes of the check: 1 where the board was checked and breaks no rule, else 0. Of a repair: the board was sound before. */
OALEDVA_MUST_USE static inline int oaledva_sound(oaledva_report report) {
    return oaledva_report_number(report) == 0 && oaledva_report_rule(report) == OALEDVA_RULE_NONE;
}

/* ---- the two functions of the library, each buffer by itself
 * The scratch that both need, in elements: as many or more. Before the call it may hold anything, and what it holds after the
 * call means nothing. For the largest board it takes 24 MiB. */
#define OALEDVA_KEYS(F, L) (OALEDVA_SIZE(F) > OALEDVA_SIZE(L) ? OALEDVA_SIZE(F) : OALEDVA_SIZE(L))
#define OALEDVA_LINKS(F, L) (2 * OALEDVA_KEYS(F, L))

/* Checks a board, and changes nothing but the scratch. Rule 1 comes first: a board that breaks it is reported so with number 0,
 * whatever the scratch is, which is not touched. Refused by 1: the board keeps rule 1, and `keys` or `links` is too short.
 * The cost grows as F and L do, and not as their squares, whatever the dump holds. The check goes through the words and the
 * records. To find doubles it searches for each page and for each held physical line once, in at most 32 turns for a page and 29
 * for a line. And it compares the sixteen bytes of each unchanged line once. */
OALEDVA_MUST_USE oaledva_report oaledva_check(
    OALEDVA_SHAPE_ARGS,
    const uint32_t *slots, size_t slots_length,
    const uint64_t *words, size_t words_length,
    const uint64_t *records, size_t records_length,
    const uint8_t *cache, size_t cache_length,
    const uint8_t *memory, size_t memory_length,
    uint64_t *keys, size_t keys_length,
    uint64_t *links, size_t links_length);

/* Repairs a board, and reports what the check says of it before, with how many lines were dropped. By rising record, it keeps
 * each held line that breaks neither rule 4 nor rule 5 by itself and whose physical line no lower line that is kept has; it
 * drops the others. A dropped record is not valid and has all fields 0. Records that hold no line stay as they are. `dropped` has
 * L elements: each is set to 1 where the line of that record was dropped, else to 0. Afterwards the board is sound.
 * Wrong lengths (rule 1) and a doubled page (rule 2) are reported, and nothing is changed, in `dropped` neither: no line that is
 * dropped would mend them. Refused by 1, after rule 1, where the scratch is too short or `dropped` has not exactly L elements.
 * Nothing is ever written to memory or to the cache's bytes. So what a program stored into a line that is dropped, and was not
 * yet written back, is lost: the line claims a physical line or a permission that the words don't give it, so nothing says that
 * its bytes belong there, and written back they could stand over those of another page. A line that is marked changed and keeps
 * the rules stays, with what was stored. Of two records that hold one physical line at most one keeps rule 4: that one stays,
 * unless it is stale.
 * The cost grows as that of a check does. */
OALEDVA_MUST_USE oaledva_report oaledva_repair(
    OALEDVA_SHAPE_ARGS,
    const uint32_t *slots, size_t slots_length,
    const uint64_t *words, size_t words_length,
    uint64_t *records, size_t records_length,
    const uint8_t *cache, size_t cache_length,
    const uint8_t *memory, size_t memory_length,
    uint64_t *keys, size_t keys_length,
    uint64_t *links, size_t links_length,
    uint8_t *dropped, size_t dropped_length);

/* ---- the same on a board; its tag stays as it is. To bring a dump, put its four numbers and its buffers into an oaledva_board,
 * by oaledva_board_over or field by field; U is the board's own, as in every call. */
OALEDVA_MUST_USE static inline oaledva_report oaledva_board_check(
    const oaledva_board *b, uint64_t *keys, size_t keys_length, uint64_t *links, size_t links_length) {
    return oaledva_check(OALEDVA_LEND(*b), keys, keys_length, links, links_length);
}

OALEDVA_MUST_USE static inline oaledva_report oaledva_board_repair(
    oaledva_board *b, uint64_t *keys, size_t keys_length, uint64_t *links, size_t links_length, uint8_t *dropped,
    size_t dropped_length) {
    return oaledva_repair(OALEDVA_LEND(*b), keys, keys_length, links, links_length, dropped, dropped_length);
}

/* ==== sets of four: the second edition of the cache
 * In the edition above a line has one place, record name mod L (its name is its global address / 16), and a line that comes
 * pushes out the one that it finds there. So two busy pages may push each other out at every access, whatever stands in the
 * rest of the cache. Here the L lines form L / 4 sets of four. A line belongs to set name mod (L / 4) and may stand in any of
 * its records, 4 * set to 4 * set + 3: a record holds a line only where it is valid, stands in its line's set and has its
 * physical line in memory. A line that comes takes the lowest of them that holds nothing; where all four hold lines, it pushes
 * out the one whose last use is longest ago.
 *
 * Choose this edition where busy lines share places: where many accesses have marks 2 and 3 though there are lines enough. An
 * access asks up to four records here, and writes down the use. Numbers, values and the bytes that look shows do not depend on
 * the choice: the same calls get the same on fresh boards of both editions that have the same shape and memory. The marks may
 * differ, and so may what stands in records, cache and memory.
 *
 * One buffer more keeps who was used after whom: `uses`, a matrix of four by four for each set. Line a of a set is the one in
 * record 4 * set + a. A use is an access that the cache has done (not one under prefix 0), or the insertion of a line by
 * load-and-map. A use of line a sets row a to 1 and then clears column a to 0. So after[a][b] is 1 where line a was used after
 * line b, and of four lines that were used the one used longest ago has a row of zeros. The line that is pushed out is the
 * lowest whose row has the fewest ones, where any entry but 0 is a one; so it is also with matrices that no run of calls brings
 * about. Nothing else changes a matrix: no refused call, no drop (by map, unmap, move or flush all), no write-back, no protect,
 * no look, and no load-and-map of a line that is held already. Only accesses, lists of them and load-and-map take it to change
 * it.
 *
 * Each call has the name of the one above with `sets` in it, takes the same arguments, with `uses` and its length after memory,
 * does what is said there and is refused by the same numbers. Number 1 is given also where L is below 4, or where uses_length,
 * which counts matrices, is not L / 4. Map, unmap, protect and move visit the four records of each set where there they visit
 * one. oaledva_entry_of_page and the logs are the same for both. Check and repair are for the edition above alone.
 *
 * An edition belongs to the board, as U does. The buffers do not tell which it is, and calls of the other edition are not
 * refused: they look for lines elsewhere, and what was stored can be lost. The two kinds of board are types of their own, so
 * that neither is taken for the other. To go over from one edition to the other, flush all by the first, then begin the second
 * with the same buffers and all matrices 0. */
#define OALEDVA_SET_LINES 4

/* Of the four lines of a set, who was used after whom: after[a][b] is 1 where line a was used after line b. */
typedef struct oaledva_uses {
    uint8_t after[4][4];
} oaledva_uses;
OALEDVA_ASSERT(oaledva_uses_layout, sizeof(oaledva_uses) == OALEDVA_SET_LINES * OALEDVA_SET_LINES,
               "oaledva_uses must be sixteen bytes without gaps");

/* Its length: a matrix for each set. On a fresh board all of them are 0. */
#define OALEDVA_USES(L) (OALEDVA_SIZE(L) / OALEDVA_SET_LINES)

/* Whether the four numbers keep the limits of this edition. */
#define OALEDVA_SETS_KEEPS_LIMITS(F, U, P, L)                                                                      \
    (OALEDVA_KEEPS_LIMITS(F, U, P, L) && OALEDVA_SIZE(L) >= OALEDVA_SET_LINES)

/* ---- each number and each buffer by itself: the shape and the six buffers first, in this order. */
OALEDVA_MUST_USE oaledva_answer oaledva_sets_user_access(
    OALEDVA_SHAPE_ARGS,
    const uint32_t *slots, size_t slots_length, const uint64_t *words, size_t words_length,
    uint64_t *records, size_t records_length, uint8_t *cache, size_t cache_length,
    uint8_t *memory, size_t memory_length, oaledva_uses *uses, size_t uses_length,
    oaledva_pending tag,
    size_t process, oaledva_kind kind, uint32_t width, uint32_t address, uint32_t value);

OALEDVA_MUST_USE oaledva_answer oaledva_sets_user_accesses(
    OALEDVA_SHAPE_ARGS,
    const uint32_t *slots, size_t slots_length, const uint64_t *words, size_t words_length,
    uint64_t *records, size_t records_length, uint8_t *cache, size_t cache_length,
    uint8_t *memory, size_t memory_length, oaledva_uses *uses, size_t uses_length,
    oaledva_pending tag,
    const uint32_t *accesses, size_t accesses_length, oaledva_answer *answers, size_t answers_length);

OALEDVA_MUST_USE oaledva_answer oaledva_sets_supervisor_access(
    OALEDVA_SHAPE_ARGS,
    const uint32_t *slots, size_t slots_length, const uint64_t *words, size_t words_length,
    uint64_t *records, size_t records_length, uint8_t *cache, size_t cache_length,
    uint8_t *memory, size_t memory_length, oaledva_uses *uses, size_t uses_length,
    oaledva_pending tag,
    oaledva_kind kind, uint32_t width, uint64_t address, uint32_t value);

OALEDVA_MUST_USE oaledva_answer oaledva_sets_attach(
    OALEDVA_SHAPE_ARGS,
    uint32_t *slots, size_t slots_length, const uint64_t *words, size_t words_length,
    const uint64_t *records, size_t records_length, const uint8_t *cache, size_t cache_length,
    const uint8_t *memory, size_t memory_length, const oaledva_uses *uses, size_t uses_length,
    size_t process, size_t slot, uint64_t segment, oaledva_permission permission);

OALEDVA_MUST_USE oaledva_answer oaledva_sets_detach(
    OALEDVA_SHAPE_ARGS,
    uint32_t *slots, size_t slots_length, const uint64_t *words, size_t words_length,
    const uint64_t *records, size_t records_length, const uint8_t *cache, size_t cache_length,
    const uint8_t *memory, size_t memory_length, const oaledva_uses *uses, size_t uses_length,
    size_t process, size_t slot);

OALEDVA_MUST_USE oaledva_answer oaledva_sets_map(
    OALEDVA_SHAPE_ARGS,
    const uint32_t *slots, size_t slots_length, uint64_t *words, size_t words_length,
    uint64_t *records, size_t records_length, const uint8_t *cache, size_t cache_length,
    uint8_t *memory, size_t memory_length, const oaledva_uses *uses, size_t uses_length,
    uint64_t page, size_t frame, oaledva_permission permission);

OALEDVA_MUST_USE oaledva_answer oaledva_sets_unmap(
    OALEDVA_SHAPE_ARGS,
    const uint32_t *slots, size_t slots_length, uint64_t *words, size_t words_length,
    uint64_t *records, size_t records_length, const uint8_t *cache, size_t cache_length,
    uint8_t *memory, size_t memory_length, const oaledva_uses *uses, size_t uses_length,
    uint64_t page);

OALEDVA_MUST_USE oaledva_answer oaledva_sets_protect(
    OALEDVA_SHAPE_ARGS,
    const uint32_t *slots, size_t slots_length, uint64_t *words, size_t words_length,
    uint64_t *records, size_t records_length, const uint8_t *cache, size_t cache_length,
    uint8_t *memory, size_t memory_length, const oaledva_uses *uses, size_t uses_length,
    uint64_t page, oaledva_permission permission);

OALEDVA_MUST_USE oaledva_answer oaledva_sets_move(
    OALEDVA_SHAPE_ARGS,
    const uint32_t *slots, size_t slots_length, uint64_t *words, size_t words_length,
    uint64_t *records, size_t records_length, const uint8_t *cache, size_t cache_length,
    uint8_t *memory, size_t memory_length, const oaledva_uses *uses, size_t uses_length,
    uint64_t page, uint64_t new_page);

OALEDVA_MUST_USE oaledva_answer oaledva_sets_flush_all(
    OALEDVA_SHAPE_ARGS,
    const uint32_t *slots, size_t slots_length, const uint64_t *words, size_t words_length,
    uint64_t *records, size_t records_length, const uint8_t *cache, size_t cache_length,
    uint8_t *memory, size_t memory_length, const oaledva_uses *uses, size_t uses_length);

OALEDVA_MUST_USE oaledva_answer oaledva_sets_tag(
    OALEDVA_SHAPE_ARGS,
    const uint32_t *slots, size_t slots_length, const uint64_t *words, size_t words_length,
    const uint64_t *records, size_t records_length, const uint8_t *cache, size_t cache_length,
    const uint8_t *memory, size_t memory_length, const oaledva_uses *uses, size_t uses_length,
    uint32_t *set, uint64_t *name,
    uint64_t line_name);

OALEDVA_MUST_USE oaledva_answer oaledva_sets_load_and_map(
    OALEDVA_SHAPE_ARGS,
    const uint32_t *slots, size_t slots_length, const uint64_t *words, size_t words_length,
    uint64_t *records, size_t records_length, uint8_t *cache, size_t cache_length,
    uint8_t *memory, size_t memory_length, oaledva_uses *uses, size_t uses_length,
    uint32_t *set, uint64_t *name,
    size_t physical_line);

OALEDVA_MUST_USE oaledva_answer oaledva_sets_drop_tag(
    OALEDVA_SHAPE_ARGS,
    const uint32_t *slots, size_t slots_length, const uint64_t *words, size_t words_length,
    const uint64_t *records, size_t records_length, const uint8_t *cache, size_t cache_length,
    const uint8_t *memory, size_t memory_length, const oaledva_uses *uses, size_t uses_length,
    uint32_t *set, uint64_t *name);

OALEDVA_MUST_USE oaledva_place oaledva_sets_look(
    OALEDVA_SHAPE_ARGS,
    const uint32_t *slots, size_t slots_length, const uint64_t *words, size_t words_length,
    const uint64_t *records, size_t records_length, const uint8_t *cache, size_t cache_length,
    const uint8_t *memory, size_t memory_length, const oaledva_uses *uses, size_t uses_length,
    size_t physical_line);

OALEDVA_MUST_USE oaledva_looked oaledva_sets_look_number(
    OALEDVA_SHAPE_ARGS,
    const uint32_t *slots, size_t slots_length, const uint64_t *words, size_t words_length,
    const uint64_t *records, size_t records_length, const uint8_t *cache, size_t cache_length,
    const uint8_t *memory, size_t memory_length, const oaledva_uses *uses, size_t uses_length,
    size_t physical_line);

/* ---- a board of this edition in one place: what the other has, and the matrices. b.common.memory is its memory, b.common.tag
 * its tag. The functions oaledva_board_... are not for `common`. */
typedef struct oaledva_sets_board {
    oaledva_board common;
    oaledva_uses *uses;
    size_t uses_length;
} oaledva_sets_board;

/* The sixteen arguments that every call takes first here, and the tag's two. */
#define OALEDVA_SETS_LEND(b) OALEDVA_LEND((b).common), (b).uses, (b).uses_length
#define OALEDVA_SETS_TAG_OF(b) OALEDVA_TAG_OF((b).common)

/* An initialiser for a board over six arrays, with no tag pending. */
#define OALEDVA_SETS_BOARD(F, U, P, L, slots, words, records, cache, memory, uses)                                 \
    {OALEDVA_BOARD(F, U, P, L, slots, words, records, cache, memory), uses, OALEDVA_COUNT(uses)}

/* Declares a fresh board with static buffers, as OALEDVA_STATIC_BOARD does. */
#define OALEDVA_SETS_STATIC_BOARD(b, F, U, P, L)                                                                   \
    OALEDVA_ASSERT(b##_sets, OALEDVA_SIZE(L) >= OALEDVA_SET_LINES, "too few lines for sets of four");              \
    OALEDVA_STATIC_BUFFERS(b##_, F, U, P, L);                                                                      \
    static oaledva_uses b##_uses[OALEDVA_USES(L)];                                                                 \
    static oaledva_sets_board b =                                                                                  \
        OALEDVA_SETS_BOARD(F, U, P, L, b##_slots, b##_words, b##_records, b##_cache, b##_memory, b##_uses)

/* In a block of memory, as in the other edition: how many bytes it must have; the board that stands in a block, from its start
 * what a block of the other edition has, then the matrices; and a fresh one. */
OALEDVA_MUST_USE static inline size_t oaledva_sets_board_bytes(size_t frames, size_t uncached, size_t processes, size_t lines) {
    if (!OALEDVA_SETS_KEEPS_LIMITS(frames, uncached, processes, lines)) return 0;
    return oaledva_board_bytes(frames, uncached, processes, lines) + sizeof(oaledva_uses) * OALEDVA_USES(lines);
}

OALEDVA_MUST_USE static inline oaledva_answer oaledva_sets_board_over(
    oaledva_sets_board *b, size_t frames, size_t uncached, size_t processes, size_t lines, void *block, size_t bytes) {
    const size_t needed = oaledva_sets_board_bytes(frames, uncached, processes, lines);
    /* Room for all but the matrices is no room. */
    const size_t room = needed != 0 && bytes >= needed ? bytes : 0;
    const oaledva_answer answer = oaledva_board_over(&b->common, frames, uncached, processes, lines, block, room);
    b->uses = oaledva_done(answer) ? (oaledva_uses *)(b->common.memory + OALEDVA_MEMORY(frames)) : NULL;
    b->uses_length = oaledva_done(answer) ? OALEDVA_USES(lines) : 0;
    return answer;
}

OALEDVA_MUST_USE static inline oaledva_answer oaledva_sets_board_fresh(
    oaledva_sets_board *b, size_t frames, size_t uncached, size_t processes, size_t lines, void *block, size_t bytes) {
    const oaledva_answer answer = oaledva_sets_board_over(b, frames, uncached, processes, lines, block, bytes);
    if (oaledva_done(answer)) memset(block, 0, oaledva_sets_board_bytes(frames, uncached, processes, lines));
    return answer;
}

/* The calls on such a board, each as on a board of the other edition. */
OALEDVA_MUST_USE static inline oaledva_answer oaledva_sets_board_load(
    oaledva_sets_board *b, size_t process, uint32_t width, uint64_t address) {
    return oaledva_sets_user_access(
        OALEDVA_SETS_LEND(*b), b->common.tag, process, OALEDVA_LOAD, width, oaledva_effective(address), 0);
}

OALEDVA_MUST_USE static inline oaledva_answer oaledva_sets_board_store(
    oaledva_sets_board *b, size_t process, uint32_t width, uint64_t address, uint32_t value) {
    return oaledva_sets_user_access(
        OALEDVA_SETS_LEND(*b), b->common.tag, process, OALEDVA_STORE, width, oaledva_effective(address), value);
}

OALEDVA_MUST_USE static inline oaledva_answer oaledva_sets_board_accesses(
    oaledva_sets_board *b, const oaledva_access *accesses, size_t accesses_length, oaledva_answer *answers,
    size_t answers_length) {
    return oaledva_sets_user_accesses(OALEDVA_SETS_LEND(*b), b->common.tag, (const uint32_t *)accesses,
                                      oaledva_accesses_words(accesses_length), answers, answers_length);
}

OALEDVA_MUST_USE static inline oaledva_answer oaledva_sets_board_supervisor_load(
    oaledva_sets_board *b, uint32_t width, uint64_t address) {
    return oaledva_sets_supervisor_access(OALEDVA_SETS_LEND(*b), b->common.tag, OALEDVA_LOAD, width, address, 0);
}

OALEDVA_MUST_USE static inline oaledva_answer oaledva_sets_board_supervisor_store(
    oaledva_sets_board *b, uint32_t width, uint64_t address, uint32_t value) {
    return oaledva_sets_supervisor_access(OALEDVA_SETS_LEND(*b), b->common.tag, OALEDVA_STORE, width, address, value);
}

OALEDVA_MUST_USE static inline oaledva_answer oaledva_sets_board_attach(
    oaledva_sets_board *b, size_t process, size_t slot, uint64_t segment, oaledva_permission permission) {
    return oaledva_sets_attach(OALEDVA_SETS_LEND(*b), process, slot, segment, permission);
}

OALEDVA_MUST_USE static inline oaledva_answer oaledva_sets_board_detach(
    oaledva_sets_board *b, size_t process, size_t slot) {
    return oaledva_sets_detach(OALEDVA_SETS_LEND(*b), process, slot);
}

OALEDVA_MUST_USE static inline oaledva_answer oaledva_sets_board_map(
    oaledva_sets_board *b, uint64_t page, size_t frame, oaledva_permission permission) {
    return oaledva_sets_map(OALEDVA_SETS_LEND(*b), page, frame, permission);
}

OALEDVA_MUST_USE static inline oaledva_answer oaledva_sets_board_unmap(oaledva_sets_board *b, uint64_t page) {
    return oaledva_sets_unmap(OALEDVA_SETS_LEND(*b), page);
}

OALEDVA_MUST_USE static inline oaledva_answer oaledva_sets_board_protect(
    oaledva_sets_board *b, uint64_t page, oaledva_permission permission) {
    return oaledva_sets_protect(OALEDVA_SETS_LEND(*b), page, permission);
}

OALEDVA_MUST_USE static inline oaledva_answer oaledva_sets_board_move(
    oaledva_sets_board *b, uint64_t page, uint64_t new_page) {
    return oaledva_sets_move(OALEDVA_SETS_LEND(*b), page, new_page);
}

OALEDVA_MUST_USE static inline oaledva_answer oaledva_sets_board_flush_all(oaledva_sets_board *b) {
    return oaledva_sets_flush_all(OALEDVA_SETS_LEND(*b));
}

OALEDVA_MUST_USE static inline oaledva_answer oaledva_sets_board_tag(oaledva_sets_board *b, uint64_t line_name) {
    return oaledva_sets_tag(OALEDVA_SETS_LEND(*b), OALEDVA_SETS_TAG_OF(*b), line_name);
}

OALEDVA_MUST_USE static inline oaledva_answer oaledva_sets_board_load_and_map(oaledva_sets_board *b, size_t physical_line) {
    return oaledva_sets_load_and_map(OALEDVA_SETS_LEND(*b), OALEDVA_SETS_TAG_OF(*b), physical_line);
}

OALEDVA_MUST_USE static inline oaledva_answer oaledva_sets_board_drop_tag(oaledva_sets_board *b) {
    return oaledva_sets_drop_tag(OALEDVA_SETS_LEND(*b), OALEDVA_SETS_TAG_OF(*b));
}

OALEDVA_MUST_USE static inline const uint8_t *oaledva_sets_board_look(const oaledva_sets_board *b, size_t physical_line) {
    return oaledva_bytes_at(b->common.cache, b->common.memory, oaledva_sets_look(OALEDVA_SETS_LEND(*b), physical_line));
}

OALEDVA_MUST_USE static inline oaledva_looked oaledva_sets_board_look_number(
    const oaledva_sets_board *b, size_t physical_line) {
    return oaledva_sets_look_number(OALEDVA_SETS_LEND(*b), physical_line);
}

/* A call of a log, which has no edition: it may be made again on either. */
OALEDVA_MUST_USE static inline oaledva_answer oaledva_sets_board_perform(oaledva_sets_board *b, oaledva_log_entry call) {
    OALEDVA_PERFORM(oaledva_sets_board, b, call);
}

#ifdef __cplusplus
}
#endif

#endif
