/*
 * Makxirund: which task runs on which core.
 *
 * A dispatcher holds a number of cores, a table of tasks, the order in which the ready tasks woke,
 * and who sits on which core. The kernel holds the struct; every call acts on it in place. There is
 * no other state: no heap, no locks, no globals. Two calls on one dispatcher must not overlap.
 *
 * Every call checks that the dispatcher it is lent is sound, and says where it is not; it answers a
 * number, and leaves the dispatcher and all lent bytes as they stood where the number is not
 * MAKXIRUND_DONE (only makxirund_fresh always writes). Pointers must be valid: to one dispatcher, or
 * to as many bytes or records as the count beside them says; for a count of 0 any non-null, aligned
 * pointer will do.
 *
 * Link with -lmakxirund (libmakxirund.a, x86-64, System V ABI).
 */
#ifndef MAKXIRUND_H
#define MAKXIRUND_H

#include <stdbool.h>
#include <stddef.h>
#include <stdint.h>

#ifdef __cplusplus
extern "C" {
#define MAKXIRUND_ASSERT(what) static_assert(what, #what)
#else
#define MAKXIRUND_ASSERT(what) _Static_assert(what, #what)
#endif

/* ---- limits ---- */

#define MAKXIRUND_CORES 32 /* a dispatcher has 1 to 32 cores, numbered from 0 */
#define MAKXIRUND_SLOTS 128 /* task slots, numbered 0 to 127 */
#define MAKXIRUND_NONE 255 /* an unused place of the wake order, an idle core, no slot */
#define MAKXIRUND_EVENTS 16000 /* the most events that an event file may have */
#define MAKXIRUND_LONGEST_LINE 231 /* no line has more bytes, its newline included */
#define MAKXIRUND_LONGEST_FAULT 36 /* nor has the one line of a refused file */
#define MAKXIRUND_LIST_ROOM 192 /* bytes enough for every List text that is written .. */
#define MAKXIRUND_MASK_ROOM 17 /* .. and for every Mask text */

/* ---- answers ---- */

enum makxirund_number {
    MAKXIRUND_DONE = 0,
    /* 1 (not sound) is never given, for 21 to 25 say what is unsound; the number stays reserved */
    MAKXIRUND_CORE_COUNT = 2, /* core count not 1 to 32: fresh, file reader */
    MAKXIRUND_SLOT_ABOVE = 3, /* slot above 127: create, delete, wake, block, load */
    MAKXIRUND_SLOT_IN_USE = 4, /* create, load */
    MAKXIRUND_SLOT_EMPTY = 5, /* delete, wake, block */
    MAKXIRUND_PRIORITY_ZERO = 6, /* create, load */
    MAKXIRUND_MASK_EMPTY = 7, /* create, load */
    MAKXIRUND_MISSING_CORE = 8, /* the mask names a core at or above the count: create, load */
    MAKXIRUND_ALREADY_READY = 9, /* wake */
    MAKXIRUND_NOT_READY = 10, /* block */
    /* 11 (still ready) is never given, for delete takes ready tasks too; the number stays reserved */
    MAKXIRUND_FILE_SHORT = 12, /* the file ends too early: file reader */
    MAKXIRUND_BYTES_AFTER = 13, /* bytes after the last event: file reader */
    MAKXIRUND_BAD_KIND = 14, /* event kind not 1 to 3: file reader; not 0 to 3: line writer */
    MAKXIRUND_LINE_LONG = 15, /* the line is longer than the buffer: line writer */
    MAKXIRUND_EVENT_COUNT = 16, /* more than 16,000 events: file reader */
    MAKXIRUND_UNEXPECTED = 17, /* unexpected character or end: readers of core sets */
    MAKXIRUND_BACKWARD = 18, /* range that runs backward: List reader */
    MAKXIRUND_ABOVE_LIMIT = 19, /* core at or above the limit: readers and writers of core sets */
    MAKXIRUND_OUTPUT_SHORT = 20, /* the text is longer than the buffer: writers of core sets */
    /* the dispatcher is not sound (all calls that are lent one, but fresh); below is where to look */
    MAKXIRUND_UNSOUND_COUNT = 21, /* d->cores */
    MAKXIRUND_UNSOUND_SLOT = 22, /* d->tasks[place] */
    MAKXIRUND_UNSOUND_PLACE = 23, /* d->order[place] */
    MAKXIRUND_UNSOUND_MISSING_CORE = 24, /* d->seats[place], at or above the count */
    MAKXIRUND_UNSOUND_SEAT = 25 /* d->seats[place], below the count */
};
/*
 * 21 to 25 are checked first, in this order; of the others the lowest is given. A file or a text is
 * judged byte by byte from its start.
 */

/* ---- structs: 255 is MAKXIRUND_NONE ---- */

/* A slot is empty when both are 0. Priority 1 to 255, larger is more urgent; bit k of the mask for core k. */
struct makxirund_task {
    uint8_t priority;
    uint32_t mask;
};

struct makxirund_dispatcher {
    uint8_t cores;
    struct makxirund_task tasks[MAKXIRUND_SLOTS];
    uint16_t order[MAKXIRUND_SLOTS]; /* the ready slots in the order in which they woke, then 255 */
    uint16_t seats[MAKXIRUND_CORES]; /* for each core the slot that runs on it, or 255 */
};

struct makxirund_report {
    uint8_t number; /* enum makxirund_number */
    uint8_t moves; /* how many tasks run before and after the call, on different cores */
    uint16_t started; /* the slot that started, or 255 */
    uint16_t stopped; /* the slot that was pushed off its core, or 255 */
    uint16_t place; /* with 21 to 25 where the dispatcher is unsound; else 0 */
};

/* What the check of a dispatcher says. */
struct makxirund_answer {
    uint8_t number; /* 0, or 21 to 25 */
    uint16_t place; /* with 21 to 25 where the dispatcher is unsound; else 0 */
};

/* A record of a boot list. */
struct makxirund_record {
    uint16_t slot;
    uint8_t priority;
    uint32_t mask;
};

struct makxirund_load_report {
    struct makxirund_report report;
    size_t index; /* the first refused record; 0 with number 0 and with 21 to 25 */
};

/* What the file reader says: number 0 and the three counts, or a refusal and its offset. */
struct makxirund_layout {
    uint8_t number;
    uint8_t cores;
    size_t records;
    size_t events;
    size_t offset;
};

/* All 0 where the file has no such record or event. */
struct makxirund_file_record {
    bool found;
    uint16_t slot;
    uint8_t priority;
    uint32_t mask;
};

struct makxirund_file_event {
    bool found;
    uint8_t kind; /* 1 wake, 2 block, 3 delete */
    uint16_t slot;
};

/* What a line says besides the seats; a report's place is not printed. */
struct makxirund_line {
    uint32_t number; /* the running number */
    uint8_t kind; /* 0 to 3 for create, wake, block, delete: C, W, B, D */
    uint16_t slot;
    struct makxirund_report report;
};

struct makxirund_written {
    uint8_t number;
    uint16_t place; /* with 21 to 25 where the dispatcher is unsound; else 0 */
    size_t length; /* the bytes written, a line's newline included; 0 where refused */
};

/* What a reader of core sets says: number 0, offset 0 and the set, or a refusal, its offset and the empty set. */
struct makxirund_reading {
    uint8_t number;
    size_t offset;
    uint64_t set; /* bit k for core k */
};

/* ---- the layout that the library was built with: place and size of each field ---- */

#define MAKXIRUND_AT(type, field, place, size)                       \
    MAKXIRUND_ASSERT(offsetof(struct type, field) == (place)         \
                     && sizeof(((struct type *)0)->field) == (size))
#define MAKXIRUND_SIZE(type, size) MAKXIRUND_ASSERT(sizeof(struct type) == (size))

MAKXIRUND_SIZE(makxirund_task, 8);
MAKXIRUND_AT(makxirund_task, priority, 0, 1);
MAKXIRUND_AT(makxirund_task, mask, 4, 4);
MAKXIRUND_SIZE(makxirund_dispatcher, 1348);
MAKXIRUND_AT(makxirund_dispatcher, cores, 0, 1);
MAKXIRUND_AT(makxirund_dispatcher, tasks, 4, 1024);
MAKXIRUND_AT(makxirund_dispatcher, order, 1028, 256);
MAKXIRUND_AT(makxirund_dispatcher, seats, 1284, 64);
MAKXIRUND_SIZE(makxirund_report, 8);
MAKXIRUND_AT(makxirund_report, number, 0, 1);
MAKXIRUND_AT(makxirund_report, moves, 1, 1);
MAKXIRUND_AT(makxirund_report, started, 2, 2);
MAKXIRUND_AT(makxirund_report, stopped, 4, 2);
MAKXIRUND_AT(makxirund_report, place, 6, 2);
MAKXIRUND_SIZE(makxirund_answer, 4);
MAKXIRUND_AT(makxirund_answer, number, 0, 1);
MAKXIRUND_AT(makxirund_answer, place, 2, 2);
MAKXIRUND_SIZE(makxirund_record, 8);
MAKXIRUND_AT(makxirund_record, slot, 0, 2);
MAKXIRUND_AT(makxirund_record, priority, 2, 1);
MAKXIRUND_AT(makxirund_record, mask, 4, 4);
MAKXIRUND_SIZE(makxirund_load_report, 16);
MAKXIRUND_AT(makxirund_load_report, report, 0, 8);
MAKXIRUND_AT(makxirund_load_report, index, 8, 8);
MAKXIRUND_SIZE(makxirund_layout, 32);
MAKXIRUND_AT(makxirund_layout, number, 0, 1);
MAKXIRUND_AT(makxirund_layout, cores, 1, 1);
MAKXIRUND_AT(makxirund_layout, records, 8, 8);
MAKXIRUND_AT(makxirund_layout, events, 16, 8);
MAKXIRUND_AT(makxirund_layout, offset, 24, 8);
MAKXIRUND_SIZE(makxirund_file_record, 12);
MAKXIRUND_AT(makxirund_file_record, found, 0, 1);
MAKXIRUND_AT(makxirund_file_record, slot, 2, 2);
MAKXIRUND_AT(makxirund_file_record, priority, 4, 1);
MAKXIRUND_AT(makxirund_file_record, mask, 8, 4);
MAKXIRUND_SIZE(makxirund_file_event, 4);
MAKXIRUND_AT(makxirund_file_event, found, 0, 1);
MAKXIRUND_AT(makxirund_file_event, kind, 1, 1);
MAKXIRUND_AT(makxirund_file_event, slot, 2, 2);
MAKXIRUND_SIZE(makxirund_line, 16);
MAKXIRUND_AT(makxirund_line, number, 0, 4);
MAKXIRUND_AT(makxirund_line, kind, 4, 1);
MAKXIRUND_AT(makxirund_line, slot, 6, 2);
MAKXIRUND_AT(makxirund_line, report, 8, 8);
MAKXIRUND_SIZE(makxirund_written, 16);
MAKXIRUND_AT(makxirund_written, number, 0, 1);
MAKXIRUND_AT(makxirund_written, place, 2, 2);
MAKXIRUND_AT(makxirund_written, length, 8, 8);
MAKXIRUND_SIZE(makxirund_reading, 24);
MAKXIRUND_AT(makxirund_reading, number, 0, 1);
MAKXIRUND_AT(makxirund_reading, offset, 8, 8);
MAKXIRUND_AT(makxirund_reading, set, 16, 8);

/* ---- what is unsound, and where it stands in a dump of the dispatcher ---- */

/*
 * With 21 to 25 comes a place, and the two name one word of the dispatcher; with every other number
 * the place is 0. Slots, places of the wake order, cores and the bytes of the dispatcher count from
 * 0, and a word's lowest byte stands first. Of several words that are wrong for one number the lowest
 * place is given. A slot is used where its priority and its mask are not both 0.
 *
 * 21  d->cores, at byte 0. The place is the count found there.
 *     Wrong: it is not 1 to 32.
 *
 * 22  d->tasks[place], at byte 4 + 8 * place: the priority there, the mask four bytes on.
 *     Wrong: the slot is used, and its priority is 0, or its mask is 0 or names a core at or above
 *     d->cores.
 *
 * 23  d->order[place], at byte 1028 + 2 * place.
 *     Wrong: it is not 255, and either it is no used slot (but an empty one, or above 127), or it
 *     stands at an earlier place too (of two equal entries the later one is named), or an earlier
 *     place holds 255 (for a gap the next place is named that does not hold 255).
 *
 * 24  d->seats[place], at byte 1284 + 2 * place, of a core at or above d->cores.
 *     Wrong: it is not 255.
 *
 * 25  d->seats[place], at byte 1284 + 2 * place, of a core below d->cores.
 *     Wrong: it is not 255, and either it is no slot of the wake order, or it sits on a lower core
 *     too (of the two cores the higher one is named), or its mask has no bit for this core.
 */

/* ---- calls on the dispatcher that the kernel holds ---- */

/*
 * Makes *d an empty dispatcher of so many cores, whatever it held. Refused: 2, and then *d is an
 * empty dispatcher of one core. Call it before any other.
 */
struct makxirund_report makxirund_fresh(struct makxirund_dispatcher *d, uint8_t cores);

/* Fills an empty slot with a task that is not ready. Refused: 21 to 25, 3, 4, 6, 7, 8. */
struct makxirund_report makxirund_create(
    struct makxirund_dispatcher *d, uint16_t slot, uint8_t priority, uint32_t mask);

/*
 * Empties the slot, which may be used again at once. If the task is ready, this does first what
 * makxirund_block does, and reports as it does: moves and started are those of the refill of its core,
 * and stopped is 255, for the deleted task does not count as stopped. If the task waited or was not
 * ready, nobody moves or starts. Refused: 21 to 25, 3, 5.
 */
struct makxirund_report makxirund_delete(struct makxirund_dispatcher *d, uint16_t slot);

/*
 * The task becomes ready, last among its equals, and seeks a core: running tasks are shifted along a
 * chain of cores to an idle one, or to that of a less urgent task, which stops.
 * Refused: 21 to 25, 3, 5, 9.
 */
struct makxirund_report makxirund_wake(struct makxirund_dispatcher *d, uint16_t slot);

/*
 * The task is no longer ready. If it ran, the waiting task that comes first of those that reach its
 * core starts, by a chain of shifts. Refused: 21 to 25, 3, 5, 10.
 */
struct makxirund_report makxirund_block(struct makxirund_dispatcher *d, uint16_t slot);

/*
 * Creates all records in order, or none. Refused: 21 to 25 with index 0 and the place in the report,
 * or 3, 4, 6, 7, 8 with the index of the first refused record; a slot named twice is 4 where it is
 * named again. No records: done, or 21 to 25.
 */
struct makxirund_load_report makxirund_load(
    struct makxirund_dispatcher *d, const struct makxirund_record *records, size_t count);

/* Number 0 where the dispatcher is sound, else 21 to 25 and the place, as every call gives them. */
struct makxirund_answer makxirund_sound(const struct makxirund_dispatcher *d);

/* ---- event files ---- */

/*
 * The layout of an event file (core count, tasks after their count, events after theirs), or its
 * first fault: 2 at 0, 12 at the file's length, 13 at the first surplus byte, 14 at the kind byte,
 * 16 at the event count's first byte.
 */
struct makxirund_layout makxirund_read(const uint8_t *file, size_t length);

/* Record and event `index`, from 0, where the file's bytes have it. */
struct makxirund_file_record makxirund_record(const uint8_t *file, size_t length, size_t index);
struct makxirund_file_event makxirund_event(const uint8_t *file, size_t length, size_t index);

/* ---- lines ---- */

/*
 * Writes one line, with the seats of *d, to the buffer's start: running number; C, W, B or D; slot;
 * answer; moves; started; stopped; for each core the slot or `-`. Prints the numbers it is given.
 * Refused: 21 to 25, 14, 15; then no byte changes.
 */
struct makxirund_written makxirund_line(
    struct makxirund_line line, const struct makxirund_dispatcher *d, uint8_t *buffer, size_t room);

/* Writes `refused NUMBER at OFFSET`, the one line of a refused file. Refused: 15. */
struct makxirund_written makxirund_fault(
    uint8_t number, size_t offset, uint8_t *buffer, size_t room);

/* ---- core sets, in the List and Mask formats of Linux cpuset(7) ---- */

/*
 * Cores are numbered from 0, and those below the limit may be named. A limit is 1 to 64; one above 64
 * counts as 64, and 0 allows no core. A text is its characters alone: no white space, no newline, no
 * 0 at its end.
 */

/*
 * The set that a List text means, as 0-4,9: numbers and ranges with commas between, in any order;
 * they may overlap and have leading zeros, and the empty text is the empty set. Or the text's first
 * fault: 17 at the character, or at the text's length where it ends too early; 18 at the first digit
 * of the range's second number; 19 at the number's first digit.
 */
struct makxirund_reading makxirund_read_list(const uint8_t *text, size_t length, uint8_t limit);

/*
 * The set that a Mask text means, as 00000001,8000021f: eight hexadecimal digits of either case to a
 * word of 32 cores, the highest word first, commas between, and exactly as many words as the limit
 * needs: one up to 32, two above, none for 0. Or its first fault: 17 as above, 19 at the digit with
 * the core's bit.
 */
struct makxirund_reading makxirund_read_mask(const uint8_t *text, size_t length, uint8_t limit);

/*
 * Writes the one List text of a set to the buffer's start: ascending, each longest run of two or more
 * as a range. Refused: 19, 20; then no byte changes, and none ever changes after the text.
 */
struct makxirund_written makxirund_write_list(
    uint64_t set, uint8_t limit, uint8_t *buffer, size_t room);

/* Writes the one Mask text of a set in the same way, in lower case. Refused: 19, 20. */
struct makxirund_written makxirund_write_mask(
    uint64_t set, uint8_t limit, uint8_t *buffer, size_t room);

#ifdef __cplusplus
}
#endif

#endif
