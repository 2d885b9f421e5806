"""What is unsound in a dispatcher, and the vectors for it: dumps with number and place worked out by hand.

The definition is document 01's conditions (a) to (e) and request 3 of document 02, written from these
alone and taken word by word: everything that breaks a condition is listed, and the lowest is named.
A dump is the dispatcher as it stands in memory, by the layout of ffi/makxirund.h.
"""

import struct
from collections import namedtuple
from itertools import combinations

from reference import MOST_CORES, SLOTS, Task, cores_of

NONE = 255
# The core count and three bytes of padding; a task's priority, three of padding, and its mask.
HEAD = struct.Struct("<B3x")
TASK = struct.Struct("<B3xI")

EMPTY = Task(0, 0)


class Image:
    """A dispatcher in memory, sound or not; fresh to begin with."""

    def __init__(self, cores, slots=SLOTS, limit=MOST_CORES):
        self.cores = cores
        self.tasks = [EMPTY] * slots
        self.order = [NONE] * slots
        self.seats = [NONE] * limit

    def __str__(self):
        used = {slot: tuple(task) for slot, task in enumerate(self.tasks) if task != EMPTY}
        return f"cores {self.cores} tasks {used} order {self.order} seats {self.seats}"

    def dump(self):
        words = self.order + self.seats
        return b"".join([
            HEAD.pack(self.cores),
            *(TASK.pack(*task) for task in self.tasks),
            struct.pack(f"<{len(words)}H", *words),
        ])


# The definition. Sizes are those of the image, so that small ones can be enumerated.


def is_used(image, slot):
    """A slot is empty when its priority and mask are both 0, and used otherwise."""
    return slot < len(image.tasks) and image.tasks[slot] != EMPTY


def named(image, slot):
    """The cores that a slot's mask names."""
    return cores_of(image.tasks[slot].mask)


def wrong_count(image):
    """(a) its core count is 1 to 32"""
    return [image.cores] if image.cores not in range(1, len(image.seats) + 1) else []


def wrong_slots(image):
    """(b) each used slot has a legal priority and mask"""
    used = [slot for slot in range(len(image.tasks)) if is_used(image, slot)]
    priority = [slot for slot in used if not 1 <= image.tasks[slot].priority <= 255]
    empty_mask = [slot for slot in used if not named(image, slot)]
    missing_core = [slot for slot in used if any(core >= image.cores for core in named(image, slot))]
    return priority + empty_mask + missing_core


def wrong_places(image):
    """(c) the wake order holds only used slots, none twice, from its first place without a gap, and its
    unused places hold 255; of two equal entries the later one, for a gap the next used place
    """
    order = image.order
    held = [place for place in range(len(order)) if order[place] != NONE]
    no_used_slot = [place for place in held if not is_used(image, order[place])]
    twice = [later for earlier, later in combinations(held, 2) if order[earlier] == order[later]]
    gaps = [place for place in range(len(order)) if order[place] == NONE and held and place < held[-1]]
    after_gaps = [min(place for place in held if place > gap) for gap in gaps]
    return no_used_slot + twice + after_gaps


def wrong_missing_cores(image):
    """(d) each core at or above the count holds 255"""
    return [core for core, slot in enumerate(image.seats) if core >= image.cores and slot != NONE]


def wrong_seats(image):
    """(e) each seated slot is in the wake order, sits once, on a core of its mask; an idle core holds 255"""
    seats = image.seats
    seated = [core for core, slot in enumerate(seats) if core < image.cores and slot != NONE]
    not_ready = [core for core in seated if seats[core] not in image.order]
    twice = [higher for lower, higher in combinations(seated, 2) if seats[lower] == seats[higher]]
    outside = [core for core in seated if is_used(image, seats[core]) and core not in named(image, seats[core])]
    return not_ready + twice + outside


CONDITIONS = {
    "a": (21, wrong_count),
    "b": (22, wrong_slots),
    "c": (23, wrong_places),
    "d": (24, wrong_missing_cores),
    "e": (25, wrong_seats),
}


def unsound(image):
    """The number and place of the first condition that is broken; 0 and 0 for a sound dispatcher."""
    for number, wrong in CONDITIONS.values():
        if found := wrong(image):
            return number, min(found)
    return 0, 0


# Sound dispatchers to begin with.


def board(count, tasks, order, seats):
    image = Image(count)
    for slot, priority, mask in tasks:
        image.tasks[slot] = Task(priority, mask)
    image.order[:len(order)] = order
    image.seats[:len(seats)] = seats
    return image


def listing():
    """Document 01's listing after line 8; slot 5 waits."""
    tasks = [(0, 50, 0b011), (1, 40, 0b110), (2, 30, 0b001), (5, 30, 0b100)]
    return board(3, tasks, [0, 1, 2, 5], [2, 0, 1])


def queue():
    """One core; slot 10 runs, slots 11 to 13 wait for it."""
    return board(1, [(10, 9, 1), (11, 5, 1), (12, 5, 1), (13, 5, 1)], [10, 11, 12, 13], [10])


def idle():
    """Two cores, both idle, though three tasks wait; no sequence of calls gives this."""
    return board(2, [(20, 3, 0b01), (21, 2, 0b10), (22, 1, 0b11)], [20, 21, 22], [])


def four():
    """Four cores, the last of them idle; slot 30 may sit on 1 and 3, slot 33 sleeps."""
    tasks = [(30, 7, 0b1010), (31, 6, 0b1111), (32, 5, 0b0001), (33, 4, 0b1111)]
    return board(4, tasks, [30, 31, 32], [32, 30, 31])


def crowd(count=32):
    """Every slot ready, in falling order; the first ones of the order run, each on the core of its place."""
    falling = list(reversed(range(SLOTS)))
    return board(count, [(slot, 1 + slot, 2**count - 1) for slot in range(SLOTS)], falling, falling[:count])


def asleep():
    """Eight cores and every slot used, but nobody ready."""
    return board(8, [(slot, 255 - slot, 1 << slot % 8) for slot in range(SLOTS)], [], [])


# What is written over them.


def put_count(cores):
    def write(image):
        image.cores = cores
    return write


def put_task(slot, priority, mask):
    def write(image):
        image.tasks[slot] = Task(priority, mask)
    return write


def put_order(place, *entries):
    def write(image):
        image.order[place:place + len(entries)] = entries
    return write


def put_seats(core, *slots):
    def write(image):
        image.seats[core:core + len(slots)] = slots
    return write


# The vectors. `breaks` are the conditions that what is written breaks, with the count of the board.

Vector = namedtuple("Vector", "name begin breaks number place writes")


def vector(name, begin, breaks, number, place, *writes):
    return Vector(name, begin, breaks, number, place, writes)


def image_of(made):
    image = made.begin()
    for write in made.writes:
        write(image)
    return image


def sound_vectors():
    return [
        vector("sound-fresh-1", lambda: Image(1), "", 0, 0),
        vector("sound-fresh-32", lambda: Image(32), "", 0, 0),
        vector("sound-listing", listing, "", 0, 0),
        vector("sound-queue", queue, "", 0, 0),
        vector("sound-waiting-beside-idle-cores", idle, "", 0, 0),
        vector("sound-four", four, "", 0, 0),
        vector("sound-all-slots-ready", crowd, "", 0, 0),
        vector("sound-all-slots-asleep", asleep, "", 0, 0),
        vector("sound-31-cores", lambda: crowd(31), "", 0, 0),
        vector("sound-one-core-of-all-slots", lambda: crowd(1), "", 0, 0),
        vector("sound-one-sits-on-a-core-above-others", four, "", 0, 0, put_seats(0, NONE, NONE, 31, 30)),
        vector("sound-last-slot-alone", lambda: Image(32), "", 0, 0,
               put_task(127, 255, 1 << 31), put_order(0, 127), put_seats(31, 127)),
    ]


def count_vectors():
    return [
        vector("count-0", listing, "a", 21, 0, put_count(0)),
        vector("count-33", listing, "a", 21, 33, put_count(33)),
        vector("count-255", listing, "a", 21, 255, put_count(255)),
        vector("count-0-fresh", lambda: Image(1), "a", 21, 0, put_count(0)),
        vector("count-33-fresh", lambda: Image(32), "a", 21, 33, put_count(33)),
        vector("count-255-fresh", lambda: Image(32), "a", 21, 255, put_count(255)),
        vector("count-33-all-slots-ready", crowd, "a", 21, 33, put_count(33)),
        # What a byte or a shift may take for 0, 1 or 32.
        vector("count-64", four, "a", 21, 64, put_count(64)),
        vector("count-128", four, "a", 21, 128, put_count(128)),
        vector("count-129", queue, "a", 21, 129, put_count(129)),
    ]


def slot_vectors():
    return [
        vector("slot-0-no-mask", queue, "b", 22, 0, put_task(0, 1, 0)),
        vector("slot-127-no-mask", queue, "b", 22, 127, put_task(127, 255, 0)),
        vector("slot-0-no-priority", queue, "b", 22, 0, put_task(0, 0, 1)),
        vector("slot-127-no-priority", asleep, "b", 22, 127, put_task(127, 0, 0b11111111)),
        vector("slot-0-missing-core", listing, "b", 22, 0, put_task(0, 50, 0b1011)),
        vector("slot-127-missing-core", listing, "b", 22, 127, put_task(127, 1, 0b1000)),
        vector("slot-missing-cores-only", listing, "b", 22, 5, put_task(5, 30, 0xFFFFFFF8), put_order(3, NONE)),
        vector("slot-missing-core-31-of-31", lambda: crowd(31), "b", 22, 64, put_task(64, 65, 0xFFFFFFFF)),
        vector("slot-missing-core-1-of-1", queue, "b", 22, 13, put_task(13, 5, 0b11)),
        vector("slot-no-priority-all-cores", crowd, "b", 22, 3, put_task(3, 0, 0xFFFFFFFF)),
        vector("slot-of-a-runner", four, "b", 22, 31, put_task(31, 0, 0b1111)),
        vector("slot-two-wrong", listing, "b", 22, 3, put_task(4, 1, 0), put_task(3, 0, 1)),
        vector("slot-0-and-127-wrong", asleep, "b", 22, 0, put_task(127, 9, 0), put_task(0, 9, 1 << 8)),
        vector("slot-126-and-127-wrong", crowd, "b", 22, 126, put_task(127, 0, 1), put_task(126, 1, 0),
               put_seats(0, NONE, NONE)),
        vector("slot-all-wrong", lambda: Image(1), "b", 22, 0, *(put_task(slot, 5, 0) for slot in range(SLOTS))),
    ]


def entry_vectors():
    """Entries of the wake order that are no used slots."""
    return [
        vector("place-empty-slot", listing, "c", 23, 3, put_order(3, 3)),
        vector("place-0-empty-slot", idle, "c", 23, 0, put_order(0, 19)),
        vector("place-0-slot-0", lambda: Image(1), "c", 23, 0, put_order(0, 0)),
        vector("place-128", queue, "c", 23, 3, put_order(3, 128)),
        vector("place-200", queue, "c", 23, 2, put_order(2, 200)),
        vector("place-254", queue, "c", 23, 1, put_order(1, 254)),
        vector("place-256", queue, "c", 23, 1, put_order(1, 256)),
        vector("place-65535", queue, "c", 23, 1, put_order(1, 65535)),
        # In one byte 12, and the mark.
        vector("place-268", queue, "c", 23, 2, put_order(2, 268)),
        vector("place-511", queue, "c", 23, 3, put_order(3, 511)),
        vector("place-two-wrong", queue, "c", 23, 1, put_order(1, 254, 12, 128)),
        vector("place-after-the-end-200", queue, "c", 23, 4, put_order(4, 200)),
        vector("place-slot-that-was-emptied", four, "c", 23, 2, put_task(32, 0, 0), put_seats(0, NONE)),
    ]


def equal_vectors():
    """Of two equal entries the later one."""
    return [
        vector("place-two-equal", queue, "c", 23, 2, put_order(2, 11)),
        vector("place-two-equal-apart", queue, "c", 23, 3, put_order(3, 11)),
        vector("place-two-equal-far-apart", crowd, "c", 23, 127, put_order(127, 127)),
        vector("place-two-equal-at-the-start", idle, "c", 23, 1, put_order(0, 21, 21, 22)),
        vector("place-two-equal-after-the-end", queue, "c", 23, 4, put_order(4, 13)),
        vector("place-three-equal", queue, "c", 23, 2, put_order(1, 11, 11, 11)),
        vector("place-three-equal-apart", queue, "c", 23, 2, put_order(0, 10, 11, 10, 10)),
        vector("place-two-pairs", queue, "c", 23, 3, put_order(1, 11, 12, 12, 11)),
        vector("place-all-equal", crowd, "c", 23, 1, put_order(0, *[127] * SLOTS), put_seats(1, *[NONE] * 31)),
    ]


def gap_vectors():
    """For a gap the next used place."""
    return [
        vector("place-gap-of-one", queue, "c", 23, 2, put_order(1, NONE)),
        vector("place-gap-of-many", queue, "c", 23, 100, put_order(3, NONE), put_order(100, 13)),
        vector("place-gap-of-one-in-a-crowd", crowd, "c", 23, 65, put_order(64, NONE)),
        vector("place-two-gaps", queue, "c", 23, 2, put_order(1, NONE, 11, NONE, 12)),
        vector("place-gap-after-the-end", queue, "c", 23, 5, put_task(14, 1, 1), put_order(5, 14)),
        vector("place-gap-at-0", idle, "c", 23, 1, put_order(0, NONE)),
        vector("place-gap-at-0-of-many", idle, "c", 23, 60, put_order(0, NONE, NONE, NONE), put_order(60, 22, 20)),
        vector("place-gap-to-the-last", idle, "c", 23, 127, put_order(0, NONE, NONE, NONE), put_order(127, 21)),
        vector("place-gap-then-200", queue, "c", 23, 3, put_order(2, NONE, 200)),
        vector("place-gap-then-an-empty-slot", idle, "c", 23, 2, put_order(1, NONE, 23)),
        vector("place-gap-then-an-equal", queue, "c", 23, 2, put_order(1, NONE, 10, 11)),
        vector("place-equal-before-a-gap", queue, "c", 23, 1, put_order(0, 10, 10, NONE, 11)),
        vector("place-gap-before-an-equal", queue, "c", 23, 3, put_order(1, 11, NONE, 12, 12)),
    ]


def last_place_vectors():
    """The last place of a wake order that has none left."""
    return [
        vector("place-127-of-a-crowd-200", crowd, "c", 23, 127, put_order(127, 200)),
        vector("place-127-of-a-crowd-empty-slot", crowd, "c", 23, 127, put_task(0, 0, 0)),
        vector("place-126-gap-of-a-crowd", crowd, "c", 23, 127, put_order(126, NONE)),
    ]


def missing_core_vectors():
    return [
        vector("missing-core-first", listing, "d", 24, 3, put_seats(3, 5)),
        vector("missing-core-last", listing, "d", 24, 31, put_seats(31, 5)),
        vector("missing-core-all-31", queue, "d", 24, 1, put_seats(1, *range(11, 42))),
        vector("missing-core-two", four, "d", 24, 7, put_seats(31, 33), put_seats(7, 33)),
        vector("missing-core-0", four, "d", 24, 4, put_seats(4, *[0] * 28)),
        vector("missing-core-128", four, "d", 24, 10, put_seats(10, 128)),
        vector("missing-core-254", four, "d", 24, 5, put_seats(5, 254)),
        vector("missing-core-511", four, "d", 24, 30, put_seats(30, 511)),
        vector("missing-core-65535", four, "d", 24, 16, put_seats(16, 65535)),
        vector("missing-core-of-a-runner", listing, "d", 24, 4, put_seats(4, 2)),
        vector("missing-core-31-of-31", lambda: crowd(31), "d", 24, 31, put_seats(31, 50)),
    ]


def seat_vectors():
    return [
        # Somebody who is not in the wake order, or nobody at all.
        vector("seat-not-ready", four, "e", 25, 3, put_seats(3, 33)),
        vector("seat-0-not-ready", asleep, "e", 25, 0, put_seats(0, 0)),
        vector("seat-empty-slot", four, "e", 25, 0, put_seats(0, 34)),
        vector("seat-128", four, "e", 25, 3, put_seats(3, 128)),
        vector("seat-200", four, "e", 25, 2, put_seats(2, 200)),
        vector("seat-254", four, "e", 25, 0, put_seats(0, 254)),
        # In one byte 32, and the mark.
        vector("seat-288", four, "e", 25, 0, put_seats(0, 288)),
        vector("seat-511", four, "e", 25, 3, put_seats(3, 511)),
        vector("seat-65535", four, "e", 25, 3, put_seats(3, 65535)),
        vector("seat-all-zero", lambda: Image(32), "e", 25, 0, put_seats(0, *[0] * 32)),
        # On two cores: the higher one, unless the lower one is outside the mask.
        vector("seat-twice", four, "e", 25, 3, put_seats(3, 31)),
        vector("seat-twice-side-by-side", crowd, "e", 25, 1, put_seats(1, 127)),
        vector("seat-twice-far-apart", crowd, "e", 25, 31, put_seats(31, 127)),
        vector("seat-three-times", four, "e", 25, 1, put_seats(0, 31, 31, 31)),
        vector("seat-twice-the-lower-outside", four, "e", 25, 1, put_task(30, 7, 0b1000), put_seats(3, 30)),
        vector("seat-twice-the-higher-outside", four, "e", 25, 3, put_task(30, 7, 0b0010), put_seats(3, 30)),
        vector("seat-twice-both-outside", four, "e", 25, 1, put_task(30, 7, 0b0001), put_seats(3, 30)),
        # On a core outside the mask.
        vector("seat-outside", listing, "e", 25, 2, put_seats(2, 5), put_task(5, 30, 0b001)),
        vector("seat-0-outside", listing, "e", 25, 0, put_seats(0, 5)),
        vector("seat-31-outside", crowd, "e", 25, 31, put_task(96, 97, 0x7FFFFFFF)),
        vector("seat-two-swapped", listing, "e", 25, 0, put_seats(0, 1, 0, 2)),
        vector("seat-two-wrong", four, "e", 25, 0, put_seats(2, 33), put_seats(0, 30)),
        vector("seat-of-a-task-out-of-the-order", queue, "e", 25, 0, put_order(0, 11, 12, 13, NONE)),
    ]


def mixed_vectors():
    """Several conditions at once, the later ones at lower places where that can be."""
    return [
        vector("both-a-b", listing, "ab", 21, 40, put_count(40), put_task(0, 0, 0b011)),
        vector("both-a-c", idle, "ac", 21, 0, put_count(0), put_order(0, 200)),
        vector("both-a-d", listing, "ad", 21, 0, put_count(0), put_seats(3, 5)),
        vector("both-a-e", four, "ae", 21, 33, put_count(33), put_seats(0, 33)),
        vector("both-b-c", idle, "bc", 22, 127, put_task(127, 1, 0), put_order(0, 127, 127)),
        vector("both-b-d", queue, "bd", 22, 99, put_task(99, 0, 1), put_seats(1, 99)),
        vector("both-b-e", four, "be", 22, 33, put_task(33, 4, 0), put_seats(0, 33)),
        vector("both-c-d", idle, "cd", 23, 100, put_order(100, 21), put_seats(2, 21)),
        vector("both-c-e", four, "ce", 23, 3, put_order(3, 30), put_seats(0, 34)),
        vector("both-d-e", four, "de", 24, 31, put_seats(31, 33), put_seats(0, 33)),
        vector("all-but-a", listing, "bcde", 22, 126, put_task(126, 0, 8), put_order(4, 7), put_seats(3, 9),
               put_seats(0, 5)),
        vector("all-but-a-b", listing, "cde", 23, 120, put_order(120, 1), put_seats(20, 1), put_seats(0, 77)),
        vector("all-five", four, "abcde", 21, 0, put_count(0), put_task(1, 1, 0), put_order(0, 128),
               put_seats(4, 200), put_seats(0, 77)),
        vector("all-five-255", four, "abcde", 21, 255, put_count(255), put_task(0, 0, 1), put_order(1, NONE),
               put_seats(4, 3), put_seats(0, 33)),
        # What memory holds that nobody wrote.
        vector("memory-of-zeros", lambda: Image(4), "acde", 21, 0, put_count(0), put_order(0, *[0] * SLOTS),
               put_seats(0, *[0] * MOST_CORES)),
        vector("memory-of-zeros-but-a-count", lambda: Image(4), "cde", 23, 0, put_order(0, *[0] * SLOTS),
               put_seats(0, *[0] * MOST_CORES)),
        vector("memory-of-ones", lambda: Image(4), "abcde", 21, 255, put_count(255),
               *(put_task(slot, 255, 0xFFFFFFFF) for slot in range(SLOTS)),
               put_order(0, *[65535] * SLOTS), put_seats(0, *[65535] * MOST_CORES)),
    ]


def all_vectors():
    return (
        sound_vectors()
        + count_vectors()
        + slot_vectors()
        + entry_vectors()
        + equal_vectors()
        + gap_vectors()
        + last_place_vectors()
        + missing_core_vectors()
        + seat_vectors()
        + mixed_vectors()
    )
