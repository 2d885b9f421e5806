#!/usr/bin/env python3
"""Hold tools/unsound.py to request 3 of document 02, and its vectors to what was worked out by hand.

    python3 tools/test_unsound.py

The definition is held against another reading of the same words, over all small dispatchers and over
random ones: each condition as a yes or no, and the lowest place up to which it is broken already. Prints
what was checked and how often; exit status 1 on the first difference.
"""

import re
import sys
from copy import copy
from itertools import combinations, product
from pathlib import Path

sys.dont_write_bytecode = True

from dice import Dice
from reference import MOST_CORES, SLOTS, Task
from self_check import counts, expect, run
from unsound import CONDITIONS, EMPTY, NONE, Image, all_vectors, image_of, unsound, wrong_count

HEADER = Path(__file__).resolve().parent.parent / "ffi" / "makxirund.h"


# The other reading.


def is_counted(image):
    return 1 <= image.cores <= len(image.seats)


def has_legal_slots(image):
    return all(task == EMPTY or task.priority > 0 and 0 < task.mask < 2**image.cores for task in image.tasks)


def has_an_order(image):
    end = image.order.index(NONE) if NONE in image.order else len(image.order)
    ready = set(image.order[:end])
    used = {slot for slot, task in enumerate(image.tasks) if task != EMPTY}
    return ready <= used and len(ready) == end and set(image.order[end:]) <= {NONE}


def misses_no_core(image):
    return set(image.seats[image.cores:]) <= {NONE}


def has_seats(image):
    """Whether the seats are a table of ready slots, each to one core of its mask."""
    cores = {}
    for core, slot in enumerate(image.seats[:image.cores]):
        if slot != NONE:
            cores.setdefault(slot, []).append(core)
    ready = set(image.order) - {NONE}
    return all(
        slot in ready and len(on) == 1 and image.tasks[slot].mask >> on[0] & 1
        for slot, on in cores.items()
    )


def cut(image, number, place):
    """The image with nothing behind the slot, the place or the core that the number speaks of."""
    name, blank = {22: ("tasks", EMPTY), 23: ("order", NONE)}.get(number, ("seats", NONE))
    words = getattr(image, name)
    other = copy(image)
    setattr(other, name, words[:place + 1] + [blank] * (len(words) - place - 1))
    return other


def by_cutting(image):
    if not is_counted(image):
        return 21, image.cores
    for number, holds in ((22, has_legal_slots), (23, has_an_order), (24, misses_no_core), (25, has_seats)):
        if not holds(image):
            return number, next(place for place in range(SLOTS) if not holds(cut(image, number, place)))
    return 0, 0


def check(image, kind):
    found = unsound(image)
    expect("number and place", found, by_cutting(image), image)
    counts[f"{kind}: {found[0] or 'sound'}"] += 1
    return found


# The vectors.


def broken(image, cores):
    """The letters of all conditions that are broken, with the count that the board had."""
    counted = copy(image)
    counted.cores = cores
    letters = ["a"] if wrong_count(image) else []
    return "".join(letters + [letter for letter, (_, wrong) in CONDITIONS.items() if wrong(counted)])


def check_vectors():
    """What was worked out by hand is what the definition says, from a sound dispatcher on."""
    for made in all_vectors():
        begin, image = made.begin(), image_of(made)
        expect("a sound dispatcher to begin with", check(begin, "boards"), (0, 0), made.name)
        expect("number and place by hand", check(image, "vectors"), (made.number, made.place), made.name)
        expect("what is broken", broken(image, begin.cores), made.breaks, made.name)


def check_what_is_shown():
    """There is a vector for each condition alone, for each two, and for all."""
    shown = {made.breaks for made in all_vectors()}
    wanted = ["", "abcde", *CONDITIONS, *("".join(two) for two in combinations(CONDITIONS, 2))]
    for breaks in wanted:
        expect(f"a vector that breaks {breaks or 'nothing'}", breaks in shown, True)
        counts["mixtures of conditions that a vector shows"] += 1


# The dumps, read by the offsets that the header asserts.


def header_offsets(struct):
    """Place and size of each field, and the size of the struct."""
    text = HEADER.read_text()
    fields = re.findall(rf"MAKXIRUND_AT\({struct}, (\w+), (\d+), (\d+)\)", text)
    (size,) = re.findall(rf"MAKXIRUND_SIZE\({struct}, (\d+)\)", text)
    return {name: (int(place), int(length)) for name, place, length in fields}, int(size)


def number_at(dump, place, size):
    return int.from_bytes(dump[place:place + size], "little")


def check_dumps():
    fields, size = header_offsets("makxirund_dispatcher")
    task, task_size = header_offsets("makxirund_task")
    for made in all_vectors():
        image = image_of(made)
        dump = image.dump()
        tasks, order, seats = fields["tasks"][0], fields["order"][0], fields["seats"][0]
        read = [
            Task(*(number_at(dump, tasks + task_size * slot + place, length) for place, length in task.values()))
            for slot in range(SLOTS)
        ]
        expect("size", len(dump), size, made.name)
        expect("count", number_at(dump, *fields["cores"]), image.cores, made.name)
        expect("tasks", read, image.tasks, made.name)
        expect("order", [number_at(dump, order + 2 * place, 2) for place in range(SLOTS)], image.order, made.name)
        expect("seats", [number_at(dump, seats + 2 * core, 2) for core in range(MOST_CORES)], image.seats, made.name)
        counts["dumps read by the header's offsets"] += 1


# All small dispatchers, and random ones.


def check_all_small(counted, tasks, entries, sitters, size):
    """Every dispatcher of so many slots and of two cores."""
    for cores in counted:
        for table in product(tasks, repeat=size):
            for order in product(entries, repeat=size):
                for seats in product(sitters, repeat=2):
                    image = Image(cores, size, 2)
                    image.tasks, image.order, image.seats = list(table), list(order), list(seats)
                    check(image, f"all of {size} slots")


def random_sound(dice):
    cores = dice.between(1, MOST_CORES)
    image = Image(cores)
    slots = dice.shuffled(range(SLOTS))[:dice.pick([0, 3, 20, SLOTS])]
    for slot in slots:
        image.tasks[slot] = Task(dice.between(1, 255), dice.mask(cores, 5))
    ready = slots[:dice.between(0, len(slots))]
    image.order[:len(ready)] = ready
    for core in range(cores):
        fitting = [slot for slot in ready if slot not in image.seats and image.tasks[slot].mask >> core & 1]
        if fitting and not dice.one_in(3):
            image.seats[core] = dice.pick(fitting)
    return image


def damage(dice, image):
    """One stray write; many leave the dispatcher sound."""
    slot = dice.below(SLOTS)
    odd = dice.pick([slot, slot, 0, 127, 128, 200, 254, NONE, 256, 511, 65535, dice.below(2**16)])
    kind = dice.below(12)
    if kind == 0:
        image.cores = dice.pick([0, 33, 255, dice.below(256)])
    elif kind <= 2:
        image.tasks[slot] = Task(dice.pick([0, 0, 1, 9]), dice.pick([0, 1, 1 << dice.below(32), dice.below(2**32)]))
    elif kind <= 4:
        image.order[dice.pick([slot, dice.below(8)])] = odd
    elif kind <= 6:
        image.order[dice.below(16)] = image.order[dice.below(16)]
    elif kind <= 9:
        image.seats[dice.below(MOST_CORES)] = odd
    else:
        image.seats[dice.below(MOST_CORES)] = image.seats[dice.below(MOST_CORES)]


def mend(image, number, place, cores):
    if number == 21:
        image.cores = cores
    elif number == 22:
        image.tasks[place] = EMPTY
    elif number == 23:
        image.order[place] = NONE
    else:
        image.seats[place] = NONE


def check_random(dice, rounds):
    """With the word mended that is named, what is named next stands further on, until nothing is."""
    for _ in range(rounds):
        image = random_sound(dice)
        cores = image.cores
        expect("sound", check(image, "random, undamaged"), (0, 0), image)
        for _ in range(dice.between(1, 5)):
            damage(dice, image)
        found = check(image, "random, damaged")
        while found != (0, 0):
            mend(image, *found, cores)
            following = unsound(image)
            expect("further on", following == (0, 0) or following > found, True, found, following, image)
            found = following
            counts["words mended in random ones"] += 1


def check_everything():
    check_vectors()
    check_what_is_shown()
    check_dumps()
    some = [Task(0, 0), Task(1, 0), Task(0, 1), Task(1, 1), Task(1, 2), Task(1, 3), Task(1, 4)]
    check_all_small(range(4), some, (0, 1, 2, NONE), (0, 1, 2, NONE), 2)
    check_all_small((1, 2), [Task(0, 0), Task(1, 1)], (0, 1, 2, 200, NONE), (0, 2, NONE), 3)
    check_random(Dice(31), 2500)


if __name__ == "__main__":
    run(check_everything, "numbers and places are those of both readings in all of them")
