#!/usr/bin/env python3
"""Request 4 of document 02: which tasks the plain engine keeps, and how many of a priority or above can run at once.

    python3 tools/engine.py

holds the stored days (crates/vectors/data) to it: after each line the tasks that run must be those kept, and
for no priority p a legal seating may run more tasks of p or above. Written from the paper's words and by
enumeration: no place is sought and nobody is asked to move; all assignments of cores to tasks are gone
through, by the sets of cores that they take. That is done where the ready tasks name at most 16 cores. Every
line, and so those of larger boards too, is shown by counting as well: tasks whose masks all lie within a set
of cores never run in a greater number than it has cores. Exit status 1 on the first difference.
"""

import sys
from collections import Counter, namedtuple
from functools import lru_cache
from pathlib import Path

sys.dont_write_bytecode = True

from reference import LayoutFault, cores_of, read_day

ROOT = Path(__file__).resolve().parent.parent
DATA = ROOT / "crates" / "vectors" / "data"
MOST_ENUMERATED = 16

Ready = namedtuple("Ready", "slot priority mask")


def in_their_order(tasks, order):
    """The ready tasks, each after those that come before it: higher priority first, among equals who woke earlier."""
    ready = [Ready(slot, *tasks[slot]) for slot in order]
    return tuple(sorted(ready, key=lambda task: (-task.priority, order.index(task.slot))))


def ends_class(ready, place):
    """Whether the tasks up to this place are all those of its task's priority or above."""
    return place + 1 == len(ready) or ready[place + 1].priority < ready[place].priority


# All sets of cores that some tasks can take, one core of its mask each. A set is a mask, and a collection of
# sets is a number too: it has bit s where set s is in it.

ONLY_THE_EMPTY_SET = 1


@lru_cache(maxsize=None)
def sets_without(core, cores):
    """All sets of so many cores that the core is not in."""
    found, length = (1 << (1 << core)) - 1, 2 << core
    while length < 1 << cores:
        found |= found << length
        length *= 2
    return found


@lru_cache(maxsize=None)
def sets_by_size(cores):
    """For each size from 0 on, all sets of so many cores that have it."""
    if cores == 0:
        return [ONLY_THE_EMPTY_SET]
    fewer = sets_by_size(cores - 1)
    with_last = [0] + [sets << (1 << cores - 1) for sets in fewer]
    return [mine | theirs for mine, theirs in zip(fewer + [0], with_last)]


def with_one_more(sets, mask, cores):
    """Each set with each core of the mask that is not in it."""
    found = 0
    for core in cores_of(mask):
        found |= (sets & sets_without(core, cores)) << (1 << core)
    return found


def kept(ready, cores):
    """Each task in its order is kept for which the kept ones and it can all have a core of their own."""
    sets, slots = ONLY_THE_EMPTY_SET, []
    for task in ready:
        beside = with_one_more(sets, task.mask, cores)
        if beside:
            sets = beside
            slots.append(task.slot)
    return slots


def most_running(ready, cores):
    """For each priority of a ready task, how many tasks of it or above a legal seating runs at most."""
    sets, most = ONLY_THE_EMPTY_SET, {}
    for place, task in enumerate(ready):
        sets |= with_one_more(sets, task.mask, cores)
        if ends_class(ready, place):
            most[task.priority] = max(size for size, alike in enumerate(sets_by_size(cores)) if sets & alike)
    return most


# Counting, for boards of any size.


def most_by_counting(ready, crowded):
    """Of these tasks no seating runs more: within the crowded cores as many as these are, and all the others."""
    return len(cores_of(crowded)) + sum(1 for task in ready if task.mask & ~crowded)


def crowded_around(ready, seats, task):
    """The cores of the task's mask, and with each core those in the mask of its sitter."""
    masks = {other.slot: other.mask for other in ready}
    crowded, following = 0, task.mask
    while following != crowded:
        crowded = following
        for core in cores_of(crowded):
            following |= masks.get(seats[core], 0)
    return crowded


def is_shown_by_counting(ready, seats):
    """Whether who waits finds no place beside those that run and come before, and no class can run in greater number.

    That those who run can all have a core of their own is shown by where they sit.
    """
    crowded = 0
    for place, task in enumerate(ready):
        if task.slot not in seats:
            around = crowded_around(ready, seats, task)
            beside = [other for other in ready[:place] if other.slot in seats] + [task]
            if most_by_counting(beside, around) >= len(beside):
                return False
            crowded |= around
        running = [other for other in ready[:place + 1] if other.slot in seats]
        if ends_class(ready, place) and len(running) < most_by_counting(ready[:place + 1], crowded):
            return False
    return True


# The stored days.


def after_each_line(day, lines):
    """Line, ready tasks in their order, and seats; who is ready comes from the accepted calls alone."""
    tasks, order = {}, []
    records = iter(day.records)
    for line in lines:
        _, letter, slot, answer, *_, seats = line.split(" ")
        slot, accepted = int(slot), answer == "0"
        record = next(records) if letter == "C" else None
        if accepted and letter == "C":
            tasks[slot] = (record.priority, record.mask)
        if accepted and letter == "W":
            order.append(slot)
        if accepted and letter in "BD" and slot in order:
            order.remove(slot)
        yield line, in_their_order(tasks, order), [None if seat == "-" else int(seat) for seat in seats.split(",")]


def is_legal(ready, seats):
    """Whether only ready tasks sit, each once and on a core of its mask."""
    masks = {task.slot: task.mask for task in ready}
    seated = [slot for slot in seats if slot is not None]
    return len(set(seated)) == len(seated) and all(
        slot is None or slot in masks and masks[slot] >> core & 1 for core, slot in enumerate(seats)
    )


@lru_cache(maxsize=4096)
def by_enumeration(ready):
    """Who is kept, and the most of each class; None where too many cores are named."""
    named = cores_of(sum({1 << core for task in ready for core in cores_of(task.mask)}))
    if len(named) > MOST_ENUMERATED:
        return None
    renumbered = [task._replace(mask=sum(1 << named.index(core) for core in cores_of(task.mask))) for task in ready]
    return kept(renumbered, len(named)), most_running(renumbered, len(named))


def fault_of_line(ready, seats, counts):
    """What is wrong with a line, in words, or None."""
    if not is_legal(ready, seats):
        return "the seats are not legal"
    running = [task for task in ready if task.slot in seats]
    found = by_enumeration(ready)
    if found:
        slots, most = found
        counts["by enumeration"] += 1
        if slots != [task.slot for task in running]:
            return f"kept are {slots}"
        for priority, number in most.items():
            if number != sum(1 for task in running if task.priority >= priority):
                return f"of priority {priority} or above {number} can run"
    counts["by counting"] += 1
    return None if is_shown_by_counting(ready, seats) else "counting does not show who waits"


def check_stored_days():
    counts = Counter()
    for path in sorted(DATA.glob("*.day")):
        try:
            day = read_day(path.read_bytes())
        except LayoutFault:
            counts["refused files"] += 1
            continue
        counts["days"] += 1
        lines = path.with_suffix(".lines").read_text().splitlines()
        if len(lines) != len(day.records) + len(day.events):
            sys.exit(f"{path.name}: {len(lines)} lines")
        for line, ready, seats in after_each_line(day, lines):
            fault = fault_of_line(ready, seats, counts)
            if fault:
                sys.exit(f"{path.name}: {line}: {fault}")
    print(
        f"{counts['days']} days ({counts['refused files']} files more are refused): "
        f"who runs is who is kept, and no seating runs more of any class, in {counts['by counting']:,} lines by counting, "
        f"{counts['by enumeration']:,} of them by enumeration too"
    )


if __name__ == "__main__":
    check_stored_days()
