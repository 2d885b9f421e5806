#!/usr/bin/env python3
"""Hold tools/engine.py to cases worked out by hand, and to all assignments in all small cases."""

import sys
import unittest
from collections import Counter
from itertools import combinations, product

sys.dont_write_bytecode = True

from engine import (
    Ready, after_each_line, fault_of_line, in_their_order, is_shown_by_counting, kept, most_running,
)
from paper import LISTING_INPUT, LISTING_LINES
from reference import cores_of, read_day


def board(*calls):
    """The ready tasks in their order, from (slot, priority, mask) in the order in which they woke."""
    return in_their_order({slot: (priority, mask) for slot, priority, mask in calls}, [slot for slot, *_ in calls])


class ByHand(unittest.TestCase):
    def test_comes_before_and_not_wake_order(self):
        # Slot 3 woke first, but slot 7 is more urgent: it has its turn first and the one core with it.
        ready = board((3, 10, 0b1), (7, 20, 0b1))
        self.assertEqual([task.slot for task in ready], [7, 3])
        self.assertEqual(kept(ready, 1), [7])

    def test_equals_in_wake_order(self):
        # Slot 9 woke before slot 2; the slot's number says nothing.
        self.assertEqual(kept(board((9, 10, 0b1), (2, 10, 0b1)), 1), [9])

    def test_one_in_the_middle_finds_no_place(self):
        # Slot 1 has core 0, so slot 2 finds none there, but slot 3 after it finds core 1.
        self.assertEqual(kept(board((1, 30, 0b01), (2, 20, 0b01), (3, 10, 0b10)), 2), [1, 3])

    def test_chain_of_shifts(self):
        # Slots 1, 2, 3 can have cores 0, 1, 2. Slot 4 needs core 0: slot 1 shifts to core 1, slot 2 to core 2, slot 3 to
        # core 3. Slot 5 needs core 0 too, and the five masks have no fifth core.
        calls = (1, 50, 0b0011), (2, 40, 0b0110), (3, 30, 0b1100), (4, 20, 0b0001), (5, 10, 0b0001)
        self.assertEqual(kept(board(*calls), 4), [1, 2, 3, 4])

    def test_kept_though_a_later_one_must_wait(self):
        # Slot 1 takes either core; slots 2 and 3 name one each. Slot 2 finds a place, then both are taken.
        self.assertEqual(kept(board((1, 3, 0b11), (2, 2, 0b01), (3, 1, 0b10)), 2), [1, 2])

    def test_classes(self):
        # Of 30 or above one, on core 0; of 20 or above two; 10 adds a task for core 1 that then has to share it.
        calls = (1, 30, 0b001), (2, 30, 0b001), (3, 20, 0b011), (4, 10, 0b010), (5, 5, 0b100)
        self.assertEqual(most_running(board(*calls), 3), {30: 1, 20: 2, 10: 2, 5: 3})

    def test_nobody_is_ready(self):
        self.assertEqual(kept((), 0), [])
        self.assertEqual(most_running((), 0), {})


class Faults(unittest.TestCase):
    """A line that is not as it should be is found out, by counting and by enumeration."""

    def check(self, ready, seats, fault):
        self.assertEqual(fault_of_line(ready, seats, Counter()), fault)

    def test_as_it_should_be(self):
        ready = board((1, 30, 0b01), (2, 20, 0b01), (3, 10, 0b10))
        self.assertTrue(is_shown_by_counting(ready, [1, 3]))
        self.check(ready, [1, 3], None)

    def test_who_could_run_waits(self):
        ready = board((1, 30, 0b01), (2, 20, 0b01), (3, 10, 0b10))
        self.assertFalse(is_shown_by_counting(ready, [1, None]))
        self.check(ready, [1, None], "kept are [1, 3]")

    def test_less_urgent_in_the_place(self):
        # As many run as can, but slot 1 is of a class of its own.
        ready = board((1, 30, 0b01), (2, 20, 0b01), (3, 10, 0b10))
        self.assertFalse(is_shown_by_counting(ready, [2, 3]))
        self.check(ready, [2, 3], "kept are [1, 3]")

    def test_equal_that_woke_later_in_the_place(self):
        # No class can tell: only the order of equals does.
        ready = board((1, 10, 0b1), (2, 10, 0b1))
        self.assertFalse(is_shown_by_counting(ready, [2]))
        self.check(ready, [2], "kept are [1]")

    def test_no_legal_seats(self):
        ready = board((1, 30, 0b01), (2, 20, 0b11))
        for seats in ([None, 1], [2, 2], [1, 5]):
            self.check(ready, seats, "the seats are not legal")

    def test_who_is_ready(self):
        # Of the listing: after line 8 slot 5 is the last of all; after line 12 it is gone, and slot 0, which woke last, is the first.
        day = read_day(bytes.fromhex(LISTING_INPUT))
        ready = {line: [task.slot for task in tasks] for line, tasks, _ in after_each_line(day, LISTING_LINES.splitlines())}
        self.assertEqual(ready["8 W 5 0 0 - - 2,0,1"], [0, 1, 2, 5])
        self.assertEqual(ready["12 D 5 0 0 - - 2,0,1"], [0, 1, 2])


# The same by all assignments, written out.


def can_all_have_one(masks):
    """Whether some assignment gives each its own core of its mask."""
    return any(len(set(cores)) == len(cores) for cores in product(*map(cores_of, masks)))


def kept_by_assignments(ready):
    found = []
    for task in ready:
        if can_all_have_one([other.mask for other in found] + [task.mask]):
            found.append(task)
    return [task.slot for task in found]


def most_by_assignments(ready, priority):
    """The largest number of tasks of this priority or above that can all have a core of their own."""
    masks = [task.mask for task in ready if task.priority >= priority]
    return max(
        size for size in range(len(masks) + 1) if any(can_all_have_one(some) for some in combinations(masks, size))
    )


class AllSmall(unittest.TestCase):
    def test_all_small(self):
        """Every choice of masks for up to four tasks on three cores, and of who of them are equals."""
        for size in range(1, 5):
            for masks in product(range(1, 8), repeat=size):
                for falls in product((0, 1), repeat=size - 1) if size < 4 else [(0, 1, 1), (1, 0, 1), (1, 1, 1)]:
                    priorities = [9 - sum(falls[:place]) for place in range(size)]
                    ready = tuple(Ready(slot, *task) for slot, task in enumerate(zip(priorities, masks)))
                    self.assertEqual(kept(ready, 3), kept_by_assignments(ready), ready)
                    wanted = {priority: most_by_assignments(ready, priority) for priority in priorities}
                    self.assertEqual(most_running(ready, 3), wanted, ready)


if __name__ == "__main__":
    unittest.main()
