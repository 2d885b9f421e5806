#!/usr/bin/env python3
"""Replay an event file by document 01 with request 1 of document 02, written from these alone.

    python3 tools/reference.py < event-file

prints what the replay program must print: one line for each record and event,
or the single line `refused N at OFFSET` for a fault in the file's layout.
"""

import signal
import sys
from collections import deque, namedtuple
from functools import lru_cache

MOST_CORES = 32
SLOTS = 128
MOST_RECORDS = 255
MOST_EVENTS = 16000
# One core count, a counted run of records of 6 bytes, a counted run of events of 2.
LONGEST_FILE = 1 + 1 + 6 * MOST_RECORDS + 2 + 2 * MOST_EVENTS

# The refusal numbers that a file can meet. 11 is given no more and stays unused.
DONE = 0
BAD_CORE_COUNT = 2
SLOT_TOO_LARGE = 3
SLOT_IN_USE = 4
SLOT_EMPTY = 5
PRIORITY_ZERO = 6
MASK_EMPTY = 7
MISSING_CORE = 8
ALREADY_READY = 9
NOT_READY = 10
ENDS_TOO_EARLY = 12
SURPLUS_BYTES = 13
BAD_KIND = 14
TOO_MANY_EVENTS = 16

# The event kinds of a file.
WAKE, BLOCK, DELETE = 1, 2, 3
LETTERS = {WAKE: "W", BLOCK: "B", DELETE: "D"}

Task = namedtuple("Task", "priority mask")
Report = namedtuple("Report", "answer moves started stopped")
Record = namedtuple("Record", "slot priority mask")
Event = namedtuple("Event", "kind slot")
Day = namedtuple("Day", "core_count records events")


@lru_cache(maxsize=None)
def cores_of(mask):
    """The cores that a mask names, smallest first."""
    return [core for core in range(MOST_CORES) if mask >> core & 1]


def first_of_shortest(chains):
    """Of several chains a shortest one; the tie rule is the order of lists."""
    return min(chains, key=lambda chain: (len(chain), chain))


def count_moved(before, after):
    """How many tasks run before and after, on different cores."""
    return sum(
        1
        for core, slot in enumerate(before)
        if slot is not None and slot in after and after[core] != slot
    )


class Dispatcher:
    """Cores, tasks, the order in which ready tasks woke, and who sits where."""

    def __init__(self, core_count):
        self.core_count = core_count
        self.tasks = {}  # used slots only
        self.order = []  # ready slots, the earliest wake first
        self.seats = [None] * core_count

    # The words of the paper.

    def rank(self, slot):
        """Of two ready tasks, the one of smaller rank comes before the other."""
        return (-self.tasks[slot].priority, self.order.index(slot))

    def comes_before(self, one, other):
        return self.rank(one) < self.rank(other)

    def is_ready(self, slot):
        return slot in self.order

    def is_running(self, slot):
        return slot in self.seats

    def waiting(self):
        """The ready tasks on no core, each after those that come before it."""
        ready = sorted(self.order, key=self.rank)
        return [slot for slot in ready if not self.is_running(slot)]

    def shortest_chains(self, slot):
        """For each core reached from the task, the shortest chain to take there.

        Chains grow core by core, and those with smaller cores first. So the
        first one to come to a core is the one that the tie rule names.
        """
        chains = {}
        growing = deque([(slot, ())])
        while growing:
            sitter, chain = growing.popleft()
            for core in cores_of(self.tasks[sitter].mask):
                if core in chains:
                    continue
                chains[core] = chain + (core,)
                if self.seats[core] is not None:
                    growing.append((self.seats[core], chains[core]))
        return chains

    def take(self, chain, newcomer):
        """Each task on the chain but the last goes one core on."""
        sitters = [self.seats[core] for core in chain]
        for core, slot in zip(chain, [newcomer] + sitters[:-1]):
            self.seats[core] = slot

    # The calls. Causes of refusal are asked in the order of their numbers,
    # so that the lowest number that applies is given.

    def create(self, slot, priority, mask):
        if slot >= SLOTS:
            return refused(SLOT_TOO_LARGE)
        if slot in self.tasks:
            return refused(SLOT_IN_USE)
        if priority == 0:
            return refused(PRIORITY_ZERO)
        if mask == 0:
            return refused(MASK_EMPTY)
        if mask >> self.core_count:
            return refused(MISSING_CORE)
        self.tasks[slot] = Task(priority, mask)
        return Report(DONE, 0, None, None)

    def delete(self, slot):
        if slot >= SLOTS:
            return refused(SLOT_TOO_LARGE)
        if slot not in self.tasks:
            return refused(SLOT_EMPTY)
        # Request 1: a ready task is blocked first, and the report is that of the block.
        report = self.block(slot) if self.is_ready(slot) else Report(DONE, 0, None, None)
        del self.tasks[slot]
        return report

    def wake(self, slot):
        if slot >= SLOTS:
            return refused(SLOT_TOO_LARGE)
        if slot not in self.tasks:
            return refused(SLOT_EMPTY)
        if self.is_ready(slot):
            return refused(ALREADY_READY)
        before = list(self.seats)
        self.order.append(slot)
        started, stopped = self._seek_a_core(slot)
        return Report(DONE, count_moved(before, self.seats), started, stopped)

    def block(self, slot):
        if slot >= SLOTS:
            return refused(SLOT_TOO_LARGE)
        if slot not in self.tasks:
            return refused(SLOT_EMPTY)
        if not self.is_ready(slot):
            return refused(NOT_READY)
        before = list(self.seats)
        self.order.remove(slot)
        started = self._leave_core(slot) if slot in before else None
        return Report(DONE, count_moved(before, self.seats), started, None)

    def _seek_a_core(self, newcomer):
        """Seat a task that woke; gives who started and who stopped."""
        chains = self.shortest_chains(newcomer)
        to_idle = [chain for core, chain in chains.items() if self.seats[core] is None]
        if to_idle:
            self.take(first_of_shortest(to_idle), newcomer)
            return newcomer, None
        loser = max((self.seats[core] for core in chains), key=self.rank)
        if self.comes_before(loser, newcomer):
            return None, None
        self.take(chains[self.seats.index(loser)], newcomer)
        return newcomer, loser

    def _leave_core(self, slot):
        """Free the core of a task that blocked; gives who started in its place."""
        freed = self.seats.index(slot)
        self.seats[freed] = None
        for candidate in self.waiting():
            chains = self.shortest_chains(candidate)
            if freed in chains:
                self.take(chains[freed], candidate)
                return candidate
        return None


def refused(number):
    return Report(number, 0, None, None)


def fresh(core_count):
    """The answer and a dispatcher, which has one core when the count is refused."""
    if not 1 <= core_count <= MOST_CORES:
        return BAD_CORE_COUNT, Dispatcher(1)
    return DONE, Dispatcher(core_count)


class LayoutFault(Exception):
    """The first fault in a file's layout: its number and where it stands."""

    def __init__(self, number, offset):
        super().__init__(f"refused {number} at {offset}")
        self.number = number
        self.offset = offset


class Bytes:
    """A file read byte by byte from its start."""

    def __init__(self, data):
        self.data = data
        self.offset = 0

    def next(self):
        if self.offset == len(self.data):
            raise LayoutFault(ENDS_TOO_EARLY, self.offset)
        self.offset += 1
        return self.data[self.offset - 1]

    def number(self, width):
        """A number of several bytes, the lowest first."""
        return sum(self.next() << 8 * place for place in range(width))


def read_day(data):
    """The core count, the records and the events of a file, or its LayoutFault."""
    source = Bytes(data)
    core_count = source.next()
    if not 1 <= core_count <= MOST_CORES:
        raise LayoutFault(BAD_CORE_COUNT, 0)
    records = [read_record(source) for _ in range(source.next())]
    count_offset = source.offset
    event_count = source.number(2)
    if event_count > MOST_EVENTS:
        raise LayoutFault(TOO_MANY_EVENTS, count_offset)
    events = [read_event(source) for _ in range(event_count)]
    if source.offset < len(data):
        raise LayoutFault(SURPLUS_BYTES, source.offset)
    return Day(core_count, records, events)


def read_record(source):
    slot = source.next()
    priority = source.next()
    return Record(slot, priority, source.number(4))


def read_event(source):
    kind_offset = source.offset
    kind = source.next()
    if kind not in LETTERS:
        raise LayoutFault(BAD_KIND, kind_offset)
    return Event(kind, source.next())


def or_dash(slot):
    return "-" if slot is None else str(slot)


def report_line(number, letter, slot, report, seats):
    """One report line, without its newline."""
    return " ".join([
        str(number),
        letter,
        str(slot),
        str(report.answer),
        str(report.moves),
        or_dash(report.started),
        or_dash(report.stopped),
        ",".join(or_dash(seated) for seated in seats),
    ])


def replay(data):
    """The lines that a file prints, without their newlines."""
    try:
        day = read_day(data)
    except LayoutFault as fault:
        return [str(fault)]
    _, dispatcher = fresh(day.core_count)
    calls = {WAKE: dispatcher.wake, BLOCK: dispatcher.block, DELETE: dispatcher.delete}
    lines = []
    for record in day.records:
        report = dispatcher.create(*record)
        lines.append(report_line(len(lines) + 1, "C", record.slot, report, dispatcher.seats))
    for kind, slot in day.events:
        report = calls[kind](slot)
        lines.append(report_line(len(lines) + 1, LETTERS[kind], slot, report, dispatcher.seats))
    return lines


def printed(data):
    """The whole text that a file prints."""
    return "".join(line + "\n" for line in replay(data))


def read_bounded(stream):
    """As much of a stream as decides it: one byte beyond the longest legal file."""
    return stream.read(LONGEST_FILE + 1)


def end_with_reader():
    """Let a command such as `| head` end the program without a complaint."""
    signal.signal(signal.SIGPIPE, signal.SIG_DFL)


if __name__ == "__main__":
    end_with_reader()
    sys.stdout.write(printed(read_bounded(sys.stdin.buffer)))
