#!/usr/bin/env python3
"""Hold tools/reference.py to documents 01 and 02 (request 1) by brute force over small cases.

    python3 tools/self_check.py

prints what was checked and how often; exit status 1 on the first difference.
"""

import sys
from collections import Counter, deque
from itertools import permutations, product

sys.dont_write_bytecode = True

import literal
from dice import Dice
from paper import LISTING_INPUT, LISTING_LINES
from reference import (
    Day, Dispatcher, Event, LayoutFault, Record, Report, Task, fresh, printed, read_day, report_line,
)
from sheet import encode

counts = Counter()


class Difference(Exception):
    pass


def expect(what, got, wanted, *context):
    """Every check goes through here; a state is put in words only where there is a difference."""
    if got != wanted:
        words = [describe(part) if isinstance(part, Dispatcher) else str(part) for part in context]
        raise Difference(f"{what}\n  got    {got}\n  wanted {wanted}\n  with   {' '.join(words)}")


def describe(state):
    return f"cores {state.core_count} tasks {state.tasks} order {state.order} seats {state.seats}"


def key_of(state):
    """The same for equal states of one core count, in whatever order their slots were filled."""
    return tuple(sorted(state.tasks.items())), tuple(state.order), tuple(state.seats)


def copy_of(state):
    other = Dispatcher(state.core_count)
    other.tasks, other.order, other.seats = dict(state.tasks), list(state.order), list(state.seats)
    return other


# Wake, block and delete against all chains.


def check_call(state, name, slot):
    """A call on a copy of the state; gives the state afterwards and the report."""
    after, by_words = copy_of(state), copy_of(state)
    report = getattr(after, name)(slot)
    wanted = getattr(literal, name)(by_words, slot)
    context = name, slot, "on", state
    expect("report", report, Report(*wanted[:4]), *context)
    expect("wake order", after.order, wanted.order, *context)
    expect("seats", after.seats, wanted.seats, *context)
    expect("tasks", after.tasks, by_words.tasks, *context)
    expect("moves by seats", report.moves, len(literal.moved(state.seats, after.seats)), *context)
    expect("sound afterwards", literal.is_sound(after), True, *context)
    expect("done", report.answer, 0, *context)
    tally(name, state, slot, report)
    return after, report


def tally(name, state, slot, report):
    if slot not in state.order:
        what = f"{name} of a task not ready"
    elif slot in state.seats:
        what = f"{name} of a running task"
    else:
        what = f"{name} of a waiting task"
    if report.stopped is not None:
        counts[f"{what} that pushes a task off"] += 1
    elif report.started is None:
        counts[f"{what} that starts nobody"] += 1
    else:
        counts[f"{what} that fills an idle core"] += 1
    if report.moves:
        counts[f"{name} by a chain of {report.moves + 1} cores"] += 1


def check_delete_met_what_block_met():
    """Every kind of case that block met was met by delete too, and the one it has alone."""
    kinds = [what.removeprefix("block ") for what in counts if what.startswith("block ")]
    for kind in [*kinds, "of a task not ready that starts nobody"]:
        expect(f"delete {kind}", counts[f"delete {kind}"] > 0, True)


def calls_of(state, slot):
    """The calls of a used slot that are not refused."""
    return ("block", "delete") if slot in state.order else ("wake", "delete")


def check_reached(state):
    """The quick sets of reached cores, used below, are the ends of all chains."""
    for slot in state.order:
        ends = {chain[-1] for chain in literal.all_chains(state, state.seats, slot)}
        expect("reached", literal.reached(state, state.seats, slot), ends, state)
        counts["sets of reached cores"] += 1


def with_tasks(core_count, priorities, masks):
    state = Dispatcher(core_count)
    for slot, (priority, mask) in enumerate(zip(priorities, masks)):
        expect("create", state.create(slot, priority, mask), Report(0, 0, None, None))
    return state


def all_mask_choices(core_count, task_count):
    return product(range(1, 2**core_count), repeat=task_count)


def all_orders(task_count):
    for ready in range(task_count + 1):
        yield from permutations(range(task_count), ready)


def check_every_sound_state(core_count, priorities):
    """All sound states, whether or not calls lead there, and all calls on them.

    Slot numbers decide nothing, so falling lists of priorities are enough.
    """
    for masks in all_mask_choices(core_count, len(priorities)):
        state = with_tasks(core_count, priorities, masks)
        for order in all_orders(len(priorities)):
            state.order = list(order)
            for state.seats in literal.all_seatings(state):
                counts["sound states, all small ones"] += 1
                for slot in range(len(priorities)):
                    for name in calls_of(state, slot):
                        check_call(state, name, slot)


def random_state(dice, core_count, task_count):
    """A sound state that calls need not lead to."""
    levels = dice.between(1, 4)
    width = dice.between(1, 3)
    priorities = [dice.between(1, levels) for _ in range(task_count)]
    masks = [dice.mask(core_count, width) for _ in range(task_count)]
    state = with_tasks(core_count, priorities, masks)
    state.order = dice.shuffled(range(task_count))[dice.below(3):]
    for core in dice.shuffled(range(core_count)):
        fitting = [slot for slot in state.order
                   if slot not in state.seats and literal.allows(state, slot, core)]
        if fitting and not dice.one_in(6):
            state.seats[core] = dice.pick(fitting)
    expect("sound", literal.is_sound(state), True, state)
    return state


def line_state(dice, core_count, task_count):
    """A sound state with long chains: sitters may go one core on along a line.

    The last core of the line is idle or has a sitter that may go nowhere.
    """
    line = dice.shuffled(range(core_count))
    masks = [1 << one | 1 << other for one, other in zip(line, line[1:])] + [1 << line[-1]]
    masks = [mask | dice.mask(core_count, 1) if dice.one_in(3) else mask for mask in masks]
    masks += [dice.mask(core_count, 2) for _ in range(task_count - core_count)]
    priorities = [dice.between(1, 3) for _ in range(task_count)]
    state = with_tasks(core_count, priorities, masks)
    seated = range(core_count - dice.below(2))
    state.order = dice.shuffled([*seated, *range(core_count + dice.below(3), task_count)])
    for slot in seated:
        state.seats[line[slot]] = slot
    expect("sound", literal.is_sound(state), True, state)
    return state


def check_random_states(dice, rounds):
    for number in range(rounds):
        if number % 2:
            state = random_state(dice, dice.between(3, 5), dice.between(4, 7))
        else:
            state = line_state(dice, dice.between(3, 5), dice.between(5, 7))
        counts["sound states, random ones"] += 1
        check_reached(state)
        for slot in state.tasks:
            for name in calls_of(state, slot):
                check_call(state, name, slot)


# From fresh: the strong rule and the least number of moves.


class StrongSeatings:
    """The seatings that satisfy the strong rule, remembered for the ready tasks in wake order."""

    def __init__(self):
        self.known = {}

    def of(self, state):
        key = tuple((slot, state.tasks[slot]) for slot in state.order)
        if key not in self.known:
            seatings = list(literal.all_seatings(state))
            counts["seatings judged by the strong rule"] += len(seatings)
            self.known[key] = [seats for seats in seatings if literal.is_strong(state, seats)]
            running = {frozenset(seats) - {None} for seats in self.known[key]}
            expect("same running set in all", len(running), 1, state)
        return self.known[key]


def check_demands(before, calls, after, report, strong):
    """The ready tasks are those of the calls, their seating is strong, and none moves fewer."""
    seatings = strong.of(after)
    context = before, "then", after
    expect("woken and not since blocked nor deleted", after.order, literal.woken(calls), *context)
    expect("strong rule", after.seats in seatings, True, *context)
    least = min(len(literal.moved(before.seats, seats)) for seats in seatings)
    expect("least moves", report.moves, least, *context)
    expect("moves below core count", report.moves < after.core_count, True, *context)
    counts["calls from fresh held to the strong rule and least moves"] += 1


def every_next(state, slot, priority):
    """Each call of the slot that is not refused, the state afterwards and the report."""
    if slot in state.tasks:
        for name in calls_of(state, slot):
            yield name, *check_call(state, name, slot)
    else:
        for mask in range(1, 2**state.core_count):
            yield "create", *check_create(state, slot, priority, mask)


def check_all_calls_from_fresh(core_count, priorities):
    """Every state that any sequence of calls gives, and every next call.

    Each slot has one priority, and any mask each time that it is created.
    """
    strong = StrongSeatings()
    todo = deque([(fresh(core_count)[1], [])])
    seen = {key_of(todo[0][0])}
    while todo:
        state, calls = todo.popleft()
        for slot, priority in enumerate(priorities):
            for name, after, report in every_next(state, slot, priority):
                now = [*calls, (name, slot)]
                check_demands(state, now, after, report, strong)
                if key_of(after) not in seen:
                    seen.add(key_of(after))
                    todo.append((after, now))
    counts["states reached from fresh, all small ones"] += len(seen)


def busy_pick(dice, state):
    """A used slot, more often one to wake than one to block, so that cores are short."""
    asleep = [slot for slot in state.tasks if slot not in state.order]
    return dice.pick(asleep if asleep and not dice.one_in(3) else list(state.tasks))


def busy_call(dice, state):
    """Of a used slot a wake or a block, and now and then a delete."""
    slot = busy_pick(dice, state)
    usual, delete = calls_of(state, slot)
    return (delete if dice.one_in(8) else usual), slot


def day_masks(dice, core_count, task_count):
    """Masks of few cores; every other day neighbours on a line, for long chains."""
    if dice.one_in(2):
        width = dice.between(1, 3)
        return [dice.mask(core_count, width) for _ in range(task_count)]
    line = dice.shuffled(range(core_count))
    links = [1 << one | 1 << other for one, other in zip(line, line[1:])]
    ends = [1 << line[0], 1 << line[-1]]
    return [dice.pick(links + ends) for _ in range(task_count)]


def check_random_days(dice, core_count, task_count, days, calls):
    """An emptied slot is soon created again, with another priority and mask."""
    for _ in range(days):
        counts["random days from fresh"] += 1
        levels = dice.between(1, 5)
        priorities = [dice.between(1, levels) for _ in range(task_count)]
        masks = day_masks(dice, core_count, task_count)
        state = with_tasks(core_count, priorities, masks)
        strong = StrongSeatings()
        done = []
        for _ in range(calls):
            empty = [slot for slot in range(task_count) if slot not in state.tasks]
            if empty and dice.one_in(2):
                name, slot = "create", dice.pick(empty)
                after, report = check_create(state, slot, dice.between(1, levels), dice.pick(masks))
            else:
                name, slot = busy_call(dice, state)
                after, report = check_call(state, name, slot)
            done.append((name, slot))
            check_demands(state, done, after, report, strong)
            state = after


# Refusals against the table, taken as a whole.


def check_refusal_of(state, name, arguments):
    after = copy_of(state)
    report = getattr(after, name)(*arguments)
    number = getattr(literal, name + "_refusal")(state, *arguments)
    context = name, arguments, "on", state
    expect("answer", report.answer, number, *context)
    if number:
        expect("refused report", report, Report(number, 0, None, None), *context)
        expect("refused leaves all", describe(after), describe(state), *context)
    counts[f"answers of {name}"] += 1
    return after, report


def check_create(state, slot, priority, mask):
    after, report = check_refusal_of(state, "create", (slot, priority, mask))
    if literal.create_refusal(state, slot, priority, mask) == 0:
        wanted = copy_of(state)
        wanted.tasks[slot] = Task(priority, mask)
        expect("create fills the slot", key_of(after), key_of(wanted))
        expect("report of create", report, Report(0, 0, None, None))
    return after, report


def check_delete(state, slot):
    """On any number of cores: of a ready task what block does, and then the slot is empty."""
    after, report = check_refusal_of(state, "delete", (slot,))
    if literal.delete_refusal(state, slot) == 0:
        wanted, of_block = copy_of(state), Report(0, 0, None, None)
        if slot in state.order:
            of_block = wanted.block(slot)
        del wanted.tasks[slot]
        expect("delete empties the slot", key_of(after), key_of(wanted))
        expect("report of delete", report, of_block)


def check_refusals(dice):
    """Each slot byte, and each mixture of causes, on states of many core counts."""
    for core_count in (1, 2, 3, 4, 5, 31, 32):
        state = with_tasks(core_count, (1, 255, 7), (1, 1, 2**core_count - 1))
        for slot in dice.shuffled(range(3))[1:]:
            state.wake(slot)
        for slot in range(256):
            for name in ("wake", "block"):
                check_refusal_of(state, name, (slot,))
            check_delete(state, slot)
        masks = [0, 1, 2**core_count - 1, 2**core_count % 2**32, 2**31, 2**32 - 1]
        slots = [0, 1, 2, 3, 126, 127, 128, 254, 255]
        for slot, priority, mask in product(slots, (0, 1, 255), masks):
            check_create(state, slot, priority, mask)


# The reader against all faults of a file.


def verdict(data):
    try:
        day = read_day(data)
    except LayoutFault as fault:
        return fault.number, fault.offset
    expect("written again", encode(day), data, data.hex())
    return None


def check_file(data):
    fault = literal.first_fault(data)
    expect("verdict on a file", verdict(data), fault, data[:60].hex())
    if fault is not None:
        expect("refusal line", printed(data), f"refused {fault[0]} at {fault[1]}\n", data[:60].hex())
    counts["files: " + ("well-formed" if fault is None else f"refused {fault[0]}")] += 1


def check_all_short_files(alphabet, longest):
    for length in range(longest + 1):
        for letters in product(alphabet, repeat=length):
            check_file(bytes(letters))


def random_file(dice, most_records, most_events):
    records = [Record(dice.below(256), dice.below(256), dice.below(2**32))
               for _ in range(dice.between(0, most_records))]
    events = [Event(dice.between(1, 3), dice.below(256))
              for _ in range(dice.between(0, most_events))]
    return encode(Day(dice.between(1, 32), records, events))


def mutated(dice, data):
    """The file cut, lengthened, or with one byte changed, put in or left out."""
    at = dice.below(len(data))
    byte = bytes([dice.pick([0, 1, 2, 3, 4, 32, 33, 0x3E, 0x80, 0x81, 255, dice.below(256)])])
    return dice.pick([
        data[:at],
        data + byte * dice.between(1, 3),
        data[:at] + byte + data[at + 1:],
        data[:at] + byte + data[at:],
        data[:at] + data[at + 1:],
    ])


def check_random_files(dice, rounds):
    for _ in range(rounds):
        data = random_file(dice, 5, 12)
        check_file(data)
        for _ in range(dice.between(1, 3)):
            data = mutated(dice, data) or b"\x01"
            check_file(data)


def check_boundaries(dice):
    """Around 16,000 events, with no record and with 255 of them."""
    for record_count in (0, 1, 255):
        head = bytes([32, record_count]) + bytes(6 * record_count)
        for event_count in (15999, 16000, 16001, 65535):
            body = bytes([1, 0]) * event_count
            data = head + event_count.to_bytes(2, "little") + body
            for cut in (0, 1, 2, 3, len(body), len(body) + 1):
                check_file(data[:len(data) - cut])
            check_file(data + b"\x01")
            check_file(data + bytes(65536))
            for at in (0, 2, 2 * dice.below(16000), 31998):
                start = len(head) + 2 + at
                check_file(data[:start] + b"\x04" + data[start + 1:])


# The paper's own cases.


def check_paper():
    expect("listing", printed(bytes.fromhex(LISTING_INPUT)), LISTING_LINES)
    counts["lines of the listing"] += len(LISTING_LINES.splitlines())
    for core_count, answer, cores in ((0, 2, 1), (32, 0, 32), (33, 2, 1)):
        got, dispatcher = fresh(core_count)
        expect("fresh", (got, describe(dispatcher)), (answer, describe(Dispatcher(cores))))
    for slot, mask, answer in ((0, 2, 8), (127, 1, 0), (128, 1, 3)):
        _, dispatcher = fresh(1)
        expect("create", dispatcher.create(slot, 1, mask), Report(answer, 0, None, None))
    counts["single cases of the paper"] += 6
    expect("nothing printed", printed(bytes([1, 0, 0, 0])), "")


def check_create_again():
    """Once deleted and created again, a task isn't ready, and its next wake gives the last place.

    An event file can't say so, since its creates all come first.
    """
    _, dispatcher = fresh(1)
    calls = {"C": dispatcher.create, "W": dispatcher.wake,
             "B": dispatcher.block, "D": dispatcher.delete}
    for number, (letter, arguments, line) in enumerate((
        ("C", (0, 50, 1), "1 C 0 0 0 - - -"),
        ("C", (1, 50, 1), "2 C 1 0 0 - - -"),
        ("C", (2, 50, 1), "3 C 2 0 0 - - -"),
        ("W", (0,), "4 W 0 0 0 0 - 0"),
        ("W", (1,), "5 W 1 0 0 - - 0"),
        ("W", (2,), "6 W 2 0 0 - - 0"),
        ("D", (1,), "7 D 1 0 0 - - 0"),
        ("C", (1, 50, 1), "8 C 1 0 0 - - 0"),
        ("B", (1,), "9 B 1 10 0 - - 0"),
        ("W", (1,), "10 W 1 0 0 - - 0"),
        ("D", (0,), "11 D 0 0 0 2 - 2"),
        ("C", (0, 50, 1), "12 C 0 0 0 - - 2"),
        ("W", (0,), "13 W 0 0 0 - - 2"),
        ("B", (2,), "14 B 2 0 0 1 - 1"),
        ("D", (1,), "15 D 1 0 0 0 - 0"),
        ("D", (1,), "16 D 1 5 0 - - 0"),
        ("C", (1, 90, 1), "17 C 1 0 0 - - 0"),
        ("W", (1,), "18 W 1 0 0 1 0 1"),
    ), start=1):
        report = calls[letter](*arguments)
        got = report_line(number, letter, arguments[0], report, dispatcher.seats)
        expect("a slot used again", got, line)
        counts["lines of a slot used again"] += 1


def check_everything():
    check_paper()
    check_create_again()
    check_refusals(Dice(1))
    for priorities in ((1, 1, 1), (2, 1, 1), (2, 2, 1), (3, 2, 1)):
        check_every_sound_state(2, priorities)
        check_all_calls_from_fresh(2, priorities)
        check_all_calls_from_fresh(3, priorities)
    check_every_sound_state(3, (2, 2, 1))
    check_all_calls_from_fresh(2, (2, 2, 1, 1))
    check_all_calls_from_fresh(2, (4, 3, 2, 1))
    check_random_states(Dice(2), 8000)
    check_random_days(Dice(3), 4, 6, 900, 30)
    check_random_days(Dice(4), 5, 7, 300, 30)
    check_delete_met_what_block_met()
    check_all_short_files((0, 1, 4, 33, 0x3E, 0x80, 0x81), 6)
    check_all_short_files((0, 1, 4), 10)
    check_random_files(Dice(5), 10000)
    check_boundaries(Dice(6))


def run(check, agreed):
    """Runs the checks; says how many there were, or the first difference."""
    try:
        check()
    except Difference as difference:
        sys.exit(f"DIFFERENCE in {difference}")
    for what, count in sorted(counts.items()):
        print(f"{count:8} {what}")
    print(agreed)


if __name__ == "__main__":
    run(check_everything, "the reference agrees with the definitions in all of them")
