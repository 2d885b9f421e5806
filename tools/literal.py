"""Document 01 with request 1 of document 02, taken word by word, for small cases only.

Everything here enumerates: all chains, all seatings, all faults of a file. It
uses the fields of a dispatcher (core_count, tasks, order, seats) and none of
the reference's methods, so that the reference can be held to it.
"""

from collections import namedtuple
from itertools import permutations

Outcome = namedtuple("Outcome", "answer moves started stopped order seats")


def comes_before(state, one, other):
    """Higher priority first; among equal priorities the one that woke earlier."""
    mine, theirs = state.tasks[one].priority, state.tasks[other].priority
    if mine != theirs:
        return mine > theirs
    return state.order.index(one) < state.order.index(other)


def allows(state, slot, core):
    return state.tasks[slot].mask & 1 << core != 0


def is_chain(state, seats, slot, cores):
    """The cores are all different already; ask for the rest of the definition."""
    if not allows(state, slot, cores[0]):
        return False
    for core, following in zip(cores, cores[1:]):
        if seats[core] is None or not allows(state, seats[core], following):
            return False
    return True


def all_chains(state, seats, slot):
    cores = range(state.core_count)
    return [
        list(sequence)
        for length in range(1, state.core_count + 1)
        for sequence in permutations(cores, length)
        if is_chain(state, seats, slot, sequence)
    ]


def chosen(chains):
    """A shortest chain; of several the smaller core at the first difference."""
    least = min(len(chain) for chain in chains)
    shortest = [chain for chain in chains if len(chain) == least]
    return sorted(shortest)[0]


def after_chain(seats, chain, newcomer):
    after = list(seats)
    after[chain[0]] = newcomer
    for core, following in zip(chain, chain[1:]):
        after[following] = seats[core]
    return after


def moved(before, after):
    """The tasks that run before and after, on different cores."""
    both = [slot for slot in before if slot is not None and slot in after]
    return [slot for slot in both if before.index(slot) != after.index(slot)]


def last_of(state, slots):
    """The one that all the others come before."""
    (last,) = [
        slot for slot in slots
        if all(comes_before(state, other, slot) for other in slots if other != slot)
    ]
    return last


def first_of(state, slots):
    """The one that comes before the rest."""
    (first,) = [
        slot for slot in slots
        if all(comes_before(state, slot, other) for other in slots if other != slot)
    ]
    return first


# The refusals: all causes that apply, of which the lowest number is given.


def refusal(causes):
    return min((number for number, applies in causes.items() if applies), default=0)


def create_refusal(state, slot, priority, mask):
    beyond = [core for core in range(32) if core >= state.core_count and mask & 1 << core]
    return refusal({
        3: slot > 127,
        4: slot in state.tasks,
        6: priority == 0,
        7: mask == 0,
        8: bool(beyond),
    })


def delete_refusal(state, slot):
    return refusal({3: slot > 127, 5: slot not in state.tasks})


def wake_refusal(state, slot):
    return refusal({3: slot > 127, 5: slot not in state.tasks, 9: slot in state.order})


def block_refusal(state, slot):
    return refusal({3: slot > 127, 5: slot not in state.tasks, 10: slot not in state.order})


def unchanged(state, number):
    return Outcome(number, 0, None, None, list(state.order), list(state.seats))


# What wake, block and delete do. `state` is a copy that may be changed.


def wake(state, slot):
    number = wake_refusal(state, slot)
    if number:
        return unchanged(state, number)
    state.order.append(slot)
    seats = list(state.seats)
    chains = all_chains(state, seats, slot)
    to_idle = [chain for chain in chains if seats[chain[-1]] is None]
    if to_idle:
        return taken(state, seats, chosen(to_idle), slot, None)
    loser = last_of(state, sorted({seats[chain[-1]] for chain in chains}))
    if not comes_before(state, slot, loser):
        return Outcome(0, 0, None, None, state.order, seats)
    to_loser = [chain for chain in chains if seats[chain[-1]] == loser]
    return taken(state, seats, chosen(to_loser), slot, loser)


def block(state, slot):
    number = block_refusal(state, slot)
    if number:
        return unchanged(state, number)
    state.order.remove(slot)
    seats = [None if seated == slot else seated for seated in state.seats]
    if slot not in state.seats:
        return Outcome(0, 0, None, None, state.order, seats)
    freed = state.seats.index(slot)
    waiting = [other for other in state.order if other not in seats]
    chains = {
        other: [chain for chain in all_chains(state, seats, other) if chain[-1] == freed]
        for other in waiting
    }
    able = [other for other in waiting if chains[other]]
    if not able:
        return Outcome(0, 0, None, None, state.order, seats)
    first = first_of(state, able)
    return taken(state, seats, chosen(chains[first]), first, None)


def delete(state, slot):
    """Of a ready task what block does; then the slot is empty."""
    number = delete_refusal(state, slot)
    if number:
        return unchanged(state, number)
    outcome = block(state, slot) if slot in state.order else unchanged(state, 0)
    del state.tasks[slot]
    return outcome


def taken(state, seats, chain, newcomer, loser):
    """A chain of k cores moves k - 1 tasks."""
    after = after_chain(seats, chain, newcomer)
    return Outcome(0, len(chain) - 1, newcomer, loser, state.order, after)


# Sound states, who is ready, and the strong rule.


def is_sound(state):
    """Conditions (a) to (e), as far as lists without unused places need them."""
    seated = [slot for slot in state.seats if slot is not None]
    return (
        1 <= state.core_count <= 32
        and len(state.seats) == state.core_count
        and all(0 <= slot <= 127 for slot in state.tasks)
        and all(1 <= task.priority <= 255 for task in state.tasks.values())
        and all(1 <= task.mask < 2**state.core_count for task in state.tasks.values())
        and len(set(state.order)) == len(state.order)
        and all(slot in state.tasks for slot in state.order)
        and len(set(seated)) == len(seated)
        and all(slot in state.order for slot in seated)
        and all(slot is None or allows(state, slot, core)
                for core, slot in enumerate(state.seats))
    )


def woken(calls):
    """The slots woken and not since blocked nor deleted by these accepted calls, in wake order."""
    return [
        slot for place, (name, slot) in enumerate(calls)
        if name == "wake"
        and ("block", slot) not in calls[place:]
        and ("delete", slot) not in calls[place:]
    ]


def all_seatings(state, core=0, used=()):
    """Every way to put ready tasks on cores of their masks, one to a core."""
    if core == state.core_count:
        yield []
        return
    fitting = [slot for slot in state.order if slot not in used and allows(state, slot, core)]
    for slot in [None] + fitting:
        taken_slots = used if slot is None else used + (slot,)
        for rest in all_seatings(state, core + 1, taken_slots):
            yield [slot] + rest


def reached(state, seats, slot):
    """The ends of all chains, found by growing a set instead of listing them."""
    cores = set()
    sitters = [slot]
    while sitters:
        mask = state.tasks[sitters.pop()].mask
        for core in range(state.core_count):
            if mask & 1 << core and core not in cores:
                cores.add(core)
                if seats[core] is not None:
                    sitters.append(seats[core])
    return cores


def may_wait(state, seats, slot):
    """No chain leads to an idle core or to a running task that comes after."""
    return all(
        seats[core] is not None and comes_before(state, seats[core], slot)
        for core in reached(state, seats, slot)
    )


def is_strong(state, seats):
    """A ready task waits only when it must."""
    return all(may_wait(state, seats, slot) for slot in state.order if slot not in seats)


# The layout of a file: every fault with its offset.


def all_faults(data):
    """Every (offset, number) that the table of refusals names for the file."""
    faults = []
    if len(data) > 0 and data[0] not in range(1, 33):
        faults.append((0, 2))
    if len(data) < 2:
        return faults + [(len(data), 12)]
    count_at = 2 + 6 * data[1]
    if len(data) < count_at + 2:
        return faults + [(len(data), 12)]
    events = data[count_at] + 256 * data[count_at + 1]
    if events > 16000:
        faults.append((count_at, 16))
    end = count_at + 2 + 2 * events
    if len(data) < end:
        faults.append((len(data), 12))
    if len(data) > end:
        faults.append((end, 13))
    for offset in range(count_at + 2, min(end, len(data)), 2):
        if data[offset] not in (1, 2, 3):
            faults.append((offset, 14))
    return faults


def first_fault(data):
    """The number and offset of the fault nearest to the start, or None."""
    faults = all_faults(data)
    if not faults:
        return None
    offset, number = min(faults)
    return number, offset
