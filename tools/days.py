"""The vectors: event files, each for something that a replay may get wrong.

`shows` are lines that the file must print, for most vectors worked out by hand from
document 01 and request 1 of document 02. The random days and the largest file have none;
an example's are those it quotes; in create-mixtures the slots were corrected after a run,
the answers were not.
They keep a vector true to its purpose, whatever program writes the rest.
"""

from collections import namedtuple
from pathlib import Path

from dice import Dice
from paper import LISTING_INPUT, LISTING_LINES
from reference import BLOCK, DELETE, WAKE, Day, Event, Record
from sheet import encode, pack, quoted

Vector = namedtuple("Vector", "name data shows")

LISTING = bytes.fromhex(LISTING_INPUT)
EXAMPLES = Path(__file__).resolve().parent.parent / "examples"


def sheet(name, text, *shows):
    return Vector(name, pack(text), list(shows))


def block_and_delete(what, text, *shows):
    """Two days on one board: a delete of a ready task reports as the block."""
    return [
        sheet(f"block-{what}", text, *shows),
        sheet(f"delete-{what}", text.replace("block ", "delete "),
              *(line.replace(" B ", " D ") for line in shows)),
    ]


def raw(name, data, *shows):
    return Vector(name, bytes(data), list(shows))


def day(name, core_count, records, events, *shows):
    return Vector(name, encode(Day(core_count, records, events)), list(shows))


def wakes(slots):
    return [Event(WAKE, slot) for slot in slots]


def deletes(slots):
    return [Event(DELETE, slot) for slot in slots]


def seats(slots):
    return ",".join("-" if slot is None else str(slot) for slot in slots)


# Files with a fault in their layout.


def largest_file():
    """255 records, many of them refused, and 16,000 events of every kind."""
    dice = Dice(255)
    records = [Record(dice.below(150), dice.below(12), dice.below(16)) for _ in range(255)]
    events = []
    for _ in range(16000):
        # More blocks than wakes keep the ready tasks few and the cores changing hands.
        kind = DELETE if dice.one_in(300) else dice.pick([WAKE, BLOCK, BLOCK, BLOCK, BLOCK])
        events.append(Event(kind, dice.below(140)))
    return encode(Day(3, records, events))


def refused_at_both_ends(largest):
    """Each refusal of the reader at its smallest and at its largest offset."""
    many_records = largest[:2 + 6 * 255]
    bad_last_kind = largest[:33532] + b"\x04" + largest[33533:]
    return [
        raw("empty", b"", "refused 12 at 0"),
        raw("cut-largest", largest[:33533], "refused 12 at 33533"),
        raw("surplus-smallest", [1, 0, 0, 0, 0], "refused 13 at 4"),
        raw("surplus-largest", largest + b"\x01", "refused 13 at 33534"),
        raw("kind-smallest", [1, 0, 1, 0, 0, 0], "refused 14 at 4"),
        raw("kind-largest", bad_last_kind, "refused 14 at 33532"),
        raw("count-smallest", [1, 0, 0x81, 0x3E], "refused 16 at 2"),
        raw("count-largest", many_records + b"\x81\x3e", "refused 16 at 1532"),
    ]


def bad_core_counts(largest):
    """Number 2 stands at 0 whatever follows, also nothing."""
    bodies = {"alone": b"", "short": LISTING[1:], "long": largest[1:]}
    return [raw(f"cores-{count}-{body}", bytes([count]) + bodies[body], "refused 2 at 0")
            for count in (0, 33, 255) for body in bodies]


def event_counts():
    full = bytes([1, 7] * 16001)
    return [
        raw("count-one-byte", [1, 0, 1], "refused 12 at 3"),
        raw("count-one-byte-255", [1, 0, 255], "refused 12 at 3"),
        raw("count-missing", [1, 0], "refused 12 at 2"),
        raw("count-after-record-cut", [1, 1, 0, 1, 1, 0, 0, 0, 0x81], "refused 12 at 9"),
        raw("count-65535", [1, 0, 255, 255, 0, 0, 9, 9], "refused 16 at 2"),
        raw("count-16001-bad-kinds", bytes([2, 0, 0x81, 0x3E]) + bytes(32002), "refused 16 at 2"),
        raw("count-16001-full", bytes([2, 0, 0x81, 0x3E]) + full, "refused 16 at 2"),
        raw("count-16000-no-body", [2, 0, 0x80, 0x3E], "refused 12 at 4"),
    ]


def bad_kinds():
    return [
        raw("kind-last-byte", [1, 0, 1, 0, 4], "refused 14 at 4"),
        raw("kind-last-byte-later", [1, 0, 2, 0, 1, 0, 255], "refused 14 at 6"),
        raw("kind-before-cut", [1, 0, 9, 0, 2, 0, 0, 0, 1, 1], "refused 14 at 6"),
        raw("kind-before-surplus", [1, 0, 2, 0, 3, 0, 4, 0, 1, 2, 3], "refused 14 at 6"),
        raw("kind-two-bad", [1, 0, 3, 0, 1, 0, 5, 0, 0, 0], "refused 14 at 6"),
        raw("kind-cut-before-bad", [1, 0, 2, 0, 1], "refused 12 at 5"),
        raw("kind-of-slot-byte", [1, 0, 2, 0, 1, 4, 3, 0], "1 W 4 5 0 - - -", "2 D 0 5 0 - - -"),
    ]


def cuts_of_the_listing():
    lengths = (1, 2, 3, 7, 8, 25, 26, 27, 28, 29, 42, 43)
    return [raw(f"listing-cut-{length}", LISTING[:length], f"refused 12 at {length}")
            for length in lengths]


def long_inputs(largest):
    """Lengths that look legal again when counted in two bytes."""
    return [
        raw("long-listing", LISTING + bytes(65536), "refused 13 at 44"),
        raw("long-largest", largest + bytes(65536), "refused 13 at 33534"),
        raw("long-zeros", bytes(65536 + 4), "refused 2 at 0"),
        raw("long-ones", b"\x01" * 70000, "refused 13 at 524"),
    ]


def layout_vectors():
    largest = largest_file()
    return (
        refused_at_both_ends(largest)
        + bad_core_counts(largest)
        + event_counts()
        + bad_kinds()
        + cuts_of_the_listing()
        + long_inputs(largest)
        + [Vector("largest", largest, [])]
    )


# Every refusal of every call.


def create_mixtures():
    """All mixtures of causes; slot 1 is in use, slots 2 and on are free."""
    records = [Record(1, 9, 1)]
    for priority in (0, 5):
        for mask in (0, 1 << 31, 4, 2):
            for slot in (255, 128, 1, 2 + len(records)):
                records.append(Record(slot, priority, mask))
    return day(
        "create-mixtures", 2, records, wakes([1]),
        "2 C 255 3 0 - - -,-", "3 C 128 3 0 - - -,-", "4 C 1 4 0 - - -,-", "5 C 3 6 0 - - -,-",
        "21 C 19 7 0 - - -,-", "25 C 23 8 0 - - -,-", "29 C 27 8 0 - - -,-", "33 C 31 0 0 - - -,-",
    )


def refusal_vectors():
    return [
        sheet("create-refused", """
            cores 2
            create 0 1 0-1
            create 127 255 1
            create 128 1 0
            create 255 1 0
            create 0 1 0
            create 1 0 0
            create 1 1 0x0
            create 1 1 2
            create 1 1 0xffffffff
            create 1 1 0
            """,
            "1 C 0 0 0 - - -,-", "2 C 127 0 0 - - -,-", "3 C 128 3 0 - - -,-",
            "4 C 255 3 0 - - -,-", "5 C 0 4 0 - - -,-", "6 C 1 6 0 - - -,-", "7 C 1 7 0 - - -,-",
            "8 C 1 8 0 - - -,-", "9 C 1 8 0 - - -,-", "10 C 1 0 0 - - -,-"),
        create_mixtures(),
        sheet("delete-refused", """
            cores 1
            create 0 9 0
            create 1 5 0
            create 2 5 0
            wake 0
            wake 1
            delete 255
            delete 128
            delete 127
            delete 1       # done: ready, waiting
            delete 0       # done: ready, on a core
            delete 2       # done: not ready
            delete 2       # now empty
            delete 1
            delete 0
            wake 1
            block 1
            """,
            "6 D 255 3 0 - - 0", "7 D 128 3 0 - - 0", "8 D 127 5 0 - - 0", "9 D 1 0 0 - - 0",
            "10 D 0 0 0 - - -", "11 D 2 0 0 - - -", "12 D 2 5 0 - - -", "13 D 1 5 0 - - -",
            "14 D 0 5 0 - - -", "15 W 1 5 0 - - -", "16 B 1 5 0 - - -"),
        sheet("wake-refused", """
            cores 1
            create 0 9 0
            create 1 5 0
            wake 255
            wake 128
            wake 127
            wake 0
            wake 1
            wake 0         # already ready, on a core
            wake 1         # already ready, waiting
            """,
            "3 W 255 3 0 - - -", "4 W 128 3 0 - - -", "5 W 127 5 0 - - -", "6 W 0 0 0 0 - 0",
            "7 W 1 0 0 - - 0", "8 W 0 9 0 - - 0", "9 W 1 9 0 - - 0"),
        sheet("block-refused", """
            cores 1
            create 0 9 0
            block 255
            block 128
            block 127
            block 0
            wake 0
            block 0
            block 0
            """,
            "2 B 255 3 0 - - -", "3 B 128 3 0 - - -", "4 B 127 5 0 - - -", "5 B 0 10 0 - - -",
            "6 W 0 0 0 0 - 0", "7 B 0 0 0 - - -", "8 B 0 10 0 - - -"),
    ]


# How many cores, records and events.


def records_255():
    """Slots 0 to 254 in order: those above 127 are refused 3."""
    records = [Record(slot, slot % 3 + 1, 1 << slot % 2) for slot in range(255)]
    return day("records-255", 2, records, wakes(range(0, 256, 5)),
               "128 C 127 0 0 - - -,-", "129 C 128 3 0 - - -,-", "255 C 254 3 0 - - -,-",
               "256 W 0 0 0 0 - 0,-", "307 W 255 3 0 - - 20,5")


def records_twice():
    """All slots, then all but one again: answer 4, and the first record counts."""
    records = [Record(slot, 7, 1) for slot in range(128)]
    records += [Record(slot, 9, 2) for slot in range(127)]
    return day("records-twice", 2, records, wakes([126, 127, 0]),
               "128 C 127 0 0 - - -,-", "129 C 0 4 0 - - -,-", "255 C 126 4 0 - - -,-",
               "256 W 126 0 0 126 - 126,-", "257 W 127 0 0 - - 126,-")


def records_of_every_slot():
    """128 tasks that may run anywhere; the more urgent half pushes the other off."""
    return [Record(slot, 1 + slot // 64, 2**32 - 1) for slot in range(128)]


def all_slots_on_32_cores():
    events = wakes(range(128)) + [Event(BLOCK, slot) for slot in range(64, 96)]
    return day("every-slot", 32, records_of_every_slot(), events,
               f"160 W 31 0 0 31 - {seats(range(32))}", f"161 W 32 0 0 - - {seats(range(32))}",
               f"193 W 64 0 0 64 31 {seats([*range(31), 64])}",
               f"224 W 95 0 0 95 0 {seats(range(95, 63, -1))}",
               f"257 B 64 0 0 96 - {seats([*range(95, 64, -1), 96])}")


def all_slots_deleted():
    """Each delete starts the next in order, until nobody waits and the cores fall idle."""
    events = wakes(range(128)) + deletes([*range(64, 128), *range(64), 63])
    return day("delete-every-slot", 32, records_of_every_slot(), events,
               f"256 W 127 0 0 - - {seats(range(95, 63, -1))}",
               f"257 D 64 0 0 96 - {seats([*range(95, 64, -1), 96])}",
               f"288 D 95 0 0 127 - {seats(range(127, 95, -1))}",
               f"289 D 96 0 0 0 - {seats([*range(127, 96, -1), 0])}",
               f"320 D 127 0 0 31 - {seats(range(31, -1, -1))}",
               f"321 D 0 0 0 32 - {seats([*range(31, 0, -1), 32])}",
               f"352 D 31 0 0 63 - {seats(range(63, 31, -1))}",
               f"353 D 32 0 0 - - {seats([*range(63, 32, -1), None])}",
               f"384 D 63 0 0 - - {seats([None] * 32)}", f"385 D 63 5 0 - - {seats([None] * 32)}")


def size_vectors():
    return [
        raw("nothing", [1, 0, 0, 0]),
        raw("nothing-32", [32, 0, 0, 0]),
        raw("listing", LISTING, *LISTING_LINES.splitlines()),
        sheet("records-only", "cores 3\ncreate 4 1 0-2\ncreate 3 1 1\n",
              "1 C 4 0 0 - - -,-,-", "2 C 3 0 0 - - -,-,-"),
        sheet("events-only", "cores 2\nwake 0\nblock 0\ndelete 0\n",
              "1 W 0 5 0 - - -,-", "2 B 0 5 0 - - -,-", "3 D 0 5 0 - - -,-"),
        sheet("one-core", """
            cores 1
            create 0 1 0
            create 1 255 0
            create 2 128 0
            create 3 1 1
            wake 0
            wake 1
            wake 2
            block 1
            block 2
            block 0
            """,
            "4 C 3 8 0 - - -", "5 W 0 0 0 0 - 0", "6 W 1 0 0 1 0 1", "7 W 2 0 0 - - 1",
            "8 B 1 0 0 2 - 2", "9 B 2 0 0 0 - 0", "10 B 0 0 0 - - -"),
        sheet("two-cores", """
            cores 2
            create 0 50 0-1
            create 1 40 0
            create 2 30 1
            wake 0
            wake 2
            wake 1
            block 0
            wake 0
            """,
            "4 W 0 0 0 0 - 0,-", "5 W 2 0 0 2 - 0,2", "6 W 1 0 1 1 2 1,0", "7 B 0 0 0 2 - 1,2",
            "8 W 0 0 0 0 2 1,0"),
        sheet("cores-31", """
            cores 31
            create 0 1 30
            create 1 1 31
            create 2 1 0-30
            create 3 1 0-31
            create 4 2 30
            create 5 2 0x40000000
            wake 0
            wake 2
            wake 4
            wake 5
            """,
            "2 C 1 8 0 - - " + seats([None] * 31), "4 C 3 8 0 - - " + seats([None] * 31),
            "8 W 2 0 0 2 - " + seats([2] + [None] * 29 + [0]),
            "9 W 4 0 0 4 0 " + seats([2] + [None] * 29 + [4]),
            "10 W 5 0 0 - - " + seats([2] + [None] * 29 + [4])),
        sheet("cores-32", """
            cores 32
            create 0 1 31
            create 1 1 0x80000000
            create 2 1 0xffffffff
            create 3 2 0xffffffff
            create 4 2 31
            wake 0
            wake 1
            wake 2
            wake 4
            block 4
            """,
            "6 W 0 0 0 0 - " + seats([None] * 31 + [0]), "7 W 1 0 0 - - " + seats([None] * 31 + [0]),
            "8 W 2 0 0 2 - " + seats([2] + [None] * 30 + [0]),
            "9 W 4 0 0 4 0 " + seats([2] + [None] * 30 + [4]),
            "10 B 4 0 0 0 - " + seats([2] + [None] * 30 + [0])),
        records_255(),
        records_twice(),
        all_slots_on_32_cores(),
        all_slots_deleted(),
    ]


# Long chains.


def records_of_a_line():
    """Tasks 0 to 30 stand on cores 0 to 30 and may go one core on.

    Slot 31 is held to core 0, slot 32 to core 31 and less urgent.
    """
    records = [Record(slot, 50, 3 << slot) for slot in range(31)]
    return records + [Record(31, 50, 1), Record(32, 40, 1 << 31)]


def chain_of_32():
    events = wakes(range(33)) + [Event(BLOCK, 31), Event(WAKE, 31), Event(BLOCK, 15)]
    shifted = seats([31, *range(31)])
    return day("chain-32", 32, records_of_a_line(), events,
               f"65 W 31 0 31 31 - {shifted}", f"66 W 32 0 0 - - {shifted}",
               f"67 B 31 0 31 32 - {seats([*range(31), 32])}", f"68 W 31 0 31 31 32 {shifted}",
               f"69 B 15 0 15 32 - {seats([31, *range(15), *range(16, 31), 32])}")


def chain_of_32_by_delete():
    """The longest refill; then slot 31 is gone, and a core falls idle in the middle."""
    events = wakes(range(33)) + deletes([31]) + wakes([31]) + deletes([15])
    back = [*range(31), 32]
    return day("delete-chain-32", 32, records_of_a_line(), events,
               f"66 W 32 0 0 - - {seats([31, *range(31)])}", f"67 D 31 0 31 32 - {seats(back)}",
               f"68 W 31 5 0 - - {seats(back)}",
               f"69 D 15 0 0 - - {seats([*back[:15], None, *back[16:]])}")


def chain_in_mixed_order():
    """The same along a line through the cores in mixed order."""
    line = [(13 * place + 5) % 32 for place in range(32)]
    records = [Record(place, 50, 1 << line[place] | 1 << line[place + 1]) for place in range(31)]
    records += [Record(31, 60, 1 << line[31]), Record(32, 50, 1 << line[0]),
                Record(33, 10, 1 << line[31])]
    # Slot 31 holds the far end while the others take their places back from there.
    events = wakes([31, *range(30, -1, -1)])
    events += [Event(BLOCK, 31), Event(WAKE, 32), Event(WAKE, 33), Event(BLOCK, 32), Event(WAKE, 32)]
    on_line = dict(zip(line, [32, *range(31)]))
    shifted = seats(on_line[core] for core in range(32))
    back = dict(zip(line, [*range(31), 33]))
    return day("chain-32-mixed", 32, records, events,
               f"68 W 32 0 31 32 - {shifted}", f"69 W 33 0 0 - - {shifted}",
               f"70 B 32 0 31 33 - {seats(back[core] for core in range(32))}",
               f"71 W 32 0 31 32 33 {shifted}")


def ring_of_32():
    """Each task may stand on two neighbours of a ring, two tasks to each pair."""
    records = [Record(slot, 1 + slot // 32, 1 << slot % 32 | 1 << (slot + 1) % 32)
               for slot in range(64)]
    events = wakes(range(64)) + [Event(BLOCK, slot) for slot in range(0, 64, 3)]
    events += wakes(range(0, 64, 3))
    return day("ring-32", 32, records, events, f"96 W 31 0 0 31 - {seats(range(32))}")


# The rules that are easily read wrong.


def order_vectors():
    return [
        sheet("equal-no-push", """
            cores 1
            create 0 50 0
            create 1 50 0
            wake 0
            wake 1
            block 0
            wake 0
            """,
            "4 W 1 0 0 - - 0", "5 B 0 0 0 1 - 1", "6 W 0 0 0 - - 1"),
        sheet("equal-no-push-by-chain", """
            cores 2
            create 0 50 0-1
            create 1 50 1
            create 2 50 0
            wake 0
            wake 1
            wake 2
            """,
            "5 W 1 0 0 1 - 0,1", "6 W 2 0 0 - - 0,1"),
        sheet("equal-loser-woke-later", """
            cores 2
            create 0 50 0-1
            create 1 50 0-1
            create 2 90 1
            create 3 90 0
            wake 1
            wake 0
            wake 2         # slot 0 woke later, so it stops
            wake 3
            """,
            "6 W 0 0 0 0 - 1,0", "7 W 2 0 0 2 0 1,2", "8 W 3 0 0 3 1 3,2"),
        sheet("equal-loser-by-chain", """
            cores 2
            create 0 50 0-1
            create 1 50 0-1
            create 2 90 0
            wake 1
            wake 0
            wake 2         # slot 1 shifts to the core of slot 0, which woke later
            """,
            "6 W 2 0 1 2 0 2,1"),
        sheet("pushed-keeps-place", """
            cores 1
            create 0 50 0
            create 1 50 0
            create 2 90 0
            wake 0
            wake 1
            wake 2
            block 2
            """,
            "6 W 2 0 0 2 0 2", "7 B 2 0 0 0 - 0"),
        sheet("wake-again-last-place", """
            cores 1
            create 0 50 0
            create 1 50 0
            create 2 50 0
            wake 0
            wake 1
            wake 2
            block 0
            wake 0
            block 1
            block 2
            """,
            "7 B 0 0 0 1 - 1", "8 W 0 0 0 - - 1", "9 B 1 0 0 2 - 2", "10 B 2 0 0 0 - 0"),
        sheet("wake-again-while-waiting", """
            cores 1
            create 0 90 0
            create 1 50 0
            create 2 50 0
            wake 0
            wake 1
            wake 2
            block 1        # it waited: only its place is lost
            wake 1
            block 0
            """,
            "7 B 1 0 0 - - 0", "8 W 1 0 0 - - 0", "9 B 0 0 0 2 - 2"),
    ]


def wake_vectors():
    return [
        sheet("idle-further-on", """
            cores 3
            create 0 10 0
            create 1 50 1-2
            create 2 90 0-1
            wake 0
            wake 1
            wake 2         # core 2 is idle, so the less urgent slot 0 stays
            """,
            "6 W 2 0 1 2 - 0,2,1"),
        sheet("idle-by-own-sitter", """
            cores 2
            create 0 10 0-1
            create 1 90 0
            wake 0
            wake 1         # slot 0 is less urgent, but it moves instead of stopping
            """,
            "4 W 1 0 1 1 - 1,0"),
        sheet("loser-further-on", """
            cores 3
            create 0 40 0-1
            create 1 50 1-2
            create 2 10 2
            create 3 90 0
            wake 0
            wake 1
            wake 2
            wake 3         # slot 0 is nearer, slot 2 is the last of all reached
            """,
            "8 W 3 0 2 3 2 3,0,1"),
        sheet("loser-not-reached", """
            cores 3
            create 0 40 0
            create 1 50 1
            create 2 10 2
            create 3 45 0-1
            create 4 30 0-1
            wake 0
            wake 1
            wake 2
            wake 4         # slot 2 is less urgent but on no core that is reached
            wake 3
            """,
            "9 W 4 0 0 - - 0,1,2", "10 W 3 0 0 3 0 3,1,2"),
        sheet("newcomer-waits", """
            cores 2
            create 0 50 0-1
            create 1 40 0-1
            create 2 39 0-1
            wake 0
            wake 1
            wake 2
            """,
            "6 W 2 0 0 - - 0,1"),
    ]


def tie_vectors():
    # Two lines of the same length to core 6: 1,5,6 and 2,3,6.
    two_lines = """
            cores 7
            create 0 50 1,5
            create 1 50 2-3
            create 2 50 3,6
            create 3 50 5-6
            """
    settle = """
            wake 3
            wake 2
            wake 0
            wake 1
            """
    return [
        sheet("tie-first-core", """
            cores 5
            create 0 50 1,4
            create 1 50 2-3
            create 2 50 1-2
            wake 0
            wake 1
            wake 2         # 1,4 comes before 2,3 although core 3 is smaller
            """,
            "6 W 2 0 1 2 - -,2,1,-,0"),
        sheet("tie-middle-core", """
            cores 5
            create 0 50 0-2
            create 1 50 1,4
            create 2 50 2-3
            create 3 50 0
            wake 0
            wake 1
            wake 2
            wake 3         # 0,1,4 comes before 0,2,3
            """,
            "8 W 3 0 2 3 - 3,0,2,-,1"),
        sheet("tie-last-core", """
            cores 4
            create 0 50 0-1
            create 1 50 1-3
            create 2 50 0
            wake 0
            wake 1
            wake 2         # 0,1,2 comes before 0,1,3
            """,
            "5 W 1 0 0 1 - 0,1,-,-", "6 W 2 0 2 2 - 2,0,1,-"),
        sheet("tie-two-idle", """
            cores 4
            create 0 50 1-3
            create 1 50 1,3
            wake 0
            wake 1
            """,
            "3 W 0 0 0 0 - -,0,-,-", "4 W 1 0 0 1 - -,0,-,1"),
        sheet("tie-shorter-wins", """
            cores 4
            create 0 50 0-1
            create 1 50 1-2
            create 2 50 0,3
            wake 0
            wake 1
            wake 2         # 3 alone is shorter than 0,1,2
            """,
            "6 W 2 0 0 2 - 0,1,-,2"),
        sheet("tie-wake", two_lines + "create 4 50 1-2\n" + settle + "wake 4\n",
              "9 W 1 0 0 1 - -,0,1,2,-,3,-", "10 W 4 0 2 4 - -,4,1,2,-,0,3"),
        sheet("tie-push", two_lines + "create 4 50 1-2\ncreate 5 10 6\n" + settle
              + "wake 5\nwake 4\n",
              "11 W 5 0 0 5 - -,0,1,2,-,3,5", "12 W 4 0 2 4 5 -,4,1,2,-,0,3"),
        sheet("tie-block", two_lines + "create 4 10 1-2\ncreate 5 90 6\n" + settle
              + "wake 5\nwake 4\nblock 5\n",
              "12 W 4 0 0 - - -,0,1,2,-,3,5", "13 B 5 0 2 4 - -,4,1,2,-,0,3"),
        sheet("tie-delete", two_lines + "create 4 10 1-2\ncreate 5 90 6\n" + settle
              + "wake 5\nwake 4\ndelete 5\n",
              "12 W 4 0 0 - - -,0,1,2,-,3,5", "13 D 5 0 2 4 - -,4,1,2,-,0,3"),
    ]


def block_vectors():
    return [
        sheet("block-tries-all", """
            cores 3
            create 0 90 0
            create 1 80 1-2
            create 2 70 2
            create 3 40 0
            create 4 30 1
            create 5 20 2
            wake 0
            wake 1
            wake 2
            wake 3
            wake 4
            wake 5
            block 2        # slot 3 does not reach core 2; slot 4 does, by 1,2
            block 0
            block 1
            block 5
            """,
            "12 W 5 0 0 - - 0,1,2", "13 B 2 0 1 4 - 0,4,1", "14 B 0 0 0 3 - 3,4,1",
            "15 B 1 0 0 5 - 3,4,5", "16 B 5 0 0 - - 3,4,-"),
        sheet("block-none-reaches", """
            cores 2
            create 0 50 0
            create 1 50 1
            create 2 50 0
            wake 0
            wake 1
            wake 2
            block 1
            """,
            "7 B 1 0 0 - - 0,-"),
        *block_and_delete("by-priority", """
            cores 1
            create 0 90 0
            create 1 10 0
            create 2 30 0
            create 3 20 0
            wake 0
            wake 1
            wake 2
            wake 3
            block 0        # slot 1 woke first, slot 2 is the most urgent
            block 2
            """,
            "9 B 0 0 0 2 - 2", "10 B 2 0 0 3 - 3"),
        sheet("block-waiting", """
            cores 1
            create 0 90 0
            create 1 50 0
            wake 0
            wake 1
            block 1
            block 0
            """,
            "5 B 1 0 0 - - 0", "6 B 0 0 0 - - -"),
        *block_and_delete("not-stopped", """
            cores 2
            create 0 50 0
            create 1 40 1
            wake 0
            wake 1
            block 0
            """,
            "5 B 0 0 0 - - -,1"),
    ]


def delete_vectors():
    return [
        sheet("delete-running", """
            cores 2
            create 0 90 0
            create 1 80 1
            create 2 50 0-1
            create 3 70 1
            wake 0
            wake 1
            wake 2
            wake 3
            delete 0       # slot 3 comes first but reaches core 1 only: slot 2 starts
            delete 1
            wake 0         # its slot is empty
            """,
            "8 W 3 0 0 - - 0,1", "9 D 0 0 0 2 - 2,1", "10 D 1 0 0 3 - 2,3", "11 W 0 5 0 - - 2,3"),
        sheet("delete-by-chain", """
            cores 4
            create 0 90 0-1
            create 1 80 1-2
            create 2 70 2-3
            create 3 60 3
            create 4 50 0
            create 5 40 0
            wake 0
            wake 1
            wake 2
            wake 3
            wake 4
            wake 5
            delete 3       # slot 4 reaches core 3 by 0,1,2,3
            delete 1       # slot 5 reaches core 0 only, where slot 4 is held
            delete 4
            delete 0
            """,
            "12 W 5 0 0 - - 0,1,2,3", "13 D 3 0 3 4 - 4,0,1,2", "14 D 1 0 0 - - 4,0,-,2",
            "15 D 4 0 0 5 - 5,0,-,2", "16 D 0 0 0 - - 5,-,-,2"),
        sheet("delete-waiting", """
            cores 1
            create 0 90 0
            create 1 50 0
            create 2 40 0
            wake 0
            wake 1
            wake 2
            delete 1       # it waited: nothing moves
            block 0        # slot 1 would have come before slot 2
            """,
            "6 W 2 0 0 - - 0", "7 D 1 0 0 - - 0", "8 B 0 0 0 2 - 2"),
        sheet("delete-pushed-off", """
            cores 1
            create 0 50 0
            create 1 50 0
            create 2 90 0
            wake 0
            wake 1
            wake 2
            delete 0       # it had been pushed off and waited
            delete 2
            """,
            "6 W 2 0 0 2 0 2", "7 D 0 0 0 - - 2", "8 D 2 0 0 1 - 1"),
        sheet("delete-none-reaches", """
            cores 2
            create 0 50 0
            create 1 50 1
            create 2 50 0
            wake 0
            wake 1
            wake 2
            delete 1
            delete 0
            delete 2
            """,
            "6 W 2 0 0 - - 0,1", "7 D 1 0 0 - - 0,-", "8 D 0 0 0 2 - 2,-", "9 D 2 0 0 - - -,-"),
        sheet("delete-equals", """
            cores 1
            create 0 50 0
            create 1 50 0
            create 2 90 0
            wake 0
            wake 1
            wake 2
            delete 2       # slot 0 was pushed off and keeps its place
            delete 0
            """,
            "6 W 2 0 0 2 0 2", "7 D 2 0 0 0 - 0", "8 D 0 0 0 1 - 1"),
        sheet("delete-twice", """
            cores 1
            create 0 50 0
            create 1 40 0
            wake 0
            wake 1
            delete 0
            delete 0
            delete 1
            delete 1
            """,
            "5 D 0 0 0 1 - 1", "6 D 0 5 0 - - 1", "7 D 1 0 0 - - -", "8 D 1 5 0 - - -"),
        sheet("delete-not-ready", """
            cores 2
            create 0 90 0
            create 1 80 1
            create 2 50 0-1
            create 3 99 0-1
            create 4 60 0-1
            wake 0
            wake 1
            wake 2
            delete 3       # it never woke; slot 2 goes on waiting
            wake 4
            block 4
            delete 4       # it woke and blocked
            block 0
            """,
            "8 W 2 0 0 - - 0,1", "9 D 3 0 0 - - 0,1", "10 W 4 0 0 - - 0,1", "11 B 4 0 0 - - 0,1",
            "12 D 4 0 0 - - 0,1", "13 B 0 0 0 2 - 2,1"),
    ]


# Random days.


def random_day(name, seed, core_count, task_count, width, event_count):
    """Most tasks are ready most of the time, so that cores are short.

    About half of the tasks are deleted on the way, ready or not, but never so many that
    all the others would have a core.
    """
    dice = Dice(seed)
    levels = dice.between(2, 6)
    records = [Record(slot, dice.between(1, levels) * 40, dice.mask(core_count, width))
               for slot in dice.shuffled(range(128))[:task_count]]
    slots = [record.slot for record in records]
    events, ready = [], set()
    while len(events) < event_count:
        if len(slots) > core_count + 1 and dice.one_in(2 * event_count // task_count):
            event = Event(DELETE, slots.pop(dice.below(len(slots))))
        elif dice.one_in(25):
            event = stray_event(dice, slots, ready)
        else:
            event = busy_event(dice, slots, ready)
        events.append(event)
        if event.kind == WAKE and event.slot in slots:
            ready.add(event.slot)
        if event.kind != WAKE:
            ready.discard(event.slot)
    return day(name, core_count, records, events)


def busy_event(dice, slots, ready):
    """A wake or a block that is done, more often a wake."""
    asleep = [slot for slot in slots if slot not in ready]
    if asleep and (not ready or not dice.one_in(3)):
        return Event(WAKE, dice.pick(asleep))
    return Event(BLOCK, dice.pick(sorted(ready)))


def stray_event(dice, slots, ready):
    """A call that is likely refused."""
    any_slot = dice.below(256)
    empty = [slot for slot in range(256) if slot not in slots]
    return dice.pick([
        Event(WAKE, dice.pick(sorted(ready) + [any_slot])),
        Event(BLOCK, any_slot),
        Event(DELETE, dice.pick(empty)),
    ])


def random_vectors():
    vectors = []
    for core_count in (1, 2, 3, 4, 8, 16, 31, 32):
        task_count = min(128, 2 * core_count + 6)
        for name, width in (("narrow", 2), ("middle", 4), ("wide", core_count)):
            if name == "wide" or width < core_count:
                vectors.append(random_day(f"random-{core_count}-{name}", 1000 * core_count + width,
                                          core_count, task_count, width, 400))
    vectors.append(random_day("random-events-16000", 16000, 4, 14, 3, 16000))
    return vectors


def examples():
    """The days in examples/, with the lines that they quote."""
    return [sheet(f"example-{path.stem}", path.read_text(), *quoted(path.read_text()))
            for path in sorted(EXAMPLES.glob("*.txt"))]


def all_vectors():
    return (
        layout_vectors()
        + refusal_vectors()
        + size_vectors()
        + [chain_of_32(), chain_of_32_by_delete(), chain_in_mixed_order(), ring_of_32()]
        + order_vectors()
        + wake_vectors()
        + tie_vectors()
        + block_vectors()
        + delete_vectors()
        + random_vectors()
        + examples()
    )
