"""A day as text, for people: one call a line.

    cores 3
    create 0 50 0x3        # slot, priority, mask: hexadecimal ..
    create 1 40 1-2        # .. or a list of cores, as 0,2-3
    wake 0
    block 0
    delete 5

`#` starts a comment and blank lines are ignored. `cores` comes first and all
creates come before the events, as in an event file. What the dispatcher itself
refuses (a slot above 127, priority 0, an empty mask, a missing core) can be
written, so that every well-formed event file has a sheet.
"""

import re
import sys

from reference import (
    BAD_CORE_COUNT, BAD_KIND, BLOCK, DELETE, ENDS_TOO_EARLY, MOST_CORES, MOST_EVENTS,
    MOST_RECORDS, SURPLUS_BYTES, TOO_MANY_EVENTS, WAKE, Day, Event, LayoutFault, Record,
    cores_of, read_bounded, read_day,
)

KINDS = {"wake": WAKE, "block": BLOCK, "delete": DELETE}
WORDS = {kind: word for word, kind in KINDS.items()}

# The words that each line takes after its first.
TAKES = {
    "cores": ["core count"],
    "create": ["slot", "priority", "mask"],
    "wake": ["slot"],
    "block": ["slot"],
    "delete": ["slot"],
}

REASONS = {
    BAD_CORE_COUNT: f"the core count is not 1 to {MOST_CORES}",
    ENDS_TOO_EARLY: "the file ends too early",
    SURPLUS_BYTES: "there are bytes after the last event",
    BAD_KIND: "the event kind is not 1 (wake), 2 (block) or 3 (delete)",
    TOO_MANY_EVENTS: f"there are more than {MOST_EVENTS:,} events",
}


class SheetError(Exception):
    """A line that cannot be written into an event file, and why."""

    def __init__(self, line, reason):
        super().__init__(f"line {line}: {reason}")
        self.line = line


class Sheet:
    """A sheet read line by line."""

    def __init__(self):
        self.line = 0
        self.core_count = None
        self.records = []
        self.events = []

    def fail(self, reason):
        raise SheetError(self.line, reason)

    def read(self, text):
        for self.line, content in enumerate(text.split("\n"), start=1):
            words = content.split("#", 1)[0].split()
            if words:
                self.read_call(words[0], words[1:])
        if self.core_count is None:
            self.fail("the sheet ends without a `cores` line")
        return Day(self.core_count, self.records, self.events)

    def read_call(self, word, values):
        if word not in TAKES:
            self.fail(f"unknown word {shown(word)}; known words are {', '.join(TAKES)}")
        if word != "cores" and self.core_count is None:
            self.fail(f"{word} before `cores`: a sheet begins with a line such as `cores 3`")
        if len(values) != len(TAKES[word]):
            self.fail(f"{word} takes {listing(TAKES[word])} ({count_words(len(TAKES[word]))}), "
                      f"but {count_words(len(values))} given")
        if word == "cores":
            self.read_cores(values[0])
        elif word == "create":
            self.read_create(*values)
        else:
            self.read_event(word, values[0])

    def read_cores(self, text):
        if self.core_count is not None:
            self.fail("cores a second time: a sheet has one `cores` line")
        count = self.decimal("core count", text)
        if not 1 <= count <= MOST_CORES:
            self.fail(f"core count {text} is not 1 to {MOST_CORES}")
        self.core_count = count

    def read_create(self, slot, priority, mask):
        if self.events:
            self.fail("create after an event: in an event file all creates come first")
        if len(self.records) == MOST_RECORDS:
            self.fail(f"more than {MOST_RECORDS} creates: an event file holds at most {MOST_RECORDS}")
        self.records.append(
            Record(self.byte("slot", slot), self.byte("priority", priority), self.mask(mask)))

    def read_event(self, word, slot):
        if len(self.events) == MOST_EVENTS:
            self.fail(f"more than {MOST_EVENTS:,} events: an event file holds at most {MOST_EVENTS:,}")
        self.events.append(Event(KINDS[word], self.byte("slot", slot)))

    def decimal(self, name, text):
        """A plain decimal number; one too long for any use counts as very large."""
        if not re.fullmatch("[0-9]+", text):
            self.fail(f"{name} {shown(text)} is not a plain decimal number")
        digits = text.lstrip("0")
        return int(digits or "0") if len(digits) < 10 else 10**10

    def byte(self, name, text):
        value = self.decimal(name, text)
        if value > 255:
            self.fail(f"{name} {text} does not fit in one byte (0 to 255)")
        return value

    def mask(self, text):
        if re.fullmatch("0[xX][0-9a-fA-F]+", text):
            value = int(text, 16)
            if value >= 2**32:
                self.fail(f"mask {text} does not fit in 32 bits (0x0 to 0xffffffff)")
            return value
        if not re.fullmatch("[0-9]+(-[0-9]+)?(,[0-9]+(-[0-9]+)?)*", text):
            self.fail(f"mask {shown(text)} is neither hexadecimal (as 0x3) nor a list of cores (as 0,2-3)")
        value = 0
        for part in text.split(","):
            for core in self.core_range(part):
                value |= 1 << core
        return value

    def core_range(self, part):
        """The cores of `2` or of `2-5`."""
        ends = part.split("-")
        first, last = self.core(ends[0]), self.core(ends[-1])
        if first > last:
            self.fail(f"the range {part} runs backward; the smaller core comes first")
        return range(first, last + 1)

    def core(self, text):
        value = self.decimal("core", text)
        if value >= MOST_CORES:
            self.fail(f"core {text} in the mask; cores are 0 to {MOST_CORES - 1}")
        return value


def shown(text):
    """A stray word in quotes, printable and not too long."""
    return ascii(text if len(text) <= 30 else text[:30] + "..")


def listing(names):
    return " and ".join([", ".join(names[:-1]), names[-1]] if names[1:] else names)


def count_words(count):
    return "1 word" if count == 1 else f"{count} words"


def mask_text(mask, hexadecimal):
    """Runs of cores as `2-5`, joined by commas; the empty mask is always 0x0."""
    if hexadecimal or mask == 0:
        return f"0x{mask:x}"
    runs = []
    for core in cores_of(mask):
        if runs and runs[-1][1] == core - 1:
            runs[-1][1] = core
        else:
            runs.append([core, core])
    return ",".join(str(a) if a == b else f"{a}-{b}" for a, b in runs)


def encode(day):
    """The bytes of an event file."""
    data = bytearray([day.core_count, len(day.records)])
    for slot, priority, mask in day.records:
        data += bytes([slot, priority]) + mask.to_bytes(4, "little")
    data += len(day.events).to_bytes(2, "little")
    for kind, slot in day.events:
        data += bytes([kind, slot])
    return bytes(data)


def pack(text):
    """The event file of a sheet; raises SheetError."""
    return encode(Sheet().read(text))


def unpack(data, hexadecimal=False):
    """The sheet of an event file; raises LayoutFault."""
    day = read_day(data)
    lines = [f"cores {day.core_count}"]
    lines += [
        f"create {slot} {priority} {mask_text(mask, hexadecimal)}"
        for slot, priority, mask in day.records
    ]
    lines += [f"{WORDS[kind]} {slot}" for kind, slot in day.events]
    return "".join(line + "\n" for line in lines)


# What the two commands share.


def quoted(text):
    """The lines that a sheet quotes after `#>`: what the replay prints."""
    return [line.split("#>", 1)[1].strip()
            for line in text.splitlines() if "#>" in line and not line.startswith("#")]


def read_file(path, read):
    """What `read` makes of the named file, or of standard input without a name."""
    try:
        if path is None:
            return read(sys.stdin.buffer)
        with open(path, "rb") as stream:
            return read(stream)
    except OSError as error:
        sys.exit(f"cannot read {path or 'standard input'}: {error.strerror}")


def read_text(path):
    # A byte that is no text can only be right inside a comment, so let it through.
    return read_file(path, lambda stream: stream.read()).decode("utf-8-sig", errors="replace")


def pack_command(path):
    """Event file to standard output, or an error and exit status 1."""
    try:
        data = pack(read_text(path))
    except SheetError as error:
        sys.exit(str(error))
    sys.stdout.buffer.write(data)


def unpack_command(path, hexadecimal):
    """Sheet to standard output, or an error and exit status 1."""
    try:
        text = unpack(read_file(path, read_bounded), hexadecimal)
    except LayoutFault as fault:
        sys.exit(f"{fault}: {REASONS[fault.number]}")
    sys.stdout.write(text)
