"""Stableglow from Python: ctypes over libstableglow.so, the standard library alone.

As a program: python3 stableglow.py LIBRARY FILE tells a rule file's errors and rules.
"""

import ctypes
import sys
from collections import namedtuple

# What stands where in the lists: numbers of an event, of an error record before its names, of a listed rule, of a node.
EVENT, HEAD, RULE, NODE = 5, 5, 8, 4
START, END, FORM, ITEM, COUNT = 0, 1, 2, 3, 4
PLACED = 9  # the form whose records have a place behind their names
MOST_BYTES = 1_048_576

Rows = namedtuple("Rows", "ids starts ends")
Reading = namedtuple("Reading", "outcome rows fuel events errors")
ErrorRecord = namedtuple("ErrorRecord", "form start end item names place numbers")
Rule = namedtuple("Rule", "name_start name_end start end meta patterns tags damaged")
Node = namedtuple("Node", "kind start end depth")

DONE, OUT_OF_FUEL, TOO_DEEP = 0, 1, 2


class Refusal(Exception):
    """The library gave no answer; `number` says why (README has the numbers)."""

    def __init__(self, number):
        super().__init__(f"refusal {number}")
        self.number = number


def accepted(reading):
    """Whether the file is accepted: read to its end, and nothing wrong with it."""
    return reading.outcome == DONE and not reading.errors


class Stableglow:
    """The six functions over lists that grow where the library says that a room is too small."""

    def __init__(self, path):
        self.library = ctypes.CDLL(path)
        for name in ("cut", "read", "merge", "message", "rules", "outline"):
            getattr(self.library, "stableglow_" + name).restype = ctypes.c_uint32

    def _call(self, name, *args):
        """Lists are handed over with their lengths, as C wants them."""
        spread = []
        for arg in args:
            spread += [arg, ctypes.c_size_t(len(arg))] if hasattr(arg, "__len__") else [arg]
        return getattr(self.library, "stableglow_" + name)(*spread)

    def _grown(self, name, before, cell, size, full):
        """Calls with one room that doubles while it is refused as too small; gives the room and its count."""
        while True:
            room, count = (cell * size)(), ctypes.c_uint32()
            number = self._call(name, *before, room, ctypes.byref(count))
            if number == 0:
                return room, count.value
            if number != full:
                raise Refusal(number)
            size = 2 * size + 1

    def cut(self, source):
        lists = [(ctypes.c_uint32 * min(len(source), MOST_BYTES))() for _ in range(3)]
        count = ctypes.c_uint32()
        number = self._call("cut", source, *lists, ctypes.byref(count))
        if number != 0:
            raise Refusal(number)
        return Rows(*(_numbers(one[: count.value]) for one in lists))

    def read(self, source, rows, fuel=1_000_000, settings=b"", edition=1):
        """By an edition of the settings text; edition 1 has the fuel given here, a later one its own."""
        scratch = (ctypes.c_uint64 * ((2 * (len(rows.ids) + 1) + 63) // 64))()
        event_room, error_room = EVENT * (3 * len(rows.ids) + 64), len(rows.ids) + 256
        while True:
            events, errors = (ctypes.c_uint32 * event_room)(), (ctypes.c_uint32 * error_room)()
            answer = (ctypes.c_uint32 * 5)()
            lent = (settings, ctypes.c_uint32(edition), ctypes.c_uint32(fuel), scratch, events, errors, ctypes.byref(answer))
            number = self._call("read", source, *rows, *lent)
            if number == 0:
                outcome, covered, count, records, left = answer
                return Reading(outcome, covered, left, _numbers(events[: EVENT * count]), _records(errors, records))
            if number not in (7, 8):
                raise Refusal(number)
            event_room, error_room = (2 * event_room, error_room) if number == 7 else (event_room, 2 * error_room)

    def merge(self, events):
        room, count = self._grown("merge", (events,), ctypes.c_uint32, len(events), 7)
        return _numbers(room[: EVENT * count])

    def message(self, source, record):
        room, length = self._grown("message", (source, record.numbers), ctypes.c_uint8, 256, 12)
        return bytes(room[:length]).decode()

    def rules(self, events):
        room, count = self._grown("rules", (events,), ctypes.c_uint32, 32 * RULE, 14)
        return [Rule(*room[at : at + RULE]) for at in range(0, RULE * count, RULE)]

    def outline(self, events, at, depth):
        before = (events, ctypes.c_size_t(at), ctypes.c_uint32(depth))
        room, count = self._grown("outline", before, ctypes.c_uint32, 64 * NODE, 14)
        return [Node(*room[at : at + NODE]) for at in range(0, NODE * count, NODE)]


def _numbers(values):
    return (ctypes.c_uint32 * len(values))(*values)


def _records(numbers, count):
    records, at = [], 0
    for _ in range(count):
        head = numbers[at : at + HEAD]
        names = numbers[at + HEAD : at + HEAD + head[COUNT]]
        end = at + HEAD + head[COUNT] + (head[FORM] == PLACED)
        place = numbers[end - 1] if head[FORM] == PLACED else None
        records.append(ErrorRecord(head[FORM], head[START], head[END], head[ITEM], names, place, _numbers(numbers[at:end])))
        at = end
    return records


def main(library, path):
    """Tells a file as bindings/c/check.c does."""
    glow = Stableglow(library)
    with open(path, "rb") as file:
        source = file.read(MOST_BYTES + 1)
    try:
        reading = glow.read(source, glow.cut(source))
    except Refusal as refusal:
        print(f"{path}: refused, number {refusal.number}")
        return 1
    for record in reading.errors:
        print(f"{path}: {record.start}..{record.end}: {glow.message(source, record)}")
    for rule in glow.rules(reading.events):
        name = source[rule.name_start : rule.name_end].decode()
        print(f"{path}: rule {name}{', damaged' if rule.damaged else ''}")
    told = ("with errors", "stopped: out of fuel", "stopped: too deep")[reading.outcome]
    print(f"{path}: {'accepted' if accepted(reading) else told}")
    return 0 if accepted(reading) else 1


if __name__ == "__main__":
    if len(sys.argv) != 3:
        sys.exit("stableglow.py: give the library and a rule file")
    sys.exit(main(*sys.argv[1:]))
