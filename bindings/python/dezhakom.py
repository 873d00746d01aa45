"""Reads the logs of OpenMP runs ("bundles") and tells whether a run had a data race: the library libdezhakom by ctypes.

    import dezhakom
    judgement = dezhakom.judge(open("examples/e.bundle", "rb").read())
    print(judgement.least or "race-free")

The functions are those of include/dezhakom.h. What is refused raises Refused, with the number and the place of docs/FORMAT.md; a number
that is wider than the function's raises ValueError. The library is the file that DEZHAKOM_LIBRARY names, else libdezhakom.so of the system.
"""

import ctypes
import os
from collections import namedtuple
from ctypes import POINTER, Structure, byref, c_char_p, c_size_t, c_uint8, c_uint16, c_uint32, c_uint64

MEMBER, END, CUT, REGION, BARRIER, ACQUIRE, RELEASE = 0x01, 0x02, 0x03, 0x10, 0x11, 0x20, 0x21
READ, WRITE, ATOMIC_READ, ATOMIC_WRITE = 0x30, 0x31, 0x32, 0x33  # sites to 65,535
WIDE_READ, WIDE_WRITE, WIDE_ATOMIC_READ, WIDE_ATOMIC_WRITE = 0x38, 0x39, 0x3A, 0x3B  # sites to 4,294,967,295
WORK_WORDS, MOST_ACCESSES, COMMAND_BYTES, MOST_TRIPLES, NAME_WORDS = 16384, 1024, 14, 5, 2
ACCESS_BYTES = 12  # of the shortest access
ORDERS = ("same", "before", "after", "concurrent")

Command = namedtuple("Command", "byte team member lock site base stride count size", defaults=(0,) * 8)
Range = namedtuple("Range", "base stride count size")
Overlap = namedtuple("Overlap", "byte first_element second_element")  # the lowest element of each range that covers the byte
Name = namedtuple("Name", "team member number")
Race = namedtuple("Race", "witness first second first_site second_site first_element second_element")
Judgement = namedtuple("Judgement", "chunks segments accesses races least")  # least is None where it is race-free
Listing = namedtuple("Listing", "chunks segments accesses races")  # races is the list of all, in order


class Refused(Exception):
    """A refusal: its number and its place."""

    def __init__(self, number, place):
        super().__init__(f"refused {number} at {place}")
        self.number = number
        self.place = place


# ------------------------------------------------------------------ records


def _record(name, words):
    return type(name, (Structure,), {"_fields_": [(word, c_uint32) for word in words.split()]})


_Command = _record("_Command", "byte team member lock site base stride count size")
_Triple = _record("_Triple", "offset span interval")
_Access = _record("_Access", "team member number site element")
_Totals = _record("_Totals", "chunks segments accesses races whole")


class _Label(Structure):
    _fields_ = [("count", c_uint32), ("triples", _Triple * MOST_TRIPLES)]


class _Race(Structure):
    _fields_ = [("witness", c_uint32), ("first", _Access), ("second", _Access)]


class _Judgement(Structure):
    _fields_ = [(word, c_uint32) for word in ("chunks", "segments", "accesses", "races", "found")] + [("least", _Race)]


# ---------------------------------------------------------------- functions

_SIZE, _WORD, _BYTES = POINTER(c_size_t), POINTER(c_uint32), (c_char_p, c_size_t)
_RANGE, _NAME, _WORK = (c_uint32, c_uint16, c_uint16, c_uint8), (c_uint16, c_uint8, c_uint16), (POINTER(c_uint32), c_size_t)
_WORDS = (POINTER(c_uint64), c_size_t)

_FORMS = {
    "read_command": (*_BYTES, c_size_t, POINTER(_Command), _SIZE, _SIZE),
    "put_command": (POINTER(_Command), POINTER(c_uint8), c_size_t, c_size_t, _SIZE, _SIZE),
    "check": (*_BYTES, _SIZE),
    "find_chunk": (*_BYTES, c_uint16, c_uint8, _SIZE, _SIZE, _SIZE),
    "label_of_segment": (*_BYTES, c_uint16, c_uint8, c_uint32, POINTER(_Label), _SIZE),
    "compare_labels": (POINTER(_Label), POINTER(_Label), _WORD, _SIZE),
    "lowest_shared_byte": (*_RANGE, *_RANGE, _WORD, _WORD, _WORD, _WORD, _SIZE),
    "judge": (*_BYTES, *_WORK, POINTER(_Judgement), _SIZE),
    "next_race": (*_BYTES, c_uint32, *_NAME, *_NAME, *_WORK, _WORD, POINTER(_Race), _SIZE),
    "list_races": (*_BYTES, *_WORK, *_WORDS, *_WORDS, *_WORDS, POINTER(_Totals), _SIZE),
    "race_in": (*_WORDS, c_uint64, POINTER(_Race)),
}


def _load():
    name = os.environ.get("DEZHAKOM_LIBRARY", "libdezhakom.so.1")
    try:
        library = ctypes.CDLL(name)
    except OSError as error:
        raise ImportError(f"{name}: {error}; install it by ./install PREFIX and set DEZHAKOM_LIBRARY to PREFIX/lib/libdezhakom.so")
    functions = {}
    for name, form in _FORMS.items():
        functions[name] = getattr(library, f"dezhakom_{name}")
        functions[name].argtypes = form
        functions[name].restype = None if name == "race_in" else c_uint32
    return functions


_FUNCTIONS = _load()


def _ask(name, *words):
    """Calls a function that may refuse; the place is its last parameter."""
    place = c_size_t()
    number = _FUNCTIONS[name](*words, byref(place))
    if number:
        raise Refused(number, place.value)


def _number(value, bits):
    """ctypes would cut a number that is too wide."""
    if not 0 <= value < 1 << bits:
        raise ValueError(f"{value} is no number of {bits} bits")
    return value


def _name(name):
    team, member, number = name
    return _number(team, 16), _number(member, 8), _number(number, 16)


def _range(r):
    base, stride, count, size = r
    return _number(base, 32), _number(stride, 16), _number(count, 16), _number(size, 8)


def _bytes(data):
    data = bytes(data)  # no copy where it is bytes already
    return data, len(data)


def _area(work):
    """A work area of the caller, a ctypes array of c_uint32, or a fresh one."""
    work = (c_uint32 * WORK_WORDS)() if work is None else work
    return work, len(work)


def _race(record):
    first, second = record.first, record.second
    names = (Name(access.team, access.member, access.number) for access in (first, second))
    return Race(record.witness, *names, first.site, second.site, first.element, second.element)


def read_command(data, position=0):
    """The command at a position, and the position after it."""
    command, after = _Command(), c_size_t()
    _ask("read_command", *_bytes(data), _number(position, 64), byref(command), byref(after))
    return Command(*(getattr(command, field) for field in Command._fields)), after.value


def put_command(command, buffer, position=0):
    """Writes a command into a bytearray; answers the position after it."""
    record, after = _Command(*(_number(value, 32) for value in command)), c_size_t()
    room = (c_uint8 * len(buffer)).from_buffer(buffer)
    _ask("put_command", byref(record), room, len(buffer), _number(position, 64), byref(after))
    return after.value


def check(data):
    """Refuses what is no bundle."""
    _ask("check", *_bytes(data))


def find_chunk(data, team, member):
    """The bytes of a member's chunk."""
    start, end = c_size_t(), c_size_t()
    _ask("find_chunk", *_bytes(data), _number(team, 16), _number(member, 8), byref(start), byref(end))
    return bytes(data[start.value : end.value])


def label_of_segment(data, team, member, segment):
    """The triples (offset, span, interval) of a segment's label."""
    label = _Label()
    _ask("label_of_segment", *_bytes(data), _number(team, 16), _number(member, 8), _number(segment, 32), byref(label))
    return [(triple.offset, triple.span, triple.interval) for triple in label.triples[: label.count]]


def compare_labels(first, second):
    """How the segment of the first label lies to that of the second: one of ORDERS. Not for a sort: see docs/SORTING.md."""
    order = c_uint32()
    _ask("compare_labels", *(byref(_label(label)) for label in (first, second)), byref(order))
    return ORDERS[order.value]


def _label(triples):
    """A label with more triples than there may be has its count all the same, and is refused by it."""
    kept = [_Triple(*(_number(part, 32) for part in triple)) for triple in triples[:MOST_TRIPLES]]
    return _Label(len(triples), (_Triple * MOST_TRIPLES)(*kept))


def lowest_shared_byte(first, second):
    """The lowest byte that two ranges (base, stride, count, size) share, with its elements, or None."""
    found, *overlap = (c_uint32() for _ in range(4))
    _ask("lowest_shared_byte", *_range(first), *_range(second), byref(found), *map(byref, overlap))
    return Overlap(*(word.value for word in overlap)) if found.value else None


def judge(data, work=None):
    """The counts of a bundle, and its least race or None."""
    judged = _Judgement()
    _ask("judge", *_bytes(data), *_area(work), byref(judged))
    least = _race(judged.least) if judged.found else None
    return Judgement(judged.chunks, judged.segments, judged.accesses, judged.races, least)


def next_race(data, witness, first, second, work=None):
    """The least race above a witness and two names, or None."""
    found, race = c_uint32(), _Race()
    _ask("next_race", *_bytes(data), _number(witness, 32), *_name(first), *_name(second), *_area(work), byref(found), byref(race))
    return _race(race) if found.value else None


def list_races(data, work=None):
    """The counts of a bundle, and all of its races in order."""
    data, work = bytes(data), _area(work)[0]
    accesses = min(MOST_ACCESSES, len(data) // ACCESS_BYTES)
    room = min(4096, accesses * (accesses - 1) // 2)
    totals = _Totals()
    while not totals.whole:  # a second time where the first attempt had not enough room
        names, numbers, spare = ((c_uint64 * length)() for length in (NAME_WORDS * accesses, room, room // 2))
        _ask("list_races", data, len(data), work, len(work), names, len(names), numbers, room, spare, room // 2, byref(totals))
        room = totals.races
    race_in, record, races = _FUNCTIONS["race_in"], _Race(), []
    for number in numbers[: totals.races]:
        race_in(names, len(names), number, byref(record))
        races.append(_race(record))
    return Listing(totals.chunks, totals.segments, totals.accesses, races)
