"""Frames for what the vectors do not reach through the header, and their answers: listings, and records that hold no command.

They are of the same form as those of vector_frames, and are answered by tests/library_calls.c.
"""

import random

import aimed_cases
import generators
import second_reader as sr
import verdict_cases
from bundle_cases import listed_bundles, locked_nests, short_aimed_bundles, small_damaged, small_good, stopped_runs
from bundle_text import bundle
from command_cases import limit_commands, random_command, sites_too_large
from second_reader import Command
from vector_frames import (
    ANSWERS, Body, OPERATION_NEXT, answer_all, area_bytes, area_text, frame, number, race_line, refusal_text, split_frames,
)

OPERATION_LIST, OPERATION_PUT_RECORD = OPERATION_NEXT + 1, OPERATION_NEXT + 2

# The words of a command's record, and which of them a command has, in the order of its operands.
RECORD = ("byte", "team", "member", "lock", "site", "base", "stride", "count", "size")
ACCESS_FIELDS = ("site", "base", "stride", "count", "size")
FIELDS = {
    sr.MEMBER: ("team", "member"),
    sr.REGION: ("team", "size"),
    sr.ACQUIRE: ("lock",),
    sr.RELEASE: ("lock",),
    sr.END: (),
    sr.CUT: (),
    sr.BARRIER: (),
    **{code: ACCESS_FIELDS for code in sr.ACCESSES},
}


# ------------------------------------------------------------ put of records


def put_record_frame(position, record, buffer):
    words = b"".join(number(record[field], 4) for field in RECORD)
    return frame(OPERATION_PUT_RECORD, number(position, 8) + words + buffer)


def answer_put_record(body):
    position = body.number(8)
    record = {field: body.number(4) for field in RECORD}
    buffer = bytearray(body.rest())
    try:
        after = put_record(record, buffer, position)
        return f"put {after} {buffer.hex()}"
    except sr.Refused as refusal:
        return f"{refusal_text(refusal)} {buffer.hex()}"


def put_record(record, buffer, position):
    """2 for a byte that is no command, 5 for a field over its operand's width, then as put."""
    code = record["byte"]
    if code not in sr.WIDTHS:
        raise sr.Refused(2, position)
    operands = tuple(record[field] for field in FIELDS[code])
    if any(value >= 256**width for value, width in zip(operands, sr.WIDTHS[code])):
        raise sr.Refused(5, position)
    return sr.put_command(Command(code, operands), buffer, position)


def record_of(command, others):
    """The record of a command, with something in the fields that it has not."""
    record = dict.fromkeys(RECORD, others)
    record.update(zip(FIELDS[command.code], command.operands), byte=command.code)
    return record


def put_record_frames(seed):
    rng = random.Random(seed)
    others = lambda: rng.choice((0, 1, 2**32 - 1))
    commands = [*limit_commands(), *sites_too_large()]
    for byte in [*range(257), 0x101, 0x131, 2**16 + 1, 2**31, 2**32 - 1, 2**32 - 0x31]:
        yield put_record_frame(1, record_of(Command(sr.END, ()), 1) | {"byte": byte}, bytes(16))
        yield put_record_frame(3, dict.fromkeys(RECORD, 8) | {"byte": byte}, b"\x77" * rng.choice((0, 3, 4, 20)))
    for command in commands:
        yield put_record_frame(0, record_of(command, others()), bytes(14))
    for _ in range(3000):
        record = record_of(rng.choice((rng.choice(commands), random_command(rng))), others())
        if rng.randrange(2):
            record[rng.choice(RECORD)] += rng.choice((2**8, 2**16, 2**24, 2**31)) * rng.randint(1, 2)
        record = {field: value % 2**32 for field, value in record.items()}
        length = rng.randrange(26)
        yield put_record_frame(rng.choice((0, rng.randrange(26), 2**64 - 1)), record, rng.randbytes(length))


# ----------------------------------------------------------------- listings

NAME_WORDS = 2  # words of an access in names


def list_frame(area, filler, lengths, known, data):
    """filler fills the three pieces of memory, of these lengths; the races are read again with the names of so many accesses."""
    return frame(OPERATION_LIST, area_bytes(area) + b"".join(number(n, 4) for n in (filler, *lengths, known)) + data)


def answer_list(body):
    area = [body.number(4), body.number(4)]
    filler, *lengths, known = (body.number(4) for _ in range(5))
    try:
        found, pairs = sr.check_with_area(area[0], body.rest())
    except sr.Refused as refusal:
        return f"{refusal_text(refusal)} {area_state(*area)} {memory_state(filler, lengths)}"
    accesses = sorted(found.accesses(), key=lambda access: access.name)
    counts = f"chunks {len(found.chunks)} segments {found.segment_count()} accesses {len(accesses)} races {len(pairs)}"
    least = least_lengths(len(accesses), len(pairs))
    if any(length < wanted for length, wanted in zip(lengths, least)):
        return f"{counts} whole 0 {area_state(*area)} {memory_state(0, lengths)}"
    memory = f"names {state(filler, lengths[0] - least[0])} numbers {state(filler, lengths[1] - least[1])} spare zero"
    kept = {access.name for access in accesses[:known]}
    races = [sr.race_of(pair) for pair in pairs]
    lines = [race_line(race) for race in races] + [race_line(with_names(race, kept)) for race in races]
    return "; ".join([f"{counts} whole 1 {area_state(*area)} {memory}", *lines])


def with_names(race, kept):
    """The race where other names are not there."""
    if race.first not in kept:
        race = race._replace(first=(0, 0, 0), first_site=0, first_element=0)
    if race.second not in kept:
        race = race._replace(second=(0, 0, 0), second_site=0, second_element=0)
    return race


def state(word, length):
    """The text for memory that holds a word throughout and is as it was, or is 0."""
    return "kept" if word and length else "zero"


def area_state(words, filler):
    before = [filler] * words
    return f"area {area_text(before, sr.area_after(before))}"


def memory_state(word, lengths):
    return " ".join(f"{name} {state(word, length)}" for name, length in zip(("names", "numbers", "spare"), lengths))


def least_lengths(accesses, races):
    """Of names, numbers and spare."""
    return (NAME_WORDS * accesses, races, races // 2)


def needed(data):
    """The least lengths for a bundle."""
    try:
        found, pairs = sr.bundle_and_pairs(data)
    except sr.Refused:
        return (3, 3, 3)
    return least_lengths(len(found.accesses()), len(pairs))


def some_lengths(rng, data):
    """Just enough, more, and one too short; names also with a single word more, with an access less, and with half of its words."""
    least = needed(data)
    yield least
    yield tuple(length + rng.choice((0, 1, 7)) for length in least)
    for place in range(3):
        yield tuple(max(0, length - (at == place)) for at, length in enumerate(least))
    yield tuple(rng.choice((0, length)) for length in least)
    for names in (least[0] + 1, max(0, least[0] - NAME_WORDS), least[0] // NAME_WORDS):
        yield (names, *least[1:])


def list_frames(seed):
    rng = random.Random(seed)
    e, late = aimed_cases.E_BYTES, bundle(aimed_cases.E_LATE_READ)
    for area in verdict_cases.all_areas():
        for data in (e, late, *verdict_cases.refused_bundles()):
            yield list_frame(area, 0xFFFFFFFF, needed(data), 1, data)
    bundles = [e, late, verdict_cases.ALIKE] + listed_bundles() + small_good(rng, 40) + locked_nests(rng, 20) + short_aimed_bundles()
    styles = (*generators.STYLES, generators.DENSE, generators.MANY_DENSE)
    bundles += [generators.random_bundle(rng, style) for style in styles] + small_damaged(rng, 30) + stopped_runs(rng, 20)
    for data in bundles:
        for lengths in some_lengths(rng, data):
            filler = rng.choice((0, 1, 0x5A5A5A5A, 0xFFFFFFFF))
            known = rng.randint(0, lengths[0] // NAME_WORDS)
            yield list_frame(verdict_cases.some_area(rng), filler, lengths, known, data)


def large_list_frames(seed):
    rng = random.Random(seed)
    large = [generators.bundle_bytes(generators.shuffled(rng, verdict_cases.many_races()))]
    large += [generators.bundle_bytes(generators.full_bundle(rng, generators.LARGE))]
    for data in large:
        yield list_frame((16384, 1), 1, needed(data), 100, data)
        yield list_frame((16384, 1), 1, tuple(length - 1 for length in needed(data)), 0, data)


ANSWERS.update({OPERATION_LIST: answer_list, OPERATION_PUT_RECORD: answer_put_record})
