"""Frames of the vectors: their bytes, and the line that answers each.

A frame is an operation (1 byte), the length of its body (4 bytes) and the
body. All numbers are low byte first. The answer is computed from the body
alone, so any file of frames can be answered.
"""

import second_reader as sr
from second_reader import Command, Refused

OPERATION_READ, OPERATION_PUT = 1, 2
OPERATION_CHECK, OPERATION_FIND, OPERATION_LABEL = 3, 4, 5
OPERATION_COMPARE, OPERATION_SHARED = 6, 7
OPERATION_JUDGE, OPERATION_NEXT = 8, 9
OPERATION_REWRITE = 12  # 10 and 11 are tests/library_frames.py's
OPERATION_TO_WIDE, OPERATION_TO_NARROW = 13, 14
OPERATION_ROWS, OPERATION_CHECK_ROWS = 15, 16

MOST_ROWS = 520  # records lent or given by a frame

RECORD_LENGTH = 14

ACCESS_NAMES = {
    sr.READ: "read",
    sr.WRITE: "write",
    sr.ATOMIC_READ: "atomic-read",
    sr.ATOMIC_WRITE: "atomic-write",
    sr.WIDE_READ: "wide-read",
    sr.WIDE_WRITE: "wide-write",
    sr.WIDE_ATOMIC_READ: "wide-atomic-read",
    sr.WIDE_ATOMIC_WRITE: "wide-atomic-write",
}
COMMAND_NAMES = {
    sr.MEMBER: "member",
    sr.END: "end",
    sr.CUT: "cut",
    sr.REGION: "region",
    sr.BARRIER: "barrier",
    sr.ACQUIRE: "acquire",
    sr.RELEASE: "release",
    **ACCESS_NAMES,
}


def number(value, width):
    return value.to_bytes(width, "little")


class Body:
    """Takes fields off the front of a frame's body."""

    def __init__(self, data):
        self.data = data
        self.at = 0

    def number(self, width):
        return int.from_bytes(self.bytes(width), "little")

    def bytes(self, length):
        part = self.data[self.at : self.at + length]
        if len(part) != length:
            raise ValueError("frame body too short")
        self.at += length
        return part

    def rest(self):
        return self.bytes(len(self.data) - self.at)


# ------------------------------------------------------------- frame bytes


def frame(operation, body):
    return bytes([operation]) + number(len(body), 4) + body


def split_frames(data):
    """The (operation, body) pairs of a file of frames."""
    frames = []
    body = Body(data)
    while body.at < len(data):
        operation = body.number(1)
        length = body.number(4)
        frames.append((operation, body.bytes(length)))
    return frames


def record_widths(code):
    """The widths of the operands in a record: a site has 4 bytes in either group, so that it may be too large for its command."""
    return sr.WIDE_WIDTHS if code in sr.ACCESSES else sr.WIDTHS[code]


def command_record(command):
    data = bytes([command.code]) + b"".join(map(number, command.operands, record_widths(command.code)))
    return data + bytes(RECORD_LENGTH - len(data))


def split_record(record):
    body = Body(record)
    code = body.number(1)
    return Command(code, tuple(body.number(width) for width in record_widths(code)))


def read_frame(position, data):
    return frame(OPERATION_READ, number(position, 8) + data)


def put_frame(position, command, buffer):
    return frame(OPERATION_PUT, number(position, 8) + command_record(command) + buffer)


def check_frame(bundle):
    return frame(OPERATION_CHECK, bundle)


def find_frame(team, member, bundle):
    return frame(OPERATION_FIND, number(team, 2) + number(member, 1) + bundle)


def label_frame(team, member, segment, bundle):
    return frame(OPERATION_LABEL, number(team, 2) + number(member, 1) + number(segment, 4) + bundle)


def label_bytes(label):
    """A label is its count and five triples."""
    count, triples = label
    return number(count, 4) + b"".join(number(part, 4) for triple in triples for part in triple)


def compare_frame(first, second):
    return frame(OPERATION_COMPARE, label_bytes(first) + label_bytes(second))


def range_bytes(r):
    return number(r.base, 4) + number(r.stride, 2) + number(r.count, 2) + number(r.size, 1)


def shared_frame(first, second):
    return frame(OPERATION_SHARED, range_bytes(first) + range_bytes(second))


def area_bytes(area):
    """A work area is its length in words and the word that fills it."""
    words, filler = area
    return number(words, 4) + number(filler, 4)


def judge_frame(area, bundle):
    return frame(OPERATION_JUDGE, area_bytes(area) + bundle)


def name_bytes(name):
    team, member, access = name
    return number(team, 2) + number(member, 1) + number(access, 2)


def next_frame(area, witness, first, second, bundle):
    key = number(witness, 4) + name_bytes(first) + name_bytes(second)
    return frame(OPERATION_NEXT, area_bytes(area) + key + bundle)


# ------------------------------------------------------------ answer lines


def command_text(command):
    return " ".join([COMMAND_NAMES[command.code]] + [str(v) for v in command.operands])


def refusal_text(refusal):
    return f"refused {refusal.number} at {refusal.place}"


def answer_read(body):
    position, data = body.number(8), body.rest()
    command, after = sr.read_command(data, position)
    return f"{command_text(command)} next {after}"


def answer_put(body):
    position = body.number(8)
    command = split_record(body.bytes(RECORD_LENGTH))
    buffer = bytearray(body.rest())
    try:
        after = sr.put_command(command, buffer, position)
        return f"put {after} {buffer.hex()}"
    except Refused as refusal:
        return f"{refusal_text(refusal)} {buffer.hex()}"


def answer_check(body):
    sr.check(body.rest())
    return "accepted"


def answer_find(body):
    team, member = body.number(2), body.number(1)
    return f"chunk {sr.find_chunk(body.rest(), team, member).hex()}"


def answer_label(body):
    team, member, segment = body.number(2), body.number(1), body.number(4)
    label = sr.label_of(body.rest(), team, member, segment)
    return " ".join(["label"] + [str(part) for triple in label for part in triple])


def take_label(body):
    count = body.number(4)
    return count, [(body.number(4), body.number(4), body.number(4)) for _ in range(5)]


def answer_compare(body):
    first = take_label(body)
    second = take_label(body)
    return sr.compare_labels(first, second)


def take_range(body):
    return sr.Range(body.number(4), body.number(2), body.number(2), body.number(1))


def answer_shared(body):
    first = take_range(body)
    second = take_range(body)
    return overlap_text(sr.lowest_shared_byte(first, second))


def overlap_text(overlap):
    return "none" if overlap is None else f"byte {overlap.byte} {elements_text(overlap)}"


def elements_text(found):
    """Of a race or of what two ranges share."""
    return f"elements {found.first_element} {found.second_element}"


def race_line(race):
    told = sr.race_text(race.witness, race.first, race.first_site, race.second, race.second_site)
    return f"{told} {elements_text(race)}"


def over_area(answer, body):
    """The answer over a work area, and what the area holds afterwards."""
    words, filler = body.number(4), body.number(4)
    area = [filler] * words
    try:
        text = answer(words, body)
    except Refused as refusal:
        text = refusal_text(refusal)
    return f"{text} area {area_text(area, sr.area_after(area))}"


def area_text(before, after):
    if not any(after):
        return "zero"
    return "kept" if after == before else "changed"


def answer_judge(body):
    return over_area(judgement_over, body)


def judgement_over(words, body):
    return judgement_text(sr.judge(words, body.rest()))


def judgement_text(judgement):
    chunks, segments, accesses, races, least = judgement
    counts = f"chunks {chunks} segments {segments} accesses {accesses} races {races}"
    return f"{counts} {race_line(least) if least else 'race-free'}"


def take_name(body):
    return (body.number(2), body.number(1), body.number(2))


def answer_next(body):
    return over_area(next_race_over, body)


def next_race_over(words, body):
    witness = body.number(4)
    first = take_name(body)
    second = take_name(body)
    race = sr.next_race(words, body.rest(), witness, first, second)
    return race_line(race) if race else "none"


def rewrite_frame(length, filler, bundle, operation=OPERATION_REWRITE):
    """The length of the buffer, and what each of its bytes is. Conversions have the same form."""
    return frame(operation, number(length, 4) + number(filler, 1) + bundle)


def answer_rewrite(body):
    return answer_rewriting(sr.rewrite, body)


def answer_to_wide(body):
    return answer_rewriting(sr.to_wide, body)


def answer_to_narrow(body):
    return answer_rewriting(sr.to_narrow, body)


def answer_rewriting(rewrite, body):
    length, filler = body.number(4), body.number(1)
    buffer = bytearray([filler]) * length
    try:
        size = rewrite(body.rest(), buffer)
        return f"rewritten {size} {buffer.hex()}"
    except Refused as refusal:
        return f"{refusal_text(refusal)} {buffer.hex()}"


# ----------------------------------------------------------- interval rows


def filler_rows(count):
    """What the records of a lent list hold before."""
    return tuple(sr.Row(*range(4000000000 + 8 * i, 4000000008 + 8 * i)) for i in range(count))


def rows_frame(room, bundle):
    """The room is how many records are lent."""
    return frame(OPERATION_ROWS, number(room, 2) + bundle)


def check_rows_frame(given, bundle):
    return frame(OPERATION_CHECK_ROWS, number(len(given), 2) + b"".join(map(sr.record_bytes, given)) + bundle)


def answer_rows(body):
    """And each record of the lent list afterwards."""
    lent = list(filler_rows(body.number(2)))
    try:
        text = f"written {sr.export_rows(body.rest(), lent)}"
    except Refused as refusal:
        text = refusal_text(refusal)
    return " ".join([text] + [",".join(map(str, record)) for record in lent])


def answer_check_rows(body):
    given = sr.records_in(body.bytes(32 * body.number(2)))
    return sr.check_rows(body.rest(), given)


ANSWERS = {
    OPERATION_READ: answer_read,
    OPERATION_PUT: answer_put,
    OPERATION_CHECK: answer_check,
    OPERATION_FIND: answer_find,
    OPERATION_LABEL: answer_label,
    OPERATION_COMPARE: answer_compare,
    OPERATION_SHARED: answer_shared,
    OPERATION_JUDGE: answer_judge,
    OPERATION_NEXT: answer_next,
    OPERATION_REWRITE: answer_rewrite,
    OPERATION_TO_WIDE: answer_to_wide,
    OPERATION_TO_NARROW: answer_to_narrow,
    OPERATION_ROWS: answer_rows,
    OPERATION_CHECK_ROWS: answer_check_rows,
}


# Rewriting, converting and interval rows.
NOT_IN_LIBRARY = (OPERATION_REWRITE, OPERATION_TO_WIDE, OPERATION_TO_NARROW, OPERATION_ROWS, OPERATION_CHECK_ROWS)


def for_library(frames, lines):
    """A file of frames and its answers without the operations that the library does not have."""
    kept = [
        (frame(operation, body), line)
        for (operation, body), line in zip(split_frames(frames), lines.splitlines(keepends=True), strict=True)
        if operation not in NOT_IN_LIBRARY
    ]
    return b"".join(made for made, _ in kept), b"".join(line for _, line in kept)


def answer_line(operation, data):
    """The line for one frame, without its line end."""
    try:
        return ANSWERS[operation](Body(data))
    except Refused as refusal:
        return refusal_text(refusal)


def answer_frame(data):
    """The line for a single frame, given as bytes."""
    [(operation, body)] = split_frames(data)
    return answer_line(operation, body)


def answer_all(data):
    """The whole stdout for a file of frames."""
    lines = [answer_line(operation, body) + "\n" for operation, body in split_frames(data)]
    return "".join(lines).encode("ascii")
