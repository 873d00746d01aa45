"""Tests bindings/python/dezhakom.py against the second reader; the library is the file that DEZHAKOM_LIBRARY names."""

import sys
from array import array
from ctypes import c_uint32
from pathlib import Path

sys.dont_write_bytecode = True
HERE = Path(__file__).resolve().parent
ROOT = HERE.parent
sys.path[:0] = [str(HERE), str(ROOT / "bindings" / "python")]

import dezhakom
import library_frames
import second_reader as sr
import vector_frames as vf
from dezhakom import Command


def command_text(command):
    names = (vf.COMMAND_NAMES[command.byte], *(getattr(command, field) for field in library_frames.FIELDS[command.byte]))
    return " ".join(map(str, names))


def answer_read(body):
    position = body.number(8)
    command, after = dezhakom.read_command(body.rest(), position)
    return f"{command_text(command)} next {after}"


def answer_put(body):
    position, (code, operands) = body.number(8), vf.split_record(body.bytes(vf.RECORD_LENGTH))
    command = Command(code, **dict(zip(library_frames.FIELDS[code], operands)))
    buffer = bytearray(body.rest())
    try:
        text = f"put {dezhakom.put_command(command, buffer, position)}"
    except dezhakom.Refused as refusal:
        text = str(refusal)
    return f"{text} {buffer.hex()}"


def answer_check(body):
    dezhakom.check(body.rest())
    return "accepted"


def answer_find(body):
    team, member = body.number(2), body.number(1)
    return f"chunk {dezhakom.find_chunk(body.rest(), team, member).hex()}"


def answer_label(body):
    team, member, segment = body.number(2), body.number(1), body.number(4)
    label = dezhakom.label_of_segment(body.rest(), team, member, segment)
    return " ".join(["label", *(str(part) for triple in label for part in triple)])


def answer_compare(body):
    labels = [vf.take_label(body) for _ in range(2)]
    # a label is a list of triples here, so a count over 5 is a list of as many; huge counts are left to the test in C
    return dezhakom.compare_labels(*(triples[:count] + [(0, 1, 0)] * (min(count, 9) - 5) for count, triples in labels))


def answer_shared(body):
    return vf.overlap_text(dezhakom.lowest_shared_byte(vf.take_range(body), vf.take_range(body)))


def over_area(body, ask):
    words, filler = body.number(4), body.number(4)
    before = array("I", [filler]) * words
    after = array("I", before)
    try:
        text = ask(body, (c_uint32 * words).from_buffer(after))
    except dezhakom.Refused as refusal:
        text = str(refusal)
    return f"{text} area {vf.area_text(before, after)}"


def answer_judge(body):
    return over_area(body, lambda body, area: vf.judgement_text(dezhakom.judge(body.rest(), area)))


def next_text(body, area):
    witness, first, second = body.number(4), vf.take_name(body), vf.take_name(body)
    race = dezhakom.next_race(body.rest(), witness, first, second, area)
    return vf.race_line(race) if race else "none"


def answer_next(body):
    return over_area(body, next_text)


ANSWERS = {
    vf.OPERATION_READ: answer_read,
    vf.OPERATION_PUT: answer_put,
    vf.OPERATION_CHECK: answer_check,
    vf.OPERATION_FIND: answer_find,
    vf.OPERATION_LABEL: answer_label,
    vf.OPERATION_COMPARE: answer_compare,
    vf.OPERATION_SHARED: answer_shared,
    vf.OPERATION_JUDGE: answer_judge,
    vf.OPERATION_NEXT: answer_next,
}


def answer_line(operation, body):
    try:
        return ANSWERS[operation](vf.Body(body))
    except dezhakom.Refused as refusal:
        return str(refusal)


def want(title, got, wanted):
    if got != wanted:
        sys.exit(f"{title}: got {got!r:.400}, wanted {wanted!r:.400}")


def test_frames():
    stored, wanted = vf.for_library(*((ROOT / "crates" / "vectors" / name).read_bytes() for name in ("stdin", "stdout")))
    frames = vf.split_frames(stored)
    for (operation, body), line in zip(frames, wanted.decode().splitlines(), strict=True):
        want(f"operation {operation}, {body.hex()[:200]}", answer_line(operation, body), line)
    return frames


def test_listings(frames):
    """The bundles of the frames that judge, but for the longest, whose pairs take the second reader seconds."""
    bundles = dict.fromkeys(body[8:] for operation, body in frames if operation == vf.OPERATION_JUDGE)
    bundles = [data for data in bundles if len(data) < 20000]
    for data in bundles:
        try:
            found = sr.check(data)
            wanted = (len(found.chunks), found.segment_count(), len(found.accesses()), sr.all_races(found))
        except sr.Refused as refusal:
            wanted = vf.refusal_text(refusal)
        try:
            given = tuple(dezhakom.list_races(data))
        except dezhakom.Refused as refusal:
            given = str(refusal)
        want(f"listing of {data.hex()[:200]}", given, wanted)
    return len(bundles)


def test_wide_numbers():
    for ask in (
        lambda: dezhakom.find_chunk(b"", 65536, 0),
        lambda: dezhakom.find_chunk(b"", 0, 256),
        lambda: dezhakom.label_of_segment(b"", 0, 0, -1),
        lambda: dezhakom.lowest_shared_byte((0, 65536, 1, 1), (0, 0, 1, 1)),
        lambda: dezhakom.next_race(b"", 2**32, (0, 0, 0), (0, 0, 0)),
        lambda: dezhakom.put_command(Command(2**32), bytearray(12)),
    ):
        try:
            ask()
        except ValueError:
            continue
        sys.exit("a number that is too wide is taken")


if __name__ == "__main__":
    frames = test_frames()
    listings = test_listings(frames)
    test_wide_numbers()
    print(f"{len(frames)} stored frames and {listings} listings agreed")
