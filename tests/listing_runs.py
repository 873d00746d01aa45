"""Whole runs of racelist, held to the second reader: one process for each bundle, all of its output compared."""

import signal
import subprocess
import threading
import time
from collections import Counter
from functools import lru_cache
from pathlib import Path

import listing_cases
import second_reader as sr

LIMIT = 120  # seconds that a process may take
NO_END = "no end"  # the status of one that takes longer
FOLDER = Path(__file__).resolve().parent.parent / "target" / "compare"
E = listing_cases.E

listing_of = lru_cache(maxsize=2)(sr.racelist)


class Different(Exception):
    pass


class Tally:
    """What was compared."""

    def __init__(self):
        self.bundles = self.accepted = self.raced = self.race_lines = 0
        self.refused = Counter()

    def add(self, listing):
        self.bundles += 1
        if listing.startswith(b"refused "):
            self.refused[int(listing.split()[1])] += 1
            return
        self.accepted += 1
        races = listing.count(b"\nrace ")
        self.raced += races > 0
        self.race_lines += races

    def text(self):
        numbers = ", ".join(f"{number}: {count}" for number, count in sorted(self.refused.items()))
        return (
            f"{self.bundles} bundles agreed; {self.accepted} accepted, {self.raced} of them with races; "
            f"{self.refused.total()} refused ({numbers}); {self.race_lines} race lines compared"
        )


# --------------------------------------------------------------- comparing


def held(title, data, answer):
    """The listing, where the answer is just that: status 0 and nothing on standard error."""
    wanted = listing_of(data)
    if answer == (0, wanted, b""):
        return wanted
    FOLDER.mkdir(parents=True, exist_ok=True)
    path = FOLDER / "different.bundle"
    path.write_bytes(data)
    raise Different(f"{title}: a bundle of {len(data)} bytes, kept in {path}\n{difference(*answer, wanted)}")


def demand(title, data, answer, wanted):
    """The answer is status 0 with what is wanted on standard output and standard error; else what was read is kept."""
    if answer == (0, *wanted):
        return
    FOLDER.mkdir(parents=True, exist_ok=True)
    path = FOLDER / "different.bundle"
    path.write_bytes(data)
    raise Different(
        f"{title}: an input of {len(data)} bytes, kept in {path}\n"
        f"  the program: {[part[:300] if isinstance(part, bytes) else part for part in answer]}\n"
        f"  the second reader: {[part[:300] for part in wanted]}"
    )


def difference(status, given, said, wanted):
    if status == NO_END:
        return "  the program did not end in its time"
    if status:
        return f"  the program ended with status {status} and said {said[:500]!r}"
    if said:
        return f"  the program said on standard error: {said[:500]!r}"
    ours, theirs = given.split(b"\n"), wanted.split(b"\n")
    number = next((n for n, (a, b) in enumerate(zip(ours, theirs)) if a != b), min(len(ours), len(theirs)))
    shown = [lines[number] if number < len(lines) else b"(nothing)" for lines in (ours, theirs)]
    return f"  line {number + 1}\n  the program: {shown[0][:200]!r}\n  the second reader: {shown[1][:200]!r}"


def start(*words, stdin=subprocess.PIPE, stdout=subprocess.PIPE, **options):
    return subprocess.Popen(words, stdin=stdin, stdout=stdout, stderr=subprocess.PIPE, **options)


def feed(process, data):
    """Writes a bundle that fits into the pipe, and closes it. A program that has ended is told by its status."""
    try:
        with process.stdin as pipe:
            pipe.write(data)
    except BrokenPipeError:
        pass
    process.stdin = None


def ended(process, given=None, limit=LIMIT):
    """Waits for status, output and standard error. The program may end before it has read all of its input."""
    try:
        out, said = process.communicate(given, timeout=limit)
    except subprocess.TimeoutExpired:
        process.kill()
        return NO_END, *process.communicate()
    return process.returncode, out, said


def with_pipe(program, data):
    return ended(start(program), data)


def with_file(program, path):
    with open(path, "rb") as file:
        return ended(start(program, stdin=file))


def with_pieces(program, pieces, pause):
    """A pipe that is written piece by piece, with a pause after each."""
    process = start(program)
    pipe, process.stdin = process.stdin, None

    def write():
        try:
            with pipe:
                for piece in pieces:
                    pipe.write(piece)
                    pipe.flush()
                    time.sleep(pause)
        except BrokenPipeError:
            pass  # it has read enough

    writer = threading.Thread(target=write)
    writer.start()
    try:
        return ended(process)
    finally:
        writer.join()


# ----------------------------------------------------- bundles of each run


def compare_bundles(program, cases, tally, stop=None):
    """Each bundle through a pipe or, every fourth, from a file. Ends early once the time to stop has come."""
    FOLDER.mkdir(parents=True, exist_ok=True)
    path = FOLDER / "input.bundle"
    for turn, (title, data) in enumerate(cases):
        if stop is not None and time.monotonic() > stop:
            return
        if turn % 4:
            answer = with_pipe(program, data)
        else:
            path.write_bytes(data)
            answer = with_file(program, path)
        tally.add(held(title, data, answer))


# ---------------------------------------------------------- ways of input


def pieces_of(data, *lengths):
    """Pieces of the lengths, over and over."""
    pieces, at, turn = [], 0, 0
    while at < len(data):
        length = lengths[turn % len(lengths)]
        pieces.append(data[at : at + length])
        at += length
        turn += 1
    return pieces


def compare_inputs(program, tally):
    """Short reads and pauses, too long an input, none at all, one that does not end."""
    full = dict(listing_cases.limit_bundles())["all limits reached"]
    longer = full + b"\x02"
    for title, pieces, pause in (
        ("E byte by byte", pieces_of(E, 1), 0.004),
        ("E in two pieces, a pause before each", [b"", E[:20], E[20:]], 0.2),
        ("E, a pause before the end", [E], 0.4),
        ("E cut, byte by byte", pieces_of(E[:40], 1), 0.004),
        ("65,536 bytes in uneven pieces", pieces_of(full, 1, 4096, 3, 511, 8192, 77), 0.002),
        ("65,536 bytes, the last alone", [full[:-1], full[-1:]], 0.2),
        ("65,537 bytes, the last alone", [full, longer[-1:]], 0.2),
        ("65,537 bytes in uneven pieces", pieces_of(longer, 4096, 1, 9000), 0.002),
        ("66,000 bytes in pieces", pieces_of(full + bytes(464), 1000), 0.001),
        ("a million bytes in pieces", pieces_of(bytes(1000000), 4096), 0.0005),
        ("nothing, after a pause", [b""], 0.3),
    ):
        tally.add(held(title, b"".join(pieces), with_pieces(program, pieces, pause)))
    tally.add(held("/dev/null", b"", with_file(program, "/dev/null")))
    tally.add(held("/dev/zero", bytes(65537), with_file(program, "/dev/zero")))
    unreadable_input(program)


def unreadable_input(program):
    """A standard input that is closed, or a directory: the program ends, and says of no bundle that it is race-free."""
    for title, command in (("closed", 'exec "$0" <&-'), ("a directory", 'exec "$0" < /')):
        status, given, said = ended(start("sh", "-c", command, program))
        hold_end(f"standard input {title}", status, given, said)
        if b"chunks" in given or b"race-free" in given:
            raise Different(f"standard input {title}: {given[:200]!r}")


# --------------------------------------------------------- ways of output

TAKEN = (0, 1, 100, 65536, 1000000)  # bytes, before a reader closes


def compare_outputs(program, tally):
    """A reader that takes its time, readers that close early, no output at all."""
    data = dict(listing_cases.limit_bundles())["all clash"]
    listing = held("a slow reader", data, to_slow_reader(program, data))
    if not listing.endswith(b"\npairs %d\n" % listing_cases.MOST_RACES):
        raise Different("all clash: the second reader misses races")
    tally.add(listing)
    for taken in TAKEN:
        for ignored in (False, True):
            to_closing_reader(program, data, taken, ignored)
    with open("/dev/full", "wb") as full:
        hold_end("output to a full device", *ended(start(program, stdout=full), data))
    hold_end("output closed", *ended(start("sh", "-c", 'exec "$0" >&-', program), E))


def to_slow_reader(program, data):
    process = start(program)
    feed(process, data)
    parts, turn = [], 0
    while part := process.stdout.read1((1, 5000, 70000, 123)[turn % 4]):
        parts.append(part)
        time.sleep(0.001 if turn < 200 else 0)
        turn += 1
    process.stdout = None
    status, _, said = ended(process)
    return status, b"".join(parts), said


def to_closing_reader(program, data, taken, ignored):
    """SIGPIPE may end the program; where it is ignored, writing fails."""
    process = start(program, restore_signals=not ignored)
    if not taken:
        process.stdout.close()
    feed(process, data)
    title = f"a reader that closes after {taken} bytes{', SIGPIPE ignored' if ignored else ''}"
    if taken:
        given = process.stdout.read(taken)
        process.stdout.close()
        if given != listing_of(data)[:taken]:
            raise Different(f"{title}: the bytes up to there differ")
    process.stdout = None
    hold_end(title, *ended(process))


def hold_end(title, status, _, said):
    """It has ended, by itself or by SIGPIPE."""
    if status == NO_END or status < 0 and status != -signal.SIGPIPE:
        raise Different(f"{title}: status {status}, it said {said[:500]!r}")
