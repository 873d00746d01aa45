"""Whole runs of judge_build, held to the second reader: builds of fresh bundles and of names that are no bundles, by arguments and by standard
input; all of the output is compared."""

import os
import random
import shutil
import socket
import subprocess
import tempfile
import time
from collections import Counter
from contextlib import contextmanager
from functools import lru_cache
from pathlib import Path

import generators
import listing_cases
import second_reader as sr
from listing_runs import FOLDER, LIMIT, Different, difference, ended, hold_end, pieces_of, start, with_pieces

E = listing_cases.E
MOST_FILES = 30
AT_ONCE = 20  # seconds: the limit of a run in which a name could make the program wait
LONGEST = sr.LONGEST_NAME

line_of = lru_cache(maxsize=4096)(sr.bundle_line)


class Tally:
    """What was compared."""

    def __init__(self):
        self.files, self.builds = Counter(), Counter()

    def add(self, text):
        *lines, build = text.decode("ascii").splitlines()
        self.files.update("unreadable" if line == sr.UNREADABLE else line.split()[0] for line in lines)
        self.builds[build.split()[1]] += 1

    def text(self):
        def shown(counts):
            return ", ".join(f"{word}: {count}" for word, count in sorted(counts.items()))

        return f"{self.builds.total()} builds agreed ({shown(self.builds)}); {self.files.total()} files ({shown(self.files)})"


# --------------------------------------------------------------- comparing


@contextmanager
def folder():
    """A folder of its own to run in; it is kept where a difference is found."""
    FOLDER.mkdir(parents=True, exist_ok=True)
    place, before = Path(tempfile.mkdtemp(prefix="build-", dir=FOLDER)), Path.cwd()
    os.chdir(place)
    try:
        yield
    except Different as found:
        raise Different(f"{found}\n  the files are kept in {place}") from None
    finally:
        os.chdir(before)
    shutil.rmtree(place)


def wanted_text(names):
    return sr.build_text((sr.read_file(name) for name in names), line_of)


def held(title, names, answer):
    """The text, where the answer is just that: status 0 and nothing on standard error."""
    wanted = wanted_text(names)
    if answer != (0, wanted, b""):
        raise Different(f"{title}: {len(names)} names\n{difference(*answer, wanted)}")
    return wanted


def by_arguments(program, names, limit=LIMIT):
    return ended(start(program, *names, stdin=subprocess.DEVNULL), limit=limit)


def by_input(program, data, limit=LIMIT):
    return ended(start(program), data, limit)


# -------------------------------------------------------------- the builds

ODD_NAMES = (
    b"two words", b"line\nend", b"tab\t", b"'single'", b'"double"', b"back\\slash", b"$HOME `x`", b"-", b"--help", b"*?[a]", b"\xff\xfe\x80", b"\xc3\xa9",
    b"race-free", b"build race-free", b"\r", b"\x01\x02", b" ", b"a" * 255,
)


def random_data(rng):
    """The bytes of a file."""
    kind = rng.randrange(11)
    style = rng.choice((
        generators.SMALL, generators.SMALL, generators.MIDDLE, generators.QUIET, generators.LOCKED, generators.NESTED, generators.AROUND))
    if kind < 3:
        return generators.random_bundle(rng, style)
    if kind == 3:
        return generators.locked_nest_bundle(rng)
    if kind < 6:
        return generators.damaged_bundle(rng, style)
    if kind == 6:
        return listing_cases.torn(rng, generators.random_bundle(rng, style))
    if kind == 7:
        return rng.choice((b"", E, E[:40], b"\0", E + b"\n"))
    if kind == 8:
        return race_free(rng)
    if kind == 9:
        return generators.stopped_run_bundle(rng)
    return rng.choice((bytes(65536), bytes(65537), bytes(70000), (E * 2000)[:70000], b"\x11" * 200000))


def race_free(rng):
    """A root alone with accesses, or a team that only reads, some of it cut: no race."""
    accesses = [listing_cases.access(sr.READ, listing_cases.WORD, n) for n in range(rng.randrange(5))]
    chunks = listing_cases.one_team(rng.randint(1, 4), lambda member: accesses)
    return generators.bundle_bytes(chunks if rng.randrange(4) else generators.cut_some(rng, chunks))


def random_name(rng, number):
    if rng.randrange(3):
        return b"%d.bundle" % number
    return b"%s%d" % (rng.choice(ODD_NAMES)[:250], number)


def no_file(rng, number):
    """A name that is no file to read."""
    name = b"none%d" % number
    kind = rng.randrange(10)
    if kind == 0:
        os.mkdir(name)
    elif kind == 1:
        os.symlink(name, name)
    elif kind == 2:
        os.mkdir(name)
        os.symlink(name, name + b"link")
        return name + b"link"
    elif kind == 3:
        name = b"x" * rng.choice((256, LONGEST, LONGEST + 1, LONGEST + 2, 5000, 9000))
    elif kind == 4:
        name = b"."
    elif kind == 5:
        name = b"e.bundle/" + name
    elif kind == 6:
        os.mkfifo(name)
    elif kind == 7:
        name = rng.choice((b"/dev/null", b"/dev/zero", b"/dev/full", b"/dev/random"))
    return name


def lengthened(rng, name):
    """The same file by another name: as long as a path may be, or longer."""
    wanted = rng.choice((LONGEST - 1, LONGEST, LONGEST + 1, LONGEST + 2, 20000))
    if len(name) + 2 > wanted:
        return name
    return b"." + b"/" * (wanted - len(name) - 1) + name


def random_names(rng, clean):
    """The names of a build's files, which are made in the folder. In a clean build each is race-free."""
    names = []
    for number in range(rng.choice((0, 1, 1, 2, 3, rng.randint(0, MOST_FILES)))):
        if not clean and rng.randrange(6) == 0:
            names.append(no_file(rng, number))
            continue
        name = random_name(rng, number)
        Path(os.fsdecode(name)).write_bytes(race_free(rng) if clean else random_data(rng))
        kind = rng.randrange(12)
        if kind == 0:
            os.symlink(name, b"link%d" % number)
            name = b"link%d" % number
        elif kind == 1:
            name = os.path.join(os.getcwdb(), name)
        elif kind == 2 and not clean:
            name = lengthened(rng, name)
        names.append(name)
    if names and rng.randrange(4) == 0:
        names.append(rng.choice(names))
    return names


def compare_builds(program, seed, tally, stop):
    """Some builds made from the seed, each by arguments and by standard input."""
    rng = random.Random(seed)
    for turn in range(20):
        if time.monotonic() > stop:
            return
        with folder():
            names = random_names(rng, clean=turn % 3 == 0)
            if names:
                tally.add(held("by arguments", names, by_arguments(program, names)))
            data = b"".join(name + b"\0" for name in names)
            tally.add(held("by standard input", names, by_input(program, data)))
            data = data[:-1]
            tally.add(held("without a last 0 byte", sr.names_in(data), by_input(program, data)))


# ---------------------------------------------------- the same in each run


def compare_ways(program, tally):
    """Each way of naming files, reading them and writing."""
    with folder():
        Path("e.bundle").write_bytes(E)
        Path("free.bundle").write_bytes(race_free(random.Random(1)))
        Path("empty.bundle").write_bytes(b"")
        compare_names(program, tally)
        compare_many(program, tally)
        compare_special(program, tally)
        compare_outputs(program)


def compare_names(program, tally):
    for data in (
        b"", b"\0", b"\0\0", b"free.bundle", b"free.bundle\0", b"free.bundle\0\0", b"\0free.bundle", b"free.bundle\0e.bundle", b"e.bundle\0free.bundle\0",
        b"x" * LONGEST, b"x" * 4096, b"x" * 4097 + b"\0free.bundle\0", b"x" * 65535 + b"\0free.bundle", b"x" * 65536 + b"\0free.bundle", b"x" * 65537 + b"\0e.bundle",
        b"x" * 200000 + b"\0free.bundle\0", b"free.bundle\n", b"./" * 2000 + b"free.bundle", b"." + b"/" * (LONGEST - 12) + b"free.bundle\0",
    ):
        tally.add(held(f"standard input {data[:40]!r}, {len(data)} bytes", sr.names_in(data), by_input(program, data)))
    for names in ([b""], [b"", b"free.bundle"], [b"free.bundle", b""], [b"x" * 4096], [b"x" * 100000, b"e.bundle"], [b"free.bundle"] * 300):
        tally.add(held(f"arguments {names[0][:40]!r}", names, by_arguments(program, names)))


def compare_many(program, tally):
    """Many names, so that blocks of standard input end at each place of a name; slowly, too."""
    for title, names in (
        ("5,000 names", [b"free.bundle"] * 5000),
        ("names of 17 bytes", [b"./././free.bundle"] * 8000),
        ("long names", [b"./" * 1900 + b"empty.bundle", b"free.bundle"] * 40),
    ):
        data = b"".join(name + b"\0" for name in names)
        tally.add(held(title, names, by_input(program, data)))
        tally.add(held(f"{title}, in pieces", names, with_pieces(program, pieces_of(data, 1, 4096, 65536, 30001), 0.001)))
    names = [b"free.bundle", b"e.bundle", b"none"]
    data = b"\0".join(names)
    tally.add(held("byte by byte", names, with_pieces(program, pieces_of(data, 1), 0.004)))


def compare_special(program, tally):
    """Files that are not regular, files that may not be read, a standard input that cannot be read."""
    compare_irregular(program, tally)
    if os.geteuid() == 0:
        compare_forbidden(program, tally)
    for title, command in (("closed", 'exec "$0" <&-'), ("a directory", 'exec "$0" < /')):
        status, given, said = ended(start("sh", "-c", command, program))
        hold_end(f"standard input {title}", status, given, said)
        if given:
            raise Different(f"standard input {title}: {given[:200]!r}")


IRREGULAR = (b"idle pipe", b"fed pipe", b"to idle pipe", b"to fed pipe", b"socket", b"/dev/null", b"/dev/zero", b"to device", b"/", b".", b"to folder", b"to nothing", b"to itself")
LINKS = (
    ("to idle pipe", "idle pipe"), ("to fed pipe", "fed pipe"), ("to device", "/dev/zero"), ("to folder", "."), ("to nothing", "none"), ("to itself", "to itself"),
    ("to file", "free.bundle"), ("to link", "to file"),
)


def compare_irregular(program, tally):
    """Named pipes with no other end and with one, a socket, devices, directories, links to each: unreadable, and at once. A link to a file is the file."""
    os.mkfifo("idle pipe")
    os.mkfifo("fed pipe")
    for link, aim in LINKS:
        os.symlink(aim, link)
    writer = os.open("fed pipe", os.O_RDWR)  # to open it for writing alone is to wait for a reader
    os.write(writer, E)
    with socket.socket(socket.AF_UNIX) as other:
        other.bind("socket")
        for names in (*([name] for name in IRREGULAR), [b"free.bundle", *IRREGULAR, b"to file", b"to link", b"e.bundle"], [b"to file", b"to link"]):
            title = f"files that are not regular, {names[0]!r} and {len(names) - 1} more"
            tally.add(held(f"{title}, by arguments", names, by_arguments(program, names, AT_ONCE)))
            tally.add(held(f"{title}, by standard input", names, by_input(program, b"\0".join(names), AT_ONCE)))
    os.close(writer)


def compare_forbidden(program, tally):
    """As a user who may not read the file."""
    with tempfile.TemporaryDirectory() as place:
        os.chmod(place, 0o755)
        copy = shutil.copy(program, place)
        for name, mode in (("free.bundle", 0o644), ("closed.bundle", 0o000)):
            shutil.copy("free.bundle", f"{place}/{name}")
            os.chmod(f"{place}/{name}", mode)
        answer = ended(start(copy, "free.bundle", "closed.bundle", stdin=subprocess.DEVNULL, cwd=place, user=65534, group=65534, extra_groups=[]))
    wanted = sr.build_text((Path("free.bundle").read_bytes(), None))
    if answer != (0, wanted, b""):
        raise Different(f"a file that may not be read\n{difference(*answer, wanted)}")
    tally.add(wanted)


def compare_outputs(program):
    """Readers that close early, no room, no output at all: it ends, and no build's line is written behind a line that is missing."""
    names = [b"free.bundle"] * 20000
    data = b"".join(name + b"\0" for name in names)
    wanted = wanted_text(names)
    for taken in (0, 1, 100, 70000):
        for ignored in (False, True):
            title = f"a reader that closes after {taken} bytes{', SIGPIPE ignored' if ignored else ''}"
            Path("names").write_bytes(data)
            with open("names", "rb") as file:
                process = start(program, stdin=file, restore_signals=not ignored)
                given = process.stdout.read(taken)
                process.stdout.close()
                process.stdout = None
                if given != wanted[:taken]:
                    raise Different(f"{title}: the bytes up to there differ")
                hold_end(title, *ended(process))
    with open("/dev/full", "wb") as full:
        hold_end("output to a full device", *ended(start(program, "e.bundle", stdin=subprocess.DEVNULL, stdout=full)))
    hold_end("output closed", *ended(start("sh", "-c", 'exec "$0" free.bundle >&-', program, stdin=subprocess.DEVNULL)))
