"""Running the proved programs and reading what they print.

An output is taken only if it is whole and every line has one of the forms of docs/TRAY.md. All else is a worker that died.
"""

import contextlib
import errno
import os
import re
import select
import subprocess
import tempfile
import threading
import time
from collections import namedtuple

from frontend.failures import CannotDo, Stopped, reason_of

NUMBER = rb"(0|[1-9][0-9]*)"
COUNTS = rb"chunks " + NUMBER + rb" segments " + NUMBER + rb" accesses " + NUMBER
NAME = NUMBER + rb"\." + NUMBER + rb"\." + NUMBER
RACE = rb"race ([0-9a-f]{8}) " + NAME + rb" " + NUMBER + rb" " + NAME + rb" " + NUMBER

COUNTS_LINE = re.compile(COUNTS)
RACE_LINE = re.compile(RACE)
REFUSED_LINE = re.compile(rb"refused " + NUMBER + rb" at " + NUMBER)
BUNDLE_RACE = re.compile(rb"race " + COUNTS + rb" " + RACE + rb" pairs " + NUMBER)
BUNDLE_FREE = re.compile(rb"race-free " + COUNTS)
BUILD_LINE = re.compile(rb"build (race|refused|missing|race-free)")

MOST_LINE = 400  # bytes; the longest line of a whole output is shorter
FOR_NOW = (errno.EAGAIN, errno.ENOMEM, errno.ETXTBSY)  # why a program may not start now, and start a moment later
MOST_TRIES = 10
TICK = 0.1  # seconds between two looks at whether the job was stopped

Counts = namedtuple("Counts", "chunks segments accesses")
Race = namedtuple("Race", "witness first first_site second second_site")  # a name is (team, member, number)
Line = namedtuple("Line", "word counts least pairs refusal text")  # of a bundle; refusal is (number, place), None if unreadable
Listing = namedtuple("Listing", "races pairs refusal")  # the first races as (their line, Race); how many there are; (number, place)
Run = namedtuple("Run", "lines word failure")  # lines so far; the build's word, or None and why the run is not whole


# ----------------------------------------------------------------- the lines


def race_of(parts):
    n = [int(p) for p in parts[1:]]
    return Race(int(parts[0], 16), tuple(n[0:3]), n[3], tuple(n[4:7]), n[7])


def bundle_line(text):
    """What a line of judge_build says of a bundle, or None if it has no form of such a line."""
    if found := BUNDLE_FREE.fullmatch(text):
        return Line("race-free", Counts(*map(int, found.groups())), None, 0, None, text.decode())
    if found := BUNDLE_RACE.fullmatch(text):
        parts = found.groups()
        return Line("race", Counts(*map(int, parts[:3])), race_of(parts[3:12]), int(parts[12]), None, text.decode())
    if found := REFUSED_LINE.fullmatch(text):
        return Line("refused", None, None, 0, tuple(map(int, found.groups())), text.decode())
    if text == b"refused unreadable":
        return Line("refused", None, None, 0, None, text.decode())
    return None


def word_agrees(word, lines):
    """Whether a build's word fits the lines above it. It decides nothing: an output that does not fit is not taken."""
    words = {line.word for line in lines}
    if "race" in words:
        return word == "race"
    if "refused" in words:
        return word == "refused"
    return word == ("race-free" if lines else "missing")


# -------------------------------------------------------------- the programs


class Programs:
    """Where the proved programs are, and how long one may take over a bundle."""

    def __init__(self, folder, timeout, stop):
        self.folder = os.path.abspath(folder)
        self.timeout = timeout
        self.stop = stop  # a threading.Event
        self.judged = 0  # lines of bundles so far, for the progress alone

    def path(self, name):
        return os.path.join(self.folder, name)

    def demand(self, *names):
        """All of these programs are there."""
        lacking = [n for n in names if not (os.path.isfile(self.path(n)) and os.access(self.path(n), os.X_OK))]
        if lacking:
            raise CannotDo(f"no program {' and no '.join(self.path(n) for n in lacking)}; build with: tools/build_programs")

    def start(self, name, given, *arguments, folder=None, errors=subprocess.DEVNULL):
        """Starts a program; given is what it reads: bytes, or an open file."""
        stdin = subprocess.PIPE if isinstance(given, bytes) else given
        for tries in range(MOST_TRIES):
            try:
                process = subprocess.Popen(
                    [self.path(name), *arguments], stdin=stdin, stdout=subprocess.PIPE, stderr=errors, cwd=folder, bufsize=0
                )
                break
            except OSError as error:
                if folder is not None and error.filename == folder:
                    raise Failed(f"the folder cannot be entered: {reason_of(error)}") from error
                if error.errno not in FOR_NOW or tries + 1 == MOST_TRIES:
                    raise CannotDo(f"{self.path(name)} does not start: {reason_of(error)}") from error
                self.stop.wait(0.3)
        if stdin is not given:
            feed(process, given)
        return process

    def lines(self, process):
        """The lines of a process as they come, without their ends. Ends by raising Failed if it hangs, prints no text of ours
        or dies in the middle of a line; a process that ended by a signal or with a status has failed too."""
        rest = b""
        deadline = time.monotonic() + self.timeout
        poll = select.poll()
        poll.register(process.stdout, select.POLLIN | select.POLLHUP)
        while True:
            if self.stop.is_set():
                raise Stopped()
            left = deadline - time.monotonic()
            if left <= 0:
                raise Failed(f"the program gave no answer within {self.timeout:g} s")
            if not poll.poll(1000 * min(TICK, left)):
                continue
            got = os.read(process.stdout.fileno(), 1 << 16)
            if not got:
                break
            *whole, rest = (rest + got).split(b"\n")
            if whole:
                deadline = time.monotonic() + self.timeout
                yield from whole
            if len(rest) > MOST_LINE:
                raise Failed("the program printed a line that is too long")
        status = self.wait(process, deadline)
        if status < 0:
            raise Failed(f"the program was ended by signal {-status}")
        if status or rest:
            raise Failed(f"the program ended too early, with status {status}")

    def wait(self, process, deadline):
        """The status of a process that has closed its output."""
        while True:
            try:
                return process.wait(TICK)
            except subprocess.TimeoutExpired:
                if self.stop.is_set():
                    raise Stopped() from None
                if time.monotonic() > deadline:
                    raise Failed(f"the program did not end within {self.timeout:g} s") from None

    # ------------------------------------------------------------ judge_build

    def judge_build(self, names, folder):
        """One run over the bundles of a build. Names are bytes, read in the folder; an empty one cannot be read."""
        with names_in_utf8(names, folder) as given:
            return self.judge_given(given, folder)

    def judge_given(self, names, folder):
        lines, word = [], None
        try:
            process = self.start("judge_build", b"".join(n + b"\0" for n in names), folder=folder)
        except Failed as failure:
            return Run(lines, None, str(failure))
        try:
            for text in self.lines(process):
                if len(lines) < len(names):
                    line = bundle_line(text)
                    if line is None:
                        raise Failed("the program printed a line that has no form of ours")
                    lines.append(line)
                    self.judged += 1
                elif word is None and (found := BUILD_LINE.fullmatch(text)):
                    word = found[1].decode()
                else:
                    raise Failed("the program printed a line that has no form of ours behind the last bundle")
            if word is None:
                raise Failed("the program ended before it had judged the build")
            if not word_agrees(word, lines):
                raise Failed("the program's word for the build does not fit its lines")
        except Failed as failure:
            return Run(lines, None, str(failure))
        finally:
            end(process)
        return Run(lines, word, None)

    # --------------------------------------------------------------- racelist

    def races(self, stdin, most):
        """(counts, the first races, None) of a bundle, or the counts and races so far and why there are no more."""
        counts, races = None, []
        process = self.start("racelist", stdin)
        try:
            for text in self.lines(process):
                if found := RACE_LINE.fullmatch(text):
                    races.append(race_of(found.groups()))
                    if len(races) == most:
                        break
                elif found := COUNTS_LINE.fullmatch(text):
                    counts = Counts(*map(int, found.groups()))
                elif text == b"race-free" or REFUSED_LINE.fullmatch(text) or text == b"pairs %d" % len(races):
                    break
                else:
                    raise Failed("racelist printed a line that has no form of ours")
            else:
                raise Failed("the output of racelist is not whole")
        except Failed as failure:
            return counts, races, str(failure)
        finally:
            end(process)
        return counts, races, None

    def listing(self, stdin, most):
        """What racelist prints of a bundle, read to its end and Failed unless it is whole. The first races are kept, all counted."""
        races, pairs, refusal = [], 0, None
        process = self.start("racelist", stdin)
        try:
            lines = self.lines(process)
            last = next(lines, b"")
            whole = False
            if found := REFUSED_LINE.fullmatch(last):
                refusal, whole = tuple(map(int, found.groups())), True
            elif COUNTS_LINE.fullmatch(last):
                for last in lines:
                    found = RACE_LINE.fullmatch(last)
                    if not found:
                        break
                    pairs += 1
                    if pairs <= most:
                        races.append((last.decode(), race_of(found.groups())))
                whole = last == (b"pairs %d" % pairs if pairs else b"race-free")
            if not whole or next(lines, None) is not None:
                raise Failed("the output of racelist is not whole")
        finally:
            end(process)
        return Listing(races, pairs, refusal)

    # ------------------------------------------ canon, convert, interval_rows

    def rewrite(self, name, data, *arguments):
        """What one of these writes to standard output, and to standard error."""
        process = self.start(name, data, *arguments, errors=subprocess.PIPE)
        deadline = time.monotonic() + self.timeout
        try:
            while True:
                if self.stop.is_set():
                    raise Stopped()
                try:
                    written, said = process.communicate(timeout=TICK)
                    break
                except subprocess.TimeoutExpired:
                    if time.monotonic() > deadline:
                        raise Failed(f"the program gave no answer within {self.timeout:g} s") from None
        finally:
            end(process)
        if process.returncode:
            raise Failed(f"the program ended too early, with status {process.returncode}")
        return written, said


@contextlib.contextmanager
def names_in_utf8(names, folder):
    """The names as judge_build can open them: it opens a file by a name in UTF-8 alone, so one with another name gets a link."""
    odd = {k for k, name in enumerate(names) if not is_utf8(name)}
    if not odd:
        yield names
        return
    with tempfile.TemporaryDirectory(prefix="dezhakom-") as links:
        given = list(names)
        for k in odd:
            link = os.fsencode(os.path.join(links, str(k)))
            with contextlib.suppress(OSError):  # then the name stays, and the bundle is one that could not be read
                os.symlink(os.path.join(os.fsencode(os.path.abspath(folder)), names[k]), link)
                given[k] = link
        yield given


def is_utf8(name):
    try:
        name.decode("utf-8")
    except UnicodeDecodeError:
        return False
    return True


class Failed(Exception):
    """A run of a program that is not whole, and why."""


def feed(process, data):
    """Gives a process what it reads. What may not fit into the pipe is written by a thread, so that neither side waits for the other."""
    pipe, process.stdin = process.stdin, None  # nobody else writes or closes it

    def write():
        try:
            with pipe:
                rest = memoryview(data)
                while rest:
                    rest = rest[pipe.write(rest) :]
        except OSError:
            pass  # it ended before it had read everything, which its output shows

    if len(data) <= select.PIPE_BUF:
        write()
    else:
        threading.Thread(target=write, daemon=True).start()


def end(process):
    """Ends a process, if it still runs, and forgets it."""
    if process.poll() is None:
        process.kill()
    process.stdout.close()
    try:
        process.wait(5)
    except subprocess.TimeoutExpired:
        pass  # it waits for a device that does not answer; the operating system ends it when it can
