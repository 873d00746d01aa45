"""The text of the program judge_build: a line for each file of a build, and the build's word."""

import os
import stat

from reader_bundles import MOST_BYTES
from reader_verdicts import racelist_lines

UNREADABLE = "refused unreadable"
LONGEST_NAME = 4095  # bytes of a path


def bundle_line(data):
    """The line of a file, by its bytes; None is a file that could not be read."""
    if data is None:
        return UNREADABLE
    lines = racelist_lines(data)
    if len(lines) == 1:
        return lines[0]  # a refusal
    counts, last = lines[0], lines[-1]
    return f"race-free {counts}" if last == "race-free" else f"race {counts} {lines[1]} {last}"


def build_word(lines):
    words = [line.split(" ")[0] for line in lines]
    if "race" in words:
        return "race"
    if "refused" in words:
        return "refused"
    return "race-free" if words else "missing"


def build_text(files, line_of=bundle_line):
    """The whole output of the program judge_build."""
    lines = [line_of(data) for data in files]
    return "".join(f"{line}\n" for line in [*lines, f"build {build_word(lines)}"]).encode("ascii")


def names_in(data):
    """The names on standard input, each ended by a 0 byte; the last one's may be missing."""
    names = data.split(b"\0")
    return names if names[-1] else names[:-1]


def read_file(name):
    """As much of a file as tells its line, or None. judge_build opens names in UTF-8 alone (docs/TRAY.md)."""
    if not 0 < len(name) <= LONGEST_NAME:
        return None
    try:
        name.decode("utf-8")
    except UnicodeDecodeError:
        return None
    try:
        if not stat.S_ISREG(os.stat(name).st_mode):
            return None
        with open(name, "rb") as file:
            return file.read(MOST_BYTES + 1)
    except OSError:
        return None
