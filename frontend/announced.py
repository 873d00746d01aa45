"""How many bundles a build should have, and which: by a column of the sheet, and by a file MANIFEST in the build's folder.

Only the sender knows it. What differs is handed to judge_build as a bundle that cannot be read, so that its word for the build
is never race-free.
"""

import hashlib
import re

from frontend.bundles import MOST_BYTES
from frontend.failures import reason_of
from frontend.names import counted, named, readable, to_text
from frontend.tray import MANIFEST, Build, Bundle, open_file

MOST_MANIFEST = 16 << 20  # bytes
LINE = re.compile(rb"(\\?)([0-9a-fA-F]{64}) [ *](.+)")  # as sha256sum prints it; the backslash says that the name has escapes
ESCAPES = {b"\\\\": b"\\", b"\\n": b"\n", b"\\r": b"\r"}
NUMBER = re.compile(r"[0-9]{1,9}")


class NotAManifest(Exception):
    """Why a file MANIFEST announces nothing."""


# ----------------------------------------------------------------- the sheet


def announce(build: Build, cells: list[str]) -> None:
    """What the rows of a build announce; an empty cell announces nothing."""
    texts = sorted({text.strip() for text in cells if text.strip()})
    if not texts:
        return
    numbers = [int(text) for text in texts if NUMBER.fullmatch(text)]
    if len(numbers) < len(texts):
        unread = next(text for text in texts if not NUMBER.fullmatch(text))
        differs(build, f"the sheet announces {readable(unread)!r} bundles, which is not a number", "number of bundles not readable")
    elif len(set(numbers)) > 1:
        differs(build, "rows of the sheet announce different numbers of bundles", "different numbers of bundles announced")
    else:
        build.announced = numbers[0]
        there = len(build.there())
        if there != numbers[0]:
            short = f"{counted(numbers[0], 'bundle')} announced, {there:,} there"
            differs(build, f"{counted(numbers[0], 'bundle')} announced in the sheet, and {there:,} there: {listed(build)}", short)


def listed(build: Build) -> str:
    return named([b.name for b in build.there()]) or "none"


def differs(build: Build, reason: str, short: str) -> None:
    """The build cannot be judged whole. A build without any entry is missing, whatever was announced."""
    build.wrong_number = build.wrong_number or short
    if build.bundles or build.manifest:
        build.bundles.append(Bundle("", build.path, reason, False))


# ------------------------------------------------------------------ MANIFEST


def hold_to_manifest(build: Build) -> None:
    """Compares the bundles of a build with its MANIFEST: their names and their bytes."""
    try:
        wanted = read_manifest(build.manifest)
    except NotAManifest as problem:
        differs(build, f"MANIFEST announces nothing: {problem}", "MANIFEST not readable")
        return
    if build.announced is None:
        build.announced = len(wanted)
    there = {b.name: b for b in build.there()}
    short = f"{counted(len(wanted), 'bundle')} announced, {len(there):,} there"
    if lacking := sorted(wanted.keys() - there.keys()):
        differs(build, f"MANIFEST announces {counted(len(wanted), 'bundle')}; not there: {named(lacking)}", short)
    if more := sorted(there.keys() - wanted.keys()):
        differs(build, f"MANIFEST does not announce {named(more)}", short)
    others = 0
    for name in wanted.keys() & there.keys():
        bundle = there[name]
        if bundle.reason is None and (problem := why_other(bundle.path, wanted[name])):
            bundle.reason = problem
            others += 1
    if others:
        build.wrong_number = build.wrong_number or f"{counted(others, 'bundle')} not as announced"


def why_other(path: bytes, digest: bytes) -> str | None:
    """Why a file is not the one with this digest, or None. One that is too long for a bundle is refused by the program."""
    try:
        with open_file(path) as file:
            data = file.read(MOST_BYTES + 1)
    except OSError as error:
        return reason_of(error)
    if len(data) <= MOST_BYTES and hashlib.sha256(data).digest() != digest:
        return "it is not the file that MANIFEST announces: its SHA-256 is another"
    return None


def read_manifest(path: bytes) -> dict[str, bytes]:
    """{name: digest} of what sha256sum printed. MANIFEST itself, which sha256sum * would name too, is left out."""
    try:
        with open_file(path) as file:
            data = file.read(MOST_MANIFEST + 1)
    except OSError as error:
        raise NotAManifest(reason_of(error)) from error
    if len(data) > MOST_MANIFEST:
        raise NotAManifest(f"it has over {MOST_MANIFEST:,} bytes")
    lines = data.split(b"\n")
    if lines.pop():
        raise NotAManifest("its last line is not whole")
    if lines and all(line.endswith(b"\r") for line in lines):
        lines = [line[:-1] for line in lines]
    found = {}
    for number, line in enumerate(lines, 1):
        parts = LINE.fullmatch(line)
        if not parts:
            raise NotAManifest(f"line {number} is not as sha256sum prints it")
        name = plain_name(parts[3]) if parts[1] else parts[3]
        name = name.removeprefix(b"./")
        if to_text(name) in found:
            raise NotAManifest(f"it names {readable(to_text(name))} twice")
        if name != MANIFEST:
            found[to_text(name)] = bytes.fromhex(parts[2].decode())
    return found


def plain_name(name: bytes) -> bytes:
    return re.sub(rb"\\[\\nr]", lambda found: ESCAPES[found[0]], name)
