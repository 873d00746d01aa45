"""What is said of a build beside its word: one short line for the sheet and the page, and notes."""

import os
import re
import time
import unicodedata

from frontend.names import counted, named, readable
from frontend.tray import Build, Listed, tray_notes

LISTED = re.compile(r"listed [0-9]{4}-[0-9]{2}-[0-9]{2} [0-9]{2}:[0-9]{2}:[0-9]{2} UTC")  # ends every remark


def clock(seconds: float) -> float:
    """The time to be shown: SOURCE_DATE_EPOCH, if it is set, is taken for the clock."""
    try:
        return int(os.environ["SOURCE_DATE_EPOCH"])
    except (KeyError, ValueError):
        return seconds


def time_text(seconds: float) -> str:
    return time.strftime("%Y-%m-%d %H:%M:%S UTC", time.gmtime(clock(seconds)))


# -------------------------------------------------------------------- remarks


def in_short(build: Build) -> str:
    """The bundles of a build in few words."""
    if build.reason:
        return "not judged"
    if not build.bundles:
        return "empty folder" if build.path else "no folder"
    there = build.there()
    if not there:
        return "no bundle read"
    cut = sum(b.cut is not None for b in there)
    stopped = f", {cut:,} with cut chunks" if cut else ""
    words = [b.line.word for b in there if b.line and not b.is_free()]
    if not words:
        return counted(len(there), "bundle") + stopped
    parts = [f"{words.count(w):,} {w}" for w in ("race", "refused") if w in words]
    return f"{', '.join(parts)} of {len(there):,}{stopped}"


def more_parts(build: Build, strict: bool) -> list[str]:
    """What a reader of the word has to know beside that, each in few words."""
    parts = [build.wrong_number] if build.wrong_number else []
    if strict and (idle := len(without_accesses(build))):
        parts.append(f"{counted(idle, 'bundle')} without accesses")
    if strict and is_unannounced(build):
        parts.append("number of bundles not announced")
    return parts


def remark(build: Build, listed: float, strict: bool) -> str:
    """The line for the sheet. It says when the tray was last listed: the word covers what was there then."""
    return "; ".join([build.reason or in_short(build), *more_parts(build, strict), f"listed {time_text(listed)}"])


def is_remark(text: str) -> bool:
    """Whether a cell holds a remark of ours, and may be overwritten."""
    return not text.strip() or LISTED.fullmatch(text.rsplit("; ", 1)[-1].strip()) is not None


def without_accesses(build: Build) -> list:
    return [b for b in build.there() if b.line and b.line.counts and b.line.counts.accesses == 0]


def is_unannounced(build: Build) -> bool:
    """Nobody said how many bundles there should be, and some are there."""
    return build.announced is None and build.wrong_number is None and bool(build.there())


# ---------------------------------------------------------------------- notes


def notes_of(builds: list[Build], listed: Listed, strict: bool) -> list[str]:
    """What is to be known beside the words; of many builds alike it is one note."""
    notes = [note for build in builds for note in missing_notes(build, listed)]
    for build in builds:
        notes += cut_notes(build)
        notes += idle_notes(build) if strict else ()
    unannounced = [b.name for b in builds if strict and is_unannounced(b)]
    if unannounced:
        which = f"{counted(len(unannounced), 'build')}: {named(unannounced)}"
        notes.append(f"the number of bundles was not announced for {which}")
    for name in sorted({name for build in builds for name in build.left_out}):
        where = sum(name in build.left_out for build in builds)
        notes.append(f"left out, as --ignore asks: {readable(name)} in {counted(where, 'build')}")
    return tray_notes(listed, strict) + notes


def missing_notes(build: Build, listed: Listed):
    name = build.name
    if build.path is None and (name.startswith(".") or "/" in name or "\0" in name):
        yield f"build {readable(name)} in the sheet is not the name of a folder in the tray"
    elif build.path is None:
        alike = [other for other in listed.folders if key_of(other) == key_of(name)]
        meant = f"; did you mean the folder {named(alike)}?" if alike else ""
        yield f"build {readable(name)} has no folder in the tray{meant}"
    elif not build.bundles:
        yield f"the folder of build {readable(name)} is empty"


def key_of(name: str) -> str:
    """Equal for names that differ by case, spaces or Unicode form."""
    return "".join(unicodedata.normalize("NFKC", name).casefold().split())


def cut_notes(build: Build):
    """The word of a build whose runs were stopped is on what was logged."""
    cut = [b for b in build.there() if b.cut]
    if cut:
        share = f"{len(cut):,} of {counted(len(build.there()), 'bundle')} {'has' if len(cut) == 1 else 'have'}"
        which = named([f"{b.name} ({b.cut[0]} of {b.cut[1]})" for b in cut])
        yield f"build {readable(build.name)}: {share} cut chunks, and the word is on what was logged: {which}"


def idle_notes(build: Build):
    if idle := without_accesses(build):
        share = f"{len(idle):,} of {counted(len(build.there()), 'bundle')} {'has' if len(idle) == 1 else 'have'}"
        yield f"build {readable(build.name)}: {share} no accesses, so that there was nothing to compare: {named([b.name for b in idle])}"
