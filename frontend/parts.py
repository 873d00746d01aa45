"""A tray judged in parts, by several machines or jobs, and the parts joined.

A part is a file of three lines: what it is, a JSON text, and the SHA-256 of that text. It names the tray, the digest of the sheet, K
of N, and each of its builds with word and remark; and of each bundle the line of judge_build. Joining lists the tray again: what is
as its part saw it keeps its word, all else is judged again. So a part that is old, or whose build has changed since, gives no old word.
"""

import hashlib
import json
import os

from frontend import VERSION, outputs
from frontend.failures import CannotDo, reason_of
from frontend.job import CHANGED, Job, files_in, finish, programs_of, rules_of, sheet_bytes
from frontend.names import counted, named, readable, to_bytes
from frontend.programs import Programs, bundle_line, word_agrees
from frontend.remarks import remark, time_text
from frontend.tray import Build, Bundle, Rules, Seen, open_file

FORM = b"dezhakom part 1"
MOST_PART = 1 << 30  # bytes
SAME = (  # in all parts of one tray
    "tray", "sheet", "parts", "version", "judge_build", "column", "count_column", "strict", "ignore", "follow_links",
)  # fmt: skip


MAYBE_TEXT, MAYBE_NUMBER, MAYBE_LIST = (str, type(None)), (int, type(None)), (list, type(None))
PART_KINDS = {
    "tray": str, "sheet": MAYBE_TEXT, "part": int, "parts": int, "listed": str, "version": str, "judge_build": str, "column": str,
    "count_column": MAYBE_TEXT, "strict": bool, "ignore": list, "follow_links": bool, "builds": list,
}
BUILD_KINDS = {
    "name": str, "word": str, "remark": str, "reason": MAYBE_TEXT, "seen": MAYBE_TEXT, "cells": list, "announced": MAYBE_NUMBER,
    "wrong_number": MAYBE_TEXT, "bundles": list,
}
BUNDLE_KINDS = {"name": str, "reason": MAYBE_TEXT, "present": bool, "cut": MAYBE_LIST, "line": MAYBE_TEXT}


class NotAPart(Exception):
    """Why a file is no part that can be joined."""


# ------------------------------------------------------------------ writing


def judge_part(options) -> int:
    """Judges one part and writes it."""
    if not options.out or options.page:
        raise CannotDo("--part K/N needs --out for the part; the page is written by 'dezhakom join'")
    part, parts = options.part
    demand_part_or_nothing(options.out)
    programs = programs_of(options)
    job = PartJob(options, programs, options.tray, rules_of(options), lambda names, with_row: share(names, with_row, part, parts))
    job.judged_by = program_digest(programs)
    finish(job, options)
    return 0


def demand_part_or_nothing(path: str) -> None:
    """A part replaces a part, and no sheet: --part is easily added to the line of a whole run."""
    if path == "-" or not os.path.exists(path):
        return
    try:
        with open_file(os.fsencode(path)) as file:
            is_part = file.read(len(FORM) + 1) == FORM + b"\n"
    except OSError as error:
        raise CannotDo(f"{readable(path)} cannot be written: {reason_of(error)}") from error
    if not is_part:
        raise CannotDo(f"{readable(path)} is there and is no part of a tray: --part K/N writes a part, and overwrites nothing else")


def share(names: list[str], with_row: list[str], part: int, parts: int) -> list[str]:
    """The builds of one part. Those of the sheet are dealt out in its order; a folder without a row goes by its name alone, so that no
    folder that comes or goes moves another one."""
    dealt = {name: k for k, name in enumerate(with_row)}
    return [name for name in names if dealt.get(name, int(digest(to_bytes(name))[:8], 16)) % parts == part - 1]


class PartJob(Job):
    def out_data(self) -> bytes:
        options = self.options
        part, parts = options.part
        if program_digest(self.programs) != self.judged_by:
            raise CannotDo("the program judge_build was replaced while the part was judged: judge it again")
        content = {
            "tray": os.path.abspath(self.tray),
            "sheet": digest(self.sheet_data) if self.sheet else None,
            "part": part,
            "parts": parts,
            "listed": time_text(self.listed.time),
            "version": VERSION,
            "judge_build": self.judged_by,
            "column": options.column,
            "count_column": options.count_column,
            "strict": options.strict,
            "ignore": sorted(os.fsdecode(name) for name in options.ignore),
            "follow_links": options.follow_links,
            "builds": [recorded(build, self.listed.time, options.strict) for build in self.builds],
        }
        text = json.dumps(content).encode()
        return b"\n".join((FORM, text, digest(text).encode(), b""))


def recorded(build: Build, listed: float, strict: bool) -> dict:
    return {
        "name": build.name,
        "word": build.word,
        "remark": remark(build, listed, strict),
        "reason": build.reason,
        "seen": seen_digest(build.seen),
        "cells": build.cells,
        "announced": build.announced,
        "wrong_number": build.wrong_number,
        "bundles": [
            {"name": b.name, "reason": b.reason, "present": b.present, "cut": b.cut, "line": b.line and b.line.text}
            for b in build.bundles
        ],
    }


def digest(data: bytes) -> str:
    return hashlib.sha256(data).hexdigest()


def seen_digest(seen: Seen | None) -> str | None:
    return None if seen is None else digest(repr(seen).encode("utf-8", "surrogateescape"))


def program_digest(programs: Programs) -> str:
    try:
        with open(programs.path("judge_build"), "rb") as file:
            return digest(file.read())
    except OSError as error:
        raise CannotDo(f"{programs.path('judge_build')} cannot be read: {reason_of(error)}") from error


# ------------------------------------------------------------------- joining


def join_parts(options) -> int:
    contents = [read_part(path) for path in options.parts]
    demand_one_tray(options.parts, contents)
    outputs.demand_apart(files_in(options), options.parts, "a part")
    first = contents[0]
    options.column, options.count_column = first["column"], first["count_column"]
    programs = programs_of(options)
    demand_sheet(options, first)
    if first["judge_build"] != program_digest(programs):
        raise CannotDo("the parts were judged by another build of the program judge_build: judge them again")
    rules = Rules(frozenset(map(os.fsencode, first["ignore"])), first["follow_links"], first["strict"])
    records = {build["name"]: Record(build) for content in contents for build in content["builds"]}
    return finish(Job(options, programs, options.tray or first["tray"], rules, recorded=records), options)


def read_part(path: str) -> dict:
    try:
        with open_file(os.fsencode(path)) as file:
            data = file.read(MOST_PART)
        return part_of(data)
    except OSError as error:
        raise CannotDo(f"the part {readable(path)} cannot be read: {reason_of(error)}") from error
    except NotAPart as problem:
        raise CannotDo(f"{readable(path)} is no part of a tray that can be joined: {problem}") from problem


def part_of(data: bytes) -> dict:
    lines = data.split(b"\n")
    if lines[0] != FORM:
        raise NotAPart("it was not written by 'dezhakom tray --part' of this version")
    if len(lines) != 4 or lines[3] or lines[2] != digest(lines[1]).encode():
        raise NotAPart("it is not whole, or was changed")
    try:
        content = json.loads(lines[1])
        if content["version"] != VERSION:
            raise NotAPart(f"it was written by version {content['version']}, this is {VERSION}")
        demand_shape(content)
    except (ValueError, KeyError, TypeError, AttributeError, RecursionError) as problem:
        raise NotAPart(f"it has not the shape of one: {type(problem).__name__}") from problem
    return content


def demand_shape(content: dict) -> None:
    """Raises one of several errors if something is not there or not of its kind."""
    demand_kinds(content, PART_KINDS)
    if not 1 <= content["part"] <= content["parts"]:
        raise ValueError
    for build in content["builds"]:
        demand_kinds(build, BUILD_KINDS)
        for bundle in build["bundles"]:
            demand_kinds(bundle, BUNDLE_KINDS)


def demand_kinds(content: dict, kinds: dict) -> None:
    if not all(isinstance(content[name], kind) for name, kind in kinds.items()):
        raise TypeError


def demand_one_tray(paths: list[str], contents: list[dict]) -> None:
    """All parts of one tray and one sheet, each once."""
    parts = contents[0]["parts"]
    by_number = {}
    for path, content in zip(paths, contents):
        for name in SAME:
            if content[name] != contents[0][name]:
                what = {"sheet": "another sheet", "parts": "another number of parts", "tray": "another tray"}.get(name, "other options")
                raise CannotDo(f"{readable(path)} is of {what} than {readable(paths[0])}: {content[name]}, not {contents[0][name]}")
        if content["part"] in by_number:
            raise CannotDo(f"part {content['part']} of {parts} is there twice: {readable(by_number[content['part']])} and {readable(path)}")
        by_number[content["part"]] = path
    lacking = [str(k) for k in range(1, parts + 1) if k not in by_number]
    if lacking:
        raise CannotDo(f"{counted(len(lacking), 'part')} of {parts} missing: {named(lacking, 20)}")


def demand_sheet(options, first: dict) -> None:
    if bool(options.sheet) != bool(first["sheet"]):
        raise CannotDo("the parts were judged " + ("with a sheet: name it by --sheet" if first["sheet"] else "without a sheet"))
    if options.sheet and digest(sheet_bytes(options.sheet)) != first["sheet"]:
        raise CannotDo(f"the parts were judged with another sheet than {readable(options.sheet)} is now: judge them again")


class Record:
    """What a part says of a build."""

    def __init__(self, content: dict):
        self.content = content

    def fill(self, build: Build) -> bool:
        """Gives a build what its part found, if it is as it was then; False if it has to be judged again."""
        found = self.content
        if found["seen"] != seen_digest(build.seen) or found["cells"] != build.cells or found["reason"] == CHANGED:
            return False
        bundles = [bundle_of(build, b) for b in found["bundles"]]
        lines = [b.line for b in bundles]
        if found["reason"]:
            fits = found["word"] == "refused"
        else:
            fits = None not in lines and word_agrees(found["word"], lines)
        if not fits:
            return False
        build.bundles, build.word, build.reason = bundles, found["word"], found["reason"]
        build.announced, build.wrong_number = found["announced"], found["wrong_number"]
        return True


def bundle_of(build: Build, found: dict) -> Bundle:
    path = os.path.join(build.path or b"", to_bytes(found["name"]))
    bundle = Bundle(found["name"], path, found["reason"], found["present"])
    bundle.line = bundle_line(found["line"].encode()) if found["line"] else None
    bundle.cut = tuple(found["cut"]) if found["cut"] else None
    return bundle
