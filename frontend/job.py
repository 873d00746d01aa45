"""The whole job: read the sheet and the tray, judge, write the sheet and the page, say what was found.

A word covers everything that was there when the tray was last listed. With --strict the tray and the sheet are listed again after the
judging, and after the page is made: a build that changed is judged again, and one that goes on changing is refused.
"""

import os
import sys
import time

from frontend import outputs
from frontend.announced import announce
from frontend.failures import CannotDo, reason_of
from frontend.judging import judge_all
from frontend.names import counted, named, readable
from frontend.programs import Programs
from frontend.progress import Progress
from frontend.remarks import is_remark, key_of, notes_of, remark
from frontend.sheet import Column, Sheet, place_of, raw_cell, read_sheet
from frontend.tray import Build, Listed, Rules, build_of, list_tray, quiet_seconds

MOST_TURNS = 3  # times that builds which changed are judged again
MOST_SHOWN = 20  # bundles of a build on the terminal; the page has all
LONG_JUDGING = 1.0  # seconds; after them the tray is listed before the page is made, too
CHANGED = "changed while it was judged"


def judge_tray(options) -> int:
    """Answers the exit status."""
    if options.part:
        from frontend.parts import judge_part

        return judge_part(options)
    programs = programs_of(options)
    job = Job(options, programs, options.tray, rules_of(options))
    return finish(job, options)


def rules_of(options) -> Rules:
    return Rules(frozenset(options.ignore), options.follow_links, options.strict)


def programs_of(options) -> Programs:
    programs = Programs(options.programs, options.timeout, options.stop)
    programs.demand("judge_build", *(["racelist"] if options.page else []))
    outputs.demand_writable(files_in(options))
    outputs.demand_apart([options.page] if options.page else [], [options.sheet] if options.sheet else [], "the sheet")
    return programs


def files_in(options) -> list[str]:
    """The files that are to be written."""
    return [path for path in (options.page, options.out) if path and path != "-"]


def finish(job: "Job", options) -> int:
    """Runs a job to its end: the files, and the words on the terminal."""
    job.settle()
    say_words(job.builds, job.notes(), options)
    return 0 if all(b.word == "race-free" for b in job.builds) else 1


class Job:
    """A tray and its sheet, and what was found so far. Recorded are builds that were judged elsewhere, by their names."""

    def __init__(self, options, programs: Programs, tray: str, rules: Rules, share=None, recorded=None):
        self.options, self.programs, self.tray, self.rules = options, programs, tray, rules
        self.share = share or (lambda names, rows: names)  # which of the builds this job judges
        self.recorded = recorded or {}
        self.sheet_data = None
        self.sheet: Sheet | None = None
        self.listed: Listed | None = None
        self.rows: dict[str, list] = {}  # the rows of each build
        self.builds: list[Build] = []  # in the order of the sheet, then folders without a row
        self.row_notes: list[str] = []
        self.is_nothing = self.is_empty = False  # no build at all; no folder for any build of the sheet
        self.again: set[str] = set()  # builds that changed, and were judged again
        self.stale: set[str] = set()  # builds that are not as they were recorded, and were judged again
        self.page = None  # a frontend.page.Page

    # -------------------------------------------------------------- the course

    def settle(self) -> None:
        """Judges until nothing has changed, and writes the files. If it is not to be strict, it judges once."""
        self.look()
        outputs.demand_outside(files_in(self.options), self.tray)
        if not self.rules.strict:
            self.judge()
            self.write(True)
            return
        turn = 0
        while True:
            last, start = turn == MOST_TURNS, time.monotonic()
            self.judge()
            if time.monotonic() - start > LONG_JUDGING or not self.options.page:
                self.look_again(last)
            if not self.pending() and self.options.page:
                self.make_page()
                self.look_again(last)
            if not self.pending() and self.write(last):
                return
            turn += 1

    def pending(self) -> list[Build]:
        return [b for b in self.builds if b.word is None]

    def judge(self) -> None:
        pending = self.pending()
        if not pending:
            return
        if self.options.page:
            import frontend.page  # noqa: F401  (loaded while the quiet time passes)
        wait = quiet_seconds(self.listed) - (time.monotonic() - self.listed.ended) if self.rules.strict else 0
        if 0 < wait and self.options.stop.wait(min(wait, 3)):
            return
        progress = Progress(pending, not self.options.quiet)
        try:
            judge_all(self.programs, self.options.jobs, pending, progress)
        finally:
            progress.clear()

    def look_again(self, last: bool) -> None:
        """Lists the tray and the sheet again. The last time, what changed is refused."""
        before = [b.name for b in self.builds]
        if not self.look() and not self.pending() and before == [b.name for b in self.builds]:
            return
        self.page = None
        for build in self.pending() if last else ():
            build.word, build.reason = "refused", CHANGED

    def look(self) -> bool:
        """Takes what is there now for what is to be judged; a build that is as it was keeps its word. Answers whether the sheet is
        another one."""
        other = self.read_sheet()
        listed = list_tray(self.tray, self.choose)
        old = {b.name: b for b in self.builds}
        self.builds = [self.build_for(name, rows, listed, old) for name, rows in self.rows.items()]
        self.listed = listed
        self.demand_tray()
        return other

    # ------------------------------------------------------------ rows and folders

    def read_sheet(self) -> bool:
        """Answers whether it is another one than before. A pipe can be read once only."""
        if not self.options.sheet or self.sheet and not os.path.isfile(self.options.sheet):
            return False
        data = sheet_bytes(self.options.sheet)
        if data == self.sheet_data:
            return False
        self.sheet_data = data
        self.sheet = read_sheet(data, self.options.column, self.options.count_column)
        self.columns(self.listed)  # fails early if they cannot be filled
        return True

    def choose(self, names: list[str]) -> list[str]:
        """The folders to be listed. Sets the rows of each build: in the order of the sheet, then folders without a row."""
        found, there, self.row_notes = {}, set(names), []
        for row in self.sheet.rows if self.sheet else ():
            cell = self.sheet.name(row)
            if not cell.strip():
                self.row_notes.append(f"line {row.line} of the sheet has no build, and got no word")
                continue
            name = folder_name(cell, there)
            if name in found:
                self.row_notes.append(f"build {readable(name)} has two rows or more; line {row.line} got the same word")
            found.setdefault(name, []).append(row)
        with_row = list(found)
        self.is_empty = bool(with_row) and there.isdisjoint(with_row)
        for name in names:
            found.setdefault(name, [])
        self.is_nothing = not found
        mine = set(self.share(list(found), with_row))
        self.rows = {name: rows for name, rows in found.items() if name in mine}
        if self.sheet:
            self.row_notes += [f"folder {readable(n)} has no row in the sheet" for n, rows in self.rows.items() if not rows]
        return [name for name in self.rows if name in there]

    def build_for(self, name: str, rows: list, listed: Listed, old: dict[str, Build]) -> Build:
        """The build as it is now: the one that was judged, if it is as it was."""
        cells = [self.sheet.announced(row) for row in rows]
        seen = listed.folders.get(name)
        before = old.get(name)
        if before is not None and (before.seen, before.cells) == (seen, cells):
            before.has_row = bool(rows)
            return before
        build = build_of(name, self.tray, seen, self.rules)
        build.cells, build.has_row = cells, bool(rows)
        announce(build, cells)
        if before is not None:
            self.again.add(name)
        elif name in self.recorded and not self.recorded[name].fill(build):
            self.stale.add(name)
        return build

    def demand_tray(self) -> None:
        """A tray without a build is most likely another folder, or a share that is not mounted (any more)."""
        if self.is_nothing:
            raise CannotDo(f"there is nothing to judge: no row with a build, and no folder in the tray{self.tray_hint()}")
        if self.is_empty and self.rules.strict and not self.options.allow_empty:
            raise CannotDo(
                f"no build of the sheet has a folder in the tray {readable(self.tray)}{self.tray_hint()}; nothing was written;"
                " --allow-empty writes 'missing' beside all of them"
            )

    def tray_hint(self) -> str:
        if self.listed.folders or not self.listed.others:
            return ""
        hint = f"; it has {counted(len(self.listed.others), 'file')} and no folder: is it the folder of one build?"
        own = os.path.basename(os.path.abspath(self.tray))
        if any(key_of(b.name) == key_of(own) for b in self.builds):
            hint += f" {readable(own)} is a build of the sheet: give the folder above it"
        return hint

    # -------------------------------------------------------------------- outputs

    def notes(self) -> list[str]:
        again = [b.name for b in self.builds if b.name in self.again and b.reason != CHANGED]
        stale = [b.name for b in self.builds if b.name in self.stale and b.name not in self.again]
        notes = again_notes(again, CHANGED, "changed while they were judged")
        notes += again_notes(stale, "is not as its part saw it", "are not as their parts saw them")
        notes = notes_of(self.builds, self.listed, self.rules.strict) + notes
        return self.row_notes + notes + (self.sheet.notes() if self.sheet else [])

    def make_page(self) -> None:
        """The parts of the page that take time. They are made again if something has changed since."""
        if self.options.page and self.page is None:
            from frontend.page import Page

            sheet = os.path.basename(self.options.sheet) if self.options.sheet else None
            tray = os.path.basename(os.path.abspath(self.tray))
            progress = Progress(self.builds, not self.options.quiet)
            progress.doing("making the page")
            try:
                self.page = Page(tray, self.builds, (), sheet, self.rules.strict)
                self.page.draw(self.programs, self.options.jobs)
            finally:
                progress.clear()

    def write(self, last: bool) -> bool:
        """Writes the files, whole: the page first, the sheet last. False if the sheet has changed in the meantime."""
        self.make_page()
        files = []
        if self.options.page:
            files.append((self.options.page, self.page.html(self.notes(), self.listed.time)))
        if self.options.out:
            files.append((self.options.out, self.out_data()))
        if outputs.write_all(files, self.sheet_is_the_same if self.rules.strict else lambda: True):
            return True
        if last:
            raise CannotDo("the sheet changes while the tray is judged; nothing was written")
        return False

    def sheet_is_the_same(self) -> bool:
        return not os.path.isfile(self.options.sheet or "") or sheet_bytes(self.options.sheet) == self.sheet_data

    def out_data(self) -> bytes:
        return self.sheet.filled(self.columns(self.listed)) if self.sheet else self.new_sheet()

    def columns(self, listed: Listed | None) -> list[Column]:
        """The columns that are filled: the words, and the remarks if they are asked for."""
        words, remarks = self.options.verdict_column, self.options.remark_column
        by_line = {row.line: build for build in self.builds for row in self.rows[build.name]}

        def word_of(row) -> str:
            return by_line[row.line].word if row.line in by_line else ""

        def remark_of(row) -> str:
            return remark(by_line[row.line], listed.time, self.rules.strict) if row.line in by_line else ""

        columns = [Column(words, place_of(self.sheet, words, "verdicts"), word_of)]
        if remarks:
            place = place_of(self.sheet, remarks, "remarks")
            if place is not None and place == columns[0].place or key_of(remarks) == key_of(words):
                raise CannotDo("the column of verdicts and the column of remarks are the same")
            self.demand_remarks(place, remarks)
            columns.append(Column(remarks, place, remark_of))
        return columns

    def demand_remarks(self, place: int | None, name: str) -> None:
        """Text that somebody else wrote is not overwritten."""
        for row in self.sheet.rows if place is not None else ():
            if not is_remark(row.value(place)):
                raise CannotDo(
                    f"the column {name!r} of the sheet holds text that is no remark of this program (line {row.line}:"
                    f" {readable(row.value(place))!r}), which would be lost; --remark-column names another"
                )

    def new_sheet(self) -> bytes:
        """A sheet of the folders, if none was given."""
        names = [self.options.column, self.options.verdict_column, *filter(None, [self.options.remark_column])]
        remarks = [[remark(b, self.listed.time, self.rules.strict)] if self.options.remark_column else [] for b in self.builds]
        rows = [[b.name, b.word, *more] for b, more in zip(self.builds, remarks)]
        lines = [",".join(raw_cell(text, ",;\t ") for text in cells) for cells in [names, *rows]]
        return "".join(f"{line}\n" for line in lines).encode("utf-8", "surrogateescape")


def again_notes(names: list[str], one: str, many: str) -> list[str]:
    if len(names) == 1:
        return [f"build {readable(names[0])} {one}, and was judged again"]
    return [f"{counted(len(names), 'build')} {many}, and were judged again: {named(names)}"] if names else []


def sheet_bytes(path: str) -> bytes:
    try:
        with open(path, "rb") as file:
            return file.read()
    except OSError as error:
        raise CannotDo(f"the sheet {readable(path)} cannot be read: {reason_of(error)}") from error


def folder_name(cell: str, names: set[str]) -> str:
    """The cell's text if a folder of the tray has this name, else without the spaces around it. A name is only ever compared with
    the names in the tray, never joined to a path."""
    bare = cell.strip()
    return cell if cell in names or bare not in names else bare


# ------------------------------------------------------------------ the terminal


def say_words(builds: list[Build], notes: list[str], options) -> None:
    """One line for each build, then the notes. The files are written: whoever reads no further does not change the verdict."""
    stream = sys.stderr if options.out == "-" else sys.stdout
    width = min(40, max((len(readable(b.name)) for b in builds), default=0))
    try:
        for build in builds:
            if not (options.quiet and build.word == "race-free"):
                print("\n".join(lines_of(build, width)), file=stream)
        for note in notes:
            print(f"note: {note}", file=stream)
        stream.flush()
    except OSError:
        os.dup2(os.open(os.devnull, os.O_WRONLY), stream.fileno())


def lines_of(build: Build, width: int):
    """What is said of a build."""
    yield f"{readable(build.name):{width}}  {build.word:9}  {counted(len(build.there()), 'bundle')}"
    others = build.not_free()
    for bundle in others[:MOST_SHOWN]:
        yield f"    {readable(bundle.shown_name())}: {why(bundle)}"
    if others[MOST_SHOWN:]:
        yield f"    and {counted(len(others) - MOST_SHOWN, 'bundle')} more that are not race-free"
    if build.reason:
        yield f"    {build.reason}"


def why(bundle) -> str:
    line = bundle.line
    if line is None:
        return bundle.reason or "not judged"
    if line.word == "race":
        least = line.least
        return f"{counted(line.pairs, 'race')}, the least at byte {least.witness:08x}, sites {least.first_site} and {least.second_site}"
    if line.refusal is not None:
        return "refused {} at {}".format(*line.refusal)
    return f"refused: it could not be read: {bundle.reason}" if bundle.present else f"refused: {bundle.reason}"
