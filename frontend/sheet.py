"""The spreadsheet of builds: CSV, of which only the verdicts and, if asked for, the remarks are changed.

Every cell keeps its text with its quotes, every row its line end, the file its byte order mark and separator.
"""

import re
from collections import namedtuple

from frontend.failures import CannotDo

SEPARATORS = (",", ";", "\t")
BYTE_ORDER_MARK = b"\xef\xbb\xbf"
COUNT_COLUMN = "bundles"
EMPTY = "the sheet is empty: its first row has to name the columns"
SEPARATOR_LINE = re.compile(r'"?sep=([,;\t])"?\r?\n', re.IGNORECASE)  # a first line of some spreadsheet programs

FORMULA = ("=", "+", "-", "@", "\t", "\r")  # a spreadsheet program computes a cell that begins so

Cell = namedtuple("Cell", "raw value")
Column = namedtuple("Column", "name place value_of")  # place: its number, or None if it is new; value_of: the text for a row


class Row:
    def __init__(self, cells, end, line):
        self.cells = cells
        self.end = end  # its line end
        self.line = line  # the number of its first line, from 1

    def is_empty(self):
        return not any(c.value.strip() for c in self.cells)

    def value(self, k):
        return self.cells[k].value if k < len(self.cells) else ""


class Sheet:
    """before: the text before the first row; build, count: numbers of columns; rows: those below the header."""

    def __init__(self, mark, before, separator, all_rows, header, build, count):
        self.mark, self.before, self.separator = mark, before, separator
        self.all_rows, self.header = all_rows, header
        self.build, self.count = build, count
        self.rows = [r for r in all_rows[all_rows.index(header) + 1 :] if not r.is_empty()]
        self.width = len(header.cells)
        self.all_quoted = all(c.raw.startswith('"') for c in header.cells)

    def name(self, row: Row) -> str:
        """The cell of the build's name."""
        return row.value(self.build)

    def announced(self, row: Row) -> str:
        """The cell that says how many bundles the build has; empty if there is no such column."""
        return "" if self.count is None else row.value(self.count)

    def notes(self) -> list[str]:
        long = [r for r in self.rows if any(c.value.strip() for c in r.cells[self.width :])]
        return [f"line {row.line} of the sheet has more cells than the header" for row in long]

    def filled(self, columns: list[Column]) -> bytes:
        """The file with these columns filled; a column that has no place yet is added last."""
        filled = {id(row) for row in self.rows}
        text = [self.before]
        for row in self.all_rows:
            cells = [c.raw for c in row.cells]
            if row is self.header:
                cells += [self.raw(c.name, self.all_quoted) for c in columns if c.place is None]
            elif id(row) in filled:
                self.fill(row, cells, columns)
            text.append(self.separator.join(cells) + row.end)
        return self.mark + "".join(text).encode("utf-8", "surrogateescape")

    def fill(self, row: Row, cells: list[str], columns: list[Column]) -> None:
        """Sets the cells of a row, or puts new ones before what goes past the header; missing cells before them are empty."""
        added = 0
        for column in columns:
            new = column.place is None
            place = self.width + added if new else column.place
            added += new
            old_quoted = not new and place < len(cells) and cells[place].startswith('"')
            cells += [""] * (place - len(cells))
            cells[place : place if new else place + 1] = [self.raw(column.value_of(row), self.all_quoted or old_quoted)]

    def raw(self, text: str, quoted: bool = False) -> str:
        return raw_cell(text, self.separator, quoted)


def raw_cell(text: str, separators: str, quoted: bool = False) -> str:
    """The text of a new cell as it is in the file: with quotes if it needs them or the others have them, and never a formula."""
    if text.startswith(FORMULA):
        text = "'" + text
    if quoted or any(c in text for c in separators + '"\r\n'):
        return '"' + text.replace('"', '""') + '"'
    return text


# ------------------------------------------------------------------- reading


def read_sheet(data: bytes, column: str, count_column: str | None = None) -> Sheet:
    """The sheet of a file's bytes. Without a count_column it is one with the usual name, if there is one."""
    mark, before, separator, rows = read_rows(data, column)
    header = next((r for r in rows if not r.is_empty()), None)
    if header is None:
        raise CannotDo(EMPTY)
    build = find_column(header, column)
    if build is None:
        raise no_column(header, column, "--column")
    count = find_column(header, count_column or COUNT_COLUMN)
    if count_column and count is None:
        raise no_column(header, count_column, "--count-column")
    if count == build:
        if count_column:
            raise CannotDo("the column of builds and the column of numbers of bundles are the same")
        count = None
    return Sheet(mark, before, separator, rows, header, build, count)


def no_column(header: Row, name: str, option: str) -> CannotDo:
    names = ", ".join(repr(c.value) for c in header.cells)
    return CannotDo(f"the sheet has no column {name!r}; its first row has {names}; {option} names another")


def place_of(sheet: Sheet, name: str, what: str) -> int | None:
    """The number of a column that is to be filled, None if it is new."""
    place = find_column(sheet.header, name)
    if place is not None and place in (sheet.build, sheet.count):
        raise CannotDo(f"the column of {'builds' if place == sheet.build else 'numbers of bundles'} and the column of {what} are the same")
    return place


def read_rows(data, column):
    """(byte order mark, text before the first row, separator, rows) of a file's bytes; this is one of its columns."""
    if kind := workbook_kind(data):
        raise CannotDo(f"the sheet is {kind}, not CSV: save it as CSV, UTF-8")
    if data.startswith((b"\xff\xfe", b"\xfe\xff")) or 4 * data.count(b"\0") > len(data):
        raise CannotDo("the sheet is no CSV in UTF-8 (UTF-16, or no text): save it as CSV, UTF-8")
    mark = BYTE_ORDER_MARK if data.startswith(BYTE_ORDER_MARK) else b""
    text = data[len(mark) :].decode("utf-8", "surrogateescape")
    before = ""
    separators = SEPARATORS
    if found := SEPARATOR_LINE.match(text):
        before, text, separators = found[0], text[found.end() :], (found[1],)
    if not text.strip():
        raise CannotDo(EMPTY)
    separator = best_separator(text, separators, column)
    return mark, before, separator, list(rows_of(text, separator, 1 + before.count("\n")))


def workbook_kind(data: bytes) -> str | None:
    """What a file of a spreadsheet program is, or None."""
    if data.startswith(b"\xd0\xcf\x11\xe0\xa1\xb1\x1a\xe1"):
        return "an Excel workbook (.xls)"
    if not data.startswith(b"PK\x03\x04"):
        return None
    if b"opendocument.spreadsheet" in data[:200]:
        return "an OpenDocument spreadsheet (.ods)"
    return "an Excel workbook (.xlsx)" if b"[Content_Types].xml" in data else "a ZIP archive"


def find_column(header: Row, name: str) -> int | None:
    """The number of a column, without regard to case and to spaces around its name."""
    wanted = name.strip().casefold()
    found = [k for k, c in enumerate(header.cells) if c.value.strip().casefold() == wanted]
    if len(found) > 1:
        raise CannotDo(f"the sheet has two columns {name!r}: {' and '.join(repr(header.cells[k].value) for k in found[:2])}")
    return found[0] if found else None


def best_separator(text, separators, column):
    """The one that gives the header this column; of several, the one with most columns."""
    wanted = column.strip().casefold()
    keys, problem = [], None
    for separator in separators:
        try:
            header = next((r for r in rows_of(text, separator, 1) if not r.is_empty()), None)
        except CannotDo as error:
            problem = problem or error
            continue
        names = [c.value.strip().casefold() for c in header.cells] if header else []
        keys.append((wanted in names, len(names), -SEPARATORS.index(separator)))
    if not keys:
        raise problem
    return SEPARATORS[-max(keys)[2]]


def rows_of(text, separator, line):
    """The rows one after another; line is the number of the first."""
    plain = re.compile(f"[^{re.escape(separator)}\r\n]*")
    at, cells, first = 0, [], line
    while at < len(text) or cells:
        cell, at, lines = read_cell(text, at, plain, first)
        cells.append(cell)
        line += lines
        following = text[at : at + 1]
        if following == separator:
            at += 1
            if at == len(text):
                cells.append(Cell("", ""))
        if following != separator or at == len(text):
            end = "\r\n" if text.startswith("\r\n", at) else text[at : at + 1]
            yield Row(cells, end, first)
            at += len(end)
            line += bool(end)
            cells, first = [], line


QUOTED = re.compile(r'"([^"]*(?:""[^"]*)*)"')


def read_cell(text, at, plain, line):
    """A cell, the place after it and the number of line ends in it."""
    if not text.startswith('"', at):
        found = plain.match(text, at)
        return Cell(found[0], found[0]), found.end(), 0
    found = QUOTED.match(text, at)
    if found is None:
        raise CannotDo(f"the sheet cannot be read: in the row of line {line} a quote is opened and never closed")
    behind = plain.match(text, found.end())
    if behind[0].strip(" "):
        raise CannotDo(f"the sheet cannot be read: in the row of line {line} text stands behind a closing quote")
    raw = found[0] + behind[0]
    return Cell(raw, found[1].replace('""', '"')), behind.end(), len(re.findall(r"\r\n|\r|\n", found[0]))
