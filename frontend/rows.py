"""The command rows: SWORD's interval rows of a bundle as CSV, and whether the rows in such a file are those of a bundle.

Both come from the proved program interval_rows; here the file is read, and the place where it differs is reported.
"""

import re
from collections import namedtuple

from frontend import bundles, sheet
from frontend.failures import CannotDo, reason_of
from frontend.names import counted, readable
from frontend.programs import NUMBER
from frontend.refusals import ROWS, rows_in_words
from frontend.single import made_by, programs_of, read_input, rewrite_file, refusal_text

PROGRAM = "interval_rows"
COLUMNS = ("pid", "ppid", "bid", "offset", "span", "level", "data begin", "size")
HEADING = ",".join(COLUMNS).encode()
ROW_LINE = re.compile(rb",".join([NUMBER] * len(COLUMNS)))
CELL = re.compile(r"0*([0-9]{1,10})")
MOST_NUMBER = 2**32 - 1
NO_VERDICT = "no verdict"
MOST_RECORDS = 513  # that are given to the program: a bundle has at most 512 rows

Given = namedtuple("Given", "line record")  # a row of the file


def rows_file(options):
    """Writes the rows, or checks those of a file."""
    if options.check is not None:
        return check_records(options)
    return rewrite_file(options, [PROGRAM], are_whole, rows_in_words, is_text=True)


def are_whole(written, data):
    return rows_in(written, data) is not None


def rows_in(written, data):
    """The rows that interval_rows has written of a bundle; None unless they are whole: sizes add up to the length less 4 for each chunk."""
    *lines, rest = written.split(b"\n")
    if rest or lines[:1] != [HEADING] or not all(map(ROW_LINE.fullmatch, lines[1:])):
        return None
    rows = [tuple(map(int, line.split(b","))) for line in lines[1:]]
    _, chunks = bundles.cut_chunks(data)
    return rows if sum(row[-1] for row in rows) == len(data) - 4 * chunks else None


# ------------------------------------------------------------- reading a file


def read_records(path):
    """The rows of a CSV file, each with its line, and the line of the last row of all. Their columns come in any order."""
    name = readable(path)
    try:
        with open(path, "rb") as file:
            data = file.read()
    except OSError as error:
        raise CannotDo(f"{name} cannot be read: {reason_of(error)}") from error
    try:
        *_, rows = sheet.read_rows(data, COLUMNS[0])
    except CannotDo as problem:
        raise CannotDo(f"{name}: {problem}") from problem
    while rows and rows[-1].is_empty():
        rows.pop()
    if not rows:
        raise CannotDo(f"{name}: {sheet.EMPTY}")
    heading, *rows = rows
    places = places_of_columns(name, heading)
    return [Given(row.line, record_in(name, row, places)) for row in rows], (rows or [heading])[-1].line


def places_of_columns(name, heading):
    """The place of each column, in the order of COLUMNS."""
    names = [cell.value.strip().casefold() for cell in heading.cells]
    for place, column in enumerate(names):
        where = f"{name}: line {heading.line}, column {place + 1}"
        if column not in COLUMNS:
            raise CannotDo(f"{where}: {shortened(heading.value(place))} is none of {', '.join(COLUMNS)}")
        if column in names[:place]:
            raise CannotDo(f"{where}: {column!r} is there twice")
    lacking = [column for column in COLUMNS if column not in names]
    if lacking:
        raise CannotDo(f"{name}: line {heading.line} has no column {' and no column '.join(map(repr, lacking))}")
    return [names.index(column) for column in COLUMNS]


def record_in(name, row, places):
    if len(row.cells) != len(COLUMNS):
        raise CannotDo(f"{name}: line {row.line} has {counted(len(row.cells), 'cell')}, not {len(COLUMNS)}")
    return tuple(number_in(name, row, place, column) for place, column in zip(places, COLUMNS))


def number_in(name, row, place, column):
    found = CELL.fullmatch(row.value(place))
    if not found or int(found[1]) > MOST_NUMBER:
        where = f"{name}: line {row.line}, column {place + 1} ({column})"
        raise CannotDo(f"{where}: {shortened(row.value(place))} is no decimal number from 0 to {MOST_NUMBER}")
    return int(found[1])


def shortened(text):
    return repr(text if len(text) <= 40 else text[:40] + "..")


# ------------------------------------------------------------------- checking


def check_records(options):
    """Whether the rows of a file are those of the bundle."""
    programs = programs_of(options, PROGRAM)
    data = read_input(options.file)
    given, last_line = read_records(options.check)
    taken, refusal = made_by(programs, [PROGRAM, "check"], handed(data, given), lambda said: said == b"the rows\n", NO_VERDICT)
    if taken:
        name = "standard input" if options.file == "-" else readable(options.file)
        print(f"these are the rows of {name}: {counted(len(given), 'record')}")
        return 0
    number, index = refusal
    if number != 23:
        print(refusal_text(refusal, data, rows_in_words))
        return 1
    written, _ = made_by(programs, [PROGRAM], data, lambda written: are_whole(written, data), NO_VERDICT)
    what = difference(index, given, last_line, rows_in(written, data) if written else [], readable(options.check))
    print(f"refused 23 at {index}: {what} {ROWS[23].advice}")
    return 1


def handed(data, given):
    """What interval_rows check reads: the bundle's length, the bundle and the records, low byte first."""
    numbers = (number for one in given[:MOST_RECORDS] for number in one.record)
    return len(data).to_bytes(4, "little") + data + b"".join(number.to_bytes(4, "little") for number in numbers)


def difference(index, given, last_line, wanted, name):
    """Record index as missing, extra or differing."""
    if index == len(given) < len(wanted):
        lengths = f"there are {counted(len(given), 'record')}, and the bundle has {len(wanted)}"
        return f"Record {index} is missing behind line {last_line} of {name}: {record_text(wanted[index])}; {lengths}."
    if index == len(wanted) < len(given):
        return f"Record {index}, in line {given[index].line} of {name}, is extra: the bundle has {counted(len(wanted), 'record')}."
    if index < min(len(given), len(wanted)) and given[index].record != wanted[index]:
        line, record = given[index]
        columns = ", ".join(column for column, one, other in zip(COLUMNS, record, wanted[index]) if one != other)
        return (
            f"Record {index}, in line {line} of {name}, differs in {columns}: it is {record_text(record)}, "
            f"and the bundle has {record_text(wanted[index])}.")
    raise CannotDo(f"{NO_VERDICT}: the answers of {PROGRAM} do not fit each other")


def record_text(record):
    return ",".join(map(str, record))
