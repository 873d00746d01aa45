"""The rows of SWORD's metadata file, one for each barrier interval of each chunk: request A.7 of document 02."""

from collections import namedtuple
from functools import lru_cache

from reader_bundles import MOST_BYTES, check
from reader_commands import BARRIER, CLOSES_CHUNK, MEMBER, Refused, command_length, read_command
from reader_order import segment_label

# The columns in order; the fourth and fifth are of the last triple of the label at the interval's start.
Row = namedtuple("Row", "pid ppid bid offset span level data_begin size")
COLUMNS = ("pid", "ppid", "bid", "offset", "span", "level", "data begin", "size")


@lru_cache(maxsize=4)
def rows_of(data):
    """By team, member, interval."""
    bundle = check(data)
    chunks = sorted(bundle.chunks, key=lambda chunk: (chunk.team, chunk.member))
    return tuple(interval_row(bundle, chunk, number, part) for chunk in chunks for number, part in enumerate(parts_of(data, chunk)))


def parts_of(data, chunk):
    """(begin, end) of the data of each interval: after MEMBER or BARRIER, through the next BARRIER, END or CUT."""
    parts, position = [], chunk.offset + command_length(MEMBER)
    begin = position
    while position < chunk.end:
        command, position = read_command(data, position)
        if command.code == BARRIER or command.code in CLOSES_CHUNK:
            parts.append((begin, position))
            begin = position
    return parts


def interval_row(bundle, chunk, number, part):
    first = next(k for k, segment in enumerate(chunk.segments) if segment.barriers == number)  # what MEMBER or BARRIER opens
    offset, span, interval = segment_label(bundle, chunk, first)[-1]
    begin, end = part
    return Row(chunk.team, forking_team(bundle, chunk.team), interval, offset, span, level_of(bundle, chunk.team), begin, end - begin)


def forking_team(bundle, team):
    return 0 if team == 0 else bundle.fork_of[team].chunk.team


def level_of(bundle, team):
    """How many REGIONs lead from the root to the team."""
    return 0 if team == 0 else 1 + level_of(bundle, forking_team(bundle, team))


def export_rows(data, lent):
    """Puts the rows over the front of the lent list; answers how many they are."""
    rows = rows_of(data)
    if len(lent) < len(rows):
        raise Refused(22, 0)
    lent[: len(rows)] = rows
    return len(rows)


def check_rows(data, given):
    """Whether the given records are the rows: that, or 23 at the lowest index where they are not."""
    rows = rows_of(data)
    for index in range(max(len(rows), len(given))):
        if index >= len(given) or index >= len(rows) or given[index] != rows[index]:
            raise Refused(23, index)
    return "the rows"


# ------------------------------------------------- the program interval_rows

MOST_RECORDS = 513  # that it reads: a bundle has at most 512 intervals
MOST_GIVEN = 4 + MOST_BYTES + 1 + 32 * MOST_RECORDS
USAGE = b"usage: interval_rows [check] < INPUT\n"
NOT_READ = b"interval_rows: not a bundle and records\n"


def rows_text(rows):
    return "".join(",".join(map(str, line)) + "\n" for line in (COLUMNS, *rows)).encode("ascii")


def record_bytes(record):
    return b"".join(value.to_bytes(4, "little") for value in record)


def records_in(data):
    """The records of 32 bytes each that these bytes hold."""
    numbers = [int.from_bytes(data[at : at + 4], "little") for at in range(0, len(data), 4)]
    return [Row(*numbers[at : at + 8]) for at in range(0, len(numbers), 8)]


def answered(answer):
    """What is written to standard output and to standard error where the answer is such bytes, or a refusal."""
    try:
        return answer(), b""
    except Refused as refusal:
        return b"", b"refused %d at %d\n" % (refusal.number, refusal.place)


def interval_rows(words, given):
    """What the program, with these words, writes to standard output and to standard error."""
    if words == []:
        return answered(lambda: rows_text(rows_of(given[: MOST_BYTES + 1])))
    if words != ["check"]:
        return b"", USAGE
    given = given[:MOST_GIVEN]
    length = int.from_bytes(given[:4], "little")
    data, records = given[4 : 4 + length], given[4 + length :]
    if len(given) < 4 + length or length > MOST_BYTES + 1 or len(records) % 32:
        return b"", NOT_READ
    return answered(lambda: check_rows(data, records_in(records)).encode("ascii") + b"\n")
