"""Bundles and their interval rows, by hand from request A.7 of document 02; lent lists; records that are not the rows."""

import random
from collections import namedtuple

import generators
import second_reader as sr
from aimed_cases import E_BYTES, E_WIDE_BYTES
from bundle_text import bundle
from convert_cases import FULL_WITHOUT, shortest_refused
from rewrite_cases import BACK_TO_FRONT
from second_reader import Row
from vector_frames import MOST_ROWS, check_rows_frame, filler_rows, rows_frame

Case = namedtuple("Case", "title data rows")


def rows(text):
    """A row is a line: pid ppid bid offset span level, data begin, size."""
    return tuple(Row(*map(int, line.split())) for line in text.strip().splitlines())


def case(title, text, wanted):
    return Case(title, text if isinstance(text, bytes) else bundle(text), rows(wanted))


# ------------------------------------------------------------ rows by hand

ROOT_ALONE = [
    case("only a root", "member 0 0; end", "0 0 0 0 1 0 4 1"),
    case("cut directly after MEMBER", "member 0 0; cut", "0 0 0 0 1 0 4 1"),
    case("no barrier", "member 0 0; read 1 0 0 1 1; acquire 5; release 5; end", "0 0 0 0 1 0 4 17"),
    case("two barriers", "member 0 0; barrier; barrier; end", """
        0 0 0 0 1 0 4 1
        0 0 1 0 1 0 5 1
        0 0 2 0 1 0 6 1"""),
    case("cut after a barrier", "member 0 0; barrier; cut", """
        0 0 0 0 1 0 4 1
        0 0 1 0 1 0 5 1"""),
]

EXAMPLE_E = [
    case("E", E_BYTES, """
        0 0 0 0 1 0 4 5
        1 0 0 0 2 1 13 13
        1 0 1 0 2 1 26 1
        1 0 0 1 2 1 31 13
        1 0 1 1 2 1 44 1"""),
    case("E, back to front", BACK_TO_FRONT, """
        0 0 0 0 1 0 40 5
        1 0 0 0 2 1 22 13
        1 0 1 0 2 1 35 1
        1 0 0 1 2 1 4 13
        1 0 1 1 2 1 17 1"""),
    case("E with wide sites", E_WIDE_BYTES, """
        0 0 0 0 1 0 4 5
        1 0 0 0 2 1 13 15
        1 0 1 0 2 1 28 1
        1 0 0 1 2 1 33 15
        1 0 1 1 2 1 48 1"""),
]

REGIONS_AND_BARRIERS = [
    case("regions in two intervals of the root", """
        member 0 0; region 1 1; barrier; region 2 1; region 3 1; barrier; end
        member 1 0; end; member 2 0; end; member 3 0; end""", """
        0 0 0 0 1 0 4 5
        0 0 1 1 1 0 9 9
        0 0 2 3 1 0 18 1
        1 0 0 0 1 1 23 1
        2 0 0 0 1 1 28 1
        3 0 0 0 1 1 33 1"""),
    case("regions before and after the barrier of a team of three", """
        member 0 0; region 1 3; end
        member 1 0; region 2 1; barrier; end
        member 1 1; barrier; region 3 2; end
        member 1 2; region 4 1; region 5 1; barrier; region 6 1; end
        member 2 0; end; member 3 0; end; member 3 1; end; member 4 0; end; member 5 0; end; member 6 0; end""", """
        0 0 0 0 1 0 4 5
        1 0 0 0 3 1 13 5
        1 0 1 3 3 1 18 1
        1 0 0 1 3 1 23 1
        1 0 1 1 3 1 24 5
        1 0 0 2 3 1 33 9
        1 0 1 8 3 1 42 5
        2 1 0 0 1 2 51 1
        3 1 0 0 2 2 56 1
        3 1 0 1 2 2 61 1
        4 1 0 0 1 2 66 1
        5 1 0 0 1 2 71 1
        6 1 0 0 1 2 76 1"""),
    case("three barriers with regions between them", """
        member 0 0; region 1 2; end
        member 1 1; barrier; region 2 1; barrier; region 3 1; barrier; end
        member 3 0; barrier; end
        member 1 0; barrier; barrier; barrier; end
        member 2 0; cut""", """
        0 0 0 0 1 0 4 5
        1 0 0 0 2 1 35 1
        1 0 1 0 2 1 36 1
        1 0 2 0 2 1 37 1
        1 0 3 0 2 1 38 1
        1 0 0 1 2 1 13 1
        1 0 1 1 2 1 14 5
        1 0 2 3 2 1 19 5
        1 0 3 5 2 1 24 1
        2 1 0 0 1 2 43 1
        3 1 0 0 1 2 29 1
        3 1 1 0 1 2 30 1"""),
    case("accesses before and after regions", """
        member 0 0; read 4369 0 0 1 1; region 1 1; write 4369 0 0 1 1; barrier
        atomic-read 1 0 0 1 1; region 2 1; atomic-write 2 0 0 1 1; barrier; read 3 0 0 1 1; cut
        member 2 0; end; member 1 0; end""", """
        0 0 0 0 1 0 4 29
        0 0 1 1 1 0 33 29
        0 0 2 2 1 0 62 13
        1 0 0 0 1 1 84 1
        2 0 0 0 1 1 79 1"""),
    case("locks, wide accesses, operands that look like BARRIER, END and CUT", """
        member 0 0; acquire 17; wide-write 286331153 286331153 0 1 1; release 17; barrier
        acquire 2; acquire 3; region 4354 1; release 3; release 2; end
        member 4354 0; wide-read 286331153 50467074 17 2 2; cut""", """
        0 0 0 0 1 0 4 19
        0 0 1 0 1 0 23 13
        4354 0 0 0 1 1 40 15"""),
]

CUT_CHUNKS = [
    case("complete and cut members of one team", """
        member 0 0; region 1 4; end
        member 1 0; barrier; barrier; end
        member 1 1; cut
        member 1 2; barrier; cut
        member 1 3; acquire 3; barrier; write 7 64 0 1 4; cut""", """
        0 0 0 0 1 0 4 5
        1 0 0 0 4 1 13 1
        1 0 1 0 4 1 14 1
        1 0 2 0 4 1 15 1
        1 0 0 1 4 1 20 1
        1 0 0 2 4 1 25 1
        1 0 1 2 4 1 26 1
        1 0 0 3 4 1 31 3
        1 0 1 3 4 1 34 13"""),
    case("cut behind regions", "member 0 0; region 1 1; cut; member 1 0; barrier; region 2 1; cut; member 2 0; cut", """
        0 0 0 0 1 0 4 5
        1 0 0 0 1 1 13 1
        1 0 1 0 1 1 14 5
        2 1 0 0 1 2 23 1"""),
]

NESTED_TEAMS = [
    case("levels 0 to 4, chunks in any order", """
        member 65535 1; end
        member 300 2; region 65535 2; barrier; end
        member 9 0; end
        member 300 0; barrier; end
        member 0 0; barrier; region 5 1; end
        member 65535 0; end
        member 5 0; region 9 2; end
        member 9 1; region 300 3; end
        member 300 1; barrier; end""", """
        0 0 0 0 1 0 30 1
        0 0 1 0 1 0 31 5
        5 0 0 0 1 1 45 5
        9 5 0 0 2 2 19 1
        9 5 0 1 2 2 54 5
        300 9 0 0 3 3 24 1
        300 9 1 0 3 3 25 1
        300 9 0 1 3 3 63 1
        300 9 1 1 3 3 64 1
        300 9 0 2 3 3 9 5
        300 9 1 5 3 3 14 1
        65535 300 0 0 2 4 40 1
        65535 300 0 1 2 4 4 1"""),
    case("team numbers that are not in the order of forking", """
        member 0 0; region 700 1; region 3 2; region 256 1; end
        member 3 1; region 65535 1; end
        member 256 0; end
        member 700 0; region 701 1; end
        member 3 0; region 4 1; end
        member 4 0; end
        member 65535 0; end
        member 701 0; end""", """
        0 0 0 0 1 0 4 13
        3 0 0 0 2 1 44 5
        3 0 0 1 2 1 21 5
        4 3 0 0 1 2 53 1
        256 0 0 0 1 1 30 1
        700 0 0 0 1 1 35 5
        701 700 0 0 1 2 63 1
        65535 3 0 0 1 2 58 1"""),
]

CASES = ROOT_ALONE + EXAMPLE_E + REGIONS_AND_BARRIERS + CUT_CHUNKS + NESTED_TEAMS
PROGRAM_RUN = REGIONS_AND_BARRIERS[2]  # what the stored run of interval_rows is


# ---------------------------------------------------- large bundles by hand


def large(title, text, wanted):
    return Case(title, bundle(text), tuple(Row(*numbers) for numbers in wanted))


def one_chunk():
    """Interval k of the root begins at 4 + k."""
    wanted = [(0, 0, k, 0, 1, 0, 4 + k, 1) for k in range(512)]
    yield large("512 intervals of one chunk", "member 0 0; times 511 barrier; end", wanted)
    yield large("512 intervals of one cut chunk", "member 0 0; times 511 barrier; cut", wanted)


def members_64():
    """Members 63 to 0, of 5 bytes each, and behind them the root; then members of 10 bytes and their inner teams of 5."""
    yield large(
        "64 members, the highest first",
        "; ".join(f"member 65535 {m}; end" for m in reversed(range(64))) + "; member 0 0; region 65535 64; end",
        [(0, 0, 0, 0, 1, 0, 324, 5)] + [(65535, 0, 0, m, 64, 1, 5 * (63 - m) + 4, 1) for m in range(64)])
    pairs = [((1, 0, 0, m, 64, 1, 13 + 10 * m, 5), (1, 0, 1, m + 64, 64, 1, 18 + 10 * m, 1)) for m in range(64)]
    yield large(
        "64 members that fork before their barrier",
        "member 0 0; region 1 64; end; " + "; ".join(f"member 1 {m}; region {100 + m} 1; barrier; end" for m in range(64)) + "; "
        + "; ".join(f"member {100 + m} 0; end" for m in range(64)),
        [(0, 0, 0, 0, 1, 0, 4, 5)] + [row for pair in pairs for row in pair]
        + [(100 + m, 1, 0, 0, 1, 2, 653 + 5 * m, 1) for m in range(64)])


def four_deep():
    """Teams 0 to 3 fork the next one and pass 100 barriers, in 109 bytes each; team 4 passes 103: 512 segments."""
    wanted = []
    for team in range(4):
        outer, at = max(team - 1, 0), 109 * team
        wanted.append((team, outer, 0, 0, 1, team, at + 4, 5))
        wanted += [(team, outer, k, 1, 1, team, at + 8 + k, 1) for k in range(1, 101)]
    wanted += [(4, 3, k, 0, 1, 4, 440 + k, 1) for k in range(104)]
    text = "; ".join(f"member {team} 0; region {team + 1} 1; times 100 barrier; end" for team in range(4))
    yield large("508 intervals of teams 4 deep", f"{text}; member 4 0; times 103 barrier; end", wanted)


def many_regions():
    """Member 63 of 64 joins 221 regions before its barrier; the others are cut."""
    teams = range(2, 223)
    text = "member 0 0; region 1 64; end; member 1 63; " + "; ".join(f"region {t} 1" for t in teams) + "; barrier; end; "
    text += "; ".join(f"member 1 {m}; cut" for m in range(63)) + "; " + "; ".join(f"member {t} 0; end" for t in teams)
    yield large(
        "221 regions joined", text,
        [(0, 0, 0, 0, 1, 0, 4, 5)] + [(1, 0, 0, m, 64, 1, 903 + 5 * m, 1) for m in range(63)]
        + [(1, 0, 0, 63, 64, 1, 13, 885), (1, 0, 1, 14207, 64, 1, 898, 1)]
        + [(t, 1, 0, 0, 1, 2, 1208 + 5 * t, 1) for t in teams])


def full_length():
    wanted = [(0, 0, k, 0, 1, 0, 4 + k, 1) for k in range(3)] + [(0, 0, 3, 0, 1, 0, 7, 65529)]
    yield Case("65,536 bytes", FULL_WITHOUT, tuple(Row(*numbers) for numbers in wanted))


LARGE = [*one_chunk(), *members_64(), *four_deep(), *many_regions()]
FULL = [*full_length()]


# ------------------------------------------------- records that are not the rows

BITS = (0, 1, 8, 15, 16, 31)  # of a column, which are changed


def changed(right, index, column, bit):
    """The rows with one bit of one column of one record changed."""
    record = list(right[index])
    record[column] ^= 1 << bit
    return (*right[:index], Row(*record), *right[index + 1 :])


def extra_records(right):
    """Records that may stand behind the last one."""
    last = right[-1]
    return (last, right[0], Row(*[0] * 8), last._replace(bid=last.bid + 1, data_begin=last.data_begin + last.size))


def short_or_long(right):
    """(records, index of 23): every single record missing, the first ones alone, a record more."""
    for index in range(len(right)):
        yield right[:index] + right[index + 1 :], index
        yield right[:index], index
        yield right[: index + 1] + right[index:], index + 1
    for record in extra_records(right):
        yield (*right, record), len(right)
        yield (*right, record, record), len(right)


def one_column(right):
    """(records, index of 23): each column of each record changed, by one bit or another."""
    for index in range(len(right)):
        for column in range(8):
            yield changed(right, index, column, BITS[(index + column) % len(BITS)]), index


def exchanged(right, index):
    """The rows with where the data begins and its size exchanged in one record."""
    row = right[index]
    return (*right[:index], row._replace(data_begin=row.size, size=row.data_begin), *right[index + 1 :])


def several(right):
    """(records, index of 23): two records or columns swapped; two that differ, or one that differs and one missing or extra."""
    for index in range(len(right)):
        if exchanged(right, index) != right:
            yield exchanged(right, index), index
    for low in range(len(right) - 1):
        for high in {low + 1, len(right) - 1}:
            swapped = list(right)
            swapped[low], swapped[high] = right[high], right[low]
            yield tuple(swapped), low
            yield changed(changed(right, low, high % 8, 0), high, low % 8, 0), low
        yield changed(right, low, low % 8, 0)[:-1], low
        yield (*changed(right, low, low % 8, 0), right[-1]), low
    if len(right) > 1:
        yield tuple(reversed(right)), 0


KINDS = (short_or_long, one_column, several)


def wrong_records(right):
    """All of them."""
    for found in KINDS:
        yield from found(right)


# ------------------------------------------------- the program interval_rows

OTHER_WORDS = (["checks"], ["check", "check"], [""], ["Check"], ["--help"])  # with which it tells its usage
ONE_ROOT = bytes.fromhex("01000000 02")
ONE_ROW = bytes.fromhex("00000000 00000000 00000000 00000000 01000000 00000000 04000000 01000000")
NOT_READ = b"interval_rows: not a bundle and records\n"

# (what it reads with the word check, what it writes to standard output and to standard error)
CHECK_INPUTS = [
    (b"\x05\0\0\0" + ONE_ROOT + ONE_ROW, b"the rows\n", b""),
    (b"\x05\0\0\0" + ONE_ROOT + 2 * ONE_ROW, b"", b"refused 23 at 1\n"),
    (b"\x05\0\0\0" + ONE_ROOT + 513 * ONE_ROW, b"", b"refused 23 at 1\n"),
    (b"\x05\0\0\0" + ONE_ROOT + ONE_ROW[:31] + b"\1", b"", b"refused 23 at 0\n"),
    (b"\x05\0\0\0" + ONE_ROOT, b"", b"refused 23 at 0\n"),
    (b"\x04\0\0\0" + ONE_ROOT[:4], b"", b"refused 4 at 4\n"),
    (b"\x04\0\0\0" + ONE_ROOT[:4] + ONE_ROW, b"", b"refused 4 at 4\n"),
    (bytes(4), b"", b"refused 10 at 0\n"),
    (bytes(4) + ONE_ROW, b"", b"refused 10 at 0\n"),
    (b"\1\0\1\0" + bytes(65537), b"", b"refused 1 at 0\n"),
    (b"\1\0\1\0" + bytes(65537) + 513 * ONE_ROW, b"", b"refused 1 at 0\n"),
    (b"\1\0\1\0" + bytes(65537) + 600 * ONE_ROW, b"", b"refused 1 at 0\n"),  # longer than it reads
    (b"\1\0\1\0" + bytes(65536), b"", NOT_READ),
    (b"\2\0\1\0" + bytes(65538), b"", NOT_READ),
    (b"\xff\xff\xff\xff" + bytes(100), b"", NOT_READ),
    (b"\xfc\xff\xff\xff", b"", NOT_READ),
    (b"\x05\0\0\0" + ONE_ROOT + ONE_ROW[:31], b"", NOT_READ),
    (b"\x05\0\0\0" + ONE_ROOT + ONE_ROW + b"\0", b"", NOT_READ),
    (b"\x05\0\0\0" + ONE_ROOT + b"\0", b"", NOT_READ),
    (b"\x06\0\0\0" + ONE_ROOT, b"", NOT_READ),
    (b"\x25\0\0\0" + ONE_ROOT + ONE_ROW, b"", b"refused 2 at 5\n"),
    (b"\x05\0\0", b"", NOT_READ),
    (b"", b"", NOT_READ),
]


def check_input(data, given):
    """What interval_rows check reads for a bundle and records."""
    return len(data).to_bytes(4, "little") + data + b"".join(map(sr.record_bytes, given))


# ------------------------------------------------------------------ frames

ROWS_SEED, LARGE_SEED, STORED = 115, 116, 14  # of the stored frames, and how many random bundles they have


def some_rooms(right):
    """None, one too few, exactly enough, more."""
    return sorted({0, max(len(right) - 1, 0), len(right), len(right) + 2})


def some_given(rng, right, most):
    """The rows, and records that are not: at most so many of each kind."""
    yield right
    for found in KINDS:
        wrong = [given for given, _ in found(right)]
        yield from rng.sample(wrong, min(most, len(wrong)))
    yield changed(right, len(right) - 1, 7, 0)
    yield right[:-1]
    yield (*right, right[-1])


def rows_or_none(data):
    try:
        return sr.rows_of(data)
    except sr.Refused:
        return ()


def frames_of(rng, data, most):
    """ROWS and CHECK ROWS of a bundle, good or not."""
    right = rows_or_none(data)
    for room in some_rooms(right):
        yield rows_frame(room, data)
    for given in some_given(rng, right, most) if right else ((), filler_rows(2)):
        yield check_rows_frame(given, data)


MAKERS = (
    generators.random_bundle,
    lambda rng, style: generators.bundle_bytes(generators.shuffled(rng, generators.far_teams(rng, generators.random_chunks(rng, style)))),
    lambda rng, style: generators.stopped_run_bundle(rng),
    generators.damaged_bundle,
)


def some_bundles(rng, count, length):
    """Good bundles up to a length, cut ones among them, and damaged ones."""
    for turn in range(count):
        data = None
        while data is None or len(data) > length:
            style = rng.choice((generators.SMALL, generators.MIDDLE, generators.NESTED, generators.LOCKED, generators.AROUND))
            data = MAKERS[turn % len(MAKERS)](rng, style)
        yield data


def rows_frames(seed, count=60, most=3):
    """Of the cases by hand, of a bundle for each refusal of check, and of random bundles."""
    rng = random.Random(seed)
    for data in [one.data for one in CASES] + [b""] + [data for *_, data in shortest_refused()]:
        yield from frames_of(rng, data, most)
    for data in some_bundles(rng, count, 300):
        yield from frames_of(rng, data, most)


def large_rows_frames(seed):
    """Up to 512 intervals and 65,536 bytes."""
    rng = random.Random(seed)
    longest, cut, members, *others = LARGE
    yield rows_frame(len(longest.rows), longest.data)
    yield rows_frame(MOST_ROWS, cut.data)
    yield rows_frame(len(members.rows) - 1, members.data)
    for one in (members, *others):
        yield rows_frame(len(one.rows), one.data)
        yield check_rows_frame(changed(one.rows, rng.randrange(len(one.rows)), rng.randrange(8), 0), one.data)
    yield check_rows_frame(longest.rows, longest.data)
    yield check_rows_frame(changed(longest.rows, 511, 7, 16), longest.data)
    yield check_rows_frame((*longest.rows, longest.rows[0]), longest.data)
    yield check_rows_frame(longest.rows[:511], longest.data)
    yield rows_frame(5, FULL[0].data)
