"""Cases for computed examples, each aimed at a point of document 01 or 02.

Only the questions stand here; write_examples takes the answers from the
second reader.
"""

import aimed_cases
import race_cases
from bundle_text import bundle
from verdict_cases import ABOVE_ALL, BELOW_ALL, HIGHEST, LOWEST

MOST_BYTES = 100


def checked_bundles():
    """The short bundles that aim at a refusal of check, without wide accesses."""
    return [data for _, _, _, data in aimed_cases.check_cases(aimed_cases.NARROW_CASES) if len(data) <= MOST_BYTES]


# ----------------------------------------------------------------- reading

# (bytes, position). A REGION's team may be any but 0; its own-team rule is not tested where a command is read alone.
READ = [(bytes.fromhex(text), position) for text, position in (
    ("10000002", 0), ("10010001", 0), ("1001000000", 0), ("10ffff40", 0), ("10010041", 0), ("1100100000", 1),
    ("03", 0), ("0301", 0), ("0203", 1),
    ("01000040", 0), ("0100003f", 0), ("2040", 0), ("213f", 0), ("2140", 0), ("1111", 1), ("1111", 2), ("1112", 1), ("100100", 0),
)]

# -------------------------------------------------------------- wide sites

# (bytes, position): a wide command with every byte another, the highest site, one byte cut off, a size that is no size, and a
# narrow command with the highest site.
WIDE_READ = [(bytes.fromhex(text), position) for text, position in (
    ("02 3a 78563412 04030201 0600 0500 08", 1), ("39 ffffffff 00000000 0000 0100 01", 0), ("38 00000100 00000000 0000 0100", 0),
    ("3b 00000000 00000000 0000 0100 03", 0), ("33 ffff 00000000 0000 0100 01 00", 0),
)]

ACCESS, WIDE_ACCESS = aimed_cases.ACCESS, aimed_cases.WIDE_ACCESS
WIDE_CHECKED = [aimed_cases.E_WIDE_BYTES, *map(bundle, (
    f"member 0 0; {ACCESS}; {WIDE_ACCESS}; end",
    f"member 1 0; {WIDE_ACCESS}; end; member 0 0; region 1 1; {ACCESS}; end",  # in another chunk
    f"member 0 0; {ACCESS}; end; {WIDE_ACCESS}",  # 4 before 20
    f"member 0 0; {ACCESS}; wide-read 1 0 0 1 3; end",  # 20 before 5
    f"member 0 0; {WIDE_ACCESS}; torn 11 {ACCESS}",  # 3 before 20
))]

# ------------------------------------------------------------------ labels

# Member 1 of team 1 forks team 2 behind a barrier and a region, so that member, span, regions and barriers all show in the
# label of the fork.
INNER = bundle("""
member 0 0; region 1 2; end
member 1 0; barrier; end
member 1 1; barrier; region 4 1; region 2 2; end
member 4 0; end
member 2 0; barrier; end
member 2 1; barrier; end
""")

# Teams of one to depth 4.
CHAIN = bundle(aimed_cases.CHAIN_4 + "member 4 0; barrier; end")

# (bundle, team, member, segment number); the last three of INNER are not there.
LABELLED = (
    *[(INNER, *place) for place in (
        (1, 0, 1), (1, 1, 1), (1, 1, 2), (1, 1, 3), (4, 0, 0), (2, 0, 0), (2, 1, 0), (2, 1, 1), (3, 0, 0), (2, 2, 0), (2, 1, 2),
    )],
    (CHAIN, 3, 0, 1),
    (CHAIN, 4, 0, 1),
    *[(bundle(aimed_cases.STOPPED), *place) for place in ((1, 0, 3), (1, 1, 0), (1, 1, 1), (2, 0, 1), (2, 1, 1))],
)

# ------------------------------------------------------------- comparisons

ROOT = (0, 1, 0)
UNSEEN = (7, 0, 7)  # behind the counted triples


def label(*triples, count=None):
    """A label of these triples, others behind them."""
    return len(triples) if count is None else count, [*triples, *[UNSEEN] * (5 - len(triples))]


FIVE = [ROOT, (1, 2, 3), (4, 5, 6), (7, 64, 9)]

BAD = (
    label(*[ROOT] * 5, count=0),
    label(*[ROOT] * 5, count=6),
    label(*[ROOT] * 5, count=2**32 - 1),
    label(ROOT, (0, 0, 0)),
    label(ROOT, (0, 65, 0)),
    label(*[ROOT] * 4, (0, 65, 0)),
    label((0, 0, 0)),
    label((0, 2, 0)),
)


def both_ways(first, second):
    return [(first, second), (second, first)]


COMPARED = [
    (label(ROOT), label(ROOT)),
    (label(ROOT, count=1), (1, [ROOT] * 5)),
    (label(*FIVE, (63, 64, 0)), label(*FIVE, (63, 64, 0))),
    *both_ways(label(ROOT), label(ROOT, (0, 2, 0))),
    *both_ways(label(*FIVE), label(*FIVE, (63, 64, 0))),
    *both_ways(label(ROOT), label(*FIVE, (63, 64, 0))),
    *both_ways(label(ROOT), label((1, 1, 0), (0, 2, 0))),
    *both_ways(label((3, 1, 1)), label((4, 1, 0))),
    *both_ways(label(ROOT, (0, 2, 0)), label(ROOT, (1, 2, 0))),
    *both_ways(label(ROOT, (0, 2, 0)), label(ROOT, (2, 2, 0))),
    *both_ways(label(ROOT, (1, 2, 0)), label(ROOT, (2, 2, 0))),
    *both_ways(label(ROOT, (0, 2, 0)), label(ROOT, (1, 2, 1))),
    *both_ways(label(ROOT, (5, 2, 0)), label(ROOT, (0, 2, 1))),
    *both_ways(label(ROOT, (0, 2, 0), (0, 2, 1)), label(ROOT, (1, 2, 0))),
    *both_ways(label(ROOT, (0, 2, 0), (9, 9, 9)), label(ROOT, (0, 2, 1), (0, 3, 0))),
    *both_ways(label(ROOT, (1, 64, 0)), label(ROOT, (65, 64, 0))),
    *both_ways(label(ROOT, (2**32 - 1, 64, 2**32 - 1)), label(ROOT, (63, 64, 2**32 - 1))),
    # 16, before intervals and offsets, at the first differing triple
    *both_ways(label(ROOT, (0, 2, 0)), label(ROOT, (0, 3, 0))),
    *both_ways(label(ROOT, ROOT, (0, 2, 0)), label(ROOT, ROOT, (1, 3, 1))),
    *both_ways(label(*FIVE, (0, 63, 0)), label(*FIVE, (0, 64, 1))),
    # 15 at 1 or 2, the first label tested first, and before 16
    *[pair for bad in BAD for pair in both_ways(bad, label(ROOT))],
    (BAD[0], BAD[3]),
    (BAD[7], BAD[7]),
    (label(ROOT, (0, 2, 0)), label(ROOT, (0, 3, 0), (0, 0, 0))),
    (label(ROOT, (0, 2, 0), (0, 65, 0)), label(ROOT, (0, 3, 0))),
]

# ----------------------------------------------- comparisons of segments (A.8)

# Of NESTED_PAIR: concurrent is not transitive. Of CUT_PAIR: a barrier that a cut chunk lacks.
PAIR, CUT_PAIR = bundle(aimed_cases.NESTED_PAIR), bundle(aimed_cases.CUT_PAIR)
ORDERED = [
    *[(PAIR, *pair) for pair in (((1, 0, 0), (1, 1, 0)), ((1, 1, 0), (1, 0, 1)), ((1, 0, 0), (1, 0, 1)))],
    *[(CUT_PAIR, *pair) for pair in (((1, 0, 0), (1, 1, 0)), ((1, 0, 0), (1, 1, 1)))],
]

# ------------------------------------------------------------ shared bytes

GOOD_RANGE = (0, 0, 1, 1)
BAD_RANGES = ((0, 0, 0, 1), (0, 0, 1, 3), (4294967295, 0, 1, 2))

# (first range, second range); the other way too where neither element is 0.
SHARED = [
    *[(case.first, case.second) for case in aimed_cases.SHORT_RANGES],
    *[(case.second, case.first) for case in aimed_cases.SHORT_RANGES if case.overlap and 0 not in case.overlap[1:]],
    # 5 at 1 or 2, the first range tested first
    *[pair for bad in BAD_RANGES for pair in both_ways(bad, GOOD_RANGE)],
    (BAD_RANGES[0], BAD_RANGES[1]),
]

# --------------------------------------------------------------- next race


def listed(title):
    return bundle(next(case.text for case in race_cases.LISTINGS if case.title == title))


# Bundles by the name that their list of races has in the examples.
RACED = {
    "four": listed("four pairs of one byte"),
    "three": listed("three pairs of one byte"),
    "teams": listed("names compared as numbers, low byte first in the log"),
    "witnesses": listed("witness before names"),
    "elements": listed("four pairs of one byte, higher elements first"),
}

# (name of the bundle, witness, first name, second name)
ABOVE = [
    *[(name, *key) for name in RACED for key in (BELOW_ALL, ABOVE_ALL)],
    # the keys of races: only the second name grows, only the first, or both
    ("four", 64, (1, 0, 0), (1, 1, 0)),
    ("four", 64, (1, 0, 0), (1, 1, 1)),
    ("four", 64, (1, 0, 1), (1, 1, 0)),
    ("four", 64, (1, 0, 1), (1, 1, 1)),
    # between two races that differ in one part only
    ("four", 64, (1, 0, 0), (1, 0, 65535)),
    ("four", 64, (1, 0, 0), (1, 1, 2)),
    ("four", 64, (1, 0, 0), HIGHEST),
    ("four", 64, (1, 0, 1), LOWEST),
    ("four", 64, (0, 255, 65535), HIGHEST),
    ("three", 0, (1, 0, 0), (1, 1, 0)),
    ("three", 0, (1, 0, 0), (1, 1, 65535)),
    ("three", 0, (1, 0, 65535), (1, 2, 0)),
    ("three", 0, (1, 1, 0), (1, 1, 65535)),
    ("three", 0, (1, 1, 0), (1, 2, 0)),
    ("teams", 7, (255, 1, 0), (255, 255, 65535)),
    ("teams", 7, (255, 1, 0), (256, 0, 0)),
    ("teams", 7, (255, 255, 65535), (256, 0, 0)),
    ("teams", 7, (256, 0, 0), (256, 255, 65535)),
    ("teams", 7, (256, 0, 0), (257, 0, 0)),
    # the witness stands before the names
    ("witnesses", 14, HIGHEST, HIGHEST),
    ("witnesses", 15, (1, 0, 1), (1, 1, 0)),
    ("witnesses", 15, HIGHEST, HIGHEST),
    ("witnesses", 16, LOWEST, LOWEST),
    # elements do not count
    ("elements", 64, (1, 0, 0), (1, 1, 0)),
    ("elements", 64, (1, 0, 0), (1, 1, 1)),
    ("elements", 64, (1, 0, 1), (1, 1, 0)),
    ("elements", 64, (1, 0, 0), HIGHEST),
    # first above second, and names that are not there
    ("three", 0, (1, 1, 0), (1, 0, 0)),
    ("three", 0, (1, 2, 0), (1, 0, 0)),
    ("three", 0, (7, 7, 7), (3, 3, 3)),
]

# The whole operation: (bundle, words of the area, the word that fills it, witness, first name, second name)
E, FOUR = aimed_cases.E_BYTES, RACED["four"]
NEXT = [
    (E, 16383, 7, *BELOW_ALL),
    (FOUR, 16384, 7, 64, (1, 0, 1), (1, 0, 0)),
    (b"", 16385, 7, *BELOW_ALL),
]

# ------------------------------------------------------------- work areas

# (bundle, words, the word that fills the area)
WIDE_AREAS = [(aimed_cases.E_WIDE_BYTES, 16384, 7)]
AREAS = [(E, 0, 7), (E, 3, 7), (b"", 3, 7), (E, 16383, 7), (E, 16384, 7), (b"", 16385, 7)]
