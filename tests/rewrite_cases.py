"""Bundles and what they are rewritten to, by hand from request A.1 of document 02."""

import random
from collections import namedtuple

import generators
from aimed_cases import E_BYTES, E_WIDE_BYTES
from bundle_text import bundle
from convert_cases import E_SMALL_SITES
from vector_frames import rewrite_frame

Case = namedtuple("Case", "title data result")

ROOT, FIRST, SECOND = E_BYTES[:9], E_BYTES[9:27], E_BYTES[27:]

BACK_TO_FRONT = SECOND + FIRST + ROOT

# Chunks of E in every order.
ORDERS_OF_E = [
    Case(title, data, E_BYTES)
    for title, data in (
        ("E", ROOT + FIRST + SECOND),
        ("E, members the other way round", ROOT + SECOND + FIRST),
        ("E, root in the middle", FIRST + ROOT + SECOND),
        ("E, root in the middle, members the other way round", SECOND + ROOT + FIRST),
        ("E, root last", FIRST + SECOND + ROOT),
        ("E, back to front", BACK_TO_FRONT),
    )
]

OTHERS = [
    Case(title, bundle(given), bundle(wanted))
    for title, given, wanted in (
        ("only a root", "member 0 0; end", "member 0 0; end"),
        ("a lower member of a higher team stands behind",
         "member 0 0; region 1 2; region 2 2; end; member 2 0; end; member 1 1; end; member 2 1; end; member 1 0; end",
         "member 0 0; region 1 2; region 2 2; end; member 1 0; end; member 1 1; end; member 2 0; end; member 2 1; end"),
        ("a team's number is compared, not its bytes",
         "member 256 0; end; member 2 0; end; member 0 0; region 256 1; region 2 3; end; member 2 1; end; member 2 2; end",
         "member 0 0; region 256 1; region 2 3; end; member 2 0; end; member 2 1; end; member 2 2; end; member 256 0; end"),
        ("the highest team and member",
         "member 65535 63; end; " + "".join(f"member 65535 {m}; end; " for m in range(63)) + "member 0 0; region 65535 64; end",
         "member 0 0; region 65535 64; end" + "".join(f"; member 65535 {m}; end" for m in range(64))),
        ("members 9 and 10 as numbers",
         "member 7 10; end; member 7 9; end; " + "".join(f"member 7 {m}; end; " for m in range(9)) + "member 0 0; region 7 11; end",
         "member 0 0; region 7 11; end" + "".join(f"; member 7 {m}; end" for m in range(11))),
        ("inner teams with lower numbers first, whoever forked them",
         "member 5 0; end; member 3 0; region 5 1; end; member 4 0; end; member 0 0; region 4 1; region 3 1; end",
         "member 0 0; region 4 1; region 3 1; end; member 3 0; region 5 1; end; member 4 0; end; member 5 0; end"),
        ("equal chunks but for the member",
         "member 1 1; write 1 0 0 1 1; end; member 1 0; write 1 0 0 1 1; end; member 0 0; region 1 2; end",
         "member 0 0; region 1 2; end; member 1 0; write 1 0 0 1 1; end; member 1 1; write 1 0 0 1 1; end"),
        ("cut chunks and complete ones",
         "member 1 1; acquire 3; cut; member 1 2; barrier; end; member 1 0; barrier; cut; member 0 0; region 1 3; cut",
         "member 0 0; region 1 3; cut; member 1 0; barrier; cut; member 1 1; acquire 3; cut; member 1 2; barrier; end"),
        ("wide accesses",
         "member 1 1; wide-write 65536 0 0 1 1; end; member 1 0; wide-read 0 0 0 1 1; end; member 0 0; region 1 2; end",
         "member 0 0; region 1 2; end; member 1 0; wide-read 0 0 0 1 1; end; member 1 1; wide-write 65536 0 0 1 1; end"),
        ("commands within a chunk stay as they are",
         "member 1 0; write 9 8 0 1 1; acquire 3; read 2 4 0 1 1; release 3; end; member 0 0; barrier; region 1 1; acquire 1; release 1; end",
         "member 0 0; barrier; region 1 1; acquire 1; release 1; end; member 1 0; write 9 8 0 1 1; acquire 3; read 2 4 0 1 1; release 3; end"),
    )
]

CASES = ORDERS_OF_E + OTHERS

# Two bundles, and whether they hold the same chunks.
PAIRS = [
    ("the same in two orders", ROOT + FIRST + SECOND, SECOND + FIRST + ROOT, True),
    ("one site differs", E_BYTES, E_BYTES[:14] + b"\x0b" + E_BYTES[15:], False),
    ("the same with wide sites", E_BYTES, E_SMALL_SITES, False),
    ("the high half of one site differs", E_WIDE_BYTES, E_WIDE_BYTES[:16] + b"\x02" + E_WIDE_BYTES[17:], False),
    ("two accesses swapped within a chunk",
     bundle("member 0 0; read 1 0 0 1 1; read 2 0 0 1 1; end"), bundle("member 0 0; read 2 0 0 1 1; read 1 0 0 1 1; end"), False),
    ("the members' logs exchanged",
     bundle("member 0 0; region 1 2; end; member 1 0; read 1 0 0 1 1; end; member 1 1; end"),
     bundle("member 0 0; region 1 2; end; member 1 0; end; member 1 1; read 1 0 0 1 1; end"), False),
    ("CUT in place of END", bundle("member 0 0; end"), bundle("member 0 0; cut"), False),
    ("one team more", bundle("member 0 0; end"), bundle("member 0 0; region 1 1; end; member 1 0; end"), False),
]


def rewrite_frames(seed, count=150):
    """REWRITE of the cases by hand and of random bundles, good and damaged, into buffers that are too short, just right and longer."""
    rng = random.Random(seed)
    given = [case.data for case in CASES] + [b"", E_BYTES[:40]]
    for _ in range(count):
        make = generators.random_bundle if rng.random() < 0.7 else generators.damaged_bundle
        given.append(make(rng, rng.choice(generators.STYLES)))
    given += [generators.stopped_run_bundle(rng) for _ in range(count // 8)]
    for data in given:
        if len(data) > 4000:
            continue
        for length in sorted({0, max(len(data) - 1, 0), len(data), len(data) + 1, rng.randrange(4097), len(data) + 40}):
            yield rewrite_frame(length, rng.randrange(256), data)

