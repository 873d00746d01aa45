"""Bundles and what they are converted to, by hand from request A.6 of document 02."""

import random
import re
from collections import namedtuple

import generators
import second_reader as sr
from aimed_cases import E_BYTES, E_WIDE, E_WIDE_BYTES, check_cases
from bundle_text import assemble, bundle
from vector_frames import OPERATION_TO_NARROW, OPERATION_TO_WIDE, rewrite_frame

OPERATIONS = {"wide": OPERATION_TO_WIDE, "narrow": OPERATION_TO_NARROW}

# A narrow bundle and the wide one: each is converted to the other.
Pair = namedtuple("Pair", "title narrow wide")

E_SMALL_SITES = bytes.fromhex(
    "01 00 00 00 10 01 00 02 02"
    "01 01 00 00 39 0a 00 00 00 00 10 00 00 08 00 02 00 04 11 02"
    "01 01 00 01 38 14 00 00 00 0a 10 00 00 00 00 01 00 04 11 02"
)
ONE_OF_EACH = (
    "01 00 00 00 30 3433 33323130 0000 0100 01 31 ffff 39383b3a 3130 3332 02 11 32 0000 38000000 3800 3900 04"
    "33 3800 3b3a3938 3b3a 0b00 08 02",
    "01 00 00 00 38 34330000 33323130 0000 0100 01 39 ffff0000 39383b3a 3130 3332 02 11 3a 00000000 38000000 3800 3900 04"
    "3b 38000000 3b3a3938 3b3a 0b00 08 02",
)


def wide_text(text):
    """The text with each access's word for the other group."""
    return re.sub(r"\b(atomic-)?(read|write) ", r"wide-\g<0>", text)


def pair(title, text):
    return Pair(title, bundle(text), bundle(wide_text(text)))


PAIRS = [
    Pair("E", E_BYTES, E_SMALL_SITES),
    Pair("one of each kind, operands that look like commands", *map(bytes.fromhex, ONE_OF_EACH)),
    pair("one access", "member 0 0; read 1 0 0 1 1; end"),
    pair("sites 0, 1, 255, 256, 65,534 and 65,535",
         "member 0 0; " + "; ".join(f"write {site} 0 0 1 1" for site in (0, 1, 255, 256, 65534, 65535)) + "; end"),
    pair("chunks stay in their order", "member 1 1; write 9 8 0 1 1; cut; member 1 0; read 8 8 0 1 1; end; member 0 0; region 1 2; end"),
    pair("an access in the last chunk alone", "member 0 0; region 1 2; end; member 1 1; end; member 1 0; read 1 2 3 4 1; end"),
    pair("locks, barriers and regions between", """
        member 0 0; acquire 48; read 48 49 0 1 1; barrier; region 48 1; release 48; write 12344 0 0 1 8; cut
        member 48 0; acquire 56; acquire 49; atomic-read 14392 14392 56 57 4; release 49; release 56; atomic-write 0 0 0 1 1; end"""),
    pair("a race", "member 0 0; region 1 2; end; member 1 0; write 1 64 0 1 4; end; member 1 1; atomic-write 65535 60 4 2 8; end"),
]

# Without accesses: copied both ways.
COPIED = [
    ("only a root", bundle("member 0 0; end")),
    ("a cut root", bundle("member 0 0; barrier; cut")),
    ("operands that look like accesses", bundle("""
        member 0 0; region 48 1; acquire 48; release 48; end; member 48 0; region 14385 1; acquire 56; cut
        member 14385 0; acquire 49; acquire 57; release 49; release 57; end""")),
    ("back to front", bundle("member 1 1; barrier; end; member 1 0; barrier; end; member 0 0; region 1 2; end")),
]

# Wide bundles that cannot be made narrow: the marked command has the first site over 65,535.
ONLY_WIDE = [
    (title, *assemble(text)) for title, text in (
        ("site 65,536", "member 0 0; *wide-read 65536 0 0 1 1; end"),
        ("site 65,537", "member 0 0; *wide-write 65537 0 0 1 1; end"),
        ("site 131,072", "member 0 0; *wide-atomic-read 131072 0 0 1 1; end"),
        ("site 4,294,967,295", "member 0 0; *wide-atomic-write 4294967295 0 0 1 1; end"),
        ("site 2,147,483,648", "member 0 0; *wide-atomic-write 2147483648 0 0 1 1; end"),
        ("E, the write", E_WIDE.replace("wide-write", "*wide-write")),
        ("E, the read", E_WIDE.replace("70000", "65535").replace("wide-read 20", "*wide-read 65536")),
        ("the second of three", "member 0 0; wide-read 65535 0 0 1 1; *wide-read 65536 0 0 1 1; wide-read 1 0 0 1 1; end"),
        ("two, the lower offset", "member 0 0; wide-read 1 0 0 1 1; *wide-read 70000 0 0 1 1; wide-read 65536 0 0 1 1; end"),
        ("three, behind other commands", """
            member 0 0; acquire 3; barrier; wide-write 0 0 0 1 1
            *wide-read 4294967295 0 0 1 1; wide-read 65536 0 0 1 1; wide-read 99999 0 0 1 1; cut"""),
        ("two chunks, the lower offset and the higher name",
         "member 1 1; *wide-write 65536 0 0 1 1; end; member 1 0; wide-read 65536 0 0 1 1; end; member 0 0; region 1 2; end"),
        ("in the last chunk, the first ones small", """
            member 0 0; region 1 1; wide-write 65535 0 0 1 1; wide-write 0 0 0 1 1; end
            member 1 0; wide-read 7 0 0 1 1; *wide-read 65536 0 0 1 1; end"""),
    )
]

# Where the result may be too long, all about 65,536 bytes: (title, narrow bundle, length of the wide one).
MANY, ONE = "times 1024 write 65535 0 0 1 1", "atomic-read 1 0 0 1 1"


def about_limit(accesses, barriers, locks):
    return bundle(f"member 0 0; {accesses}; times {barriers} barrier; times {locks} acquire 1, release 1; end")


AT_LIMIT = [
    ("1,024 accesses, 65,536 bytes", about_limit(MANY, 3, 12798), 65536),
    ("one access, 65,536 bytes", about_limit(ONE, 1, 16379), 65536),
]
PAST_LIMIT = [
    ("1,024 accesses, 65,537 bytes", about_limit(MANY, 4, 12798), 65537),
    ("1,024 accesses, 65,538 bytes", about_limit(MANY, 5, 12798), 65538),
    ("one access, 65,537 bytes", about_limit(ONE, 2, 16379), 65537),
    ("one access, 65,538 bytes: the bundle itself has 65,536", about_limit(ONE, 3, 16379), 65538),
    ("1,024 accesses, 67,584 bytes: the bundle itself has 65,536", about_limit(MANY, 3, 13310), 67584),
]
FULL_WIDE = bundle(wide_text(f"member 0 0; {MANY}; times 3 barrier; times 12798 acquire 1, release 1; end"))  # 65,536 bytes
FULL_WITHOUT = bundle("member 0 0; times 3 barrier; times 16382 acquire 1, release 1; end")  # 65,536 bytes without accesses
LATE_SITE = bundle(wide_text("member 0 0; times 1023 read 65535 0 0 1 1; *read 65536 0 0 1 1; end"))  # 21 at the last access

# Short bundles that check refuses.
REFUSED = [(title, number, place, data) for title, number, place, data in check_cases() if number is not None and len(data) <= 200]


def shortest_refused():
    """A short bundle for each refusal of check."""
    found = {}
    for title, number, place, data in sorted(REFUSED, key=lambda case: len(case[3])):
        found.setdefault(number, (title, number, place, data))
    return list(found.values())


# ------------------------------------------------------------------ frames

CONVERT_SEED, STORED = 113, 40  # of the stored frames, and how many random bundles they have
BOTH_REFUSED = bundle("member 0 0; wide-read 65536 0 0 1 1; region 1 1; end")  # 10, and a site over 65,535


def by_hand():
    """The bundles above that are not long."""
    datas = [data for case in PAIRS for data in (case.narrow, case.wide)]
    datas += [data for _, data in COPIED] + [data for _, data, _ in ONLY_WIDE] + [E_WIDE_BYTES, BOTH_REFUSED, b""]
    return datas + [data for *_, data in shortest_refused()]


def result_length(word, data):
    """How long the result is, or the bundle where there is none."""
    out, _ = sr.convert(word, data)
    return len(out) or len(data)


def some_lengths(rng, word, data):
    """Empty, one short, as long as the result, longer; as long as the bundle; any."""
    size = result_length(word, data)
    return sorted({0, max(size - 1, 0), size, size + 1, len(data), max(len(data) - 1, 0), rng.randrange(2 * size + 2), size + 40})


def given_bundles(rng, count):
    """Good bundles of each group, damaged ones, and some that are wide with small sites alone."""
    for _ in range(count):
        style = rng.choice(generators.STYLES)
        turn = rng.randrange(10)
        if turn < 2:
            yield generators.damaged_bundle(rng, style)
        elif turn < 4:
            yield generators.random_bundle(rng, style)
        elif turn < 7:
            yield small_sites(rng, generators.random_chunks(rng, style._replace(wides=0)))
        else:
            yield few_large_sites(rng, generators.random_chunks(rng, style._replace(wides=0)))


def small_sites(rng, chunks):
    """Wide, but no site over 65,535."""
    wide = generators.widened(rng, chunks, lambda rng: rng.choice((0, 65535, rng.randrange(65536))))
    return generators.bundle_bytes(generators.shuffled(rng, wide))


def few_large_sites(rng, chunks):
    """Wide, with some sites over 65,535."""
    chance = rng.choice((2, 6, 20))
    wide = generators.widened(rng, chunks, lambda rng: generators.wide_site(rng) if rng.randrange(chance) == 0 else rng.randrange(65536))
    return generators.bundle_bytes(generators.shuffled(rng, wide))


def convert_frames(seed, count=150):
    """TO_WIDE and TO_NARROW of the cases by hand and of random bundles, into buffers that are too short, just right and longer."""
    rng = random.Random(seed)
    given = by_hand() + list(given_bundles(rng, count)) + [generators.stopped_run_bundle(rng) for _ in range(count // 8)]
    for data in given:
        if len(data) > 1200:
            continue
        for word, operation in OPERATIONS.items():
            for length in some_lengths(rng, word, data):
                yield rewrite_frame(length, rng.randrange(256), data, operation)


def large_convert_frames(seed):
    """About 65,536 bytes."""
    rng = random.Random(seed)
    filler = lambda: rng.randrange(256)
    wide, narrow = OPERATION_TO_WIDE, OPERATION_TO_NARROW
    for _, data, length in AT_LIMIT:
        yield rewrite_frame(length, filler(), data, wide)
    yield rewrite_frame(65535, filler(), AT_LIMIT[0][1], wide)
    yield rewrite_frame(66000, filler(), PAST_LIMIT[0][1], wide)
    for _, data, _ in PAST_LIMIT[:4]:
        yield rewrite_frame(rng.choice((0, 100)), filler(), data, wide)
    yield rewrite_frame(65536, filler(), FULL_WIDE, wide)
    yield rewrite_frame(63488, filler(), FULL_WIDE, narrow)
    yield rewrite_frame(65535, filler(), FULL_WITHOUT, wide)
    for data in (FULL_WIDE + b"\x02", bytes(65537)):
        yield rewrite_frame(10, filler(), data, narrow)
        yield rewrite_frame(10, filler(), data, wide)
    yield rewrite_frame(0, filler(), LATE_SITE, narrow)
