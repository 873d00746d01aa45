"""Frames for judge and next race."""

import random

import aimed_cases
import generators
import race_cases
import second_reader as sr
from bundle_cases import listed_bundles, locked_nests, short_aimed_bundles, small_damaged, small_good, stopped_runs
from bundle_text import bundle
from second_reader import Command
from vector_frames import judge_frame, next_frame

# Whether crates/vectors answers judge and next race. Turned on, these frames are written and compared too.
ANSWERED = True

LENGTHS = (0, 16383, 16384, 20000)  # of a work area, in words
FILLERS = (0, 1, 0x80000000, 0xFFFFFFFF, 0x5A5A5A5A)
E = aimed_cases.E_BYTES
TOO_LONG = bytes(65537)

LOWEST, HIGHEST = (0, 0, 0), (65535, 255, 65535)
BELOW_ALL = (0, LOWEST, LOWEST)  # a first name is below its second, so no race has this key
ABOVE_ALL = (sr.LAST_ADDRESS, HIGHEST, HIGHEST)
TOPS = (sr.LAST_ADDRESS, *HIGHEST, *HIGHEST)  # the highest number of each part of a key


def some_area(rng):
    """A work area that is large enough, mostly of just that size."""
    return rng.choice((16384, 16384, 16384, 20000)), rng.choice(FILLERS)


def all_areas():
    return [(words, filler) for words in LENGTHS for filler in (0, 0xFFFFFFFF)]


def refused_bundles():
    """A short bundle for each refusal of check that has one."""
    found = {}
    for _, number, _, data in aimed_cases.check_cases():
        if number and len(data) < 100:
            found.setdefault(number, data)
    return list(found.values())


def parts_of(key):
    witness, first, second = key
    return (witness, *first, *second)


def key_of(parts):
    return parts[0], tuple(parts[1:4]), tuple(parts[4:7])


# ------------------------------------------------------------------- judge

JUDGE_SEED = 108  # of the stored frames


def judge_frames(seed):
    rng = random.Random(seed)
    for area in all_areas():
        for data in (E, bundle(aimed_cases.E_LATE_READ), *refused_bundles()):
            yield judge_frame(area, data)
    for words in (1, 255, 256, 16385, 19999):
        yield judge_frame((words, 7), E)
    for data in listed_bundles() + short_aimed_bundles():
        yield judge_frame(some_area(rng), data)
    for data in small_good(rng, 150) + small_damaged(rng, 60):
        yield judge_frame(some_area(rng), data)
    for style in generators.STYLES * 2:
        yield from judge_some_orders(rng, generators.random_chunks(rng, style))
    for _ in range(20):
        yield from judge_some_orders(rng, generators.one_interval(rng))
        yield from judge_some_orders(rng, generators.random_chunks(rng, generators.DENSE))
        yield from judge_some_orders(rng, generators.locked_nest(rng))
    for _ in range(8):
        yield from judge_some_orders(rng, generators.locked_nest(rng))
    for data in stopped_runs(rng, 100):
        yield judge_frame(some_area(rng), data)
    for _ in range(10):
        yield from judge_some_orders(rng, generators.stopped_run(rng))
    for _ in range(4):
        yield from judge_all_orders(rng)
        yield from judge_some_orders(rng, generators.random_chunks(rng, generators.MANY_DENSE))


def judge_some_orders(rng, chunks):
    """As made, backwards and shuffled."""
    for order in (chunks, chunks[::-1], generators.shuffled(rng, chunks)):
        yield judge_frame(some_area(rng), generators.bundle_bytes(order))


def judge_all_orders(rng):
    chunks = generators.random_chunks(rng, generators.SMALL)
    while len(chunks) > 4:
        chunks = generators.random_chunks(rng, generators.SMALL)
    for order in generators.all_orders(chunks):
        yield judge_frame(some_area(rng), generators.bundle_bytes(order))


# --------------------------------------------------------------- next race

# Races that have the first two numbers of each name, or all three, in common; one byte, and one race of another.
ALIKE = bundle("""
member 0 0; region 1 2; end
member 1 0; write 10 64 0 1 1; write 11 64 0 1 1; region 2 2; region 5 1; end
member 1 1; write 12 64 0 1 1; write 13 64 0 1 1; region 3 2; region 4 1; end
member 2 0; read 20 64 0 1 1; end
member 2 1; read 21 64 0 1 1; read 22 64 0 1 1; end
member 3 0; write 30 64 0 1 1; end
member 3 1; read 31 64 0 1 1; write 32 66 0 1 1; end
member 4 0; write 40 64 0 1 1; end
member 5 0; read 50 66 0 1 1; end
""")


def next_frames(seed):
    rng = random.Random(seed)
    for area in all_areas():
        for data in (E, bundle(aimed_cases.E_LATE_READ), *refused_bundles()):
            yield next_frame(area, *BELOW_ALL, data)
    for data in [E, ALIKE] + listed_bundles(race_cases.LISTINGS + race_cases.LONG) + small_good(rng, 25):
        yield from walk(rng, data)
        yield from outside_of_all(rng, data)
    for data in listed_bundles(race_cases.LOCKED_AROUND + race_cases.STOPPED + race_cases.WIDE) + locked_nests(rng, 12) + stopped_runs(rng, 12):
        yield from walk(rng, data)
    for style in (generators.MIDDLE, generators.NESTED, generators.LOCKED, generators.FAR, generators.QUIET):
        yield from walk(rng, generators.random_bundle(rng, style))
    for _ in range(5):
        yield from walk(rng, generators.bundle_bytes(generators.shuffled(rng, generators.one_interval(rng))))
        yield from walk(rng, generators.random_bundle(rng, generators.DENSE))
    yield from walk(rng, generators.random_bundle(rng, generators.MANY_DENSE))
    for data in (E, ALIKE):
        yield from about_races(rng, data, 60)
    for data in small_good(rng, 10):
        yield from about_races(rng, data, 3)


def races_of(data):
    return sr.all_races(sr.check(data))


LONGEST_WALK = 40


def walk(rng, data):
    """From below all, each answer as the next key; a long walk only at its ends."""
    keys = [BELOW_ALL] + [sr.race_key(race) for race in races_of(data)]
    if len(keys) > LONGEST_WALK:
        keys = keys[: LONGEST_WALK // 2] + keys[-LONGEST_WALK // 2 :]
    for key in keys:
        yield next_frame(some_area(rng), *key, data)


def outside_of_all(rng, data):
    for key in (
        ABOVE_ALL,
        (sr.LAST_ADDRESS, LOWEST, LOWEST),
        (0, HIGHEST, HIGHEST),
        (0, LOWEST, HIGHEST),
        (0, HIGHEST, LOWEST),
    ):
        yield next_frame(some_area(rng), *key, data)


def about_races(rng, data, most):
    """Keys just beside races: names exchanged or alike, and each part lower or higher by one."""
    races = races_of(data)
    for race in rng.sample(races, min(most, len(races))):
        witness, first, second = sr.race_key(race)
        keys = {(witness, second, first), (witness, first, first), (witness, second, second)}
        keys.update(beside(sr.race_key(race)))
        for key in rng.sample(sorted(keys), min(24, len(keys))):
            yield next_frame(some_area(rng), *key, data)


def beside(key):
    """One part lower or higher by one, those behind it as they are, lowest or highest."""
    parts = parts_of(key)
    for place, top in enumerate(TOPS):
        for value in (parts[place] - 1, parts[place], parts[place] + 1):
            if 0 <= value <= top:
                for rest in (parts, (0,) * 7, TOPS):
                    yield key_of((*parts[:place], value, *rest[place + 1 :]))


# ------------------------------------------------------------ long bundles


def large_verdict_frames(seed):
    """Judgements of bundles at the limits, of the same with cut chunks, and 13 before 1."""
    rng = random.Random(seed)
    yield judge_frame((16383, 1), TOO_LONG)
    yield judge_frame((16384, 1), TOO_LONG)
    yield next_frame((0, 1), *BELOW_ALL, TOO_LONG)
    yield next_frame((20000, 1), *BELOW_ALL, TOO_LONG)
    for style in (generators.LARGE, generators.QUIET):
        chunks = generators.full_bundle(rng, style)
        for order in (chunks, generators.shuffled(rng, generators.cut_some(rng, chunks))):
            data = generators.bundle_bytes(order)
            yield judge_frame(some_area(rng), data)
            yield next_frame(some_area(rng), generators.BASE + 20, LOWEST, LOWEST, data)
    yield judge_frame(some_area(rng), generators.bundle_bytes(many_races()))


def many_races():
    """More races than 16 bits count: 32 members that write one byte 13 times each."""
    write = Command(sr.WRITE, (1, generators.BASE, 0, 1, 1))
    chunks = [[Command(sr.MEMBER, (0, 0)), Command(sr.REGION, (1, 32)), Command(sr.END, ())]]
    for member in range(32):
        chunks.append([Command(sr.MEMBER, (1, member)), *[write] * 13, Command(sr.END, ())])
    return chunks
