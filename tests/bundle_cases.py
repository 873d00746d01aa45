"""Frames for the operations on bundles, labels and ranges."""

import random
from itertools import product

import aimed_cases
import generators
import race_cases
import second_reader as sr
from bundle_text import bundle
from second_reader import Range
from vector_frames import check_frame, compare_frame, find_frame, label_frame, shared_frame

SHORT = 1000  # bytes; longer aimed bundles go to large_frames
E, STOPPED = aimed_cases.E_BYTES, bundle(aimed_cases.STOPPED)


def aimed_bundles():
    """The aimed bundles of check."""
    return [data for _, _, _, data in aimed_cases.check_cases()]


def short_aimed_bundles():
    return [data for data in aimed_bundles() if len(data) <= SHORT]


def listed_bundles(cases=race_cases.ALL):
    return [bundle(case.text) for case in cases]


def small_good(rng, count):
    return [generators.random_bundle(rng, generators.SMALL) for _ in range(count)]


def locked_nests(rng, count):
    return [generators.locked_nest_bundle(rng) for _ in range(count)]


def stopped_runs(rng, count):
    return [generators.stopped_run_bundle(rng) for _ in range(count)]


def unlike_teams(rng, count):
    return [generators.bundle_bytes(generators.unlike_members(rng)) for _ in range(count)]


def small_damaged(rng, count):
    return [generators.damaged_bundle(rng, generators.SMALL) for _ in range(count)]


# ------------------------------------------------- check, find and labels

CHECK_SEED = 103  # of the stored frames


def check_frames(seed):
    rng = random.Random(seed)
    for data in short_aimed_bundles() + listed_bundles():
        yield check_frame(data)
    for length in range(len(E)):
        yield check_frame(E[:length])
    for data in small_good(rng, 400) + small_damaged(rng, 1400) + stopped_runs(rng, 30) + unlike_teams(rng, 200):
        yield check_frame(data)
    for style in generators.STYLES * 3:
        yield check_frame(generators.random_bundle(rng, style))
        yield check_frame(generators.damaged_bundle(rng, style))


NO_MEMBERS = ((0, 1), (0, 255), (1, 63), (255, 0), (256, 0), (65535, 0), (65535, 255))


def member_names(data):
    return sorted(sr.check(data).chunk_of)


def find_frames(seed):
    rng = random.Random(seed)
    for data in [E, STOPPED] + small_good(rng, 20) + stopped_runs(rng, 3):
        for team, member in (*member_names(data), *NO_MEMBERS):
            yield find_frame(team, member, data)
    for data in short_aimed_bundles() + small_damaged(rng, 100):
        yield find_frame(rng.randrange(2), 0, data)
    for style in generators.STYLES:
        data = generators.random_bundle(rng, style)
        for team, member in rng.sample(member_names(data), min(3, len(member_names(data)))):
            yield find_frame(team, member, data)


def label_frames(seed):
    rng = random.Random(seed)
    for data in [E, STOPPED] + small_good(rng, 12) + stopped_runs(rng, 3):
        yield from labels_of_all(data)
        for team, member in NO_MEMBERS:
            yield label_frame(team, member, 0, data)
    for data in short_aimed_bundles() + small_damaged(rng, 60):
        yield label_frame(rng.randrange(2), 0, rng.randrange(3), data)
    for style in generators.STYLES:
        data = generators.random_bundle(rng, style)
        frames = list(labels_of_all(data))
        yield from rng.sample(frames, min(6, len(frames)))


def labels_of_all(data):
    """Each segment of each chunk, and numbers that are too high."""
    for chunk in sr.check(data).chunks:
        count = len(chunk.segments)
        for number in (*range(count), count, count + 1, 256 + count, 2**16, 2**31, 2**32 - 1):
            yield label_frame(chunk.team, chunk.member, number, data)


# ------------------------------------------- comparing and shared bytes

ROOT = (0, 1, 0)


def filled(*triples):
    """A label with these triples; those past its count would be refused."""
    return len(triples), [*triples, *[(7, 0, 7)] * (5 - len(triples))]


def compare_frames(seed):
    rng = random.Random(seed)
    inner = list(product((0, 1, 2), (2,), (0, 1))) + [(0, 3, 0), (0, 2, 2**32 - 1), (2**32 - 1, 2, 0)]
    for first, second in product(inner, inner):
        yield compare_frame(filled(ROOT, first), filled(ROOT, second))
    yield compare_frame(filled(ROOT, (0, 2, 0), (0, 2, 1)), filled(ROOT, (1, 2, 0)))
    yield from compare_prefixes()
    yield from compare_bad()
    for _ in range(300):
        label = generators.random_label(rng)
        for other in (generators.like_label(rng, label), generators.random_label(rng)):
            yield compare_frame(label, other)
            yield compare_frame(other, label)


def compare_prefixes():
    """All pairs of prefixes of one label."""
    triples = [ROOT, (1, 2, 3), (4, 5, 6), (7, 64, 9), (63, 64, 0)]
    for first, second in product(range(1, 6), range(1, 6)):
        yield compare_frame(filled(*triples[:first]), filled(*triples[:second]))


def compare_bad():
    good = filled(ROOT)
    bad = [(count, [ROOT] * 5) for count in (0, 6, 7, 256, 2**31, 2**32 - 1)]
    bad += [filled((0, span, 0)) for span in (0, 2, 64, 65, 2**32 - 1)]
    for place in range(1, 5):
        for span in (0, 65, 256, 2**32 - 1):
            bad.append(filled(*[ROOT] * place, (0, span, 0)))
    for label in bad:
        yield compare_frame(label, good)
        yield compare_frame(good, label)
        yield compare_frame(label, bad[0])
        yield compare_frame(bad[0], label)
    for place in range(1, 5):  # 16 at each place, before intervals and offsets
        yield compare_frame(filled(*[ROOT] * place, (0, 2, 0)), filled(*[ROOT] * place, (1, 3, 1)))
        yield compare_frame(filled(*[ROOT] * place, (0, 64, 0)), filled(*[ROOT] * place, (0, 1, 0)))


def shared_frames(seed):
    rng = random.Random(seed)
    top = sr.LAST_ADDRESS
    for first, second in (
        ((0, 8, 4, 4), (4, 8, 4, 4)),
        ((0, 8, 4, 4), (4, 0, 1, 8)),
        ((0, 3, 3, 1), (1, 2, 3, 1)),
        ((top, 0, 1, 1), (top, 0, 1, 1)),
        ((0, 65535, 65535, 8), (top - 7, 0, 1, 8)),
        ((0, 65535, 65535, 8), (65534 * 65535 + 7, 0, 1, 8)),
        ((0, 65535, 65535, 1), (1, 65534, 65535, 1)),
        ((0, 65535, 65535, 1), (65534, 65534, 65535, 1)),
        ((0, 65534, 65535, 8), (9, 65534, 65535, 8)),
        ((0, 1, 65535, 1), (65534, 1, 65535, 1)),
        ((0, 1, 65535, 1), (65535, 1, 65535, 1)),
    ):
        yield shared_frame(Range(*first), Range(*second))
        yield shared_frame(Range(*second), Range(*first))
    for case in aimed_cases.OVERLAPS:
        yield shared_frame(Range(*case.first), Range(*case.second))
        yield shared_frame(Range(*case.second), Range(*case.first))
    yield from shared_small()
    yield from shared_coprime(rng)
    for _ in range(1000):
        yield shared_frame(generators.small_range(rng), generators.small_range(rng))
    for _ in range(300):
        yield shared_frame(generators.middle_range(rng), generators.middle_range(rng))
        yield shared_frame(generators.far_range(rng), generators.far_range(rng))
        yield shared_frame(generators.any_range(rng), generators.any_range(rng))
    yield from shared_dense(rng)
    yield from shared_bad()


def shared_small():
    """All pairs of small ranges: single elements, and 2 or 3 elements with strides 1 to 5, at distances 0 to 18."""
    shapes = [(0, 1, size) for size in (1, 2, 4)]
    shapes += [(stride, count, size) for stride, count, size in product((1, 2, 3, 5), (2, 3), (1, 2))]
    for first, second, distance in product(shapes, shapes, range(19)):
        yield shared_frame(Range(20, *first), Range(20 + distance, *second))
    for first, second in product(shapes, shapes):
        yield shared_frame(Range(27, *first), Range(20, *second))


def shared_coprime(rng):
    """Long ranges with strides that have no common factor, and ranges that end at the last address."""
    for stride, other in ((997, 1009), (1000, 999), (64, 65), (65521, 65519), (3, 65534), (4096, 4095), (8, 12)):
        for _ in range(60):
            count, limit = rng.randint(2, 65000), rng.randint(2, 65000)
            first = Range(rng.randrange(4000), stride, count, rng.choice((1, 2, 4, 8)))
            second = Range(rng.randrange(70000), other, limit, rng.choice((1, 2, 4, 8)))
            yield shared_frame(first, second)
            yield shared_frame(second, first)
    for _ in range(200):
        ranges = []
        for _ in range(2):
            stride, count, size = rng.randint(1, 900), rng.randint(2, 900), rng.choice((1, 2, 4, 8))
            last = sr.LAST_ADDRESS - rng.choice((0, 0, 1, rng.randrange(9000)))
            ranges.append(Range(last - (count - 1) * stride - (size - 1), stride, count, size))
        yield shared_frame(*ranges)


def shared_dense(rng):
    """Ranges whose elements overlap each other, against others of that kind and against elements apart."""
    shapes = [(stride, 9, 8) for stride in range(1, 9)] + [(stride, 9, 4) for stride in (1, 2, 3)]
    for shape in shapes:  # each byte of the range and those beside it
        r = Range(20, *shape)
        for byte in range(r.base - 1, r.base + 8 * r.stride + r.size + 1):
            yield shared_frame(r, Range(byte, 0, 1, 1))
    for _ in range(400):
        dense = generators.dense_range(rng, rng.randrange(300))
        yield shared_frame(dense, generators.sparse_range(rng, rng.randrange(300)))
        yield shared_frame(generators.sparse_range(rng, rng.randrange(300)), dense)
        yield shared_frame(dense, generators.dense_range(rng, rng.randrange(300)))
    for _ in range(300):
        long = generators.long_dense_range(rng)
        yield shared_frame(*rng.sample((long, generators.range_from(rng, long)), 2))


def shared_bad():
    good = Range(0, 0, 1, 1)
    bad = [Range(0, stride, count, size) for stride, count, size in product((0, 1), (0, 1, 2), range(10))]
    bad += [Range(sr.LAST_ADDRESS - last, 1, 2, size) for last, size in product(range(9), (1, 2, 4, 8))]
    for r in bad:
        yield shared_frame(r, good)
        yield shared_frame(good, r)
    yield shared_frame(Range(0, 0, 0, 1), Range(0, 0, 0, 1))


# ------------------------------------------------------------ long bundles


def large_frames(seed):
    """Bundles at and past the limits; about a million bytes."""
    rng = random.Random(seed)
    for data in aimed_bundles():
        if len(data) > SHORT:
            yield check_frame(data)
    for style in (generators.LARGE, generators.QUIET):
        for data in shuffled_full_bundle(rng, style):
            yield check_frame(data)
            yield find_frame(0, 1, data)
            yield label_frame(*rng.choice(member_names(data)), 0, data)


def shuffled_full_bundle(rng, style):
    return [generators.bundle_bytes(generators.shuffled(rng, generators.full_bundle(rng, style)))]
