"""Labels, their comparison, and the lowest shared byte of two ranges with the elements that cover it."""

from collections import namedtuple
from functools import lru_cache
from math import gcd

from reader_bundles import check
from reader_commands import Refused, range_is_good

# ------------------------------------------------------------------ labels


def segment_label(bundle, chunk, number):
    """The triples of a segment, those of its forking segment first."""
    span = bundle.team_size(chunk.team)
    segment = chunk.segments[number]
    own = (chunk.member + span * segment.regions, span, segment.barriers)
    if chunk.team == 0:
        return (own,)
    fork = bundle.fork_of[chunk.team]
    return (*segment_label(bundle, fork.chunk, fork.segment), own)


def label_of(data, team, member, number):
    bundle = check(data)
    chunk = bundle.chunk_of.get((team, member))
    if chunk is None or number >= len(chunk.segments):
        raise Refused(14, 0)
    return segment_label(bundle, chunk, number)


def label_is_good(count, triples):
    """triples may hold more than count; those are not looked at."""
    if not 1 <= count <= 5:
        return False
    spans = [span for _, span, _ in triples[:count]]
    return spans[0] == 1 and all(1 <= span <= 64 for span in spans)


def compare_labels(first, second):
    """Each label is (count, triples)."""
    for place, (count, triples) in ((1, first), (2, second)):
        if not label_is_good(count, triples):
            raise Refused(15, place)
    left = tuple(first[1][: first[0]])
    right = tuple(second[1][: second[0]])
    if left == right:
        return "same"
    if right[: len(left)] == left:
        return "before"
    if left[: len(right)] == right:
        return "after"
    place = next(k for k in range(5) if left[k] != right[k])
    return compare_triples(left[place], right[place], place)


def compare_triples(left, right, place):
    """The first differing triples, place being their number from 0."""
    if left[1] != right[1]:
        raise Refused(16, place)
    if left[2] != right[2]:
        return "before" if left[2] < right[2] else "after"
    if left[0] % left[1] == right[0] % left[1]:
        return "before" if left[0] < right[0] else "after"
    return "concurrent"


# ------------------------------------------------------------ shared bytes

SMALL_RANGE = 128  # count times size, up to which sets are used


def bytes_of(r):
    return frozenset(r.base + k * r.stride + j for k in range(r.count) for j in range(r.size))


kept_bytes_of = lru_cache(maxsize=2048)(bytes_of)  # the same, for small ranges


def shared_by_sets(a, b):
    return min(bytes_of(a) & bytes_of(b), default=None)


def shared_by_solving(a, b):
    """Elements starting at x and y share a byte exactly when
    -size of a < x - y < size of b, and their lowest is then max(x, y).
    For each such difference the lowest x is wanted."""
    found = []
    for difference in range(1 - a.size, b.size):
        x = lowest_start(a, b, difference)
        if x is not None:
            found.append(max(x, x - difference))
    return min(found, default=None)


def lowest_start(a, b, difference):
    """The lowest start x of an element of a for which x - difference starts
    an element of b. With x = a.base + i * s and x - difference = b.base + k * t
    this asks for the least i, k >= 0 with i * s - k * t = gap."""
    s, t = a.stride or 1, b.stride or 1  # stride 0 has one element only
    gap = b.base + difference - a.base
    common = gcd(s, t)
    if gap % common:
        return None
    period = t // common  # solutions i recur with it
    i = gap // common * pow(s // common, -1, period) % period
    least = max(0, -(-gap // s))  # k >= 0 exactly when i * s >= gap
    if i < least:
        i += -(-(least - i) // period) * period
    k = (i * s - gap) // t
    return a.base + i * s if i < a.count and k < b.count else None


def shared_byte(a, b):
    """The lowest shared byte of two good ranges, or None."""
    if a.count * a.size <= SMALL_RANGE and b.count * b.size <= SMALL_RANGE:
        return min(kept_bytes_of(a) & kept_bytes_of(b), default=None)
    return shared_by_solving(a, b)


# ---------------------------------------------------------------- elements

Overlap = namedtuple("Overlap", "byte first_element second_element")


@lru_cache(maxsize=4096)
def lowest_element(r, byte):
    """The lowest number of an element that covers the byte, which is one of the range's: all are tried, from 0 on."""
    base, stride, count, size = r
    return next(k for k in range(count) if base + k * stride <= byte < base + k * stride + size)


def lowest_shared_byte(a, b):
    for place, r in ((1, a), (2, b)):
        if not range_is_good(r):
            raise Refused(5, place)
    byte = shared_byte(a, b)
    return None if byte is None else Overlap(byte, lowest_element(a, byte), lowest_element(b, byte))
