"""What programs that misread the rule on locks held around a region would count as the locks of an access.

A reading takes the bundle, the access, its lineage and the place where the lineages part. tests/selfcheck counts that the cases
tell each one from the right reading, which is the second reader's locks_counted.
"""

from collections import Counter

import second_reader as sr


def around(bundle, chunks):
    """The locks held at the REGION commands that lead down to these chunks."""
    return set().union(*(bundle.fork_of[chunk.team].locks for chunk in chunks if chunk.team))


def at_regions(chunks, first=0, last=None):
    """The locks held at REGION commands of these chunks: of each chunk, those from first to last."""
    return set().union(*(fork.locks for chunk in chunks for fork in chunk.forks[first:last]))


def own_alone(bundle, access, chunks, place):
    return access.locks


def all_above(bundle, access, chunks, place):
    """Those held above the parting team too."""
    return access.locks | around(bundle, chunks)


def one_above(bundle, access, chunks, place):
    """Those of the chunk that forked the parting team too."""
    return access.locks | around(bundle, chunks[place:])


def without_member(bundle, access, chunks, place):
    """The parting member's are left out."""
    return access.locks | around(bundle, chunks[place + 2 :])


def member_alone(bundle, access, chunks, place):
    """Those between the parting member and the access are left out."""
    return access.locks | around(bundle, chunks[place + 1 : place + 2])


def nearest_alone(bundle, access, chunks, place):
    """Of the REGION commands, only the nearest above the access counts."""
    return access.locks | around(bundle, chunks[max(place + 1, len(chunks) - 1) :])


def without_own(bundle, access, chunks, place):
    """Own locks are left out below the parting member."""
    return around(bundle, chunks[place + 1 :]) if place < len(chunks) - 1 else access.locks


def first_region(bundle, access, chunks, place):
    return access.locks | at_regions(chunks[place:-1], last=1)


def last_region(bundle, access, chunks, place):
    return access.locks | at_regions(chunks[place:-1], first=-1)


def every_region(bundle, access, chunks, place):
    return access.locks | at_regions(chunks[place:-1])


def own_regions(bundle, access, chunks, place):
    """Those at the REGION commands of the access's own chunk too."""
    return sr.locks_counted(bundle, access, chunks, place) | at_regions(chunks[-1:])


WRONG = (
    own_alone, all_above, one_above, without_member, member_alone, nearest_alone, without_own,
    first_region, last_region, every_region, own_regions,
)


def parted_pairs(bundle):
    """The pairs that clash, each with the lineages of both accesses and the place where these part."""
    for pair in sr.clashing_pairs(bundle):
        here, there = sr.lineage(bundle, pair.first.chunk), sr.lineage(bundle, pair.second.chunk)
        yield pair, here, there, sr.parting(here, there)


def races_by(bundle, reading, parted):
    """The pairs of all races if the reading were right."""
    return [pair for pair, here, there, place in parted
            if not reading(bundle, pair.first, here, place) & reading(bundle, pair.second, there, place)]


def told(datas):
    """In how many of these bundles each wrong reading gives other races."""
    counts = Counter()
    for data in datas:
        bundle = sr.check(data)
        right, parted = sr.racing_pairs(bundle), list(parted_pairs(bundle))
        counts.update(reading for reading in WRONG if races_by(bundle, reading, parted) != right)
    return counts
