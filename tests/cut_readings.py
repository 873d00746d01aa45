"""What programs that misread request A.4 of document 02 would draw as the edges of a graph, and would refuse.

tests/selfcheck counts that the cases tell each one from the right reading, which is the second reader's.
"""

from collections import Counter
from functools import lru_cache

import second_reader as sr

# ------------------------------------------------------------------- edges


def last(chunk):
    return len(chunk.segments) - 1


def to_all(chunk, number, members, opening):
    """The edges for a barrier missing from the chunk, as pairs of a segment of it and the segments that this leads to."""
    return [(last(chunk), opening)]


def from_last(fork, chunk, members):
    """The segments of a member that lead to the segment that the REGION opens."""
    return [last(chunk)]


def graph(bundle, missing=to_all, joined=from_last, numbers=None, back=False):
    """The edges with other ones for missing barriers and joins; numbers are those of a team's barriers. With back, the segments
    that end at a barrier lead to the last one of a chunk that lacks it."""
    edges = {(c.team, c.member, n): set() for c in bundle.chunks for n in range(len(c.segments))}
    for chunk in bundle.chunks:
        for n in range(last(chunk)):
            edges[chunk.team, chunk.member, n].add((chunk.team, chunk.member, n + 1))
        for fork in chunk.forks:
            members = bundle.members(fork.team)
            for inner in members:
                edges[chunk.team, chunk.member, fork.segment].add((fork.team, inner.member, 0))
                for n in joined(fork, inner, members):
                    edges[fork.team, inner.member, n].add((chunk.team, chunk.member, fork.segment + 1))
    for team in {c.team for c in bundle.chunks}:
        members = bundle.members(team)
        for number in range(1, max(c.barriers() for c in members) + 1) if numbers is None else numbers(members):
            add_barrier(edges, team, members, number, missing, back)
    return edges


def add_barrier(edges, team, members, number, missing, back):
    meeting = [c for c in members if number <= c.barriers()]
    lacking = [c for c in members if number > c.barriers()]
    opening = [(team, c.member, sr.segment_opened(c, number)) for c in meeting]
    for chunk in meeting:
        ended = edges[team, chunk.member, sr.segment_opened(chunk, number) - 1]
        ended.update(opening)
        ended.update((team, c.member, last(c)) for c in lacking if back)
    for chunk in lacking:
        for n, following in missing(chunk, number, members, opening):
            edges[team, chunk.member, n].update(following)


def no_edge(bundle):
    return graph(bundle, missing=lambda *_: [])


def last_number(bundle):
    """Only to the openings at the team's last barrier."""
    return graph(bundle, missing=lambda chunk, number, members, opening: to_all(chunk, number, members, opening)
                 if number == max(c.barriers() for c in members) else [])


def first_segment(bundle):
    return graph(bundle, missing=lambda chunk, number, members, opening: [(0, opening)])


def segment_before(bundle):
    """From the last segment but one: the barrier comes before the last segment."""
    return graph(bundle, missing=lambda chunk, number, members, opening: [(last(chunk) - 1, opening)] if last(chunk) else [])


def lowest_opening(bundle):
    """Only to the opening of the lowest-numbered member that has the barrier."""
    return graph(bundle, missing=lambda chunk, number, members, opening: [(last(chunk), opening[:1])])


def complete_openings(bundle):
    return graph(bundle, missing=lambda chunk, number, members, opening: [
        (last(chunk), [s for s in opening if bundle.chunk_of[s[:2]].complete])])


def with_complete_members(bundle):
    """Missing barriers only count in teams with a complete member."""
    return graph(bundle, missing=lambda chunk, number, members, opening: to_all(chunk, number, members, opening)
                 if any(c.complete for c in members) else [])


def other_way(bundle):
    """The barrier comes before what the chunk still has."""
    return graph(bundle, missing=lambda *_: [], back=True)


def both_ways(bundle):
    return graph(bundle, back=True)


def met_by_all(bundle):
    """A barrier that a member lacks orders nothing."""
    return graph(bundle, numbers=lambda members: range(1, min(c.barriers() for c in members) + 1))


def member_0(bundle):
    """The team has as many barriers as member 0."""
    return graph(bundle, numbers=lambda members: range(1, members[0].barriers() + 1))


def lowest_complete(bundle):
    """The team has as many barriers as its lowest-numbered complete member, and none without one."""
    return graph(bundle, numbers=lambda members: range(1, next((c.barriers() for c in members if c.complete), 0) + 1))


def join_from_first(bundle):
    return graph(bundle, joined=lambda fork, chunk, members: [last(chunk) if chunk.complete else 0])


def join_without_cut(bundle):
    return graph(bundle, joined=lambda fork, chunk, members: [last(chunk)] if chunk.complete else [])


def join_of_complete(bundle):
    """A team with a cut member has no join."""
    return graph(bundle, joined=lambda fork, chunk, members: [last(chunk)] if all(c.complete for c in members) else [])


def open_region(bundle):
    """The last REGION of a cut chunk is not joined."""
    return graph(bundle, joined=lambda fork, chunk, members: [last(chunk)] if fork.chunk.complete or fork != fork.chunk.forks[-1] else [])


WRONG_EDGES = (
    no_edge, last_number, first_segment, segment_before, lowest_opening, complete_openings, with_complete_members, other_way,
    both_ways, met_by_all, member_0, lowest_complete, join_from_first, join_without_cut, join_of_complete, open_region,
)


# Other edges with the same paths: every member that has a later barrier has the first missing one too, every segment leads to the
# last one, and a missing barrier leads to the join by a member that has it.


def next_number(bundle):
    """Only to the openings at the first barrier that is missing."""
    return graph(bundle, missing=lambda chunk, number, members, opening: to_all(chunk, number, members, opening)
                 if number == chunk.barriers() + 1 else [])


def every_segment(bundle):
    return graph(bundle, missing=lambda chunk, number, members, opening: [(n, opening) for n in range(last(chunk) + 1)])


def join_with_all_barriers(bundle):
    """Only the members with all of the team's barriers lead to the join."""
    return graph(bundle, joined=lambda fork, chunk, members:
                 [last(chunk)] if chunk.barriers() == max(c.barriers() for c in members) else [])


SAME_PATHS = (graph, next_number, every_segment, join_with_all_barriers)


def locks_apart(bundle, access, other):
    """The locks of an access and of the chunks above it that are not above the other: too few edges leave pairs unordered whose
    lineages do not part."""
    shared = sr.lineage(bundle, other.chunk)
    apart = [chunk for chunk in sr.lineage(bundle, access.chunk) if chunk not in shared]
    return access.locks.union(*(bundle.fork_of[chunk.team].locks for chunk in apart[1:]))


def races_without_order(bundle):
    """The pairs that would race if there were no paths."""
    return [
        pair for pair in sr.clashing_pairs(bundle, lambda bundle: {segment: set() for segment in sr.graph_edges(bundle)})
        if sr.segment_of(pair.first) != sr.segment_of(pair.second)
        and not locks_apart(bundle, pair.first, pair.second) & locks_apart(bundle, pair.second, pair.first)
    ]


def races_by(pairs, edges):
    """Those of these pairs that have no path by these edges."""
    ends = [(sr.segment_of(pair.first), sr.segment_of(pair.second)) for pair in pairs]
    reach = {segment: sr.reached_from(edges, segment) for segment in set().union(*ends)}
    return [pair for pair, (here, there) in zip(pairs, ends) if there not in reach[here] and here not in reach[there]]


def told_by_races(datas):
    """In how many of these good bundles each reading gives other races."""
    counts = Counter()
    for bundle in map(sr.check, datas):
        if not all(chunk.complete for chunk in bundle.chunks):
            right, pairs = sr.racing_pairs(bundle), races_without_order(bundle)
            counts.update(reading for reading in (*WRONG_EDGES, *SAME_PATHS) if races_by(pairs, reading(bundle)) != right)
    return counts


# ---------------------------------------------------------------- refusals


@lru_cache(maxsize=2)
def scanned(data):
    """The refusal with 1 to 7 or 20, or the chunks."""
    if len(data) > sr.MOST_BYTES:
        return (1, 0), None
    try:
        return None, sr.scan(data)
    except sr.Refused as refusal:
        return (refusal.number, refusal.place), None


def refusal_by(data, shape=sr.SHAPE, choose=None):
    """Number and place, or None, with these tests of whole bundles; choose takes another place than the lowest for 19."""
    refusal, chunks = scanned(data)
    if refusal:
        return refusal
    for number, places in shape:
        if found := places(chunks):
            return number, choose(chunks, found) if choose and number == 19 else min(found)
    return None


def shape_with(**others):
    """The tests in their order, with other places for twelve or nineteen."""
    changed = {12: others.get("twelve"), 19: others.get("nineteen")}
    return tuple((number, changed.get(number) or places) for number, places in sr.SHAPE)


def of_member_0(chunks):
    return {c.team: c.barriers() for c in chunks if c.member == 0}


def cut_compared(data):
    """12 looks at cut chunks too."""
    def places(chunks):
        wanted = sr.complete_barriers(chunks)
        return [c.offset for c in chunks if c.barriers() != wanted.get(c.team, c.barriers())]
    return refusal_by(data, shape_with(twelve=places))


def all_with_member_0(data):
    """12 as it was before: all members, with member 0."""
    return refusal_by(data, shape_with(twelve=lambda chunks: [
        c.offset for c in chunks if c.barriers() != of_member_0(chunks)[c.team]]))


def complete_with_member_0(data):
    return refusal_by(data, shape_with(twelve=lambda chunks: [
        c.offset for c in chunks if c.complete and c.barriers() != of_member_0(chunks)[c.team]]))


def with_highest_complete(data):
    def places(chunks):
        wanted = {c.team: c.barriers() for c in sorted(chunks, key=lambda c: c.member) if c.complete}
        return [c.offset for c in chunks if c.complete and c.barriers() != wanted[c.team]]
    return refusal_by(data, shape_with(twelve=places))


def with_first_complete(data):
    """12 with the complete member that stands first in the bundle."""
    def places(chunks):
        wanted = {c.team: c.barriers() for c in sorted(chunks, key=lambda c: -c.offset) if c.complete}
        return [c.offset for c in chunks if c.complete and c.barriers() != wanted[c.team]]
    return refusal_by(data, shape_with(twelve=places))


def more_than(most, exceeds=lambda own, others: own > others):
    """The places of 19 if cut chunks were compared with these numbers and in this way."""
    def places(chunks):
        wanted = most(chunks)
        return [c.offset for c in chunks if not c.complete and c.team in wanted and exceeds(c.barriers(), wanted[c.team])]
    return places


def more_than_member_0(data):
    return refusal_by(data, shape_with(nineteen=more_than(of_member_0)))


def more_than_lowest_cut(data):
    """19 in teams without complete members too, among the cut ones."""
    def most(chunks):
        return {c.team: c.barriers() for c in sorted(chunks, key=lambda c: -c.member)} | sr.complete_barriers(chunks)
    return refusal_by(data, shape_with(nineteen=more_than(most)))


def as_many(data):
    return refusal_by(data, shape_with(nineteen=more_than(sr.complete_barriers, lambda own, others: own >= others)))


def unlike(data):
    """19 for fewer barriers too."""
    return refusal_by(data, shape_with(nineteen=more_than(sr.complete_barriers, lambda own, others: own != others)))


def two_more(data):
    return refusal_by(data, shape_with(nineteen=more_than(sr.complete_barriers, lambda own, others: own > others + 1)))


def without_19(data):
    return refusal_by(data, sr.SHAPE[:-1])


def regions_too(data):
    """19 counts all segments, not barriers."""
    def places(chunks):
        most = {c.team: len(c.segments) for c in chunks if c.complete}
        return [c.offset for c in chunks if not c.complete and len(c.segments) > most.get(c.team, len(c.segments))]
    return refusal_by(data, shape_with(nineteen=places))


def highest_place(data):
    return refusal_by(data, choose=lambda chunks, found: max(found))


def lowest_member(data):
    """19 at the lowest team and member, not at the lowest offset."""
    return refusal_by(data, choose=lambda chunks, found: min(
        (c.team, c.member, c.offset) for c in chunks if c.offset in found)[2])


def at_complete(data):
    """19 at a complete member."""
    def choose(chunks, found):
        team = next(c.team for c in chunks if c.offset == min(found))
        return min(c.offset for c in chunks if c.complete and c.team == team)
    return refusal_by(data, choose=choose)


def before_12(data):
    return refusal_by(data, (*sr.SHAPE[:-2], sr.SHAPE[-1], sr.SHAPE[-2]))


def before_8(data):
    """19 as the first test of whole bundles."""
    return refusal_by(data, (sr.SHAPE[-1], *sr.SHAPE[:-1]))


def held_refused(data):
    """6 where a lock is held at CUT."""
    right = refusal_by(data)
    number, place = right or (0, 0)
    position, held = 0, set()
    while position < (place if 1 <= number <= 7 or number == 20 else len(data)):  # up to there it is good
        command, after = sr.take_command(data, position)
        if command.code == sr.CUT and held:
            return 6, position
        if command.code == sr.MEMBER:
            held = set()
        elif command.code in (sr.ACQUIRE, sr.RELEASE):
            held ^= {command.operands[0]}
        position = after
    return right


WRONG_REFUSALS = (
    cut_compared, all_with_member_0, complete_with_member_0, with_highest_complete, with_first_complete, more_than_member_0,
    more_than_lowest_cut, as_many, unlike, two_more, without_19, regions_too, highest_place, lowest_member, at_complete, before_12,
    before_8, held_refused,
)


def told_by_refusals(datas):
    """In how many of these bundles each reading is refused otherwise."""
    counts = Counter()
    for data in datas:
        right = refusal_by(data)
        counts.update(reading for reading in WRONG_REFUSALS if reading(data) != right)
    return counts
