"""The fork-join graph, lineages with the locks held around regions, races, judge, next race and the text of racelist."""

from collections import namedtuple
from functools import lru_cache
from itertools import combinations

from reader_bundles import check
from reader_commands import ATOMIC_READ, ATOMIC_WRITE, WRITE, Refused
from reader_order import lowest_element, shared_byte

# ------------------------------------------------------------------- graph


def graph_edges(bundle):
    """Each segment (team, member, number) with the set of its successors."""
    edges = {(c.team, c.member, n): set() for c in bundle.chunks for n in range(len(c.segments))}
    for chunk in bundle.chunks:
        for n in range(len(chunk.segments) - 1):
            edges[chunk.team, chunk.member, n].add((chunk.team, chunk.member, n + 1))
        for fork in chunk.forks:
            add_fork_edges(bundle, edges, fork)
    for team in {c.team for c in bundle.chunks}:
        add_barrier_edges(bundle, edges, team)
    return edges


def add_fork_edges(bundle, edges, fork):
    before = (fork.chunk.team, fork.chunk.member, fork.segment)
    after = (fork.chunk.team, fork.chunk.member, fork.segment + 1)
    for chunk in bundle.members(fork.team):
        edges[before].add((chunk.team, chunk.member, 0))
        edges[chunk.team, chunk.member, len(chunk.segments) - 1].add(after)


def add_barrier_edges(bundle, edges, team):
    """For each barrier number: all segments ending there to all opening there. What is missing from a cut chunk comes after
    its last command: its last segment ends there, and none opens."""
    members = bundle.members(team)
    for number in range(1, max(c.barriers() for c in members) + 1):
        opening = [(team, c.member, segment_opened(c, number)) for c in members if number <= c.barriers()]
        for chunk in members:
            edges[team, chunk.member, segment_ended(chunk, number)].update(opening)


def segment_opened(chunk, barrier):
    """The segment that the chunk's barrier of this number, from 1, opens."""
    return next(n for n, s in enumerate(chunk.segments) if s.barriers == barrier)


def segment_ended(chunk, barrier):
    """The segment that ends at the barrier of this number: the last one where the chunk lacks it."""
    return segment_opened(chunk, barrier) - 1 if barrier <= chunk.barriers() else len(chunk.segments) - 1


def reached_from(edges, start):
    """Breadth first; a segment reaches itself."""
    reached, border = {start}, {start}
    while border:
        border = set().union(*(edges[n] for n in border)) - reached
        reached |= border
    return reached


# ---------------------------------------------------------------- lineages


def lineage(bundle, chunk):
    """The chunks above it from the root down, then itself."""
    if chunk.team == 0:
        return [chunk]
    return [*lineage(bundle, bundle.fork_of[chunk.team].chunk), chunk]


def parting(first, second):
    """Where two lineages part into different members of one team: the place of that team in both, the root's being 0."""
    pairs = enumerate(zip(first, second))
    return next(place for place, (one, other) in pairs if one.team == other.team and one.member != other.member)


def locks_counted(bundle, access, chunks, place):
    """The access's own locks, and those that each chunk above it, down from this place of its lineage, held at the REGION
    that leads on to the access."""
    locks = set(access.locks)
    for below in chunks[place + 1 :]:
        locks |= bundle.fork_of[below.team].locks
    return locks


def common_locks(bundle, lineages, first, second):
    """The locks that two unordered accesses both count."""
    here, there = lineages[first.chunk], lineages[second.chunk]
    place = parting(here, there)
    return locks_counted(bundle, first, here, place) & locks_counted(bundle, second, there, place)


# ------------------------------------------------------------------- races

LEAST_WORDS = 16384

Pair = namedtuple("Pair", "witness first second")  # two accesses that race or clash, the lower name first
Race = namedtuple("Race", "witness first second first_site second_site first_element second_element")
Judgement = namedtuple("Judgement", "chunks segments accesses races least")


def writes(access):
    return access.kind in (WRITE, ATOMIC_WRITE)


def is_atomic(access):
    return access.kind in (ATOMIC_READ, ATOMIC_WRITE)


def segment_of(access):
    return (access.chunk.team, access.chunk.member, access.segment)


def all_races(bundle):
    """All races in order."""
    return [race_of(pair) for pair in racing_pairs(bundle)]


def race_of(pair):
    """What the race of a pair carries. The elements are looked for here alone, so that they cost nothing where a race is only
    counted or listed."""
    witness, first, second = pair
    elements = lowest_element(first.range, witness), lowest_element(second.range, witness)
    return Race(witness, first.name, second.name, first.site, second.site, *elements)


def racing_pairs(bundle):
    """The pairs of all races, in the order of races."""
    lineages = {chunk: lineage(bundle, chunk) for chunk in bundle.chunks}
    return [pair for pair in clashing_pairs(bundle) if not common_locks(bundle, lineages, pair.first, pair.second)]


def clashing_pairs(bundle, edges_of=graph_edges):
    """The pairs that meet every condition of a race but the one on locks, in the order of races."""
    edges = edges_of(bundle)
    accesses = sorted(bundle.accesses(), key=lambda a: a.name)
    reach = {s: reached_from(edges, s) for s in {segment_of(a) for a in accesses}}
    pairs = []
    for first, second in combinations(accesses, 2):
        witness = clash_witness(reach, first, second)
        if witness is not None:
            pairs.append(Pair(witness, first, second))
    return sorted(pairs, key=pair_key)


def pair_key(pair):
    return (pair.witness, pair.first.name, pair.second.name)


def race_key(race):
    return (race.witness, race.first, race.second)


def clash_witness(reach, first, second):
    """The witness if the two accesses race unless they count a common lock, else None."""
    if not (writes(first) or writes(second)):
        return None
    if is_atomic(first) and is_atomic(second):
        return None
    here, there = segment_of(first), segment_of(second)
    if there in reach[here] or here in reach[there]:
        return None
    return shared_byte(first.range, second.range)


def check_with_area(words, data):
    """Answers the bundle and the pairs of its races."""
    if words < LEAST_WORDS:
        raise Refused(13, 0)
    return bundle_and_pairs(data)


@lru_cache(maxsize=4)
def bundle_and_pairs(data):
    bundle = check(data)
    return bundle, racing_pairs(bundle)


def area_after(area):
    """What judge and next race leave in a work area, whatever they answer."""
    return list(area) if len(area) < LEAST_WORDS else [0] * len(area)


def judge(words, data):
    bundle, pairs = check_with_area(words, data)
    return Judgement(
        len(bundle.chunks),
        bundle.segment_count(),
        len(bundle.accesses()),
        len(pairs),
        race_of(pairs[0]) if pairs else None,
    )


def next_race(words, data, witness, first, second):
    """The least race above the witness and the two names, or None."""
    _, pairs = check_with_area(words, data)
    return next((race_of(pair) for pair in pairs if pair_key(pair) > (witness, first, second)), None)


# ---------------------------------------------------------------- racelist


def name_text(name):
    return ".".join(str(part) for part in name)


def race_text(witness, first, first_site, second, second_site):
    """A race as racelist tells it; the witness is given as its text."""
    return f"race {witness} {name_text(first)} {first_site} {name_text(second)} {second_site}"


def racelist_lines(data):
    try:
        bundle = check(data)
    except Refused as refusal:
        return [f"refused {refusal.number} at {refusal.place}"]
    pairs = racing_pairs(bundle)
    lines = [f"chunks {len(bundle.chunks)} segments {bundle.segment_count()} accesses {len(bundle.accesses())}"]
    lines += [race_text(f"{witness:08x}", a.name, a.site, b.name, b.site) for witness, a, b in pairs]
    lines.append(f"pairs {len(pairs)}" if pairs else "race-free")
    return lines


def racelist(data):
    """The whole output of the program racelist."""
    return "".join(line + "\n" for line in racelist_lines(data)).encode("ascii")
