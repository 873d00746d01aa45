"""Bundles: check, and finding a member's chunk."""

from collections import Counter, namedtuple

from reader_commands import (
    ACCESSES, ACQUIRE, BARRIER, CLOSES_CHUNK, END, MEMBER, NARROW, OPENS_SEGMENT, REGION, RELEASE,
    Range, Refused, code_in, group_of, operands_are_good, take_command,
)

MOST_BYTES, MOST_SEGMENTS, MOST_ACCESSES, MOST_DEPTH = 65536, 512, 1024, 4

Segment = namedtuple("Segment", "regions barriers")  # joined and passed before it
Fork = namedtuple("Fork", "offset team size chunk segment locks")  # a REGION; segment is the one it ends, locks are those held at it
Access = namedtuple("Access", "name kind site range locks chunk segment")  # kind is the code of the narrow command


class Chunk:
    """One chunk: where it stands and what it holds."""

    def __init__(self, team, member, offset):
        self.team = team
        self.member = member
        self.offset = offset  # of its MEMBER
        self.end = None  # the offset after its END or CUT
        self.complete = None  # whether it is closed by END
        self.segments = [Segment(0, 0)]
        self.forks = []
        self.accesses = []
        self.locks = set()

    def barriers(self):
        return self.segments[-1].barriers


class Bundle:
    """An accepted bundle."""

    def __init__(self, data, chunks):
        self.data = data
        self.chunks = chunks
        self.chunk_of = {(c.team, c.member): c for c in chunks}
        self.fork_of = {f.team: f for c in chunks for f in c.forks}

    def accesses(self):
        return [a for c in self.chunks for a in c.accesses]

    def segment_count(self):
        return sum(len(c.segments) for c in self.chunks)

    def team_size(self, team):
        return 1 if team == 0 else self.fork_of[team].size

    def members(self, team):
        return [self.chunk_of[team, m] for m in range(self.team_size(team))]


def check(data):
    """Answers the Bundle, or refuses with 1 to 12, 19 or 20."""
    if len(data) > MOST_BYTES:
        raise Refused(1, 0)
    chunks = scan(data)
    for number, places in SHAPE:
        found = places(chunks)
        if found:
            raise Refused(number, min(found))
    return Bundle(data, chunks)


def scan(data):
    """Front to back: the chunks, or the first command with 2 to 7 or 20."""
    chunks = []
    chunk = None  # the open one
    group = None  # that of the first access
    opened = Counter()
    position = 0
    while position < len(data):
        command, after = take_command(data, position)  # 2, 3
        number = why_not_here(command, chunk, group, opened)
        if number:
            raise Refused(number, position)
        if command.code == MEMBER:
            chunk = Chunk(*command.operands, position)
            chunks.append(chunk)
        else:
            apply_command(chunk, command, position)
        opened["segments"] += command.code in OPENS_SEGMENT
        opened["accesses"] += command.code in ACCESSES
        group = group or group_of(command.code)
        if command.code in CLOSES_CHUNK:
            chunk.end, chunk.complete = after, command.code == END
            chunk = None
        position = after
    if chunk is not None:
        raise Refused(4, len(data))
    return chunks


def why_not_here(command, chunk, group, opened):
    """4, 20, 5, 6 or 7 for a command before it is applied, or None."""
    if (command.code == MEMBER) != (chunk is None):
        return 4
    if group and group_of(command.code) not in (None, group):
        return 20
    if not operands_are_good(command):
        return 5
    if command.code == REGION and command.operands[0] <= chunk.team:
        return 5
    if command.code == ACQUIRE and command.operands[0] in chunk.locks:
        return 6
    if command.code == RELEASE and command.operands[0] not in chunk.locks:
        return 6
    if command.code == END and chunk.locks:
        return 6
    if command.code in OPENS_SEGMENT and opened["segments"] == MOST_SEGMENTS:
        return 7
    if command.code in ACCESSES and opened["accesses"] == MOST_ACCESSES:
        return 7
    return None


def apply_command(chunk, command, offset):
    """Adds one command inside its chunk."""
    code, operands = command
    last = chunk.segments[-1]
    if code == REGION:
        chunk.forks.append(Fork(offset, *operands, chunk, len(chunk.segments) - 1, frozenset(chunk.locks)))
        chunk.segments.append(Segment(last.regions + 1, last.barriers))
    elif code == BARRIER:
        chunk.segments.append(Segment(last.regions, last.barriers + 1))
    elif code == ACQUIRE:
        chunk.locks.add(operands[0])
    elif code == RELEASE:
        chunk.locks.remove(operands[0])
    elif code in ACCESSES:
        chunk.accesses.append(
            Access(
                name=(chunk.team, chunk.member, len(chunk.accesses)),
                kind=code_in(NARROW, code),
                site=operands[0],
                range=Range(*operands[1:]),
                locks=frozenset(chunk.locks),
                chunk=chunk,
                segment=len(chunk.segments) - 1,
            )
        )


def all_forks(chunks):
    """All REGIONs by their offsets."""
    return sorted((f for c in chunks for f in c.forks), key=lambda f: f.offset)


def places_forked_before(chunks):
    """8: a team forked before, at the later REGION."""
    seen, places = set(), []
    for fork in all_forks(chunks):
        if fork.team in seen:
            places.append(fork.offset)
        seen.add(fork.team)
    return places


def places_of_stray_chunks(chunks):
    """9: never forked, member not below the size, or a second chunk."""
    size_of = {f.team: f.size for f in all_forks(chunks)}
    size_of[0] = 1
    seen, places = set(), []
    for chunk in sorted(chunks, key=lambda c: c.offset):
        name = chunk.team, chunk.member
        if chunk.member >= size_of.get(chunk.team, 0) or name in seen:
            places.append(chunk.offset)
        seen.add(name)
    return places


def places_lacking_chunks(chunks):
    """10: a forked team lacking a chunk, or no root chunk."""
    present = {(c.team, c.member) for c in chunks}
    places = [f.offset for f in all_forks(chunks) if any((f.team, m) not in present for m in range(f.size))]
    if (0, 0) not in present:
        places.append(0)
    return places


def places_too_deep(chunks):
    """11: a team more than 4 deep below the root."""
    forked_by = {f.team: f.chunk.team for f in all_forks(chunks)}

    def depth(team):
        return 0 if team == 0 else 1 + depth(forked_by[team])

    return [f.offset for f in all_forks(chunks) if depth(f.team) > MOST_DEPTH]


def complete_barriers(chunks):
    """Of each team that has a complete member, the barriers of the lowest-numbered one."""
    complete = sorted((c for c in chunks if c.complete), key=lambda c: c.member, reverse=True)
    return {c.team: c.barriers() for c in complete}  # the last one stays


def places_of_unlike_barriers(chunks):
    """12: a complete member's barrier count unlike that of the lowest-numbered complete one."""
    wanted = complete_barriers(chunks)
    return [c.offset for c in chunks if c.complete and c.barriers() != wanted[c.team]]


def places_of_too_many_barriers(chunks):
    """19: a cut chunk with more barriers than the complete members of its team, which agree once 12 has passed."""
    most = complete_barriers(chunks)
    return [c.offset for c in chunks if not c.complete and c.team in most and c.barriers() > most[c.team]]


# What whole bundles show: each refusal with its places, in the order of the tests.
SHAPE = (
    (8, places_forked_before),
    (9, places_of_stray_chunks),
    (10, places_lacking_chunks),
    (11, places_too_deep),
    (12, places_of_unlike_barriers),
    (19, places_of_too_many_barriers),
)


def find_chunk(data, team, member):
    """The bytes of a member's chunk."""
    bundle = check(data)
    if (team, member) not in bundle.chunk_of:
        raise Refused(14, 0)
    chunk = bundle.chunk_of[team, member]
    return data[chunk.offset : chunk.end]
