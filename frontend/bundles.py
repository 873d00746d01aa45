"""Bundles decoded for display: commands, members, segments, accesses and the edges of the graph.

Nothing is judged here. It is used for bundles that the proved program accepted, or up to the place of a refusal. Bytes that are
not as expected raise NotAsExpected and nothing else.
"""

import re
from collections import namedtuple
from struct import Struct

from frontend.names import counted

MEMBER, END, CUT, REGION, BARRIER, ACQUIRE, RELEASE = 0x01, 0x02, 0x03, 0x10, 0x11, 0x20, 0x21
NARROW = {0x30: "read", 0x31: "write", 0x32: "atomic read", 0x33: "atomic write"}  # with a site of 2 bytes
WIDE = {code + 8: kind for code, kind in NARROW.items()}  # with a site of 4 bytes
GROUPS = {"narrow": NARROW, "wide": WIDE}
KINDS = {**NARROW, **WIDE}
WORDS = {
    MEMBER: "MEMBER", END: "END", CUT: "CUT", REGION: "REGION", BARRIER: "BARRIER", ACQUIRE: "ACQUIRE", RELEASE: "RELEASE", **KINDS,
}
WIDTHS = {
    MEMBER: (2, 1), END: (), CUT: (), REGION: (2, 1), BARRIER: (), ACQUIRE: (1,), RELEASE: (1,),
    **dict.fromkeys(NARROW, (2, 4, 2, 2, 1)), **dict.fromkeys(WIDE, (4, 4, 2, 2, 1)),
}
CLOSES = (END, CUT)
LENGTHS = {code: 1 + sum(widths) for code, widths in WIDTHS.items()}
LAYOUTS = {code: Struct("<" + "".join({1: "B", 2: "H", 4: "I"}[w] for w in widths)) for code, widths in WIDTHS.items()}

MOST_BYTES = 65536
MOST_RACES = 200  # of a bundle that are shown

Command = namedtuple("Command", "offset code operands")
Access = namedtuple("Access", "number kind site range locks segment")
Fork = namedtuple("Fork", "team size locks")  # a REGION, and the locks held at it
Held = namedtuple("Held", "locks team outer member")  # locks that a member of an outer team holds at the REGION of a team
Side = namedtuple("Side", "access turn held")  # of a race; the turn is the lowest element that holds the witness


class NotAsExpected(Exception):
    """The bytes cannot be shown as a bundle."""


class Range(namedtuple("Range", "base stride count size")):
    def last(self):
        return self.base + (self.count - 1) * self.stride + self.size - 1

    def touches(self, byte):
        return self.elements_at(byte) > 0

    def holding(self, byte):
        """The numbers of the elements that hold this byte, from 0, as a range of Python."""
        distance = byte - self.base
        step = self.stride or 1
        low = max(0, -((self.size - 1 - distance) // step))
        return range(low, min(self.count - 1, distance // step) + 1)

    def elements_at(self, byte):
        """How many elements hold this byte."""
        return len(self.holding(byte))

    def lowest_element(self, byte):
        """The lowest element that holds this byte, or None."""
        return min(self.holding(byte), default=None)

    def element(self, number):
        """The bytes of an element, as a range of Python."""
        start = self.base + number * self.stride
        return range(start, start + self.size)

    def starts_at(self, byte):
        distance = byte - self.base
        step = self.stride or 1
        return distance >= 0 and distance % step == 0 and distance // step < self.count

    def text(self):
        first, last = f"{self.base:08x}", f"{self.last():08x}"
        if self.count == 1:
            return f"{first} to {last}: {self.size} byte{'s' * (self.size > 1)}" if self.size > 1 else f"{first}: 1 byte"
        return f"{first} to {last}: {self.count:,} elements of {self.size} byte{'s' * (self.size > 1)}, {self.stride:,} apart"


def commands(data):
    """The commands from the front, up to the first byte that is no command or whose operands are cut off."""
    at, end = 0, len(data)
    while at < end:
        code = data[at]
        if code not in LAYOUTS or at + LENGTHS[code] > end:
            return
        yield Command(at, code, LAYOUTS[code].unpack_from(data, at + 1))
        at += LENGTHS[code]


def converted_length(data, group):
    """How many bytes a bundle has once its accesses are in a group, by its word."""
    access = LENGTHS[min(GROUPS[group])]
    return sum(access if command.code in KINDS else LENGTHS[command.code] for command in commands(data))


class Member:
    """The log of one member of a team; it is complete, or cut."""

    def __init__(self, team, member):
        self.team, self.member = team, member
        self.is_cut = False
        self.segments, self.accesses, self.forks = [], [], {}  # forks by the segment that they end
        self.open_segment(MEMBER)

    def open_segment(self, code):
        self.segments.append(code)

    def intervals(self):
        """The numbers of the segments between two barriers, each list in order."""
        found = [[]]
        for number, code in enumerate(self.segments):
            if code == BARRIER:
                found.append([])
            found[-1].append(number)
        return found

    def barriers(self):
        return self.segments.count(BARRIER)


class Log:
    """An accepted bundle."""

    def __init__(self, data):
        if len(data) > MOST_BYTES:
            raise NotAsExpected("too long")
        self.members = {}  # by (team, member)
        self.forked_by = {}  # team: (team, member, segment)
        length = self.read(data)
        if length != len(data):
            raise NotAsExpected("bytes that are no commands")
        self.teams = {}  # members of each team, by number
        for key in sorted(self.members):
            self.teams.setdefault(key[0], []).append(self.members[key])
        self.demand_shape()

    def read(self, data):
        """Reads the commands; answers how many bytes they have."""
        member, locks, length = None, (), 0
        for offset, code, operands in commands(data):
            length = offset + LENGTHS[code]
            if (code == MEMBER) != (member is None):
                raise NotAsExpected("a misplaced command")
            if code in KINDS:
                where = len(member.segments) - 1
                access = Access(len(member.accesses), KINDS[code], operands[0], Range(*operands[1:]), locks, where)
                member.accesses.append(access)
            elif code == MEMBER and operands in self.members or code == REGION and operands[0] in self.forked_by:
                raise NotAsExpected("a member or a team that is there twice")
            elif code == MEMBER:
                member = self.members[operands] = Member(*operands)
            elif code in CLOSES:
                member.is_cut = code == CUT
                member, locks = None, ()
            elif code == REGION:
                where = len(member.segments) - 1
                member.forks[where] = Fork(*operands, locks)
                self.forked_by[operands[0]] = (member.team, member.member, where)
                member.open_segment(REGION)
            elif code == BARRIER:
                member.open_segment(BARRIER)
            elif code == ACQUIRE:
                locks = tuple(sorted({*locks, operands[0]}))
            else:
                locks = tuple(lock for lock in locks if lock != operands[0])
        return length

    def demand_shape(self):
        """What drawing relies on: a root, all members of each team, no team inside itself, and equal numbers of barriers, of which a
        cut member may lack some."""
        if (0, 0) not in self.members or set(self.teams) != {0, *self.forked_by}:
            raise NotAsExpected("teams and members that do not fit")
        for team, (outer, member, segment) in self.forked_by.items():
            size = self.members[outer, member].forks[segment].size
            if outer >= team or [m.member for m in self.teams[team]] != list(range(size)):
                raise NotAsExpected("teams and members that do not fit")
        for members in self.teams.values():
            complete = {m.barriers() for m in members if not m.is_cut}
            if len(complete) > 1 or complete and max(m.barriers() for m in members) > max(complete):
                raise NotAsExpected("members with unlike numbers of barriers")

    def counts(self):
        members = self.members.values()
        return len(members), sum(len(m.segments) for m in members), sum(len(m.accesses) for m in members)

    def access(self, name):
        """The access of a name (team, member, number), or NotAsExpected."""
        member = self.members.get(name[:2])
        if member is None or name[2] >= len(member.accesses):
            raise NotAsExpected("no such access")
        return member.accesses[name[2]]

    def sides(self, race):
        """The two accesses of a race with their turns and the locks held above them that count, or NotAsExpected if it is no race
        of this log."""
        return [
            self.side(race.first, race.first_site, race.witness, race.second),
            self.side(race.second, race.second_site, race.witness, race.first),
        ]

    def side(self, name, site, witness, other):
        access = self.access(name)
        turn = access.range.lowest_element(witness)
        if access.site != site or turn is None:
            raise NotAsExpected("another access")
        return Side(access, turn, self.held_above(name, other))

    def held_above(self, name, other):
        """The locks held at the REGIONs that lead down to an access, from below up to the member where its lineage parts from the
        other access's. Chunks above that member are in both lineages, and do not count."""
        mine, others = (self.above(*n[:2], self.access(n).segment) for n in (name, other))
        apart = [key for key in mine if key not in others and key != name[:2]]
        forks = [(key, self.members[key].forks[mine[key]]) for key in apart]
        return [Held(fork.locks, fork.team, *key) for key, fork in forks if fork.locks]

    def above(self, team, member, segment):
        """The segment and those that it descends from by forks: their number for each (team, member)."""
        found = {(team, member): segment}
        while team:
            team, member, segment = self.forked_by[team]
            found[team, member] = segment
        return found

    def edges(self):
        """All edges (from, to, word); a segment is (team, member, number)."""
        for members in self.teams.values():
            for m in members:
                yield from self.own_edges(m)
            yield from barrier_edges(members)

    def own_edges(self, m):
        for number in range(len(m.segments) - 1):
            here, after = (m.team, m.member, number), (m.team, m.member, number + 1)
            yield here, after, "next"
            if number in m.forks:
                for inner in self.teams[m.forks[number].team]:
                    yield here, (inner.team, inner.member, 0), "fork"
                    yield (inner.team, inner.member, len(inner.segments) - 1), after, "join"


def barrier_edges(members):
    """The edges of a team's barriers; those inside one member's log come from own_edges. A barrier that a cut member lacks comes
    after its last segment."""
    opened = [[interval[0] for interval in m.intervals()] for m in members]
    for barrier in range(1, max(map(len, opened))):
        for m, firsts in zip(members, opened):
            has = barrier < len(firsts)
            here = (m.team, m.member, firsts[barrier] - 1 if has else len(m.segments) - 1)
            for other, seconds in zip(members, opened):
                if m is not other and barrier < len(seconds):
                    yield here, (other.team, other.member, seconds[barrier]), f"barrier {barrier}" if has else f"missing barrier {barrier}"


def read_log(data):
    """The log of an accepted bundle, or NotAsExpected, whatever the bytes."""
    try:
        return Log(data)
    except NotAsExpected:
        raise
    except (KeyError, IndexError, ValueError, TypeError, AttributeError, RecursionError) as error:
        raise NotAsExpected(f"{type(error).__name__}: {error}") from error


def command_pattern(codes):
    return b"|".join(re.escape(bytes([code])) + b"." * (LENGTHS[code] - 1) for code in codes)


# A chunk, and the byte that closes it. It is quicker than commands(), and the whole tray is looked through.
CHUNK = re.compile(
    b"%b(?:%b)*(%b)" % tuple(map(command_pattern, ([MEMBER], LENGTHS.keys() - {MEMBER, *CLOSES}, CLOSES))), re.DOTALL
)


def cut_chunks(data):
    """(cut chunks, chunks) of an accepted bundle."""
    closed, at = [], 0
    while found := CHUNK.match(data, at):
        closed.append(found[1][0])
        at = found.end()
    return closed.count(CUT), len(closed)


def cut_text(cut, chunks):
    """'2 of 5 chunks are cut'."""
    return f"{cut:,} of {counted(chunks, 'chunk')} {'is' if cut == 1 else 'are'} cut"


def command_text(command):
    """A command in words."""
    code, operands = command.code, command.operands
    if code == MEMBER:
        return f"MEMBER team {operands[0]} member {operands[1]}"
    if code == REGION:
        return f"REGION team {operands[0]} size {operands[1]}"
    if code in (ACQUIRE, RELEASE):
        return f"{WORDS[code]} lock {operands[0]}"
    if code in KINDS:
        site, *numbers = operands
        return f"{KINDS[code]} site {site}, {Range(*numbers).text()}"
    return WORDS[code]


def turns_text(sides):
    """The loop turns of a race in words."""
    first, second = (f"turn {s.turn} of the {s.access.kind} at site {s.access.site}" for s in sides)
    return f"loop {first} and {second}"


def locks_text(side):
    """The locks that count for an access of a race: its own, then those held above it, with where they are held."""
    own = [lock_numbers(side.access.locks)] if side.access.locks else []
    above = [f"{lock_numbers(h.locks)} at the REGION of team {h.team} (team {h.outer}, member {h.member})" for h in side.held]
    return "; ".join(own + above) or "none"


def lock_numbers(locks):
    return ", ".join(map(str, locks))
