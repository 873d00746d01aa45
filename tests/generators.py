"""Seeded generators of good and damaged bundles.

A bundle is made as a list of chunks, a chunk as a list of Commands, so that
chunks can be put in any order. Every function takes its random.Random.
"""

from collections import namedtuple
from itertools import permutations

import second_reader as sr
from second_reader import Command

# What a generated bundle may hold.
# depth: of the teams; sizes: team sizes to choose from; regions, barriers:
# most in a chunk; actions: most accesses and lock commands between two
# segment openings; locks: how many are in use; addresses: how many bases;
# far: whether some ranges are long or at the end of memory; dense: whether
# ranges have many elements, most of which overlap each other; around:
# whether locks are acquired just before a REGION and released behind it;
# cuts: one bundle in so many has cut chunks, 0 standing for none; wides:
# one bundle in so many has wide accesses, 0 standing for none.
Style = namedtuple(
    "Style", "depth sizes regions barriers actions locks addresses far segments accesses dense around cuts wides",
    defaults=[False, False, 5, 4])

SMALL = Style(2, (1, 2, 2), 1, 1, 2, 2, 6, False, 14, 8)
MIDDLE = Style(4, (1, 2, 2, 3), 2, 2, 3, 3, 12, False, 60, 80)
NESTED = Style(4, (1, 2, 2), 2, 1, 2, 2, 8, False, 100, 100)
WIDE = Style(2, (4, 8, 16, 64), 2, 2, 2, 4, 24, False, 200, 200)
LOCKED = Style(2, (2, 3), 1, 2, 6, 2, 6, False, 40, 60)
FAR = Style(3, (2, 3), 2, 2, 3, 2, 6, True, 60, 60)
LARGE = Style(4, (2, 4, 8, 16), 3, 3, 4, 4, 64, False, 400, 800)
QUIET = Style(4, (1, 2, 2, 3), 2, 2, 2, 2, 1500, False, 60, 60)
AROUND = Style(4, (1, 2, 2), 2, 1, 2, 2, 3, False, 48, 40, around=True)
STYLES = (SMALL, MIDDLE, NESTED, WIDE, LOCKED, FAR, QUIET, AROUND)
DENSE = Style(2, (2, 3), 1, 1, 3, 1, 100, False, 24, 16, dense=True)
MANY_DENSE = DENSE._replace(actions=20, accesses=100)

BASE = 4096


# ------------------------------------------------------------ good bundles


class Maker:
    """Makes one bundle; counts what is left of the segments and accesses."""

    def __init__(self, rng, style):
        self.rng = rng
        self.style = style
        self.segments = style.segments
        self.accesses = style.accesses
        self.teams = {0}
        self.chunks = []

    def make(self):
        barriers = self.rng.randint(0, self.style.barriers)
        self.segments -= 1 + barriers
        self.add_team(0, 1, barriers, 0)
        return self.chunks

    def add_team(self, team, size, barriers, depth):
        for member in range(size):
            self.add_chunk(team, member, barriers, depth)

    def add_chunk(self, team, member, barriers, depth):
        rng = self.rng
        regions = rng.randint(0 if team else 1, self.style.regions)
        openings = [sr.BARRIER] * barriers + [sr.REGION] * regions
        rng.shuffle(openings)
        chunk = [Command(sr.MEMBER, (team, member))]
        held = set()
        self.add_actions(chunk, held)
        for code in openings:
            if code == sr.BARRIER:
                chunk.append(Command(sr.BARRIER, ()))
            elif not self.add_region(chunk, held, team, depth):
                continue
            self.add_actions(chunk, held)
        for lock in rng.sample(sorted(held), len(held)):
            chunk.append(Command(sr.RELEASE, (lock,)))
        chunk.append(Command(sr.END, ()))
        self.chunks.append(chunk)

    def add_region(self, chunk, held, team, depth):
        """Adds a REGION and its team if depth and segments allow it."""
        size = self.rng.choice(self.style.sizes)
        barriers = self.rng.randint(0, self.style.barriers)
        need = 1 + size * (1 + barriers)
        inner = self.new_team(team)
        if depth == self.style.depth or need > self.segments or inner is None:
            return False
        self.segments -= need
        self.teams.add(inner)
        self.acquire_some(chunk, held)
        chunk.append(Command(sr.REGION, (inner, size)))
        self.release_some(chunk, held)
        self.add_team(inner, size, barriers, depth + 1)
        return True

    def acquire_some(self, chunk, held):
        for lock in range(self.style.locks if self.style.around else 0):
            if lock not in held and self.rng.randrange(3) == 0:
                held.add(lock)
                chunk.append(Command(sr.ACQUIRE, (lock,)))

    def release_some(self, chunk, held):
        for lock in sorted(held) if self.style.around else ():
            if self.rng.randrange(3):
                held.remove(lock)
                chunk.append(Command(sr.RELEASE, (lock,)))

    def new_team(self, team):
        """A team number above the given one that is not in use."""
        for spread in (3, 20, 300, 300, 60000, 65535):
            inner = team + self.rng.randint(1, spread)
            if inner <= 65535 and inner not in self.teams:
                return inner
        return None

    def add_actions(self, chunk, held):
        rng = self.rng
        for _ in range(rng.randint(0, self.style.actions)):
            lock = rng.randrange(self.style.locks)
            turn = rng.randrange(8)
            if turn == 0 and lock not in held:
                held.add(lock)
                chunk.append(Command(sr.ACQUIRE, (lock,)))
            elif turn == 1 and lock in held:
                held.remove(lock)
                chunk.append(Command(sr.RELEASE, (lock,)))
            elif self.accesses:
                self.accesses -= 1
                chunk.append(random_access(rng, self.style))


def random_access(rng, style):
    code = rng.choice((sr.READ, sr.READ, sr.WRITE, sr.WRITE, sr.ATOMIC_READ, sr.ATOMIC_WRITE))
    site = rng.choice((rng.randrange(100), rng.randrange(65536)))
    if style.dense:
        make = rng.choice((dense_range, dense_range, sparse_range))
        return Command(code, (site, *make(rng, BASE + rng.randrange(style.addresses))))
    far = style.far and rng.randrange(2)
    return Command(code, (site, *(far_range(rng) if far else near_range(rng, style))))


def near_range(rng, style):
    """A short range over few addresses; elements may overlap each other."""
    base = BASE + rng.randrange(style.addresses)
    size = rng.choice((1, 1, 2, 4, 8))
    if rng.randrange(2):
        return sr.Range(base, 0, 1, size)
    return sr.Range(base, rng.randint(1, 12), rng.randint(2, 5), size)


def far_range(rng):
    """A long range, or one that ends at the end of memory."""
    size = rng.choice((1, 2, 4, 8))
    count = rng.choice((1, 2, 100, 1000, 65535, rng.randint(2, 65535)))
    stride = 0 if count == 1 else rng.choice((1, 7, 8, 16, 96, 65535, rng.randint(1, 65535)))
    room = sr.LAST_ADDRESS - ((count - 1) * stride + size - 1)
    base = rng.choice((0, room, min(room, BASE), min(room, BASE + rng.randrange(64)), rng.randint(0, room)))
    return sr.Range(base, stride, count, size)


def random_chunks(rng, style):
    chunks = Maker(rng, style).make()
    if style.wides and rng.randrange(style.wides) == 0:
        chunks = widened(rng, chunks)
    return with_cuts(rng, chunks) if style.cuts and rng.randrange(style.cuts) == 0 else chunks


def bundle_bytes(chunks):
    return b"".join(sr.command_bytes(c) for chunk in chunks for c in chunk)


def chunks_of(data):
    """The chunks of a good bundle, each as its commands."""
    chunks, position = [], 0
    while position < len(data):
        command, position = sr.read_command(data, position)
        if command.code == sr.MEMBER:
            chunks.append([])
        chunks[-1].append(command)
    return chunks


def shuffled(rng, chunks):
    return rng.sample(chunks, len(chunks))


def all_orders(chunks):
    return (list(order) for order in permutations(chunks))


def random_bundle(rng, style):
    """A good bundle in a random order of its chunks."""
    return bundle_bytes(shuffled(rng, random_chunks(rng, style)))


def far_teams(rng, chunks):
    """With team numbers of all sizes, in the same order."""
    teams = sorted({chunk[0].operands[0] for chunk in chunks} - {0})
    far = {0: 0, **dict(zip(teams, sorted(rng.sample(range(1, 65536), len(teams)))))}
    return [
        [Command(c.code, (far[c.operands[0]], c.operands[1])) if c.code in (sr.MEMBER, sr.REGION) else c for c in chunk] for chunk in chunks]


# -------------------------------------------------------------- wide sites

EDGES_OF_SITES = (0, 65535, 65536, 4294967295)


def wide_site(rng):
    return rng.choice((*EDGES_OF_SITES, rng.randrange(2**32), rng.randrange(2**32), rng.randrange(2**17), rng.randrange(2**16)))


def in_group(group, command):
    """The access of the same kind in a group; other commands stay as they are."""
    return Command(sr.code_in(group, command.code), command.operands)


def widened(rng, chunks, site=wide_site):
    """With wide accesses; about half of them have another site."""
    def wide(command):
        if command.code not in sr.ACCESSES:
            return command
        kept, *touched = command.operands
        return in_group(sr.WIDE, Command(command.code, (site(rng) if rng.randrange(2) else kept, *touched)))
    return [[wide(command) for command in chunk] for chunk in chunks]


def some_widened(rng, chunks):
    """One bundle in four with wide accesses."""
    return widened(rng, chunks) if rng.randrange(4) == 0 else chunks


def group_in(chunks):
    """The group of the first access; without one, that of narrow accesses."""
    return next((sr.group_of(c.code) for chunk in chunks for c in chunk if c.code in sr.ACCESSES), sr.NARROW)


# -------------------------------------------------------------- cut chunks

CUT = Command(sr.CUT, ())


def cut_at(chunk, at):
    """The chunk without its commands from this place on."""
    return chunk[:at] + [CUT]


def first_place(chunk):
    """The lowest place at which a chunk is cut without losing a REGION."""
    return max((at + 1 for at, command in enumerate(chunk) if command.code == sr.REGION), default=1)


def place_of_cut(rng, chunk, first):
    """Any place from the first one on, each end of these more often."""
    return rng.choice((first, len(chunk) - 1, *range(first, len(chunk))))


def cut_some(rng, chunks):
    """At least one chunk cut, at command ends, with no REGION lost."""
    some = rng.sample(range(len(chunks)), rng.choice((1, (len(chunks) + 1) // 2, rng.randint(1, len(chunks)))))
    return [cut_at(chunk, place_of_cut(rng, chunk, first_place(chunk))) if k in some else chunk for k, chunk in enumerate(chunks)]


def cut_with_regions(rng, chunks):
    """One chunk cut anywhere; the teams of the REGIONs that it loses have no chunks then."""
    which = rng.randrange(len(chunks))
    chunk = chunks[which]
    at = rng.randrange(1, len(chunk))
    lost = {command.operands[0] for command in chunk[at:] if command.code == sr.REGION}
    return without_teams([*chunks[:which], cut_at(chunk, at), *chunks[which + 1 :]], lost)


def without_teams(chunks, lost):
    """Without these teams and those below them."""
    while lost:
        inner = {c.operands[0] for chunk in chunks if chunk[0].operands[0] in lost for c in chunk if c.code == sr.REGION}
        chunks, lost = [chunk for chunk in chunks if chunk[0].operands[0] not in lost], inner
    return chunks


def with_cuts(rng, chunks):
    """A good bundle with cut chunks, made from a good one; some have lost REGIONs too."""
    return cut_some(rng, chunks if rng.randrange(3) else cut_with_regions(rng, chunks))


class StoppedRun:
    """Makes one bundle: a team, the root's or one below it, with several barriers, whose members touch few bytes in their intervals
    and fork teams of one or two with barriers of their own; then many chunks are cut. A forking chunk goes on behind the join."""

    def __init__(self, rng):
        self.rng = rng
        self.last_team = 0
        self.chunks = []

    def make(self):
        self.add_chunk(0, 0, 0, self.rng.randint(0, 1))
        chunks = self.chunks
        for _ in range(self.rng.randint(1, 2)):
            chunks = cut_some(self.rng, chunks)
        return chunks

    def add_chunk(self, team, member, depth, barriers):
        rng = self.rng
        chunk, locked = [Command(sr.MEMBER, (team, member))], rng.randrange(4) == 0
        self.chunks.append(chunk)
        if locked:
            chunk.append(Command(sr.ACQUIRE, (rng.randrange(2),)))
        for interval in range(barriers + 1):
            chunk += [Command(sr.BARRIER, ())] if interval else []
            self.add_access(chunk)
            if depth == 0 and interval == 0 or depth < 3 and rng.randrange(5) == 0:
                self.add_region(chunk, depth)
                self.add_access(chunk)
        chunk += [Command(sr.RELEASE, chunk[1].operands)] if locked else []
        chunk.append(Command(sr.END, ()))

    def add_region(self, chunk, depth):
        self.last_team += 1
        team = self.last_team
        size, barriers = (self.rng.choice((2, 2, 3, 4)), self.rng.randint(1, 3)) if depth == 0 else self.rng.choice(((1, 1), (2, 1)))
        chunk.append(Command(sr.REGION, (team, size)))
        for member in range(size):
            self.add_chunk(team, member, depth + 1, barriers)

    def add_access(self, chunk):
        if self.rng.randrange(2):
            code = self.rng.choice((sr.READ, sr.WRITE, sr.WRITE))
            chunk.append(Command(code, (self.rng.randrange(100), BASE + self.rng.randrange(2), 0, 1, 1)))


def stopped_run(rng):
    return some_widened(rng, StoppedRun(rng).make())


def stopped_run_bundle(rng):
    """In a random order of its chunks."""
    return bundle_bytes(shuffled(rng, stopped_run(rng)))


# ------------------------------------------------- races of one interval


def one_interval(rng):
    """A team with several barriers whose races all lie between two of them: in every other interval a single member
    touches the byte. The chosen member's access may stand in an inner team with barriers of its own."""
    size, barriers = rng.randint(2, 4), rng.randint(2, 5)
    team, inner = rng.choice(((1, 2), (255, 256), (65534, 65535)))
    raced = rng.randint(1, barriers - 1)
    chunks = [[Command(sr.MEMBER, (0, 0)), Command(sr.REGION, (team, size)), Command(sr.END, ())]]
    nested = rng.choice((None, rng.randrange(size)))  # the member that forks the inner team
    for member in range(size):
        chunk = [Command(sr.MEMBER, (team, member))]
        for interval in range(barriers + 1):
            if interval == raced and member == nested:
                chunk.append(Command(sr.REGION, (inner, 2)))
            elif interval in (raced, barriers - member):
                chunk.append(Command(sr.WRITE, (10 * interval + member, BASE, 0, 1, 1)))
            if interval < barriers:
                chunk.append(Command(sr.BARRIER, ()))
        chunks.append(chunk + [Command(sr.END, ())])
    if nested is not None:
        chunks += inner_members(rng, inner)
    return chunks


def inner_members(rng, team):
    """Two members that meet at barriers; the first touches the byte, between them or not."""
    barriers = rng.randint(1, 3)
    for member in range(2):
        body = [Command(sr.BARRIER, ())] * barriers
        if member == 0:
            body.insert(rng.randint(0, barriers), Command(sr.READ, (90, BASE, 0, 1, 1)))
        yield [Command(sr.MEMBER, (team, member)), *body, Command(sr.END, ())]


# --------------------------------------------- locks held around regions


class LockedNest:
    """Makes one bundle: a team of two or three below up to three teams of one, whose members fork teams of one or two, down to
    the same depth. Two locks are acquired and released between all REGIONs and accesses; most accesses share a byte."""

    MOST_CHUNKS = 14

    def __init__(self, rng):
        self.rng = rng
        self.depth = rng.choice((1, 2, 2, 3, 3, 4, 4))
        self.parting = rng.randint(1, self.depth)  # the depth of the team of two or three
        self.locks = rng.choice(((0, 1), (31, 32), (3, 63)))
        self.last_team = 0
        self.chunks = []

    def make(self):
        self.add_chunk(0, 0, 0)
        return self.chunks

    def add_chunk(self, team, member, depth):
        chunk, held = [Command(sr.MEMBER, (team, member))], set()
        self.chunks.append(chunk)
        for size in self.forked_sizes(depth):
            self.add_access(chunk, held, chance=4)
            self.change_locks(chunk, held)
            self.last_team += 1
            inner = self.last_team
            chunk.append(Command(sr.REGION, (inner, size)))
            for number in range(size):
                self.add_chunk(inner, number, depth + 1)
        self.add_access(chunk, held, chance=1 if len(chunk) == 1 else 4)
        chunk += [Command(sr.RELEASE, (lock,)) for lock in sorted(held)]
        chunk.append(Command(sr.END, ()))

    def forked_sizes(self, depth):
        """The sizes of the teams that a chunk forks."""
        rng = self.rng
        if depth < self.parting:
            return [rng.choice((2, 2, 3)) if depth + 1 == self.parting else 1]
        if depth == self.depth or len(self.chunks) > self.MOST_CHUNKS:
            return []
        return rng.choice(((1,), (1,), (2,), (1, 1), (1, 1)))

    def change_locks(self, chunk, held):
        for lock in self.locks:
            if self.rng.randrange(3) == 0:
                chunk.append(Command(sr.RELEASE if lock in held else sr.ACQUIRE, (lock,)))
                held ^= {lock}

    def add_access(self, chunk, held, chance):
        """With a chance of one in so many."""
        rng = self.rng
        if rng.randrange(chance) == 0:
            self.change_locks(chunk, held)
            code = rng.choice((sr.READ, sr.WRITE, sr.WRITE, sr.WRITE, sr.ATOMIC_WRITE))
            chunk.append(Command(code, (rng.randrange(100), BASE + rng.randrange(2), 0, 1, rng.choice((1, 2)))))


def locked_nest(rng):
    return some_widened(rng, LockedNest(rng).make())


def locked_nest_bundle(rng):
    """In a random order of its chunks."""
    return bundle_bytes(shuffled(rng, locked_nest(rng)))


# ------------------------------------------------- limits exactly reached


def root_of(chunks):
    return next(c for c in chunks if c[0] == Command(sr.MEMBER, (0, 0)))


def count_of(chunks, codes):
    return sum(c.code in codes for chunk in chunks for c in chunk)


def fill_segments(chunks, wanted):
    """Barriers of the root, until the bundle has so many segments."""
    root_of(chunks)[-1:-1] = [Command(sr.BARRIER, ())] * segments_missing(chunks, wanted)


def fill_accesses(rng, chunks, wanted, style):
    """Accesses at random places, until the bundle has so many."""
    for _ in range(wanted - count_of(chunks, sr.ACCESSES)):
        chunk = rng.choice(chunks)
        chunk.insert(rng.randint(1, len(chunk) - 1), random_access(rng, style))


def add_empty_team(chunks):
    """A team of one without commands, forked by the root: two segments more."""
    numbers = [c.operands[0] for chunk in chunks for c in chunk if c.code == sr.REGION]
    free = next(t for t in range(65535, 0, -1) if t not in numbers)
    root_of(chunks).insert(-1, Command(sr.REGION, (free, 1)))
    chunks.append([Command(sr.MEMBER, (free, 0)), Command(sr.END, ())])


def fill_bytes(chunks, missing):
    """So many bytes, a multiple of 4, by ACQUIRE and RELEASE of a lock that
    the generators do not use."""
    pair = [Command(sr.ACQUIRE, (63,)), Command(sr.RELEASE, (63,))]
    root_of(chunks)[-1:-1] = pair * (missing // 4)


def full_bundle(rng, style=LARGE, segments=512, accesses=1024, length=65536):
    """A bundle with exactly so many segments, accesses and bytes. A length
    of None leaves it as it comes."""
    chunks = random_chunks(rng, style._replace(wides=0))
    fill_accesses(rng, chunks, accesses, style)
    if style.wides and rng.randrange(style.wides) == 0:
        chunks = widened(rng, chunks)
    if length is not None:
        # An empty team leaves one byte more of 4.
        while (length - len(bundle_bytes(chunks)) - segments_missing(chunks, segments)) % 4:
            add_empty_team(chunks)
        fill_bytes(chunks, length - len(bundle_bytes(chunks)) - segments_missing(chunks, segments))
    fill_segments(chunks, segments)
    return chunks


def segments_missing(chunks, wanted):
    return wanted - count_of(chunks, sr.OPENS_SEGMENT)


# --------------------------------------------------------- damaged bundles


def damage_bytes(rng, data):
    """One random change of the bytes."""
    data = bytearray(data)
    at = rng.randrange(len(data) + 1)
    end = min(len(data), at + rng.choice((1, 1, 2, 4, 12)))
    turn = rng.randrange(6)
    if turn == 0:
        return bytes(data[:at])  # torn
    if turn == 1:
        return flip_bit(rng, data)
    if turn == 2 and data:
        data[rng.randrange(len(data))] = rng.choice((rng.randrange(256), rng.randrange(256), sr.CUT))
        return bytes(data)
    if turn == 3:
        more = rng.choice((rng.randbytes(rng.randint(1, 4)), rng.randbytes(1), bytes([sr.CUT])))
        return bytes(data[:at]) + more + bytes(data[at:])  # inserted
    if turn == 4:
        return bytes(data[:at] + data[end:])  # dropped
    return bytes(data[:end] + data[at:])  # doubled


def flip_bit(rng, data):
    data = bytearray(data)
    if data:
        data[rng.randrange(len(data))] ^= 1 << rng.randrange(8)
    return bytes(data)


def damage_chunks(rng, chunks):
    """One random change of whole commands or chunks; answers bytes."""
    chunks = [list(c) for c in shuffled(rng, chunks)]
    chunk = rng.choice(chunks)
    at = rng.randrange(len(chunk))
    turn = rng.randrange(9)
    if turn == 0:
        del chunk[at]
    elif turn == 1:
        chunk.insert(at, chunk[at])
    elif turn == 2:
        chunk.insert(rng.randint(1, len(chunk)), random_extra(rng))
    elif turn == 3:
        chunk[at] = change_operand(rng, chunk[at])
    elif turn == 4:
        chunks.remove(chunk)
    elif turn == 5:
        chunks.insert(rng.randint(0, len(chunks)), chunk)
    elif turn == 6:
        chunk[-1] = Command(sr.END if chunk[-1] == CUT else sr.CUT, ())
    elif turn == 7:
        change_group(rng, chunks)
    else:
        other = rng.randrange(len(chunk))
        chunk[at], chunk[other] = chunk[other], chunk[at]
    return bundle_bytes(chunks)


def change_group(rng, chunks):
    """Of one access, where there is one; its site is kept as far as it has room."""
    places = [(chunk, at) for chunk in chunks for at, c in enumerate(chunk) if c.code in sr.ACCESSES]
    if places:
        chunk, at = rng.choice(places)
        chunk[at] = in_other_group(chunk[at])


def in_other_group(command):
    site, *touched = command.operands
    group = sr.NARROW if command.code in sr.WIDE else sr.WIDE
    return in_group(group, Command(command.code, (min(site, sr.LAST_NARROW_SITE), *touched)))


def random_extra(rng):
    """A command that is often wrong where it is put."""
    return rng.choice((
        Command(rng.choice(sr.ACCESSES), (rng.choice((0, 65535)), BASE, 0, rng.choice((1, 1, 2)), 1)),
        Command(sr.BARRIER, ()),
        Command(sr.END, ()),
        CUT,
        Command(sr.MEMBER, (rng.randrange(4), rng.randrange(4))),
        Command(sr.REGION, (rng.randrange(1, 6), rng.randint(1, 3))),
        Command(sr.ACQUIRE, (rng.randrange(3),)),
        Command(sr.RELEASE, (rng.randrange(3),)),
    ))


def change_operand(rng, command):
    if not command.operands:
        return command
    operands = list(command.operands)
    which = rng.randrange(len(operands))
    top = 256 ** sr.WIDTHS[command.code][which] - 1
    near = max(0, min(top, operands[which] + rng.choice((-1, 1))))
    operands[which] = rng.choice((0, 1, 2, near, near, top))
    return Command(command.code, tuple(operands))


def unlike_members(rng):
    """Teams whose members, complete or cut, passed about as many barriers: accepted, 12, 19 or, with a member too many or too few,
    an earlier refusal."""
    root, chunks = [Command(sr.MEMBER, (0, 0))], []
    for team in range(1, rng.randint(2, 3)):
        size, barriers = rng.randint(2, 4), rng.randint(0, 2)
        root.append(Command(sr.REGION, (team, size)))
        for member in range(size + (rng.randrange(12) == 0)):
            body = [Command(sr.BARRIER, ())] * max(0, barriers + rng.choice((0, 0, 0, 0, -1, 1)))
            if rng.randrange(6) == 0:
                body.insert(rng.randint(0, len(body)), Command(sr.ACQUIRE, (3,)))
            if rng.randrange(6) == 0:
                inner = 10 * team + member
                body.insert(rng.randint(0, len(body)), Command(sr.REGION, (inner, 1)))
                chunks.append([Command(sr.MEMBER, (inner, 0)), rng.choice((CUT, Command(sr.END, ())))])
            held = any(command.code == sr.ACQUIRE for command in body) and rng.randrange(8)
            chunks.append([Command(sr.MEMBER, (team, member)), *body, CUT if held else rng.choice((CUT, Command(sr.END, ())))])
    if rng.randrange(12) == 0:
        chunks.pop()
    return shuffled(rng, [root + [Command(sr.END, ())], *chunks])


def mixed_groups(rng):
    """A root and two members, in any order, with accesses of one group but for one or two, which may have bad operands and may stand
    outside of a chunk or be torn: 20, or 2 to 5 where that is told before it. Answers bytes."""
    group = rng.choice((sr.NARROW, sr.WIDE))
    chunks = [[Command(sr.MEMBER, (0, 0)), Command(sr.REGION, (1, 2)), Command(sr.END, ())]]
    chunks += [[Command(sr.MEMBER, (1, member)), Command(sr.END, ())] for member in range(2)]
    for _ in range(rng.randint(1, 4)):
        put_anywhere(rng, chunks, Command(rng.choice(group), (rng.choice((0, 65535)), BASE, 0, 1, 1)))
    for _ in range(rng.randint(1, 2)):
        code = rng.choice(sr.NARROW if group == sr.WIDE else sr.WIDE)
        put_anywhere(rng, chunks, Command(code, (7, BASE, 0, rng.choice((1, 1, 2)), 1)))
    chunks = shuffled(rng, chunks)
    if rng.randrange(6) == 0:
        chunks.insert(rng.randint(0, 3), [Command(rng.choice(sr.ACCESSES), (7, BASE, 0, rng.choice((1, 2)), 1))])
    data = bundle_bytes(chunks)
    return data[: rng.randrange(len(data))] if rng.randrange(6) == 0 else data


def put_anywhere(rng, chunks, command):
    """Inside one of the chunks."""
    chunk = rng.choice(chunks)
    chunk.insert(rng.randint(1, len(chunk) - 1), command)


def mostly_full(rng):
    """1,022 to 1,024 accesses of one group and one of either, good or bad: accepted, 20, 5 or 7. Answers bytes."""
    group = rng.choice((sr.NARROW, sr.WIDE))
    accesses = [Command(group[0], (7, BASE, 0, 1, 1))] * rng.randint(1022, 1024)
    last = Command(rng.choice(sr.ACCESSES), (7, BASE, 0, rng.choice((1, 1, 2)), 1))
    return bundle_bytes([[Command(sr.MEMBER, (0, 0)), *accesses, last, Command(sr.END, ())]])


def damaged_bundle(rng, style):
    turn = rng.randrange(16)
    if turn < 2:
        return bundle_bytes(unlike_members(rng))
    if turn == 2:
        return mixed_groups(rng)
    chunks = random_chunks(rng, style)
    if rng.randrange(2):
        return damage_chunks(rng, chunks)
    return damage_bytes(rng, bundle_bytes(shuffled(rng, chunks)))


# ------------------------------------------------------- labels and ranges


def random_label(rng):
    """(count, 5 triples); often good, with few values."""
    count = rng.choice((1, 2, 2, 3, 3, 4, 5, 5))
    triples = [random_triple(rng, n) for n in range(5)]
    return count, triples


def random_triple(rng, number):
    if number == 0:
        return (rng.choice((0, 0, 0, 1)), 1, 0)
    return (rng.randrange(5), rng.choice((2, 2, 2, 2, 3)), rng.choice((0, 0, 1)))


def like_label(rng, label):
    """A label that differs from the given one in one place or none."""
    count, triples = label[0], [list(t) for t in label[1]]
    which = rng.choice((0, 1, 1, 2, 2, 3, 4))
    part = rng.choice((0, 0, 1, 2))
    turn = rng.randrange(4)
    if turn == 0:
        count = rng.randint(1, 5)
    elif part == 1 and which:
        triples[which][1] = rng.choice((0, 1, 2, 3, 64, 65))
    else:
        triples[which][part and 2] = rng.choice((0, 1, 2, 3, 4, 64, 2**31, 2**32 - 1))
    return count, [tuple(t) for t in triples]


def small_range(rng):
    """A good range over few bytes."""
    base = rng.randrange(24)
    size = rng.choice((1, 2, 4, 8))
    if rng.randrange(4) == 0:
        return sr.Range(base, 0, 1, size)
    return sr.Range(base, rng.randint(1, 14), rng.randint(2, 7), size)


def middle_range(rng):
    """A good range of some thousand bytes."""
    return sr.Range(
        rng.randrange(3000), rng.choice((rng.randint(1, 20), rng.randint(1, 400))),
        rng.randint(2, 700), rng.choice((1, 2, 4, 8)),
    )


def dense_range(rng, base):
    """Elements that overlap each other: the stride is below the size."""
    size = rng.choice((2, 4, 8, 8))
    return sr.Range(base, rng.randint(1, size - 1), rng.randint(2, 40), size)


def sparse_range(rng, base):
    """Elements with gaps between them."""
    size = rng.choice((1, 2, 4, 8))
    return sr.Range(base, size + rng.randint(1, 40), rng.randint(2, 9), size)


def long_dense_range(rng):
    size = rng.choice((2, 4, 8, 8))
    return sr.Range(rng.randrange(4000), rng.randint(1, size - 1), rng.choice((65535, rng.randint(200, 65535))), size)


def range_from(rng, r):
    """A range whose first element begins at some byte of the given one, often near its end, or just behind it."""
    end = (r.count - 1) * r.stride + r.size
    base = r.base + max(0, rng.choice((rng.randrange(end), end - 1 - rng.randrange(20), end)))
    return rng.choice((sr.Range(base, 0, 1, rng.choice((1, 2, 4, 8))), sparse_range(rng, base), dense_range(rng, base)))


def any_range(rng):
    """Any numbers of the widths; many are bad."""
    return sr.Range(
        rng.choice((0, 10, 2**32 - 1, rng.randrange(2**32))), rng.choice((0, 1, 8, rng.randrange(65536))),
        rng.choice((0, 1, 2, rng.randrange(65536))), rng.choice((0, 1, 2, 3, 4, 8, 9, 255)),
    )
