"""Bundles for whole runs of racelist, as pairs of a title and bytes.

Sizes are chosen so that the second reader lists each bundle in seconds, most of them in milliseconds.
"""

import random

import aimed_cases
import generators
import known_damage
import race_cases
import second_reader as sr
from bundle_text import bundle
from second_reader import Command

E = aimed_cases.E_BYTES
BARRIER, END = Command(sr.BARRIER, ()), Command(sr.END, ())
WORD = sr.Range(generators.BASE, 0, 1, 4)
LOCK_COUNT = 64
MOST_RACES = 64 * 63 // 2 * 16 * 16  # of a team of 64 with 16 writes of one word in each member


# ---------------------------------------------------------- shaped bundles


def access(code, r, site=1):
    return Command(code, (site, *r))


def one_team(size, commands, team=1):
    """A root that forks a team; commands(member) gives what stands in a member's chunk."""
    chunks = [[Command(sr.MEMBER, (0, 0)), Command(sr.REGION, (team, size)), END]]
    for member in range(size):
        chunks.append([Command(sr.MEMBER, (team, member)), *commands(member), END])
    return chunks


def all_clash(size, writes, team=1):
    """All members write one word so many times: every pair of different members' writes is a race."""
    return one_team(size, lambda member: [access(sr.WRITE, WORD, 1000 * member + n) for n in range(writes)], team)


def coprime_strides(rng, size, writes):
    """Ranges of about 1,000 elements, whose strides mostly have no common divisor."""
    def far():
        base, stride = 2**20 + rng.randrange(100000), rng.randrange(501, 3000, 2)
        return sr.Range(base, stride, rng.randint(900, 1100), rng.choice((1, 2, 4, 8)))
    return one_team(size, lambda member: [access(sr.WRITE, far(), member) for _ in range(writes)])


def many_locks(rng, size, writes):
    """Each access of one word under up to four of 64 locks; some are held over the next access."""
    def commands(_):
        held = []
        for _ in range(writes):
            free = [lock for lock in range(LOCK_COUNT) if lock not in held]
            taken = rng.sample(free, rng.randint(0, 4 - min(4, len(held))))
            held += taken
            yield from (Command(sr.ACQUIRE, (lock,)) for lock in taken)
            yield access(rng.choice(sr.NARROW), WORD, rng.randrange(65536))
            dropped = rng.sample(held, rng.randint(0, len(held)))
            held = [lock for lock in held if lock not in dropped]
            yield from (Command(sr.RELEASE, (lock,)) for lock in dropped)
        yield from (Command(sr.RELEASE, (lock,)) for lock in held)
    return one_team(size, commands)


def all_locks(size):
    """Every member writes under all locks but one, so that no two writes race, and then reads without a lock."""
    def commands(member):
        locks = [lock for lock in range(LOCK_COUNT) if lock != member]
        yield from (Command(sr.ACQUIRE, (lock,)) for lock in locks)
        yield access(sr.WRITE, WORD)
        yield from (Command(sr.RELEASE, (lock,)) for lock in reversed(locks))
        yield access(sr.READ, WORD)
    return one_team(size, commands)


def one_lock_each(size):
    """Member m holds lock m alone: no lock in common, so every pair of members races."""
    return one_team(size, lambda member: [
        Command(sr.ACQUIRE, (member,)), access(sr.WRITE, WORD, member), Command(sr.RELEASE, (member,))])


def all_locks_around(size):
    """Every member forks a team of one under all locks but one, so that no two inner writes race, and then reads without a lock:
    each write races with all reads but that of the member that forked its team."""
    def commands(member):
        locks = [lock for lock in range(LOCK_COUNT) if lock != member]
        yield from (Command(sr.ACQUIRE, (lock,)) for lock in locks)
        yield Command(sr.REGION, (100 + member, 1))
        yield from (Command(sr.RELEASE, (lock,)) for lock in locks)
        yield access(sr.READ, WORD)
    return one_team(size, commands) + inner_writes(size)


def one_lock_around(size):
    """Member m holds lock m alone around its region: every pair of inner members races."""
    return one_team(size, lambda member: [
        Command(sr.ACQUIRE, (member,)), Command(sr.REGION, (100 + member, 1)), Command(sr.RELEASE, (member,))]) + inner_writes(size)


def inner_writes(size):
    """Teams of one, 100 and up, that write one word."""
    return [[Command(sr.MEMBER, (100 + n, 0)), access(sr.WRITE, WORD, n), END] for n in range(size)]


def intervals(size, barriers, accesses):
    """A team that passes so many barriers, all writing one word so many times in each interval."""
    def commands(member):
        for interval in range(barriers + 1):
            yield from [BARRIER] if interval else []
            yield from [access(sr.WRITE, WORD, 64 * interval + member)] * accesses
    return one_team(size, commands)


def cut_all(chunk):
    """CUT in place of END."""
    return generators.cut_at(chunk, len(chunk) - 1)


def stairs(size, barriers, accesses):
    """As intervals, with member m cut at the end of interval m modulo one more than the barriers; the last interval's are complete."""
    root, *members = intervals(size, barriers, accesses)
    for member, chunk in enumerate(members):
        interval = member % (barriers + 1)
        if interval < barriers:
            ends = [at for at, command in enumerate(chunk) if command == BARRIER]
            members[member] = generators.cut_at(chunk, ends[interval])
    return [root, *members]


def nested(rng, size, accesses, locks=0):
    """Teams of a size, each of whose members forks another, four deep; so many accesses in each chunk. With locks, each chunk
    holds one of so many, around the region or not, or none."""
    chunks, last = [], 0

    def add(team, member, depth):
        nonlocal last
        chunk = [Command(sr.MEMBER, (team, member))]
        chunks.append(chunk)
        chunk += [generators.random_access(rng, generators.WIDE) for _ in range(accesses)]
        if depth < 4:
            last += 1
            inner = last
            chunk.insert(rng.randint(1, len(chunk)), Command(sr.REGION, (inner, size)))
            for number in range(size):
                add(inner, number, depth + 1)
        if locks and rng.randrange(4):
            hold(rng, chunk, rng.randrange(locks))
        chunk.append(END)

    add(0, 0, 0)
    return chunks


def hold(rng, chunk, lock):
    """Held from some place of the chunk to a later one."""
    first, last = sorted(rng.choices(range(1, len(chunk) + 1), k=2))
    chunk.insert(last, Command(sr.RELEASE, (lock,)))
    chunk.insert(first, Command(sr.ACQUIRE, (lock,)))


def widest(last=55):
    """Seven teams of 64 and one of 55 in turn: 504 chunks and 512 segments; two accesses in each member."""
    root, chunks = [Command(sr.MEMBER, (0, 0))], []
    for team in range(1, 9):
        size = last if team == 8 else 64
        root.append(Command(sr.REGION, (team, size)))
        for member in range(size):
            touched = sr.Range(generators.BASE + 8 * (member // 2), 0, 1, 8)
            chunks.append([Command(sr.MEMBER, (team, member)), access(sr.WRITE, touched), access(sr.READ, touched), END])
    return [root + [END], *chunks]


def most_teams(regions=255):
    """So many teams of one member, four deep: the root forks every fourth, each of these the next."""
    chunks = [[Command(sr.MEMBER, (team, 0)), access(sr.WRITE, WORD, team)] for team in range(regions + 1)]
    for team in range(1, regions + 1):
        chunks[0 if team % 4 == 1 else team - 1].append(Command(sr.REGION, (team, 1)))
    return [chunk + [END] for chunk in chunks]


# ---------------------------------------------------- the same in each run


def fixed_bundles():
    """Every aimed bundle, every piece of E, and bundles at each limit and one past it."""
    for title, _, _, data in aimed_cases.check_cases():
        yield title, data
    for case in race_cases.ALL:
        yield case.title, bundle(case.text)
    for length in range(len(E)):
        yield f"the first {length} bytes of E", E[:length]
    for place in range(len(E)):
        for byte in (0x00, 0x03, 0x11, 0x38, 0xFF):
            yield f"E with {byte:#04x} at {place}", E[:place] + bytes([byte]) + E[place + 1 :]
    yield from limit_bundles()
    for length in (65536, 65537, 65538, 65540, 66000, 131072, 131073, 200000, 1000000):
        yield f"{length} bytes 0x00", bytes(length)
        yield f"{length} bytes of E again and again", (E * (length // len(E) + 1))[:length]


def limit_bundles():
    rng = random.Random(31)
    full = generators.full_bundle(rng, generators.LARGE)
    shaped = (
        ("all limits reached", full),
        ("all limits reached, other order", generators.shuffled(rng, full)),
        ("all limits reached, few races", generators.full_bundle(rng, generators.QUIET)),
        ("504 chunks", widest()),
        ("504 chunks, shuffled", generators.shuffled(rng, widest())),
        ("505 chunks: the 513th segment", widest(56)),
        ("255 teams", most_teams()),
        ("255 teams, back to front", most_teams()[::-1]),
        ("256 teams: the 513th segment", most_teams(256)),
        ("all clash", all_clash(64, 16, 65535)),
        ("a 1,025th access", all_clash(64, 16)[:-1] + [all_clash(64, 17)[-1]]),
        ("8 members, 62 barriers", intervals(8, 62, 2)),
        ("64 members, 6 barriers", intervals(64, 6, 2)),
        ("teams of 4 four deep", nested(rng, 4, 3)),
        ("many locks", many_locks(rng, 64, 16)),
        ("all locks but one", all_locks(16)),
        ("one lock each", one_lock_each(64)),
        ("all locks but one around a region", all_locks_around(16)),
        ("one lock each around a region", one_lock_around(64)),
        ("teams of 4 four deep with locks", nested(rng, 4, 2, 2)),
        ("teams of 2 four deep with locks", nested(rng, 2, 12, 3)),
        ("coprime strides", coprime_strides(rng, 16, 12)),
        ("all limits reached, then cut", generators.cut_some(rng, full)),
        ("64 members, 6 barriers, cut one after the other", stairs(64, 6, 2)),
        ("64 members, 6 barriers, none complete", [cut_all(chunk) for chunk in intervals(64, 6, 2)]),
        ("teams of 4 four deep, all cut", [cut_all(chunk) for chunk in nested(rng, 4, 3)]),
        ("one byte too many", with_barrier(full)),
        ("all limits reached, wide", generators.full_bundle(rng, generators.LARGE._replace(wides=1))),
        ("all clash, wide", generators.widened(rng, all_clash(32, 8))),
        ("64 members, 6 barriers, wide", generators.widened(rng, intervals(64, 6, 2))),
    )
    for title, chunks in shaped:
        yield title, generators.bundle_bytes(chunks)


def with_barrier(chunks):
    """One command of one byte more, in the root."""
    root = generators.root_of(chunks)
    return [chunk[:-1] + [BARRIER, chunk[-1]] if chunk is root else chunk for chunk in chunks]


# -------------------------------------------------------- fresh in each run


def random_bundles(seed):
    """Some hundred bundles made from the seed: good, damaged and torn, and some at the limits."""
    rng = random.Random(seed)
    for style in generators.STYLES:
        for _ in range(12):
            yield "good", generators.random_bundle(rng, style)
            yield "damaged", generators.damaged_bundle(rng, style)
        yield "torn", torn(rng, generators.random_bundle(rng, style))
        yield "damaged twice", generators.damage_bytes(rng, generators.damaged_bundle(rng, style))
    for style in (generators.SMALL, generators.MIDDLE):
        chunks = generators.shuffled(rng, generators.random_chunks(rng, style))
        for maker in known_damage.MAKERS:
            if made := maker(rng, chunks):
                yield maker.__name__, made[0]
    for _ in range(6):
        yield "races of one interval", generators.bundle_bytes(generators.shuffled(rng, generators.one_interval(rng)))
    for _ in range(12):
        yield "locks around regions", generators.locked_nest_bundle(rng)
        yield "cut chunks", generators.stopped_run_bundle(rng)
        yield "unlike members", generators.bundle_bytes(generators.unlike_members(rng))
        yield "mixed groups", generators.mixed_groups(rng)
    for _ in range(3):
        yield "about 1,024 accesses", generators.mostly_full(rng)
    yield "any bytes", rng.randbytes(rng.randrange(200))
    yield "any commands", b"".join(bytes([rng.choice(list(sr.WIDTHS)), *rng.choices((0, 1, 2, 4), k=rng.randrange(12))])
                                   for _ in range(rng.randrange(30)))
    for title, chunks in large_chunks(rng):
        data = generators.bundle_bytes(generators.shuffled(rng, chunks))
        yield title, data
        yield title + ", cut", generators.bundle_bytes(generators.shuffled(rng, generators.with_cuts(rng, chunks)))
        yield title + ", damaged", generators.damage_bytes(rng, data)
        yield title + ", torn", torn(rng, data)
    yield from too_long(rng)


def large_chunks(rng):
    """Some of the large shapes; the seed says which."""
    shapes = [
        ("all limits", lambda: generators.full_bundle(rng, rng.choice((generators.LARGE, generators.QUIET)))),
        ("segments and accesses at the limits", lambda: generators.full_bundle(rng, generators.LARGE, length=None)),
        ("all clash", lambda: all_clash(rng.randint(2, 40), rng.randint(1, 12), rng.choice((1, 255, 256, 65535)))),
        ("many locks", lambda: many_locks(rng, rng.randint(2, 40), rng.randint(1, 10))),
        ("nested", lambda: nested(rng, rng.choice((1, 2, 3, 4)), rng.randint(1, 3))),
        ("nested with locks", lambda: nested(rng, rng.choice((2, 3, 4)), rng.randint(1, 3), rng.randint(1, 4))),
        ("barriers", lambda: intervals(rng.randint(2, 20), rng.randint(0, 20), rng.randint(1, 2))),
        ("coprime", lambda: coprime_strides(rng, rng.randint(2, 8), rng.randint(1, 8))),
    ]
    for title, make in rng.sample(shapes, 3):
        chunks = make()
        wide = generators.some_widened(rng, chunks)
        yield title, wide if len(generators.bundle_bytes(wide)) <= sr.MOST_BYTES else chunks


def torn(rng, data):
    return data[: rng.randrange(len(data) + 1)]


def too_long(rng):
    """Over 65,536 bytes, by one or by more; also what would be a good bundle if it were shorter."""
    chunks = generators.full_bundle(rng, rng.choice((generators.LARGE, generators.QUIET)))
    yield "one byte too many", generators.bundle_bytes(with_barrier(chunks))
    yield "too long", generators.bundle_bytes(chunks) + rng.randbytes(rng.choice((1, 2, 45, 5000, 70000, 300000)))
