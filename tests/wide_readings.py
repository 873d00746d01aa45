"""What programs that misread request A.6 of document 02 would refuse, write, convert and tell as sites.

tests/selfcheck counts that the cases tell each one from the right reading, which is the second reader's.
"""

from collections import Counter
from functools import lru_cache

import second_reader as sr
from generators import bundle_bytes, chunks_of
from second_reader import Command

# ------------------------------------------------------------ checking: 20


class State:
    """What a scan has seen: the open chunk, the counts, and the accesses as (offset, group, chunk)."""

    def __init__(self):
        self.chunk = None
        self.opened = Counter()
        self.accesses = []

    def group(self):
        return self.accesses[0][1] if self.accesses else None

    def own_group(self):
        """Of the open chunk's first access."""
        return next((group for _, group, chunk in self.accesses if chunk is self.chunk), None)


def other(code, group):
    return bool(group) and code in sr.ACCESSES and code not in group


def in_turn(command, state, group, before=(4,)):
    """The refusal of a command where 20 is tested behind these, or None; group is that compared with."""
    number = sr.why_not_here(command, state.chunk, None, state.opened)
    return 20 if other(command.code, group) and number not in before else number


def right(command, state):
    return in_turn(command, state, state.group())


def refusal_by(data, why=right, place_of=None, torn=False, late=None):
    """Number and place, or None. place_of takes another place for 20; torn: 20 before 3; late: 20 is tested behind the scan, before 8
    or after 19."""
    if len(data) > sr.MOST_BYTES:
        return 1, 0
    state, chunks, position, found = State(), [], 0, None
    while position < len(data):
        try:
            command, after = sr.take_command(data, position)
        except sr.Refused as refusal:
            known = torn and refusal.number == 3 and other(data[position], state.group())
            return (20 if known else refusal.number), position
        number = why(command, state)
        if number == 20 and late:
            found, number = found or (20, position), in_turn(command, state, None)
        if number:
            return number, place_of(state, position) if place_of and number == 20 else position
        step(state, chunks, command, position, after)
        position = after
    if state.chunk is not None:
        return 4, len(data)
    if found and late == "before 8":
        return found
    shape = next(((number, min(places(chunks))) for number, places in sr.SHAPE if places(chunks)), None)
    return shape or found


def step(state, chunks, command, position, after):
    if command.code == sr.MEMBER:
        state.chunk = sr.Chunk(*command.operands, position)
        chunks.append(state.chunk)
    else:
        sr.apply_command(state.chunk, command, position)
    if command.code in sr.ACCESSES:
        state.accesses.append((position, sr.group_of(command.code), state.chunk))
    state.opened["segments"] += command.code in sr.OPENS_SEGMENT
    state.opened["accesses"] += command.code in sr.ACCESSES
    if command.code in sr.CLOSES_CHUNK:
        state.chunk.end, state.chunk.complete = after, command.code == sr.END
        state.chunk = None


def not_tested(data):
    return refusal_by(data, lambda command, state: in_turn(command, state, None))


def before_3(data):
    return refusal_by(data, torn=True)


def before_4(data):
    return refusal_by(data, lambda command, state: in_turn(command, state, state.group(), before=()))


def after_5(data):
    return refusal_by(data, lambda command, state: in_turn(command, state, state.group(), before=(4, 5)))


def after_7(data):
    return refusal_by(data, lambda command, state: in_turn(command, state, state.group(), before=(4, 5, 6, 7)))


def behind_the_scan(data):
    """20 after 2 to 7 of all commands."""
    return refusal_by(data, late="before 8")


def behind_the_shape(data):
    return refusal_by(data, late="after 19")


def own_chunk(data):
    """Compared with the first access of its own chunk."""
    return refusal_by(data, lambda command, state: in_turn(command, state, state.own_group() if state.chunk else None))


def other_chunks(data):
    """Compared with the first access of the bundle, but for those of its own chunk."""
    return refusal_by(data, lambda command, state: in_turn(command, state, None if state.own_group() else state.group()))


def wide_behind_narrow(data):
    return refusal_by(data, lambda command, state: in_turn(command, state, state.group() if state.group() == sr.NARROW else None))


def narrow_behind_wide(data):
    return refusal_by(data, lambda command, state: in_turn(command, state, state.group() if state.group() == sr.WIDE else None))


def always_narrow_first(data):
    """Any wide access is of the other group."""
    return refusal_by(data, lambda command, state: in_turn(command, state, sr.NARROW))


def same_kind_alone(data):
    """Only an access of the same kind as the first one is compared."""
    def why(command, state):
        kinds = [sr.code_in(sr.NARROW, data[offset]) for offset, _, _ in state.accesses[:1]]
        return in_turn(command, state, state.group() if sr.code_in(sr.NARROW, command.code) in kinds else None)
    return refusal_by(data, why)


def large_sites_alone(data):
    """A wide access behind narrow ones is taken where its site has room in 2 bytes."""
    def why(command, state):
        small = command.code in sr.WIDE and command.operands[0] <= sr.LAST_NARROW_SITE
        return in_turn(command, state, None if small else state.group())
    return refusal_by(data, why)


def at_the_first(data):
    """20 at the bundle's first access."""
    return refusal_by(data, place_of=lambda state, position: state.accesses[0][0])


def at_member(data):
    return refusal_by(data, place_of=lambda state, position: state.chunk.offset if state.chunk else position)


def accesses_seen(data):
    """As far as the commands are good but for their groups."""
    seen = []
    def why(command, state):
        seen[:] = state.accesses
        return in_turn(command, state, None)
    refusal_by(data, why)
    return seen


def lowest_name(data):
    """Compared with the access of the lowest name."""
    seen = accesses_seen(data)
    least = min(seen, key=lambda access: (access[2].team, access[2].member, access[0]), default=(0, None))[1]
    return refusal_by(data, lambda command, state: in_turn(command, state, least))


def last_access(data):
    seen = accesses_seen(data)
    return refusal_by(data, lambda command, state: in_turn(command, state, seen[-1][1] if seen else None))


WRONG_REFUSALS = (
    not_tested, before_3, before_4, after_5, after_7, behind_the_scan, behind_the_shape, own_chunk, other_chunks, wide_behind_narrow,
    narrow_behind_wide, always_narrow_first, same_kind_alone, large_sites_alone, at_the_first, at_member, lowest_name, last_access,
)


def told_by_refusals(datas):
    """In how many of these bundles each reading is refused otherwise; only those with the byte of a wide access can tell. All must be
    refused rightly by refusal_by itself."""
    counts = Counter()
    for data in datas:
        if not any(code in data for code in sr.WIDE):
            continue
        wanted = refusal_by(data)
        if wanted != refusal_of(data):
            raise AssertionError(f"refused {wanted}: {data.hex()}")
        counts.update(reading for reading in WRONG_REFUSALS if reading(data) != wanted)
    return counts


@lru_cache(maxsize=4)
def refusal_of(data):
    try:
        sr.check(data)
    except sr.Refused as refusal:
        return refusal.number, refusal.place
    return None


# --------------------------------------------------------------- converting


def without_high_half(command):
    """A narrow command's site in 2 bytes."""
    return Command(command.code, (command.operands[0] % 65536, *command.operands[1:])) if command.code in sr.NARROW else command


@lru_cache(maxsize=4)
def converted(group, data):
    """The bytes of an accepted bundle in a group; sites that have no room lose their high half."""
    commands = (Command(sr.code_in(group, code), operands) for _, (code, operands) in sr.placed_commands(data))
    return b"".join(sr.command_bytes(without_high_half(command)) for command in commands)


GROUPS = {"wide": sr.WIDE, "narrow": sr.NARROW}


def places_of_large(data, most=sr.LAST_NARROW_SITE):
    """The offsets of the accesses with sites above."""
    return [at for at, (code, operands) in sr.placed_commands(data) if code in sr.ACCESSES and operands[0] > most]


def too_long(word, data, result, most=sr.MOST_BYTES):
    """1, or None."""
    return (1, 0) if word == "wide" and len(result) > most else None


def too_large(word, data, result, places=places_of_large):
    """21, or None."""
    found = places(data) if word == "narrow" else []
    return (21, found[0]) if found else None


def conversion(word, data, buffer, tests=(too_long, too_large), make=converted, least=len, answer=len, behind=lambda rest: rest,
               torn=False, short_first=False, unchecked=False):
    """(refusal, None) or (None, answer), and the buffer: with other tests behind check's, another result, another length that the
    buffer must have, another answer, other bytes behind the result. torn: a buffer that is too short is filled; short_first: 17 comes
    before the tests; unchecked: before check."""
    refusal = refusal_of(data)
    result = make(GROUPS[word], data) if refusal is None else b""
    short = (17, 0) if len(buffer) < (least(result) if refusal is None else len(data)) else None
    found = next(filter(None, (test(word, data, result) for test in tests)), None) if refusal is None else None
    if unchecked:
        refusal = short or refusal or found
    else:
        refusal = refusal or (short or found if short_first else found or short)
    if refusal:
        return refusal, None, result[: len(buffer)] + buffer[len(result) :] if torn and refusal[0] in (17, 1) else buffer
    return None, answer(result), (result + behind(buffer[len(result) :]))[: len(buffer)]


def right_conversion(word, data, buffer):
    return conversion(word, data, buffer)


def wrong(name, **changed):
    """The conversion with these changes, under a name."""
    def reading(word, data, buffer):
        return conversion(word, data, buffer, **changed)
    reading.__name__ = name
    return reading


def without_21(word, data, buffer):
    """The high half of the site is dropped."""
    return conversion(word, data, buffer, tests=(too_long,))


def without_1(word, data, buffer):
    return conversion(word, data, buffer, tests=(too_large,))


def large_by(places):
    return lambda word, data, result: too_large(word, data, result, places)


def long_by(most):
    return lambda word, data, result: too_long(word, data, result, most)


def place_in_result(data):
    """Counted in the result."""
    found = places_of_large(data)
    before = sum(at < found[0] and command.code in sr.WIDE for at, command in sr.placed_commands(data)) if found else 0
    return [at - 2 * before for at in found]


def place_of_member(data):
    found = places_of_large(data)
    members = [at for at, command in sr.placed_commands(data) if command.code == sr.MEMBER]
    return [max(at for at in members if at <= place) for place in found]


def place_by_name(data):
    """At the lowest name."""
    accesses = {a.name: a for a in sr.check(data).accesses() if a.site > sr.LAST_NARROW_SITE}
    if not accesses:
        return []
    name = min(accesses)
    chunk = accesses[name].chunk
    codes = [at for at, command in sr.placed_commands(data) if command.code in sr.ACCESSES and chunk.offset < at < chunk.end]
    return [codes[name[2]]]


def always_longer(word, data, result):
    """2 bytes for each access are counted, also where it is wide already."""
    accesses = sum(command.code in sr.ACCESSES for _, command in sr.placed_commands(data))
    return (1, 0) if word == "wide" and len(data) + 2 * accesses > sr.MOST_BYTES else None


def any_bytes(group, data):
    """Bytes of operands that look like accesses are changed too."""
    wanted = dict(zip(sr.NARROW + sr.WIDE, group * 2))
    return bytes(wanted.get(byte, byte) for byte in converted(group, data))


def in_chunk_order(group, data):
    """With the chunks in order too."""
    return converted(group, sr.canon(data)[0])


def first_alone(group, data):
    """Only the first access of each chunk is converted; then it is of the other group than the next."""
    def some(chunk):
        first = next((k for k, c in enumerate(chunk) if c.code in sr.ACCESSES), None)
        return [without_high_half(Command(sr.code_in(group, c.code), c.operands)) if k == first else c for k, c in enumerate(chunk)]
    return bundle_bytes([some(chunk) for chunk in chunks_of(data)])


def with_codes(change):
    """A result with other command bytes for accesses."""
    return lambda group, data: bundle_bytes([
        [Command(change(c.code), c.operands) if c.code in sr.ACCESSES else c for c in chunk] for chunk in chunks_of(converted(group, data))])


def with_sites(change):
    """A result with other sites."""
    def changed(command):
        code, (site, *touched) = command
        return Command(code, (change(code, site), *touched))
    return lambda group, data: bundle_bytes([
        [changed(c) if c.code in sr.ACCESSES else c for c in chunk] for chunk in chunks_of(converted(group, data))])


def zeros_before(code, site):
    """The two bytes that are added stand before those of the site."""
    return site * 65536 % 2**32 if code in sr.WIDE and site < 65536 else site


def sign_kept(code, site):
    """The site's highest bit of 16 fills the bytes that are added."""
    return site + 0xFFFF0000 if code in sr.WIDE and 32768 <= site < 65536 else site


# Those that only bundles of about 65,536 bytes tell.
WRONG_LIMITS = (
    without_1,
    wrong("long_at_65536", tests=(long_by(65535), too_large)),
    wrong("long_from_65538", tests=(long_by(65537), too_large)),
    wrong("always_longer", tests=(always_longer, too_large)),
    wrong("long_after_short", short_first=True),
)

WRONG_CONVERSIONS = (
    without_21,
    wrong("last_large", tests=(too_long, large_by(lambda data: places_of_large(data)[::-1]))),
    wrong("large_at_0", tests=(too_long, large_by(lambda data: [0 for _ in places_of_large(data)]))),
    wrong("large_in_result", tests=(too_long, large_by(place_in_result))),
    wrong("large_at_member", tests=(too_long, large_by(place_of_member))),
    wrong("large_by_name", tests=(too_long, large_by(place_by_name))),
    wrong("large_from_65535", tests=(too_long, large_by(lambda data: places_of_large(data, 65534)))),
    wrong("large_from_65537", tests=(too_long, large_by(lambda data: places_of_large(data, 65536)))),
    wrong("short_first", short_first=True),
    wrong("short_before_check", unchecked=True),
    wrong("one_more_wanted", least=lambda result: len(result) + 1),
    wrong("one_less_wanted", least=lambda result: len(result) - 1),
    wrong("whole_buffer_wanted", least=lambda result: max(len(result), 65536)),
    wrong("filled_though_refused", torn=True),
    wrong("zeros_behind", behind=lambda rest: bytes(len(rest))),
    wrong("any_bytes", make=any_bytes),
    wrong("in_chunk_order", make=in_chunk_order),
    wrong("first_alone", make=first_alone),
    wrong("kinds_lost", make=with_codes(lambda code: sr.group_of(code)[0])),
    wrong("atomics_lost", make=with_codes(lambda code: sr.group_of(code)[sr.group_of(code).index(code) % 2])),
    wrong("zeros_before", make=with_sites(zeros_before)),
    wrong("sign_kept", make=with_sites(sign_kept)),
    wrong("low_bytes", make=with_sites(lambda code, site: site % 256)),
)


def source_wanted(word, data, buffer):
    """17 for a buffer that is shorter than the bundle, not than the result."""
    return conversion(word, data, buffer, least=lambda result: len(data))


def both_wanted(word, data, buffer):
    """17 for a buffer that is shorter than the bundle or the result."""
    return conversion(word, data, buffer, least=lambda result: max(len(result), len(data)))


def source_counted(word, data, buffer):
    """The answer is the bundle's length."""
    return conversion(word, data, buffer, answer=lambda result: len(data))


def buffer_counted(word, data, buffer):
    return conversion(word, data, buffer, answer=lambda result: len(buffer))


def accesses_counted(word, data, buffer):
    """The answer is the number of commands that were converted."""
    return conversion(word, data, buffer, answer=lambda result: len(sr.check(data).accesses()))


def own_group_left(word, data, buffer):
    """A bundle that is in the wanted group already leaves the buffer as it is, and 0 bytes are told."""
    same = refusal_of(data) is None and codes_of(data) <= set(GROUPS[word]) and len(buffer) >= len(data)
    return (None, 0, buffer) if same else conversion(word, data, buffer)


def codes_of(data):
    return {command.code for _, command in sr.placed_commands(data) if command.code in sr.ACCESSES}


WRONG_CONVERSIONS += (source_wanted, both_wanted, source_counted, buffer_counted, accesses_counted, own_group_left)


def told_by_conversions(asked):
    """In how many of these conversions, each a word, a bundle and a buffer, each reading differs; long bundles are read by those of
    WRONG_LIMITS alone."""
    counts = Counter()
    for word, data, buffer in asked:
        wanted = right_conversion(word, data, buffer)
        if wanted != by_second_reader(word, data, buffer):
            raise AssertionError(f"to {word}: {wanted}: {data.hex()}")
        readings = WRONG_LIMITS if len(data) > 20000 else WRONG_CONVERSIONS
        counts.update(reading for reading in readings if reading(word, data, buffer) != wanted)
    return counts


def by_second_reader(word, data, buffer):
    lent = bytearray(buffer)
    try:
        answer = None, sr.CONVERTERS[word](data, lent)
    except sr.Refused as refusal:
        answer = (refusal.number, refusal.place), None
    return *answer, bytes(lent)


# ------------------------------------------------------------ sites of races

# What programs that are wrong would tell as the site of an access.
WRONG_SITES = {
    "low half": lambda site: site % 65536,
    "high half": lambda site: site // 65536,
    "at most 65,535": lambda site: min(site, 65535),
    "24 bits": lambda site: site % 2**24,
    "31 bits": lambda site: site % 2**31,
}


def told_by_sites(datas):
    """In how many of these good bundles each wrong site shows in a race."""
    counts = Counter()
    for races in (sr.all_races(sr.check(data)) for data in datas):
        sites = {site for race in races for site in (race.first_site, race.second_site)}
        counts.update(title for title, wrong_site in WRONG_SITES.items() if any(wrong_site(site) != site for site in sites))
    return counts


# ------------------------------------------------- reading and putting commands


def put_by(command, buffer, position, good=sr.operands_are_good, cut=False, short_first=False):
    """(refusal, None) or (None, position after it), and the buffer, with another test for 5; cut: a site loses what has no room."""
    code, operands = command
    if code in sr.NARROW and (cut or operands[0] <= 65535):
        data = sr.command_bytes(Command(code, (operands[0] % 65536, *operands[1:])))
    else:
        data = sr.command_bytes(command) if code not in sr.NARROW else bytes(12)
    five = None if good(command) else (5, position)
    short = (17, position) if position + len(data) > len(buffer) else None
    refusal = short or five if short_first else five or short
    if refusal:
        return refusal, None, buffer
    return None, position + len(data), buffer[:position] + data + buffer[position + len(data) :]


def put_cut(command, buffer, position):
    """The high half of a narrow command's site is dropped."""
    return put_by(command, buffer, position, lambda command: sr.operands_are_good(without_high_half(command)), cut=True)


def put_at_most(most):
    """5 for narrow commands with sites above another limit."""
    def put(command, buffer, position):
        def good(command):
            return sr.operands_are_good(without_high_half(command)) and (command.code not in sr.NARROW or command.operands[0] <= most)
        return put_by(command, buffer, position, good, cut=True)
    put.__name__ = f"put_at_most_{most}"
    return put


def put_all_small(command, buffer, position):
    """5 for wide commands with sites over 65,535 too."""
    return put_by(command, buffer, position, lambda c: sr.operands_are_good(c) and (c.code not in sr.ACCESSES or c.operands[0] <= 65535))


def put_short_first(command, buffer, position):
    return put_by(command, buffer, position, short_first=True)


WRONG_PUTS = (put_cut, put_at_most(65534), put_at_most(65536), put_all_small, put_short_first)


def told_by_puts(asked):
    """In how many of these puts, each a command, a buffer and a position, each reading differs."""
    counts = Counter()
    for command, buffer, position in asked:
        if position > len(buffer):
            continue
        wanted = put_by(command, buffer, position)
        counts.update(reading for reading in WRONG_PUTS if reading(command, buffer, position) != wanted)
    return counts


def read_by(data, position, codes=None, widths=sr.WIDE_WIDTHS, site=lambda site: site):
    """The command and the position after it, or the refusal: with other bytes for wide accesses, other widths and other sites."""
    codes = dict(zip(sr.WIDE, sr.WIDE)) if codes is None else codes
    if position >= len(data) or data[position] not in {*codes, *sr.WIDE}:
        try:
            return sr.read_command(data, position)
        except sr.Refused as refusal:
            return refusal.number, refusal.place
    if data[position] not in codes:
        return 2, position
    after = position + 1 + sum(widths)
    if after > len(data):
        return 3, position
    operands, at = [], position + 1
    for width in widths:
        operands.append(int.from_bytes(data[at : at + width], "little"))
        at += width
    command = Command(codes[data[position]], (site(operands[0]), *operands[1:]))
    return (command, after) if sr.operands_are_good(command) else (5, position)


WRONG_READS = {
    "no wide accesses": {"codes": {}},
    "from 0x34 on": {"codes": dict(zip(range(0x34, 0x3C), sr.WIDE * 2))},
    "up to 0x3f": {"codes": dict(zip(range(0x38, 0x40), sr.WIDE * 2))},
    "2-byte sites": {"widths": sr.NARROW_WIDTHS},
    "3-byte sites": {"widths": (3, *sr.NARROW_WIDTHS[1:])},
    "8-byte sites": {"widths": (8, *sr.NARROW_WIDTHS[1:])},
    "sites of 16 bits": {"site": lambda site: site % 65536},
    "high byte first": {"site": lambda site: int.from_bytes(site.to_bytes(4, "little"), "big")},
    "halves exchanged": {"site": lambda site: site % 65536 * 65536 + site // 65536},
    "kinds exchanged": {"codes": dict(zip(sr.WIDE, (*sr.WIDE[2:], *sr.WIDE[:2])))},
}


def told_by_reads(asked):
    """In how many of these reads, each of bytes at a position, each reading differs."""
    counts = Counter()
    for data, position in asked:
        wanted = read_by(data, position)
        counts.update(title for title, changed in WRONG_READS.items() if read_by(data, position, **changed) != wanted)
    return counts
