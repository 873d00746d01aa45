"""Good bundles with one fault whose refusal is known from how it was made.

Each maker takes a random.Random and the chunks of a good bundle, lists of Commands in the order of the bytes, and gives the
bytes, the number and the place, or None where the bundle has no room for the fault. Places are counted from the lengths of the
commands; nothing of the second reader's check is used. Lock 62 and the teams from 65,000 on must be free (has_room).
"""

import second_reader as sr
from second_reader import Command

LENGTHS = {0x01: 4, 0x02: 1, 0x03: 1, 0x10: 4, 0x11: 1, 0x20: 2, 0x21: 2, 0x30: 12, 0x31: 12, 0x32: 12, 0x33: 12}
LENGTHS |= dict.fromkeys((0x38, 0x39, 0x3A, 0x3B), 14)
END, CUT, BARRIER = Command(sr.END, ()), Command(sr.CUT, ()), Command(sr.BARRIER, ())
FREE_LOCK = 62
FREE_TEAM = 65000


def has_room(chunks):
    return all(chunk[0].operands[0] < FREE_TEAM for chunk in chunks)


def length(commands):
    return sum(LENGTHS[command.code] for command in commands)


def offset(chunks, index, at=0):
    """Of command `at` of the chunk `index`."""
    return sum(length(chunk) for chunk in chunks[:index]) + length(chunks[index][:at])


def written(chunks):
    return b"".join(sr.command_bytes(command) for chunk in chunks for command in chunk)


def changed(chunks, index, chunk):
    return [*chunks[:index], chunk, *chunks[index + 1 :]]


def any_place(rng, chunks):
    """A chunk and a place in it, behind MEMBER and not behind END or CUT."""
    index = rng.randrange(len(chunks))
    return index, rng.randrange(1, len(chunks[index]))


def with_command(chunks, index, at, command):
    """The command put before the one that stands there; with its offset."""
    chunk = chunks[index]
    return changed(chunks, index, [*chunk[:at], command, *chunk[at:]]), offset(chunks, index, at)


def locks_held(chunk, at):
    held = set()
    for code, operands in chunk[:at]:
        if code == sr.ACQUIRE:
            held.add(operands[0])
        elif code == sr.RELEASE:
            held.remove(operands[0])
    return held


def accesses_of(chunks):
    """(chunk index, place in it) of each access, in the order of the bytes."""
    return [(index, at) for index, chunk in enumerate(chunks) for at, c in enumerate(chunk) if 0x30 <= c.code <= 0x3B]


def is_wide(chunks):
    """Whether the accesses are wide; None where there are none."""
    return next((chunks[index][at].code >= 0x38 for index, at in accesses_of(chunks)), None)


# ------------------------------------------------------------ 2 to 6, and 20


def unknown_byte(rng, chunks):
    index, at = any_place(rng, chunks)
    place = offset(chunks, index, at)
    data = written(chunks)
    return data[:place] + bytes([rng.choice((0x00, 0x05, 0x0F, 0x12, 0x22, 0x2F, 0x34, 0x37, 0x3C, 0xFF))]) + data[place:], 2, place


def torn_in_command(rng, chunks):
    places = [(index, at) for index, chunk in enumerate(chunks) for at, c in enumerate(chunk) if LENGTHS[c.code] > 1]
    index, at = rng.choice(places)
    place = offset(chunks, index, at)
    return written(chunks)[: place + rng.randrange(1, LENGTHS[chunks[index][at].code])], 3, place


def torn_between_commands(rng, chunks):
    index, at = any_place(rng, chunks)
    place = offset(chunks, index, at)
    return written(chunks)[:place], 4, place


def member_inside(rng, chunks):
    index, at = any_place(rng, chunks)
    result, place = with_command(chunks, index, at, Command(sr.MEMBER, (rng.randrange(3), rng.choice((0, 1, 64)))))
    return written(result), 4, place


def between_chunks(rng, chunks):
    index = rng.randrange(len(chunks) + 1)
    access = Command(rng.choice(sr.ACCESSES), (0, 0, 0, 0, 3))  # of either group: 4 is told before 20
    command = rng.choice((END, CUT, BARRIER, Command(sr.REGION, (0, 0)), Command(sr.RELEASE, (64,)), access))
    return written([*chunks[:index], [command], *chunks[index:]]), 4, sum(length(chunk) for chunk in chunks[:index])


def out_of_range(rng, chunks):
    index, at = any_place(rng, chunks)
    own = chunks[index][0].operands[0]
    wide = 8 if is_wide(chunks) else 0
    command = rng.choice((
        Command(sr.REGION, (0, 1)), Command(sr.REGION, (own, 1)), Command(sr.REGION, (FREE_TEAM, 0)),
        Command(sr.REGION, (FREE_TEAM, 65)), Command(sr.ACQUIRE, (64,)), Command(sr.RELEASE, (255,)),
        Command(0x30 + wide, (1, 0, 0, 0, 1)), Command(0x31 + wide, (1, 0, 0, 2, 1)), Command(0x32 + wide, (1, 0, 1, 1, 1)),
        Command(0x33 + wide, (1, 0, 0, 1, 3)), Command(0x31 + wide, (1, 4294967295, 0, 1, 2)),
    ))
    result, place = with_command(chunks, index, at, command)
    return written(result), 5, place


def other_group(rng, chunks):
    """An access of the other group, good or not: told at itself, or where it stands first and is good, at the next access."""
    if is_wide(chunks) is None:
        return None
    index, at = any_place(rng, chunks)
    good = rng.randrange(2)
    code = rng.randrange(4) + (0x30 if is_wide(chunks) else 0x38)
    result, place = with_command(chunks, index, at, Command(code, (65535, 0, 0, 1, 1) if good else (1, 0, 0, 1, 3)))
    (first, second), *_ = zip(accesses_of(result), accesses_of(result)[1:])
    if first != (index, at):
        return written(result), 20, place
    return written(result), 20 if good else 5, offset(result, *second) if good else place


def group_changed(rng, chunks):
    """An access of several is of the other group: told at itself, or where it is the first, at the next one."""
    places = accesses_of(chunks)
    if len(places) < 2:
        return None
    index, at = rng.choice(places)
    code, (site, *touched) = chunks[index][at]
    command = Command(code - 8 if code >= 0x38 else code + 8, (site % 65536, *touched))
    result = changed(chunks, index, [*chunks[index][:at], command, *chunks[index][at + 1 :]])
    return written(result), 20, offset(result, *(places[1] if (index, at) == places[0] else (index, at)))


def member_too_high(rng, chunks):
    index = rng.randrange(len(chunks))
    chunk = [Command(sr.MEMBER, (chunks[index][0].operands[0], rng.choice((64, 255)))), *chunks[index][1:]]
    return written(changed(chunks, index, chunk)), 5, offset(chunks, index)


def acquired_twice(rng, chunks):
    index, at = any_place(rng, chunks)
    held = locks_held(chunks[index], at)
    if not held:
        return None
    result, place = with_command(chunks, index, at, Command(sr.ACQUIRE, (rng.choice(sorted(held)),)))
    return written(result), 6, place


def released_unheld(rng, chunks):
    index, at = any_place(rng, chunks)
    result, place = with_command(chunks, index, at, Command(sr.RELEASE, (FREE_LOCK,)))
    return written(result), 6, place


def held_at_end(rng, chunks):
    """At END alone; CUT allows it."""
    index, at = any_place(rng, chunks)
    if chunks[index][-1] != END:
        return None
    result, _ = with_command(chunks, index, at, Command(sr.ACQUIRE, (FREE_LOCK,)))
    return written(result), 6, offset(result, index, len(result[index]) - 1)


# --------------------------------------------------------- 8 to 12, and 19


def regions_of(chunks):
    """(chunk index, place in it, team, size) of each REGION."""
    return [(i, at, *c.operands) for i, chunk in enumerate(chunks) for at, c in enumerate(chunk) if c.code == sr.REGION]


def forked_twice(rng, chunks):
    """The later REGION is the one with the higher offset."""
    regions = regions_of(chunks)
    if not regions:
        return None
    team = rng.choice(regions)[2]
    index, at = any_place(rng, chunks)
    if chunks[index][0].operands[0] >= team:
        return None
    result, _ = with_command(chunks, index, at, Command(sr.REGION, (team, 1)))
    return written(result), 8, max(offset(result, i, k) for i, k, other, _ in regions_of(result) if other == team)


def never_forked(rng, chunks):
    index = rng.randrange(len(chunks) + 1)
    stray = [Command(sr.MEMBER, (FREE_TEAM, 0)), END]
    return written([*chunks[:index], stray, *chunks[index:]]), 9, sum(length(chunk) for chunk in chunks[:index])


def beyond_size(rng, chunks):
    sizes = {0: 1} | {team: size for _, _, team, size in regions_of(chunks)}
    team, size = rng.choice(sorted(sizes.items()))
    if size > 63:
        return None
    index = rng.randrange(len(chunks) + 1)
    stray = [Command(sr.MEMBER, (team, rng.choice((size, 63)))), END]
    return written([*chunks[:index], stray, *chunks[index:]]), 9, sum(length(chunk) for chunk in chunks[:index])


def second_chunk(rng, chunks):
    """A second chunk of a member, without REGIONs, so that no team is forked twice; the later one is told."""
    index, before = rng.randrange(len(chunks)), rng.randrange(len(chunks) + 1)
    head = chunks[index][0]
    result = [*chunks[:before], [head, END], *chunks[before:]]
    return written(result), 9, max(offset(result, i) for i, chunk in enumerate(result) if chunk[0] == head)


def lacking_chunk(rng, chunks):
    """A chunk without REGIONs is left out, so that no team goes unforked."""
    plain = [i for i, c in enumerate(chunks) if c[0].operands[0] and all(command.code != sr.REGION for command in c)]
    if not plain:
        return None
    index = rng.choice(plain)
    team = chunks[index][0].operands[0]
    result = [chunk for chunk in chunks if chunk is not chunks[index]]
    [place] = [offset(result, i, at) for i, at, other, _ in regions_of(result) if other == team]
    return written(result), 10, place


def unforked_by_lacking_chunk(rng, chunks):
    """A chunk with REGIONs is left out: 9 at the first chunk of a team that it forks, and not 10."""
    index, *_ = rng.choice(regions_of(chunks) or [(None,)])
    if index is None:
        return None
    teams = {command.operands[0] for command in chunks[index] if command.code == sr.REGION}
    result = [chunk for chunk in chunks if chunk is not chunks[index]]
    return written(result), 9, min(offset(result, i) for i, c in enumerate(result) if c[0].operands[0] in teams)


def too_deep(rng, chunks):
    """Teams of one, each forked by the one before, from a chunk on down to depth 5."""
    outer = {team: chunks[i][0].operands[0] for i, _, team, _ in regions_of(chunks)}
    index, at = any_place(rng, chunks)
    team, depth = chunks[index][0].operands[0], 0
    while team:
        team, depth = outer[team], depth + 1
    fork = Command(sr.REGION, (FREE_TEAM + depth + 1, 1))
    result, _ = with_command(chunks, index, at, fork)
    for level in range(depth + 1, 5):
        result.append([Command(sr.MEMBER, (FREE_TEAM + level, 0)), Command(sr.REGION, (FREE_TEAM + level + 1, 1)), END])
    result.append([Command(sr.MEMBER, (FREE_TEAM + 5, 0)), END])
    rng.shuffle(result)
    [place] = [offset(result, i, k) for i, k, inner, _ in regions_of(result) if inner == FREE_TEAM + 5]
    return written(result), 11, place


def complete_others(chunks, index):
    """The other complete members of a chunk's team, by their indices."""
    team = chunks[index][0].operands[0]
    return [i for i, chunk in enumerate(chunks) if chunk[0].operands[0] == team and i != index and chunk[-1] == END]


def barriers_in(chunk):
    return sum(command == BARRIER for command in chunk)


def place_of_unlike(chunks, index, others):
    """Where a complete member unlike all others is told: at itself, or where it is the lowest-numbered, at the first of the others."""
    member = chunks[index][0].operands[1]
    lowest = all(member < chunks[i][0].operands[1] for i in others)
    return offset(chunks, min(others) if lowest else index)


def unlike_barriers(rng, chunks):
    """A barrier more in one of several complete members."""
    index, at = any_place(rng, chunks)
    others = complete_others(chunks, index)
    if not others or chunks[index][-1] != END:
        return None
    result, _ = with_command(chunks, index, at, BARRIER)
    return written(result), 12, place_of_unlike(result, index, others)


def unlike_beside_cut(rng, chunks):
    """As unlike_barriers, with member 0 cut behind its MEMBER or REGIONs, so that it has no barriers to be compared."""
    index, at = any_place(rng, chunks)
    team, member = chunks[index][0].operands
    others = [i for i in complete_others(chunks, index) if chunks[i][0].operands[1]]
    if not others or not member or chunks[index][-1] != END:
        return None
    result, _ = with_command(chunks, index, at, BARRIER)
    result = [stopped(chunk) if chunk[0].operands == (team, 0) else chunk for chunk in result]
    return written(result), 12, place_of_unlike(result, index, others)


def stopped(chunk):
    """MEMBER and the REGIONs, then CUT."""
    return [chunk[0], *(command for command in chunk if command.code == sr.REGION), CUT]


def too_many_barriers(rng, chunks):
    """A chunk is cut behind barriers of which the last one or two are more than the complete members have."""
    index = rng.randrange(len(chunks))
    others = complete_others(chunks, index)
    if not others:
        return None
    return written(changed(chunks, index, with_barriers(rng, chunks[index], barriers_in(chunks[others[0]])))), 19, offset(chunks, index)


def with_barriers(rng, chunk, most):
    """The chunk with one or two barriers more than so many, then CUT."""
    result = list(chunk[:-1])
    for _ in range(most - barriers_in(chunk) + rng.randint(1, 2)):
        result.insert(rng.randint(1, len(result)), BARRIER)
    return [*result, CUT]


def too_many_in_two(rng, chunks):
    """The same in two chunks, of one team or of two: told at the lower offset."""
    first, second = sorted(rng.sample(range(len(chunks)), 2)) if len(chunks) > 1 else (0, 0)
    others = [[i for i in complete_others(chunks, index) if i not in (first, second)] for index in (first, second)]
    if not all(others):
        return None
    result = list(chunks)
    for index, complete in zip((first, second), others):
        result[index] = with_barriers(rng, chunks[index], barriers_in(chunks[complete[0]]))
    return written(result), 19, offset(result, first)


def unlike_and_too_many(rng, chunks):
    """Both faults: 12 is told, wherever 19 would be."""
    index, cut = (rng.randrange(len(chunks)) for _ in range(2))
    others = [i for i in complete_others(chunks, index) if i != cut]
    if not others or index == cut or chunks[index][-1] != END:
        return None
    result, _ = with_command(chunks, index, rng.randrange(1, len(chunks[index])), BARRIER)
    team = chunks[cut][0].operands[0]
    most = max((barriers_in(chunk) for chunk in result if chunk[0].operands[0] == team and chunk[-1] == END), default=0)
    result[cut] = with_barriers(rng, chunks[cut], most)
    return written(result), 12, place_of_unlike(result, index, others)


MAKERS = (
    unknown_byte, torn_in_command, torn_between_commands, member_inside, between_chunks, out_of_range, other_group, group_changed,
    member_too_high,
    acquired_twice, released_unheld, held_at_end, forked_twice, never_forked, beyond_size, second_chunk, lacking_chunk,
    unforked_by_lacking_chunk, too_deep, unlike_barriers, unlike_beside_cut, too_many_barriers, too_many_in_two,
    unlike_and_too_many,
)
