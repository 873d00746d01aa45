"""What programs that misread request A.7 of document 02 would export as rows, do to the lent list, and tell of given records.

tests/selfcheck counts that the cases tell each one from the right reading, which is the second reader's.
"""

from collections import Counter, namedtuple
from functools import lru_cache

import second_reader as sr
from second_reader import Row
from wide_readings import refusal_of

# ------------------------------------------------------- intervals of a bundle

# commands: those of its data, as (offset, command); joined: the regions of its chunk before it; opener: the offset of its MEMBER or BARRIER
Interval = namedtuple("Interval", "chunk number opener begin end commands joined")


@lru_cache(maxsize=8)
def laid_out(data):
    """(bundle, intervals, rows) of an accepted bundle, by team, member, interval."""
    bundle = sr.check(data)
    intervals = sorted(intervals_in(bundle, data), key=by_name)
    return bundle, intervals, tuple(row_by(bundle, interval) for interval in intervals)


def by_name(interval):
    return interval.chunk.team, interval.chunk.member, interval.number


def intervals_in(bundle, data):
    """As they stand in the bundle."""
    chunk_at, found = {chunk.offset: chunk for chunk in bundle.chunks}, []
    for offset, command in sr.placed_commands(data):
        if command.code == sr.MEMBER:
            chunk, number, joined = chunk_at[offset], 0, 0
        else:
            commands.append((offset, command))
        if command.code == sr.BARRIER or command.code in sr.CLOSES_CHUNK:
            end = offset + 1
            found.append(Interval(chunk, number, opener, begin, end, commands, joined))
            number, joined = number + 1, joined + len(regions_in(found[-1]))
        if command.code in (sr.MEMBER, sr.BARRIER):
            opener, begin, commands = offset, offset + sr.command_length(command.code), []
    return found


def regions_in(interval):
    return [(offset, command) for offset, command in interval.commands if command.code == sr.REGION]


def closing(interval):
    return interval.commands[-1][1].code


def lineage(bundle, interval):
    """The teams from an interval's own up to the root."""
    teams = [interval.chunk.team]
    while teams[-1]:
        teams.append(bundle.fork_of[teams[-1]].chunk.team)
    return teams


def outer(bundle, interval):
    """The forking team."""
    return [*lineage(bundle, interval), 0][1]


def span_of(bundle, interval):
    return bundle.team_size(interval.chunk.team)


def row_by(bundle, interval):
    span, begin = span_of(bundle, interval), interval.begin
    return Row(
        interval.chunk.team, outer(bundle, interval), interval.number, interval.chunk.member + span * interval.joined, span,
        len(lineage(bundle, interval)) - 1, begin, interval.end - begin,
    )


# ---------------------------------------------------------------- wrong columns


def columns(**changed):
    """The rows with other columns, each a function of bundle and interval."""
    def reading(data):
        bundle, intervals, rows = laid_out(data)
        return tuple(
            row._replace(**{name: of(bundle, interval) for name, of in changed.items()}) for row, interval in zip(rows, intervals))
    return reading


def rank(bundle, interval):
    """The place of the team among all teams."""
    return sorted({0, *bundle.fork_of}).index(interval.chunk.team)


def team_before(bundle, interval):
    return max((team for team in (0, *bundle.fork_of) if team < interval.chunk.team), default=0)


def below_the_root(bundle, interval):
    """The outermost team above this one, but for the root, if there is one."""
    return [0, 0, *lineage(bundle, interval)[1:]][-2]


def forking_member(bundle, interval):
    return bundle.fork_of[interval.chunk.team].chunk.member if interval.chunk.team else 0


def forking_offset(bundle, interval):
    """Of the label of the segment that forked the team."""
    fork = bundle.fork_of.get(interval.chunk.team)
    return sr.segment_label(bundle, fork.chunk, fork.segment)[-1][0] if fork else 0


def first_segment(bundle, interval):
    return interval.number + interval.joined


def intervals_of_chunk(interval):
    return interval.chunk.barriers() + 1


def offset_with(regions):
    """The offset with another number of regions joined."""
    return lambda bundle, interval: interval.chunk.member + span_of(bundle, interval) * regions(bundle, interval)


def regions_just_before(bundle, interval):
    """Those of the interval before it alone."""
    forks = [fork for fork in interval.chunk.forks if fork.offset < interval.begin]
    return sum(interval.chunk.segments[fork.segment].barriers == interval.number - 1 for fork in forks)


def regions_of_team(bundle, interval):
    """Those that other members joined in the same intervals too."""
    chunks = bundle.members(interval.chunk.team)
    return sum(chunk.segments[fork.segment].barriers < interval.number for chunk in chunks for fork in chunk.forks)


def size_of_last_fork(bundle, interval):
    forks = [fork for fork in interval.chunk.forks if fork.offset < interval.begin]
    return forks[-1].size if forks else span_of(bundle, interval)


def complete_members(bundle, interval):
    return sum(chunk.complete for chunk in bundle.members(interval.chunk.team))


def height(bundle, interval):
    """How deep teams are nested below this one."""
    depth = {team: len(sr.segment_label(bundle, fork.chunk, fork.segment)) for team, fork in bundle.fork_of.items()}
    below = [depth[team] for team in bundle.fork_of if interval.chunk.team in teams_above(bundle, team)]
    return max(below, default=depth.get(interval.chunk.team, 0)) - depth.get(interval.chunk.team, 0)


def teams_above(bundle, team):
    found = []
    while team:
        team = bundle.fork_of[team].chunk.team
        found.append(team)
    return found


def opened_by_member(interval):
    return interval.number == 0


def in_fixed_order(bundle, interval):
    """The begin once the chunks are by team, then member."""
    own = interval.chunk
    before = sum(c.end - c.offset for c in bundle.chunks if (c.team, c.member) < (own.team, own.member))
    return before + interval.begin - own.offset


def without_members(bundle, interval):
    """The begin where only data is counted."""
    return interval.begin - 4 * sum(chunk.offset <= interval.begin for chunk in bundle.chunks)


def behind_last_region(bundle, interval):
    return max((offset + 4 for offset, _ in regions_in(interval)), default=interval.begin)


def size_without(*codes):
    """Where the closing command is one of these, it is not counted."""
    return lambda bundle, interval: interval.end - interval.begin - (closing(interval) in codes)


def bytes_of_accesses(bundle, interval):
    return sum(sr.command_length(command.code) for _, command in interval.commands if command.code in sr.ACCESSES)


def sites_not_counted(bundle, interval):
    """A wide access counted as a narrow one."""
    return interval.end - interval.begin - 2 * sum(command.code in sr.WIDE for _, command in interval.commands)


def number_in_team(bundle, interval):
    """Counted on from member to member."""
    members = [chunk for chunk in bundle.members(interval.chunk.team) if chunk.member < interval.chunk.member]
    return interval.number + sum(chunk.barriers() + 1 for chunk in members)


def number_in_team_by_barriers(bundle, interval):
    """The barriers of the members before it counted too."""
    return number_in_team(bundle, interval) - sum(c.member < interval.chunk.member for c in bundle.members(interval.chunk.team))


def number_since_region(bundle, interval):
    """Counted from 0 again behind each region."""
    forks = [fork for fork in interval.chunk.forks if fork.offset < interval.begin]
    return interval.number - (interval.chunk.segments[forks[-1].segment].barriers if forks else 0)


def number_in_bundle(bundle, interval):
    return sum(chunk.offset < interval.chunk.offset and chunk.barriers() + 1 for chunk in bundle.chunks) + interval.number


WRONG_COLUMNS = {
    "pid of the forking team": columns(pid=outer),
    "pid counted in order": columns(pid=rank),
    "the member as pid": columns(pid=lambda bundle, interval: interval.chunk.member),
    "the own team as ppid": columns(ppid=lambda bundle, interval: interval.chunk.team),
    "no ppid of the root": columns(ppid=lambda bundle, interval: outer(bundle, interval) if interval.chunk.team else 2**32 - 1),
    "the forking member as ppid": columns(ppid=forking_member),
    "the root as ppid": columns(ppid=lambda bundle, interval: 0),
    "the team below the root as ppid": columns(ppid=below_the_root),
    "the team before as ppid": columns(ppid=team_before),
    "bid from 1": columns(bid=lambda bundle, interval: interval.number + 1),
    "bid always 0": columns(bid=lambda bundle, interval: 0),
    "bid counted on in the team": columns(bid=number_in_team),
    "bid by all barriers of the team": columns(bid=number_in_team_by_barriers),
    "bid counted on in the bundle": columns(bid=number_in_bundle),
    "bid counted from the last region": columns(bid=number_since_region),
    "the segment as bid": columns(bid=first_segment),
    "bid by the barriers left": columns(bid=lambda bundle, interval: intervals_of_chunk(interval) - 1 - interval.number),
    "offset at the interval's end": columns(offset=offset_with(lambda bundle, interval: interval.joined + len(regions_in(interval)))),
    "offset without the member": columns(offset=lambda bundle, interval: span_of(bundle, interval) * interval.joined),
    "offset without the span": columns(offset=lambda bundle, interval: interval.chunk.member + interval.joined),
    "offset without regions": columns(offset=offset_with(lambda bundle, interval: 0)),
    "offset by the regions just before": columns(offset=offset_with(regions_just_before)),
    "offset by the regions of the chunk": columns(offset=offset_with(lambda bundle, interval: len(interval.chunk.forks))),
    "offset by the regions of the team": columns(offset=offset_with(regions_of_team)),
    "offset by barriers too": columns(offset=offset_with(first_segment)),
    "offset of the forking label": columns(offset=forking_offset),
    "span of the forking team": columns(span=lambda bundle, interval: bundle.team_size(outer(bundle, interval))),
    "span always 1": columns(span=lambda bundle, interval: 1),
    "span of the team forked last": columns(span=size_of_last_fork),
    "span by complete members": columns(span=complete_members),
    "level from 1": columns(level=lambda bundle, interval: len(lineage(bundle, interval))),
    "level 1 below the root": columns(level=lambda bundle, interval: min(1, interval.chunk.team)),
    "level counted from below": columns(level=height),
    "the team's place as level": columns(level=rank),
    "begin at MEMBER": columns(data_begin=lambda bundle, interval: interval.opener if opened_by_member(interval) else interval.begin),
    "begin at BARRIER": columns(data_begin=lambda bundle, interval: interval.begin if opened_by_member(interval) else interval.opener),
    "begin in the chunk": columns(data_begin=lambda bundle, interval: interval.begin - interval.chunk.offset),
    "begin in the fixed order": columns(data_begin=in_fixed_order),
    "begin without MEMBERs": columns(data_begin=without_members),
    "begin behind the last region": columns(data_begin=behind_last_region),
    "size without the closing command": columns(size=size_without(sr.BARRIER, *sr.CLOSES_CHUNK)),
    "size without BARRIER": columns(size=size_without(sr.BARRIER)),
    "size without END": columns(size=size_without(sr.END)),
    "size without CUT": columns(size=size_without(sr.CUT)),
    "size with the opening command": columns(size=lambda bundle, interval: interval.end - interval.opener),
    "size to the chunk's end": columns(size=lambda bundle, interval: interval.chunk.end - interval.begin),
    "size in commands": columns(size=lambda bundle, interval: len(interval.commands)),
    "size of the accesses": columns(size=bytes_of_accesses),
    "wide accesses of 12 bytes": columns(size=sites_not_counted),
    "data from the opening command": columns(
        data_begin=lambda bundle, interval: interval.opener, size=lambda bundle, interval: interval.end - interval.opener),
    "data without the closing command's place": columns(
        data_begin=lambda bundle, interval: interval.opener if interval.number else interval.begin,
        size=lambda bundle, interval: interval.end - 1 - (interval.opener if interval.number else interval.begin)),
}


# --------------------------------------------------- wrong order, wrong intervals


def in_order(key):
    """The rows in another order; equal keys stay in the order of the bundle."""
    def reading(data):
        bundle, intervals, _ = laid_out(data)
        intervals = sorted(sorted(intervals, key=lambda interval: interval.begin), key=lambda interval: key(bundle, interval))
        return tuple(row_by(bundle, interval) for interval in intervals)
    return reading


def only(kept):
    """Some of the rows."""
    def reading(data):
        bundle, intervals, rows = laid_out(data)
        return tuple(row for row, interval in zip(rows, intervals) if kept(interval))
    return reading


def for_each_segment(data):
    """REGION opens an interval too."""
    bundle, intervals, _ = laid_out(data)
    rows = []
    for interval in intervals:
        row = row_by(bundle, interval)
        cuts = [interval.begin, *(offset + 4 for offset, _ in regions_in(interval)), interval.end]
        for k, (begin, end) in enumerate(zip(cuts, cuts[1:])):
            rows.append(row._replace(offset=row.offset + k * row.span, data_begin=begin, size=end - begin))
    return tuple(rows)


def with_missing_barriers(data):
    """Empty intervals for the barriers that a cut chunk lacks."""
    bundle, intervals, rows = laid_out(data)
    found = []
    for row, interval in zip(rows, intervals):
        found.append(row)
        if closing(interval) == sr.CUT:
            most = max(chunk.barriers() for chunk in bundle.members(row.pid))
            found += [row._replace(bid=k, data_begin=interval.end, size=0) for k in range(row.bid + 1, most + 1)]
    return tuple(found)


WRONG_ROWS = {
    **WRONG_COLUMNS,
    "in the order of the bundle": in_order(lambda bundle, interval: interval.begin),
    "by team and place": in_order(lambda bundle, interval: interval.chunk.team),
    "by member first": in_order(lambda bundle, interval: (interval.chunk.member, interval.chunk.team, interval.number)),
    "by interval before member": in_order(lambda bundle, interval: (interval.chunk.team, interval.number, interval.chunk.member)),
    "by interval first": in_order(lambda bundle, interval: (interval.number, interval.chunk.team, interval.chunk.member)),
    "by level first": in_order(lambda bundle, interval: (len(lineage(bundle, interval)), *by_name(interval))),
    "by the team's low byte": in_order(lambda bundle, interval: (interval.chunk.team.to_bytes(2, "little"), *by_name(interval))),
    "by the teams' places in the bundle": in_order(
        lambda bundle, interval: (min(c.offset for c in bundle.members(interval.chunk.team)), *by_name(interval))),
    "members from the last one": in_order(lambda bundle, interval: (interval.chunk.team, -interval.chunk.member, interval.number)),
    "one for each segment": for_each_segment,
    "missing barriers filled": with_missing_barriers,
    "without the last interval": only(lambda interval: interval.number < interval.chunk.barriers() or not interval.number),
    "only the first interval": only(lambda interval: interval.number == 0),
    "only chunks with barriers": only(lambda interval: interval.chunk.barriers()),
    "without empty intervals": only(lambda interval: len(interval.commands) > 1),
    "without cut intervals": only(lambda interval: closing(interval) != sr.CUT),
    "member 0 alone": only(lambda interval: interval.chunk.member == 0),
    "columns of 8 bits": lambda data: tuple(Row(*(value % 256 for value in row)) for row in laid_out(data)[2]),
}


def told_by_rows(datas):
    """In how many of these good bundles each reading has other rows."""
    counts = Counter()
    for data in dict.fromkeys(datas):
        wanted = laid_out(data)[2]
        if wanted != sr.rows_of(data):
            raise AssertionError(f"the rows of {data.hex()}")
        counts.update(title for title, reading in WRONG_ROWS.items() if reading(data) != wanted)
    return counts


# ------------------------------------------------------------ the lent list


def export_by(data, lent, least=len, place=lambda rows, lent: 0, answer=lambda rows, lent: len(rows), front=lambda rows, lent: rows,
              behind=lambda rest, rows: rest, torn=lambda rows, lent: lent, unchecked=False, never=False):
    """(refusal, None) or (None, answer), and the list afterwards: with another number of records that must be lent, another place of 22,
    another answer, other records at the front and behind them. torn: what a refusal leaves; unchecked: 22 is tested first, by the bytes
    that look like MEMBER; never: what does not fit is left out."""
    refusal = refusal_of(data)
    rows = laid_out(data)[2] if refusal is None else ()
    short = len(lent) < (least(rows) if refusal is None else data.count(sr.MEMBER))
    if short and not never and (refusal is None or unchecked):
        refusal = 22, place(rows, lent)
    if refusal:
        return refusal, None, torn(rows, lent)
    rows = rows[: len(lent)]
    return None, answer(rows, lent), (*front(rows, lent), *behind(lent[len(rows) :], rows))


def filled(rows, lent):
    """As far as there is room."""
    return (*rows[: len(lent)], *lent[len(rows) :])


def emptied(rows, lent):
    return tuple(Row(*[0] * 8) for _ in lent)


def first_emptied(rows, lent):
    return (*emptied(rows, lent[:1]), *lent[1:])


WRONG_EXPORTS = {
    "22 before check": {"unchecked": True},
    "22 where there is just enough": {"least": lambda rows: len(rows) + 1},
    "one too few is enough": {"least": lambda rows: len(rows) - 1},
    "22 below 512 records": {"least": lambda rows: 512},
    "22 by the chunks": {"least": lambda rows: len({(row.pid, row.offset % row.span) for row in rows})},
    "what does not fit is left out": {"never": True},
    "22 at the number of records lent": {"place": lambda rows, lent: len(lent)},
    "22 at the number of rows": {"place": lambda rows, lent: len(rows)},
    "filled though refused": {"torn": filled},
    "emptied when refused": {"torn": emptied},
    "first record emptied when refused": {"torn": first_emptied},
    "the answer is the list's length": {"answer": lambda rows, lent: len(lent)},
    "the answer is the last index": {"answer": lambda rows, lent: len(rows) - 1},
    "the answer is the bytes": {"answer": lambda rows, lent: sum(row.size for row in rows)},
    "nothing written": {"front": lambda rows, lent: lent[: len(rows)]},
    "the last one not written": {"front": lambda rows, lent: (*rows[:-1], lent[len(rows) - 1])},
    "zeros behind": {"behind": lambda rest, rows: emptied(rows, rest)},
    "one zero record behind": {"behind": lambda rest, rows: first_emptied(rows, rest)},
    "the last row again behind": {"behind": lambda rest, rows: (*rows[-1:], *rest[1:]) if rest else rest},
}


def told_by_exports(asked):
    """In how many of these exports, each of a bundle into a list, each reading differs."""
    counts = Counter()
    for data, lent in asked:
        wanted = export_by(data, lent)
        if wanted != by_second_reader(data, lent):
            raise AssertionError(f"{len(lent)} records lent: {data.hex()}")
        counts.update(title for title, changed in WRONG_EXPORTS.items() if export_by(data, lent, **changed) != wanted)
    return counts


def by_second_reader(data, lent):
    after = list(lent)
    try:
        answer = None, sr.export_rows(data, after)
    except sr.Refused as refusal:
        answer = (refusal.number, refusal.place), None
    return *answer, tuple(after)


# ------------------------------------------------------------ given records


def differences(rows, given, same=lambda row, record: row == record):
    """The indices that are missing, extra or differing."""
    both = min(len(rows), len(given))
    return [k for k in range(both) if not same(rows[k], given[k])] + list(range(both, max(len(rows), len(given))))


def lowest(rows, given):
    return min(differences(rows, given), default=None)


def without_column(column):
    """One column is not compared."""
    def same(row, record):
        return all(row[k] == record[k] for k in range(8) if k != column)
    return lambda rows, given: min(differences(rows, given, same), default=None)


def by_values(change):
    """Columns are compared after a change of each."""
    def same(row, record):
        return [*map(change, row)] == [*map(change, record)]
    return lambda rows, given: min(differences(rows, given, same), default=None)


def at_another_index(change):
    def found(rows, given):
        index = lowest(rows, given)
        return None if index is None else change(index, rows, given)
    return found


def lengths_first(rows, given):
    """A missing or extra record is told before one that differs."""
    return lowest(rows, given) if len(rows) == len(given) else min(len(rows), len(given))


def lengths_last(rows, given):
    """All records that are wanted are looked for, and one that is missing or extra is told at the last index."""
    index = lowest(rows, given)
    return index if index is None or index < min(len(rows), len(given)) else max(len(rows), len(given)) - 1


def as_sets(rows, given):
    """The order is not looked at."""
    return None if sorted(rows) == sorted(given) else lowest(rows, given)


WRONG_CHECKS = {
    "all taken": lambda rows, given: None,
    "one late": at_another_index(lambda index, rows, given: index + 1),
    "counted from the end": at_another_index(lambda index, rows, given: len(rows) - 1 - index if index < len(rows) else index),
    "always 0": at_another_index(lambda index, rows, given: 0),
    "the last difference": lambda rows, given: max(differences(rows, given), default=None),
    "the number of differences": at_another_index(lambda index, rows, given: len(differences(rows, given))),
    "a byte in place of the index": at_another_index(lambda index, rows, given: 32 * index),
    "stops one early": lambda rows, given: lowest(rows[:-1], given[: len(rows) - 1]),
    "the first not compared": lambda rows, given: next((k for k in differences(rows, given) if k), None),
    "last given one not compared": lambda rows, given: lowest(rows, (*given[:-1], *rows[len(given) - 1 : len(given)])) if given else 0,
    "extra not seen": lambda rows, given: lowest(rows, given[: len(rows)]),
    "one extra not seen": lambda rows, given: lowest(rows, given[:-1] if len(given) == len(rows) + 1 else given),
    "missing not seen": lambda rows, given: lowest(rows[: len(given)], given),
    "none given is good": lambda rows, given: lowest(rows, given) if given else None,
    "missing at the number of rows": at_another_index(lambda index, rows, given: len(rows) if index == len(given) else index),
    "missing at the last given one": at_another_index(lambda index, rows, given: index - 1 if index == len(given) and index else index),
    "extra at the last row": at_another_index(lambda index, rows, given: index - 1 if index == len(rows) else index),
    "extra at the last given one": at_another_index(lambda index, rows, given: len(given) - 1 if index == len(rows) else index),
    "extra at the number given": at_another_index(lambda index, rows, given: len(given) if index == len(rows) else index),
    "lengths first": lengths_first,
    "lengths last": lengths_last,
    "in any order": as_sets,
    **{f"{name} not compared": without_column(k) for k, name in enumerate(sr.COLUMNS)},
    "16 bits compared": by_values(lambda value: value % 2**16),
    "31 bits compared": by_values(lambda value: value % 2**31),
    "8 bits compared": by_values(lambda value: value % 256),
    "sums compared": lambda rows, given: min(differences(rows, given, lambda row, record: sum(row) == sum(record)), default=None),
}

# Of refused bundles, whose rows are taken to be none.
UNCHECKED = {
    "23 before check": lambda data, given: (23, 0) if given else refusal_of(data),
    "the rows before check": lambda data, given: refusal_of(data) if given else None,
}


def check_by(data, given, found):
    """The refusal, or None; found gives the index of 23."""
    refusal = refusal_of(data)
    if refusal:
        return refusal
    index = found(laid_out(data)[2], given)
    return None if index is None else (23, index)


def told_by_checks(asked):
    """In how many of these checks, each of a bundle and records, each reading differs."""
    counts = Counter()
    for data, given in asked:
        wanted = check_by(data, given, lowest)
        if wanted != checked_by_second_reader(data, given):
            raise AssertionError(f"{wanted}: {len(given)} records given: {data.hex()}")
        counts.update(title for title, found in WRONG_CHECKS.items() if check_by(data, given, found) != wanted)
        if refusal_of(data):
            counts.update(title for title, found in UNCHECKED.items() if found(data, given) != wanted)
    return counts


def checked_by_second_reader(data, given):
    try:
        sr.check_rows(data, given)
    except sr.Refused as refusal:
        return refusal.number, refusal.place
    return None
