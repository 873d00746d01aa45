"""Small bundles with the listing that documents 01 and 02 give them, and the elements of their races, by hand."""

from collections import namedtuple

from aimed_cases import E, E_LATE_READ, E_STOPPED, E_WIDE

# elements has two numbers for each race; where it is not given, all are 0
Listing = namedtuple("Listing", "title text lines elements", defaults=[None])


def pair(first, second, before="", after=""):
    """A root and a team of two; the members' accesses as given."""
    return f"""
        member 0 0; {before}; region 1 2; {after}; end
        member 1 0; {first}; end
        member 1 1; {second}; end"""


def elements_of(case):
    """Of each race the elements of both accesses that cover its witness."""
    races = len([line for line in case.lines if line.startswith("race ")])
    return [(0, 0)] * races if case.elements is None else case.elements


def listing(counts, *races):
    """counts is "chunks segments accesses"."""
    chunks, segments, accesses = counts.split()
    last = f"pairs {len(races)}" if races else "race-free"
    lines = [f"chunks {chunks} segments {segments} accesses {accesses}"]
    return lines + [f"race {r}" for r in races] + [last]


ONE_RACE = listing("3 4 2", "00000040 1.0.0 1 1.1.0 2")
NO_RACE = listing("3 4 2")

KINDS = [
    Listing(f"{first} and {second}", pair(f"{first} 1 64 0 1 4", f"{second} 2 64 0 1 4"), lines)
    for first, second, lines in (
        ("read", "read", NO_RACE),
        ("read", "write", ONE_RACE),
        ("write", "read", ONE_RACE),
        ("write", "write", ONE_RACE),
        ("read", "atomic-read", NO_RACE),
        ("read", "atomic-write", ONE_RACE),
        ("write", "atomic-read", ONE_RACE),
        ("atomic-read", "write", ONE_RACE),
        ("atomic-write", "write", ONE_RACE),
        ("atomic-write", "read", ONE_RACE),
        ("atomic-read", "read", NO_RACE),
        ("atomic-read", "atomic-read", NO_RACE),
        ("atomic-read", "atomic-write", NO_RACE),
        ("atomic-write", "atomic-read", NO_RACE),
        ("atomic-write", "atomic-write", NO_RACE),
    )
]

W1, W2 = "write 1 64 0 1 4", "write 2 64 0 1 4"

LOCKED = [
    Listing("one common lock", pair(f"acquire 3; {W1}; release 3", f"acquire 3; {W2}; release 3"), NO_RACE),
    Listing("one of several is common",
            pair(f"acquire 0; acquire 63; {W1}; release 0; release 63", f"acquire 63; acquire 1; {W2}; release 1; release 63"), NO_RACE),
    Listing("different locks", pair(f"acquire 3; {W1}; release 3", f"acquire 4; {W2}; release 4"), ONE_RACE),
    Listing("a lock on one side", pair(f"acquire 3; {W1}; release 3", W2), ONE_RACE),
    Listing("released before the access", pair(f"acquire 3; release 3; {W1}", f"acquire 3; {W2}; release 3"), ONE_RACE),
    Listing("acquired behind the access", pair(f"{W1}; acquire 3; release 3", f"acquire 3; {W2}; release 3"), ONE_RACE),
    Listing("no lock passes to the members", pair(W1, W2, before="acquire 3", after="release 3"), ONE_RACE),
    Listing("held over a barrier",
            pair(f"acquire 3; barrier; {W1}; release 3", f"barrier; acquire 3; {W2}; release 3"), listing("3 6 2")),
    Listing("held over a region", """
        member 0 0; region 1 2; end
        member 1 0; acquire 3; region 2 1; write 1 64 0 1 4; release 3; end
        member 1 1; acquire 3; write 2 64 0 1 4; release 3; end
        member 2 0; write 7 64 0 1 1; end""",
            listing("4 6 3")),
]


def sides(first, second, *inner, before="", after=""):
    """As pair, and chunks of inner teams below the two members, each given by its team, member and commands."""
    return pair(first, second, before, after) + "".join(f"\n        member {chunk}; end" for chunk in inner)


def write(site):
    return f"write {site} 64 0 1 4"


def races_of(counts, *pairs):
    """All of byte 64; the two accesses are given by name and site."""
    return listing(counts, *(f"00000040 {pair}" for pair in pairs))


def held(lock, commands):
    return f"acquire {lock}; {commands}; release {lock}"


IN_2, IN_3 = f"2 0; {W1}", f"3 0; {W2}"  # one access in each inner team
BOTH_INNER = races_of("5 8 2", "2.0.0 1 3.0.0 2")
NEITHER = races_of("5 8 2")

# Locks held around a region. These are computed too.
AROUND = [
    Listing("held around the regions of both", sides(held(3, "region 2 1"), held(3, "region 3 1"), IN_2, IN_3), NEITHER),
    Listing("held around the region of one", sides(held(3, "region 2 1"), "region 3 1", IN_2, IN_3), BOTH_INNER),
    Listing("held above the parting team", f"""
        member 0 0; region 1 1; end
        member 1 0; acquire 3; region 2 2; release 3; end
        member 2 0; region 3 1; end
        member 2 1; {W2}; end
        member 3 0; {W1}; end""", races_of("5 8 2", "2.1.0 2 3.0.0 1")),
    Listing("released between two regions",
            sides("acquire 3; region 2 1; release 3; region 4 1", held(3, W2), f"2 0; {W1}", f"4 0; {write(4)}"),
            races_of("5 8 3", "1.1.0 2 4.0.0 4")),
    Listing("acquired between two regions",
            sides("region 2 1; acquire 3; region 4 1; release 3", held(3, W2), f"2 0; {W1}", f"4 0; {write(4)}"),
            races_of("5 8 3", "1.1.0 2 2.0.0 1")),
    Listing("held around the chunk's own region, not at the access",
            sides(f"{W1}; {held(3, 'region 2 1')}", held(3, W2), "2 0"), races_of("4 6 2", "1.0.0 1 1.1.0 2")),
]



def team(*chunks, before="", after="", close="end"):
    """A root and team 1; each member's commands end with its END or CUT."""
    members = "".join(f"\n        member 1 {number}; {commands}" for number, commands in enumerate(chunks))
    return f"""
        member 0 0; {before}; region 1 {len(chunks)}; {after}; {close}""" + members


# Cut chunks. These are computed too.
CUT = [
    Listing("a missing barrier comes after the last command", team(f"{W1}; cut", f"barrier; {W2}; end"), races_of("3 5 2")),
    Listing("a missing barrier does not come before the chunk", team(f"{W1}; cut", f"{W2}; barrier; {write(4)}; end"),
            races_of("3 5 3", "1.0.0 1 1.1.0 2")),
    Listing("a second missing barrier", team(f"{W1}; cut", f"barrier; barrier; {W2}; end"), races_of("3 6 2")),
    Listing("behind as many barriers", team(f"barrier; {W1}; cut", f"barrier; {W2}; end"), races_of("3 6 2", "1.0.0 1 1.1.0 2")),
    Listing("no complete member", team(f"{W1}; cut", f"barrier; {W2}; cut"), races_of("3 5 2")),
    Listing("the join from the last segment", team(f"barrier; {W1}; cut", "barrier; end", after=write(9)), races_of("3 6 2")),
    Listing("two cut chunks lack different barriers",
            team(f"{W1}; cut", f"barrier; {W2}; cut", f"barrier; {write(4)}; barrier; {write(5)}; end"),
            races_of("4 8 4", "1.1.0 2 1.2.0 4")),
    Listing("a barrier that one member lacks orders the others", team("cut", f"{W1}; barrier; end", f"barrier; {W2}; end"),
            races_of("4 7 2")),
    Listing("an access behind a region of a cut chunk", team(f"region 2 1; {W2}; cut", "end") + f"\n        member 2 0; {W1}; end",
            races_of("4 6 2")),
    Listing("a lock held at CUT", team(f"acquire 3; {W1}; cut", f"{held(3, W2)}; end"), races_of("3 4 2")),
]

ORDERED = [
    Listing("E", E, ["chunks 3 segments 6 accesses 2", "race 0000100a 1.0.0 10 1.1.0 20", "pairs 1"], [(1, 0)]),
    Listing("E with a late read", E_LATE_READ, ["chunks 3 segments 6 accesses 2", "race-free"]),
    Listing("no access", "member 0 0; end", listing("1 1 0")),
    Listing("two accesses of one segment", "member 0 0; write 1 0 0 1 4; write 2 0 0 1 4; end", listing("1 1 2")),
    Listing("one chunk", "member 0 0; write 1 0 0 1 4; barrier; write 2 0 0 1 4; end", listing("1 2 2")),
    Listing("before the fork", pair(f"{W1}; barrier", "barrier", before="write 9 64 0 1 4"), listing("3 6 2")),
    Listing("behind the join", pair(W1, "read 2 0 0 1 4", after="write 9 64 0 1 4"), listing("3 4 3")),
    Listing("two regions of one chunk", """
        member 0 0; region 2 1; region 1 1; end
        member 1 0; write 1 0 0 1 1; end; member 2 0; write 1 0 0 1 1; end""", listing("3 5 2")),
    Listing("interval 0 against interval 1", pair(f"{W1}; barrier", f"barrier; {W2}"), listing("3 6 2")),
    Listing("interval 1 against interval 1", pair(f"barrier; {W1}", f"barrier; {W2}"),
            listing("3 6 2", "00000040 1.0.0 1 1.1.0 2")),
    Listing("between two barriers", pair(f"barrier; {W1}; barrier", f"barrier; {W2}; barrier"),
            listing("3 8 2", "00000040 1.0.0 1 1.1.0 2")),
    Listing("two barriers, each interval once", pair(f"{W1}; barrier; barrier; {W1}", f"barrier; {W2}; barrier"), listing("3 8 3")),
    Listing("a region between two barriers", """
        member 0 0; region 1 2; end
        member 1 0; barrier; region 2 1; barrier; end
        member 1 1; write 2 64 0 1 4; barrier; write 3 64 0 1 4; barrier; write 4 64 0 1 4; end
        member 2 0; barrier; write 1 64 0 1 4; end""", listing("4 11 4", "00000040 1.1.1 3 2.0.0 1")),
    Listing("a larger offset is not later", """
        member 0 0; region 1 2; end
        member 1 0; region 2 1; write 1 64 0 1 4; end
        member 1 1; write 2 64 0 1 4; end
        member 2 0; end""", listing("4 6 2", "00000040 1.0.0 1 1.1.0 2")),
    Listing("an inner barrier does not order an outer sibling", """
        member 0 0; region 1 2; end
        member 1 0; region 2 2; end
        member 1 1; write 2 64 0 1 4; end
        member 2 0; barrier; write 1 64 0 1 4; end
        member 2 1; barrier; end""", listing("5 9 2", "00000040 1.1.0 2 2.0.0 1")),
    Listing("an outer barrier orders inner teams", """
        member 0 0; region 1 2; end
        member 1 0; region 2 1; barrier; end
        member 1 1; barrier; region 3 1; end
        member 2 0; write 1 64 0 1 4; end
        member 3 0; write 2 64 0 1 4; end""", listing("5 10 2")),
    Listing("inner teams of two siblings", """
        member 0 0; region 1 2; end
        member 1 0; region 3 1; end
        member 1 1; region 2 1; end
        member 2 0; write 1 64 0 1 4; end
        member 3 0; write 2 64 0 1 4; end""", listing("5 8 2", "00000040 2.0.0 1 3.0.0 2")),
]

SHARED = [
    Listing("outer bounds overlap, no shared byte", pair("write 1 0 8 4 4", "write 2 4 8 4 4"), NO_RACE),
    Listing("neighbouring bytes", pair("write 1 60 0 1 4", "write 2 64 0 1 4"), NO_RACE),
    Listing("the last byte of one", pair("write 1 57 0 1 8", "write 2 64 0 1 4"), ONE_RACE),
    Listing("the last byte of memory", pair("write 1 4294967295 0 1 1", "write 2 4294967288 0 1 8"),
            listing("3 4 2", "ffffffff 1.0.0 1 1.1.0 2")),
    Listing("elements that overlap each other", pair("write 1 56 1 2 8", "write 2 64 3 2 4"), ONE_RACE, [(1, 0)]),
]

SORTED = [
    Listing("three pairs of one byte", """
        member 0 0; region 1 3; end
        member 1 2; write 30 0 0 1 1; end; member 1 0; write 10 0 0 1 1; end; member 1 1; write 20 0 0 1 1; end""",
            listing("4 5 3", "00000000 1.0.0 10 1.1.0 20", "00000000 1.0.0 10 1.2.0 30", "00000000 1.1.0 20 1.2.0 30")),
    Listing("four pairs of one byte", pair("write 1 64 0 1 1; write 2 64 0 1 1", "write 3 64 0 1 1; write 4 64 0 1 1"),
            listing("3 4 4", *(f"00000040 1.0.{a} {1 + a} 1.1.{b} {3 + b}" for a in (0, 1) for b in (0, 1)))),
    Listing("witness before names", pair("write 1 16 0 1 1; write 2 15 0 1 1", "read 3 15 0 1 1; read 4 16 0 1 1"),
            listing("3 4 4", "0000000f 1.0.1 2 1.1.0 3", "00000010 1.0.0 1 1.1.1 4")),
    Listing("first names before second names", """
        member 0 0; region 1 4; end
        member 1 0; acquire 1; acquire 2; write 10 64 0 1 1; release 1; release 2; end
        member 1 1; acquire 1; acquire 3; write 20 64 0 1 1; release 1; release 3; end
        member 1 2; acquire 2; acquire 4; write 30 64 0 1 1; release 2; release 4; end
        member 1 3; acquire 3; acquire 4; write 40 64 0 1 1; release 3; release 4; end""",
            listing("5 6 4", "00000040 1.0.0 10 1.3.0 40", "00000040 1.1.0 20 1.2.0 30")),
    Listing("names compared as numbers, low byte first in the log", """
        member 0 0; region 255 2; end
        member 255 0; region 256 1; end
        member 255 1; region 257 1; write 5 7 0 1 1; end
        member 256 0; write 6 7 0 1 1; end
        member 257 0; write 7 7 0 1 1; end""",
            listing("5 8 3", "00000007 255.1.0 5 256.0.0 6", "00000007 256.0.0 6 257.0.0 7")),
    Listing("sites 0 and 65,535", pair("write 65535 64 0 1 1", "read 0 64 0 1 1"),
            listing("3 4 2", "00000040 1.0.0 65535 1.1.0 0")),
    Listing("access numbers above 9", pair("times 10 read 1 0 0 1 1; write 2 9 0 1 1", "times 2 read 3 9 0 1 1"),
            listing("3 4 13", "00000009 1.0.10 2 1.1.0 3", "00000009 1.0.10 2 1.1.1 3")),
]


def backwards(first, second):
    """As pair, with the chunks back to front in the bundle."""
    return f"""
        member 1 1; {second}; end
        member 1 0; {first}; end
        member 0 0; region 1 2; end"""


def one_race(witness, site=1, other=2):
    return listing("3 4 2", f"{witness:08x} 1.0.0 {site} 1.1.0 {other}")


# The witness is covered by several elements of one access, or is not in element 0. It is never covered by several elements of
# both: the byte before it is missing from one of the two, and there a single element covers the witness and begins at it.
COVERED = [
    Listing("elements 3 to 7 of the first", pair("write 1 60 1 8 8", "read 2 70 0 1 1"), one_race(70), [(3, 0)]),
    Listing("elements 5 and 6 of the second", pair("write 1 120 0 1 4", "read 2 100 3 8 8"), one_race(120), [(0, 5)]),
    Listing("elements of size 2", pair("write 1 10 1 5 2", "write 2 13 0 1 1"), one_race(13), [(2, 0)]),
    Listing("elements of size 4", pair("atomic-write 1 0 3 4 4", "read 2 6 0 1 2"), one_race(6), [(1, 0)]),
    Listing("the last element of both", pair("write 1 0 10 5 1", "read 2 31 1 3 8"), one_race(40), [(4, 2)]),
    Listing("from inside an element on", pair("write 1 0 20 3 8", "read 2 44 1 8 8"), one_race(44), [(2, 0)]),
    # 64 to 67, 80 to 83, .. against 70 to 84: the lower and the higher base, each as the first and as the second name,
    # and each before and behind the other in the bundle
    Listing("lower base first", pair("write 1 64 16 4 4", "read 2 70 1 8 8"), one_race(80), [(1, 3)]),
    Listing("higher base first", pair("write 1 70 1 8 8", "read 2 64 16 4 4"), one_race(80), [(3, 1)]),
    Listing("lower base first, back to front", backwards("write 1 64 16 4 4", "read 2 70 1 8 8"), one_race(80), [(1, 3)]),
    Listing("higher base first, back to front", backwards("write 1 70 1 8 8", "read 2 64 16 4 4"), one_race(80), [(3, 1)]),
    Listing("an inner team's access, standing first", """
        member 2 0; write 7 100 2 8 8; end
        member 1 0; region 2 1; end
        member 1 1; write 5 109 0 1 1; end
        member 0 0; region 1 2; end""", listing("4 6 2", "0000006d 1.1.0 5 2.0.0 7"), [(0, 1)]),
    # Names decide, not elements: byte 64 is in elements 3 and 1 of the writes, and in 2 and 0 of the reads.
    Listing("four pairs of one byte, higher elements first",
            pair("write 1 40 8 4 1; write 2 56 8 2 1", "read 3 50 7 3 1; read 4 64 0 1 1"),
            listing("3 4 4", *(f"00000040 1.0.{a} {1 + a} 1.1.{b} {3 + b}" for a in (0, 1) for b in (0, 1))),
            [(3, 2), (3, 0), (1, 2), (1, 0)]),
    # The witness decides before the elements.
    Listing("three bytes, higher elements first", pair("write 1 8 1 8 8", "read 2 22 0 1 1; read 3 16 0 1 1; read 4 8 0 1 1"),
            listing("3 4 4", "00000008 1.0.0 1 1.1.2 4", "00000010 1.0.0 1 1.1.1 3", "00000016 1.0.0 1 1.1.0 2"),
            [(0, 0), (1, 0), (7, 0)]),
]

LISTINGS = ORDERED + KINDS + LOCKED + AROUND + CUT + SHARED + SORTED + COVERED

# The same with long ranges, which the computed examples leave out.
LONG = [
    Listing("elements 255 and 256", pair("write 1 1030 0 1 1; write 3 1027 0 1 1", "read 2 0 4 1000 8"),
            listing("3 4 3", "00000403 1.0.1 3 1.1.0 2", "00000406 1.0.0 1 1.1.0 2"), [(0, 255), (0, 256)]),
    Listing("element 65,534 of the first", pair("write 1 0 1 65535 8", "read 2 65541 0 1 1"), one_race(65541), [(65534, 0)]),
    Listing("element 65,527 of the second", pair("write 1 65534 0 1 1", "read 2 0 1 65535 8"), one_race(65534), [(0, 65527)]),
    Listing("element 65,533, stride 7", pair("write 1 0 7 65535 8", "read 2 458738 0 1 8"), one_race(458738), [(65533, 0)]),
    Listing("element 65,530, stride 3, back to front",
            backwards("write 1 196596 1 65535 8", "write 2 0 3 65535 8"), one_race(196596), [(0, 65530)]),
    Listing("element 65,534 of both", pair("write 1 0 65535 65535 1", "write 2 65534 65534 65535 1"),
            one_race(4294770690), [(65534, 65534)]),
    Listing("element 65,534, back to front", backwards("write 1 4294967289 0 1 4", "read 2 4294508550 7 65535 8"),
            one_race(4294967289), [(0, 65534)]),
]

# More locks held around regions, which the computed examples leave out. First: which locks, and at which REGION of a chunk.
AT_REGIONS = [
    *[Listing(f"lock {lock} around both regions", sides(held(lock, "region 2 1"), held(lock, "region 3 1"), IN_2, IN_3), NEITHER)
      for lock in (0, 31, 32, 63)],
    *[Listing(f"locks {lock} and {other} around the regions",
              sides(held(lock, "region 2 1"), held(other, "region 3 1"), IN_2, IN_3), BOTH_INNER)
      for lock, other in ((3, 4), (0, 32), (31, 63), (0, 63))],
    Listing("one of several locks around both regions",
            sides("acquire 0; acquire 63; acquire 5; release 0; region 2 1; release 63; release 5",
                  "acquire 1; acquire 63; region 3 1; release 1; release 63", IN_2, IN_3), NEITHER),
    Listing("acquired behind the REGION", sides("region 2 1; acquire 3; release 3", held(3, "region 3 1"), IN_2, IN_3), BOTH_INNER),
    Listing("released before the REGION", sides("acquire 3; release 3; region 2 1", held(3, "region 3 1"), IN_2, IN_3), BOTH_INNER),
    Listing("released and acquired again before the REGION",
            sides("acquire 3; release 3; acquire 3; region 2 1; release 3", held(3, "region 3 1"), IN_2, IN_3), NEITHER),
    Listing("held over a barrier and then a region",
            sides("acquire 3; barrier; region 2 1; release 3", f"barrier; {held(3, 'region 3 1')}", IN_2, IN_3), races_of("5 10 2")),
    Listing("held before two regions and between them",
            sides("acquire 3; region 2 1; region 4 1; release 3", held(3, "region 3 1"), IN_2, IN_3, f"4 0; {write(4)}"),
            races_of("6 10 3")),
    Listing("held between two regions only",
            sides("region 2 1; acquire 3; release 3; region 4 1", held(3, "region 3 1"), IN_2, IN_3, f"4 0; {write(4)}"),
            races_of("6 10 3", "2.0.0 1 3.0.0 2", "3.0.0 2 4.0.0 4")),
    Listing("another lock at each of two regions",
            sides(f"{held(3, 'region 2 1')}; {held(4, 'region 4 1')}", held(4, "region 3 1"), IN_2, IN_3, f"4 0; {write(4)}"),
            races_of("6 10 3", "2.0.0 1 3.0.0 2")),
    Listing("the middle one of three regions",
            sides(f"region 2 1; {held(3, 'region 4 1')}; region 6 1", held(3, "region 3 1"),
                  IN_2, IN_3, f"4 0; {write(4)}", f"6 0; {write(6)}"),
            races_of("7 12 4", "2.0.0 1 3.0.0 2", "3.0.0 2 6.0.0 6")),
]

# An access in the parting member's own chunk counts its own locks alone.
IN_MEMBERS = [
    Listing("own lock against the lock around a region", sides(held(3, W1), held(3, "region 2 1"), f"2 0; {W2}"), races_of("4 6 2")),
    Listing("another own lock against the lock around a region",
            sides(held(4, W1), held(3, "region 2 1"), f"2 0; {W2}"), races_of("4 6 2", "1.0.0 1 2.0.0 2")),
    Listing("no own lock, one around the chunk's own region",
            sides(f"{W1}; {held(3, f'{write(4)}; region 3 1; {write(5)}')}; {write(6)}", held(3, "region 2 1"), f"2 0; {W2}", "3 0"),
            races_of("5 8 5", "1.0.0 1 2.0.0 2", "1.0.3 6 2.0.0 2")),
    Listing("own lock, none around the chunk's own region",
            sides(f"{held(3, W1)}; region 3 1; {held(3, write(4))}", held(3, "region 2 1"), f"2 0; {W2}", "3 0"), races_of("5 8 3")),
    Listing("own locks alone, one access in an inner chunk", sides(held(3, W1), "region 2 1", f"2 0; {held(3, W2)}"),
            races_of("4 6 2")),
    Listing("own lock behind the region", sides(f"region 2 1; {held(3, W1)}", held(3, W2), f"2 0; {write(4)}"),
            races_of("4 6 3", "1.1.0 2 2.0.0 4")),
]

# Which chunks count: those of the lineage, from the parting member down.
OF_THE_LINEAGE = [
    Listing("siblings of one inner team", sides(
        held(3, "region 2 2"), held(3, "region 3 2"), f"2 0; {W1}", f"2 1; {W2}", f"3 0; {write(4)}", f"3 1; {write(5)}"),
            races_of("7 10 4", "2.0.0 1 2.1.0 2", "3.0.0 4 3.1.0 5")),
    Listing("siblings of one inner team, back to front", f"""
        member 3 1; {write(5)}; end; member 3 0; {write(4)}; end
        member 2 1; {W2}; end; member 2 0; {W1}; end
        member 1 1; acquire 3; region 3 2; release 3; end
        member 1 0; acquire 3; region 2 2; release 3; end
        member 0 0; region 1 2; end""", races_of("7 10 4", "2.0.0 1 2.1.0 2", "3.0.0 4 3.1.0 5")),
    Listing("the lower member forks the higher team",
            sides(held(3, "region 3 1"), held(3, "region 2 1"), IN_2, IN_3), NEITHER),
    Listing("the lower member forks the higher team, and holds no lock",
            sides("region 3 1", held(3, "region 2 1"), IN_2, IN_3), BOTH_INNER),
    Listing("teams of two bytes", f"""
        member 0 0; region 255 2; end
        member 255 0; acquire 3; region 256 2; release 3; end
        member 255 1; acquire 3; region 512 1; release 3; end
        member 256 0; {W1}; end
        member 256 1; region 65535 1; end
        member 512 0; {W2}; end
        member 65535 0; {write(4)}; end""", races_of("7 11 3", "256.0.0 1 65535.0.0 4")),
    Listing("by the root", sides("region 2 1", "region 3 1", IN_2, IN_3, before="acquire 3", after="release 3"), BOTH_INNER),
    Listing("by the root and by one member",
            sides(held(3, "region 2 1"), "region 3 1", IN_2, IN_3, before="acquire 3", after="release 3"), BOTH_INNER),
    Listing("by the root and by both members",
            sides(held(3, "region 2 1"), held(3, "region 3 1"), IN_2, IN_3, before="acquire 3", after="release 3"), NEITHER),
    Listing("by the root, against an own lock",
            sides("region 2 1", held(3, W2), f"2 0; {W1}", before="acquire 3", after="release 3"),
            races_of("4 6 2", "1.1.0 2 2.0.0 1")),
    Listing("by a third member", f"""
        member 0 0; region 1 3; end
        member 1 0; acquire 3; region 2 1; release 3; end
        member 1 1; region 3 1; end
        member 1 2; acquire 3; {write(4)}; release 3; end
        member 2 0; {W1}; end
        member 3 0; {W2}; end""", races_of("6 9 3", "1.2.0 4 3.0.0 2", "2.0.0 1 3.0.0 2")),
    Listing("by a sibling of the inner team", sides(
        "region 2 2", held(3, "region 3 1"), f"2 0; {held(3, 'region 4 1')}", f"2 1; {W1}", IN_3, "4 0"),
            races_of("7 11 2", "2.1.0 1 3.0.0 2")),
    Listing("at a region that leads elsewhere", sides(
        f"{held(3, 'region 4 1')}; region 2 1", held(3, "region 3 1"), IN_2, IN_3, "4 0"), races_of("6 10 2", "2.0.0 1 3.0.0 2")),
]

# Own locks and those of several regions together.
TOGETHER = [
    Listing("own lock against a lock two regions up",
            sides(held(3, W1), held(3, "region 2 1"), "2 0; region 3 1", IN_3), races_of("5 8 2")),
    Listing("own lock against a lock one region up, below the member",
            sides(held(3, W1), "region 2 1", f"2 0; {held(3, 'region 3 1')}", IN_3), races_of("5 8 2")),
    Listing("inner own lock against a lock two regions up",
            sides(held(3, "region 2 1"), "region 3 1", "2 0; region 4 1", f"3 0; {held(3, W2)}", f"4 0; {W1}"), races_of("6 10 2")),
    Listing("crossed: own against the region's, both ways",
            sides(held(1, "region 2 1"), held(2, "region 3 1"), f"2 0; {held(2, W1)}", f"3 0; {held(1, W2)}"), NEITHER),
    Listing("four locks, none in common",
            sides(held(1, "region 2 1"), held(2, "region 3 1"), f"2 0; {held(3, W1)}", f"3 0; {held(4, W2)}"), BOTH_INNER),
    Listing("the lock of the region is not that of the next one down",
            sides(held(1, "region 2 1"), held(2, "region 3 1"), f"2 0; {held(3, 'region 4 1')}", f"3 0; {held(4, 'region 5 1')}",
                  f"4 0; {W1}", f"5 0; {W2}"), races_of("7 12 2", "4.0.0 1 5.0.0 2")),
    Listing("the region's lock acquired again inside", sides(
        held(3, "region 2 2"), "", f"2 0; {held(3, W1)}", f"2 1; {W2}"), races_of("5 7 2", "2.0.0 1 2.1.0 2")),
    Listing("a lower witness that is guarded",
            sides(f"{write(6)}; {held(3, 'region 2 1')}", f"{write(4)}; {held(3, 'region 3 1')}",
                  "2 0; write 1 16 0 1 4", f"3 0; write 2 16 0 1 4; {write(5)}"),
            races_of("5 8 5", "1.0.0 6 1.1.0 4", "1.0.0 6 3.0.1 5")),
]

# Ordered accesses do not race, whatever the locks.
WITH_ORDER = [
    Listing("a barrier between inner teams, one lock",
            sides(f"{held(3, 'region 2 1')}; barrier", f"barrier; {held(3, 'region 3 1')}", IN_2, IN_3), races_of("5 10 2")),
    Listing("a barrier between inner teams, no common lock",
            sides(f"{held(3, 'region 2 1')}; barrier", f"barrier; {held(4, 'region 3 1')}", IN_2, IN_3), races_of("5 10 2")),
    Listing("before, in and behind a region", sides(f"{W1}; {held(3, 'region 2 1')}; {write(4)}", "", f"2 0; {W2}"),
            races_of("4 6 3")),
    Listing("two regions one after the other", sides(f"{held(3, 'region 2 1')}; region 3 1", "", IN_2, IN_3), races_of("5 8 2")),
]


def deep(parting, first, second, last=4):
    """Two lineages that part in the team of this place, of the chunks 0 to last and 0 to 4; each ends in an access of one word.
    Lock 3 is held by chunk first of the first lineage and by chunk second of the second: at the REGION that leads on, or, by
    the last chunk, at the access."""
    lines = []
    for place in range(parting):  # the chunks of both
        fork = f"region {place + 1} {2 if place + 1 == parting else 1}"
        lines.append(f"member {place} 0; {held(3, fork) if place in (first, second) else fork}; end")
    for side, holder, end in ((0, first, last), (1, second, 4)):
        for place in range(parting, end + 1):
            name = f"{place} {side}" if place == parting else f"{10 * side + 10 + place} 0"
            fork = f"region {10 * side + 10 + place + 1} 1" if place < end else write(1 + side)
            lines.append(f"member {name}; {held(3, fork) if place == holder else fork}; end")
    return "\n".join(lines)


def deep_listing(parting, guarded, last=4):
    chunks = parting + (last + 1 - parting) + (5 - parting)  # 2 of them have one segment, the others 2
    first = f"{parting}.0.0" if last == parting else f"{10 + last}.0.0"
    second = "4.1.0" if parting == 4 else "24.0.0"
    return races_of(f"{chunks} {2 * chunks - 2} 2", *[] if guarded else [f"{first} 1 {second} 2"])


# Each holder in turn. From the parting member down, on both sides, there is no race; what holds above it is one chunk of both.
DEEP = [
    *[Listing(f"parting {parting} deep, held by chunk {holder} of both", deep(parting, holder, holder),
              deep_listing(parting, holder >= parting))
      for parting in (1, 2, 3, 4) for holder in range(5)],
    *[Listing(f"parting {parting} deep, held by chunks {first} and {second}", deep(parting, first, second),
              deep_listing(parting, True))
      for parting, first, second in (
          (1, 1, 2), (1, 1, 4), (1, 3, 2), (1, 4, 3), (2, 2, 4), (2, 4, 3), (2, 3, 2), (3, 3, 4), (3, 4, 3))],
    *[Listing(f"parting {parting} deep, held by chunk {first} of the first and above both", deep(parting, first, parting - 1),
              deep_listing(parting, False))
      for parting, first in ((1, 1), (1, 4), (2, 2), (2, 3), (3, 3), (3, 4), (4, 4))],
    *[Listing(f"parting {parting} deep, the first ends in chunk {last}, held by chunks {first} and {second}",
              deep(parting, first, second, last), deep_listing(parting, guarded, last))
      for parting, last, first, second, guarded in (
          (1, 1, 1, 1, True), (1, 1, 1, 2, True), (1, 1, 1, 3, True), (1, 1, 1, 4, True), (1, 2, 1, 4, True), (1, 3, 2, 1, True),
          (2, 2, 2, 2, True), (2, 2, 2, 4, True), (2, 3, 2, 3, True), (3, 3, 3, 3, True), (3, 3, 3, 4, True),
          (1, 1, 1, 0, False), (2, 2, 2, 1, False), (2, 3, 3, 0, False), (3, 3, 2, 4, False), (2, 2, 0, 0, False))],
]

LOCKED_AROUND = AT_REGIONS + IN_MEMBERS + OF_THE_LINEAGE + TOGETHER + WITH_ORDER + DEEP

# More cut chunks, which the computed examples leave out. First: what a missing barrier orders.
MISSING = [
    Listing("the openings of all members", team(f"{W1}; cut", f"barrier; {W2}; end", f"barrier; {write(4)}; end"),
            races_of("4 7 3", "1.1.0 2 1.2.0 4")),
    Listing("the opening in a cut chunk", team(f"{W1}; cut", f"barrier; {W2}; cut", "barrier; barrier; end"), races_of("4 8 2")),
    Listing("the opening of a higher member, all cut", team(f"barrier; {W1}; cut", f"barrier; barrier; {W2}; cut"), races_of("3 7 2")),
    Listing("the opening of a lower member, all cut", team(f"barrier; barrier; {W1}; cut", f"barrier; {W2}; cut"), races_of("3 7 2")),
    Listing("the second of three, from behind the first",
            team(f"barrier; {W1}; cut", f"barrier; barrier; {W2}; barrier; end"), races_of("3 8 2")),
    Listing("the first of three is there and orders nothing behind it",
            team(f"barrier; {W1}; cut", f"{write(4)}; barrier; {W2}; barrier; barrier; end"), races_of("3 8 3", "1.0.0 1 1.1.1 2")),
    Listing("more barriers than member 0 has",
            team("barrier; cut", f"barrier; {W1}; barrier; end", f"barrier; barrier; {W2}; end"), races_of("4 10 2")),
    Listing("from all segments of the chunk", team(f"{W1}; barrier; {write(4)}; cut", f"barrier; barrier; {W2}; end"), races_of("3 7 3")),
    Listing("from the segment that a REGION opens",
            team(f"region 2 1; {W1}; cut", f"barrier; {W2}; end") + "\n        member 2 0; end", races_of("4 7 2")),
    Listing("the intervals of three cut chunks",
            team(f"{W1}; cut", f"{W2}; barrier; {write(4)}; cut", f"{write(5)}; barrier; {write(6)}; barrier; {write(7)}; cut"),
            races_of("4 8 6", "1.0.0 1 1.1.0 2", "1.0.0 1 1.2.0 5", "1.1.0 2 1.2.0 5", "1.1.1 4 1.2.1 6")),
    Listing("chunks back to front", f"""
        member 1 1; barrier; {W2}; end
        member 1 0; {W1}; cut
        member 0 0; region 1 2; cut""", races_of("3 5 2")),
    Listing("E, member 1 cut behind its read", team("write 10 4096 8 2 4; barrier; end", "read 20 4106 0 1 4; cut"),
            listing("3 5 2", "0000100a 1.0.0 10 1.1.0 20"), [(1, 0)]),
    Listing("E with a late read, stopped", E_STOPPED, listing("3 5 2")),
]

# Joins, and regions inside cut chunks.
CUT_REGIONS = [
    Listing("the join from a chunk cut behind MEMBER", team("cut", f"{W1}; end", after=write(9)), races_of("3 4 2")),
    Listing("the join from a chunk that lacks a barrier", team(f"{W1}; cut", "barrier; end", after=write(9)), races_of("3 5 2")),
    Listing("the join from two cut chunks", team(f"barrier; {W1}; cut", f"barrier; {W2}; cut", after=write(9)),
            races_of("3 6 3", "1.0.0 1 1.1.0 2")),
    Listing("the join below a cut root", team(f"barrier; {W1}; end", "barrier; end", after=write(9), close="cut"), races_of("3 6 2")),
    Listing("the fork by a cut root", team(f"barrier; {W1}; cut", "barrier; end", before=write(9), close="cut"), races_of("3 6 2")),
    Listing("the join of an inner team from its last segments",
            team(f"region 2 2; {write(9)}; end", "end") + f"\n        member 2 0; barrier; {W1}; cut\n        member 2 1; barrier; end",
            races_of("5 9 2")),
    Listing("an inner chunk before its forking chunk's missing barrier",
            team("region 2 1; cut", f"barrier; {W2}; end") + f"\n        member 2 0; {W1}; cut", races_of("4 7 2")),
    Listing("an inner chunk, and the interval before the missing barrier",
            team("region 2 1; cut", f"{W2}; barrier; end") + f"\n        member 2 0; {W1}; cut", races_of("4 7 2", "1.1.0 2 2.0.0 1")),
    Listing("inner teams on both sides of a missing barrier",
            team("region 2 1; cut", "barrier; region 3 1; end") + f"\n        member {IN_2}; end\n        member {IN_3}; end",
            races_of("5 9 2")),
    Listing("inner teams on one side of a missing barrier",
            team("region 2 1; cut", "region 3 1; barrier; end") + f"\n        member {IN_2}; end\n        member {IN_3}; end",
            races_of("5 9 2", "2.0.0 1 3.0.0 2")),
    Listing("an inner missing barrier does not order an outer sibling",
            team("region 2 2; cut", f"{W2}; end") + f"\n        member 2 0; {W1}; cut\n        member 2 1; barrier; end",
            races_of("5 8 2", "1.1.0 2 2.0.0 1")),
    Listing("two regions of a cut chunk", team("region 2 1; region 3 1; cut", "end") + f"""
        member {IN_2}; cut
        member {IN_3}; cut""", races_of("5 8 2")),
]

# Locks that are held where a chunk is cut.
HELD_AT_CUT = [
    Listing("different locks held at CUT", team(f"acquire 3; {W1}; cut", f"acquire 4; {W2}; cut"), races_of("3 4 2", "1.0.0 1 1.1.0 2")),
    Listing("one of two locks released before CUT",
            team(f"acquire 3; acquire 4; release 3; {W1}; cut", f"acquire 3; {W2}; cut"), races_of("3 4 2", "1.0.0 1 1.1.0 2")),
    Listing("held around a region up to CUT",
            team("acquire 3; region 2 1; cut", "acquire 3; region 3 1; cut") + f"\n        member {IN_2}; cut\n        member {IN_3}; end",
            NEITHER),
    Listing("held around one region up to CUT",
            team("acquire 3; region 2 1; cut", "acquire 4; region 3 1; cut") + f"\n        member {IN_2}; cut\n        member {IN_3}; end",
            BOTH_INNER),
    Listing("acquired behind the REGION and held at CUT",
            team("region 2 1; acquire 3; cut", "acquire 3; region 3 1; cut") + f"\n        member {IN_2}; cut\n        member {IN_3}; end",
            BOTH_INNER),
]

STOPPED = MISSING + CUT_REGIONS + HELD_AT_CUT

# The same pairs of kinds as above, with wide sites.
WIDE_KINDS = [
    Listing("wide: " + case.title,
            pair(*(f"wide-{kind} {site} 64 0 1 4" for kind, site in zip(case.title.split(" and "), (65536, 4294967295)))),
            NO_RACE if case.lines == NO_RACE else listing("3 4 2", "00000040 1.0.0 65536 1.1.0 4294967295"))
    for case in KINDS
]

WIDE = WIDE_KINDS + [
    Listing("E with wide sites", E_WIDE, listing("3 6 2", "0000100a 1.0.0 70000 1.1.0 20"), [(1, 0)]),
    Listing("wide, all sites small", E_WIDE.replace("70000", "10"), listing("3 6 2", "0000100a 1.0.0 10 1.1.0 20"), [(1, 0)]),
    Listing("narrow, site 65,535", pair("write 65535 64 0 1 4", "write 0 64 0 1 4"),
            listing("3 4 2", "00000040 1.0.0 65535 1.1.0 0")),
    Listing("wide, sites 65,535 and 65,536", pair("wide-write 65536 64 0 1 4", "wide-read 65535 64 0 1 4"),
            listing("3 4 2", "00000040 1.0.0 65536 1.1.0 65535")),
    Listing("wide, low halves alike", pair("wide-write 7 64 0 1 4", "wide-write 65543 64 0 1 4"),
            listing("3 4 2", "00000040 1.0.0 7 1.1.0 65543")),
    Listing("wide, high halves alike", pair("wide-write 305397761 64 0 1 4", "wide-write 305397762 64 0 1 4"),
            listing("3 4 2", "00000040 1.0.0 305397761 1.1.0 305397762")),
    Listing("wide, one site twice", pair("wide-write 131072 64 0 1 4", "wide-write 131072 64 0 1 4"),
            listing("3 4 2", "00000040 1.0.0 131072 1.1.0 131072")),
    Listing("wide, under a lock", pair("acquire 3; wide-write 65536 64 0 1 4; release 3", "acquire 3; wide-write 0 64 0 1 4; release 3"),
            NO_RACE),
    Listing("wide, cut", "member 1 1; wide-read 65536 64 0 1 4; cut; member 1 0; wide-write 4294967295 64 0 1 4; cut; "
            "member 0 0; region 1 2; cut", listing("3 4 2", "00000040 1.0.0 4294967295 1.1.0 65536")),
    Listing("wide, several races, sites not in the order of names", pair(
        "wide-write 4294967295 64 0 1 1; wide-write 0 64 0 1 1", "wide-write 65536 60 4 2 1; wide-read 65535 60 0 1 1"),
            listing("3 4 4", "00000040 1.0.0 4294967295 1.1.0 65536", "00000040 1.0.1 0 1.1.0 65536"), [(0, 1), (0, 1)]),
    Listing("wide, the inner team under the member's lock", """
        member 0 0; region 1 2; end
        member 1 0; acquire 3; region 2 1; release 3; end; member 1 1; acquire 3; wide-write 70001 64 0 1 1; release 3;
        wide-write 70002 64 0 1 1; end
        member 2 0; wide-write 70003 64 0 1 1; end""",
            listing("4 6 3", "00000040 1.1.1 70002 2.0.0 70003")),
]

ALL = LISTINGS + LONG + LOCKED_AROUND + STOPPED + WIDE
