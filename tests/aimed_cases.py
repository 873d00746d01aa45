"""Bundles aimed at each refusal of check, its sub-cases and precedences,
and pairs of ranges aimed at the elements that cover their lowest shared byte.

Each case is a title, the refusal's number (None if accepted) and the bundle
as text, with * at the place of the refusal; one that is accepted has its
chunks, segments and accesses. All these numbers are taken from document 01
by hand, and those of cut chunks, of wide sites and of elements from
document 02.
"""

from collections import namedtuple

from bundle_text import assemble

Case = namedtuple("Case", "title number text counts", defaults=[None])

E = """
member 0 0; region 1 2; end
member 1 0; write 10 4096 8 2 4; barrier; end
member 1 1; read 20 4106 0 1 4; barrier; end
"""

E_BYTES = bytes.fromhex(
    "01 00 00 00 10 01 00 02 02"
    "01 01 00 00 31 0a 00 00 10 00 00 08 00 02 00 04 11 02"
    "01 01 00 01 30 14 00 0a 10 00 00 00 00 01 00 04 11 02"
)

# E with member 1's read after its barrier.
E_LATE_READ = """
member 0 0; region 1 2; end
member 1 0; write 10 4096 8 2 4; barrier; end
member 1 1; barrier; read 20 4106 0 1 4; end
"""

# The same where the run was stopped: member 0 has not met its barrier.
E_STOPPED = """
member 0 0; region 1 2; cut
member 1 0; write 10 4096 8 2 4; cut
member 1 1; barrier; read 20 4106 0 1 4; cut
"""

# Member 0 of a team of two forks a team of one. Its two segments are concurrent with member 1's, and the first is before the second.
NESTED_PAIR = """
member 0 0; region 1 2; end
member 1 0; region 2 1; end
member 1 1; end
member 2 0; end
"""

# Of a team of two, member 0 was cut before the barrier that member 1 has passed.
CUT_PAIR = """
member 0 0; region 1 2; cut
member 1 0; cut
member 1 1; barrier; cut
"""

ACCESS = "read 1 0 0 1 1"
FULL_BYTES = "member 0 0; times 3 barrier; times 16382 acquire 1, release 1"  # 65,535 bytes
CHAIN_4 = """
member 0 0; region 1 1; end
member 1 0; region 2 1; end
member 2 0; region 3 1; end
member 3 0; region 4 1; end
"""

ACCEPTED = [
    Case("only a root", None, "member 0 0; end", (1, 1, 0)),
    Case("E", None, E, (3, 6, 2)),
    Case("E with a late read", None, E_LATE_READ, (3, 6, 2)),
    Case("exactly 65,536 bytes", None, FULL_BYTES + "; end", (1, 4, 0)),
    Case("exactly 512 segments", None, "member 0 0; times 511 barrier; end", (1, 512, 0)),
    Case("exactly 1,024 accesses", None, f"member 0 0; times 1024 {ACCESS}; end", (1, 1, 1024)),
    Case("exactly 512 segments, then more commands", None,
         f"member 0 0; times 511 barrier; {ACCESS}; acquire 1; release 1; end", (1, 512, 1)),
    Case("exactly 1,024 accesses, then more commands", None,
         f"member 0 0; times 1024 {ACCESS}; barrier; acquire 1; release 1; region 1 1; end\nmember 1 0; end", (2, 4, 1024)),
    Case("exactly 512 segments over a root and 63 members", None,
         "member 0 0; times 447 barrier; region 1 63; end\n"
         + "\n".join(f"member 1 {m}; end" for m in range(63)), (64, 512, 0)),
    Case("depth 4", None, CHAIN_4 + "member 4 0; end", (5, 9, 0)),
    Case("team of 64", None, "member 0 0; region 65535 64; end\n"
         + "\n".join(f"member 65535 {m}; end" for m in reversed(range(64))), (65, 66, 0)),
    Case("chunks before their fork", None,
         "member 2 0; end; member 1 0; region 2 1; end; member 0 0; region 1 1; end", (3, 5, 0)),
    Case("locks held over a barrier and a region", None,
         "member 0 0; acquire 0; acquire 63; region 1 1; barrier; release 0; release 63; end; member 1 0; acquire 63; release 63; end",
         (2, 4, 0)),
    Case("a lock taken again", None, "member 0 0; acquire 5; release 5; acquire 5; release 5; end", (1, 1, 0)),
    Case("root barriers", None, "member 0 0; barrier; barrier; end", (1, 3, 0)),
    Case("last byte 4,294,967,295", None, "member 0 0; write 1 4294967288 0 1 8; end", (1, 1, 1)),
    Case("last byte 4,294,967,295 with a stride", None, "member 0 0; write 1 4294967286 8 2 2; end", (1, 1, 1)),
    Case("like barrier counts in each team alone", None, """
        member 0 0; barrier; region 1 2; region 2 2; end
        member 1 0; barrier; barrier; end; member 1 1; barrier; barrier; end
        member 2 0; end; member 2 1; end""", (5, 12, 0)),
]

TOO_LONG = [
    Case("65,537 good bytes", 1, "*" + FULL_BYTES + "; barrier; end"),
    Case("1 before 2", 1, "*times 65537 raw 00"),
    Case("1 before 3", 1, "*" + FULL_BYTES + "; end; torn 1 member 0 0"),
    Case("1 before 4", 1, "*" + FULL_BYTES + "; barrier; barrier"),
    Case("1 before 7", 1, "*member 0 0; times 66000 barrier; end"),
    Case("1 before 10", 1, "*" + FULL_BYTES + "; region 1 1; end"),
    Case("not 1: 65,536 unknown bytes", 2, "*times 65536 raw 00"),
    Case("not 1: 65,536 bytes ending inside a chunk", 4, FULL_BYTES + "; barrier; *"),
]

UNKNOWN = [
    Case("alone", 2, "*raw 00"),
    Case("inside a chunk", 2, "member 0 0; barrier; *raw 05; end"),
    Case("behind a good bundle", 2, "member 0 0; end; *raw ff"),
    Case("2 before 3: nothing follows", 2, "member 0 0; *raw 34"),
    Case("2 before 4: outside a chunk", 2, "*raw 12; end"),
    Case("2 at a lower offset than 3", 2, "member 0 0; *raw 22; torn 1 acquire 1"),
    Case("2 at a lower offset than 4", 2, "member 0 0; *raw 2f"),
    Case("2 before 8 to 12 at lower offsets", 2, "member 0 1; region 1 2; region 1 2; end; *raw 0f"),
]

TORN = [
    Case("MEMBER torn after 1", 3, "*torn 1 member 0 0"),
    Case("MEMBER torn after 3", 3, "*torn 3 member 0 0"),
    Case("a second MEMBER torn", 3, "member 0 0; end; *torn 2 member 1 0"),
    Case("REGION torn after 1", 3, "member 0 0; *torn 1 region 1 1"),
    Case("REGION torn after 3", 3, "member 0 0; *torn 3 region 1 1"),
    Case("ACQUIRE torn", 3, "member 0 0; *torn 1 acquire 1"),
    Case("RELEASE torn", 3, "member 0 0; *torn 1 release 1"),
    Case("access torn after 1", 3, "member 0 0; *torn 1 read 1 0 0 1 1"),
    Case("access torn after 11", 3, "member 0 0; *torn 11 atomic-write 1 0 0 1 1"),
    Case("3 before 4: access outside a chunk", 3, "*torn 5 write 1 0 0 1 1"),
    Case("3 before 4: ACQUIRE outside a chunk", 3, "member 0 0; end; *torn 1 acquire 1"),
    Case("3 before 4: REGION outside a chunk", 3, "*torn 2 region 1 1"),
    Case("3 before 4: MEMBER inside a chunk", 3, "member 0 0; *torn 3 member 1 0"),
    Case("3 before 5: team 0", 3, "member 0 0; *torn 3 region 0 1"),
    Case("3 before 5: own-team rule", 3, "member 5 0; *torn 3 region 5 1"),
    Case("3 before 5: count 0", 3, "member 0 0; *torn 11 write 1 0 0 0 1"),
    Case("3 before 6: an unheld lock cut off", 3, "member 0 0; acquire 1; *torn 1 release 2"),
    Case("3 before 7: the 513th segment cut off", 3, "member 0 0; times 511 barrier; *torn 2 region 1 1"),
    Case("3 before 7: the 1,025th access cut off", 3, f"member 0 0; times 1024 {ACCESS}; *torn 11 {ACCESS}"),
    Case("3 before 8 to 12 at lower offsets", 3, "member 0 1; region 1 2; region 1 2; end; *torn 1 member 0 0"),
]

MISPLACED = [
    Case("END outside", 4, "*end"),
    Case("BARRIER outside", 4, "*barrier"),
    Case("REGION outside", 4, "*region 1 1; end"),
    Case("ACQUIRE outside", 4, "*acquire 1"),
    Case("RELEASE outside", 4, "*release 1"),
    *[Case(f"{kind} outside", 4, f"*{kind} 1 0 0 1 1; member 0 0; end")
      for kind in ("read", "write", "atomic-read", "atomic-write")],
    Case("a second END", 4, "member 0 0; end; *end"),
    Case("a command between chunks", 4, "member 0 0; region 1 1; end; *barrier; member 1 0; end"),
    Case("MEMBER inside", 4, "member 0 0; *member 1 0; end"),
    Case("the same MEMBER inside", 4, "member 0 0; barrier; *member 0 0; end; end"),
    Case("ending behind MEMBER", 4, "member 0 0; *"),
    Case("ending behind a region", 4, "member 0 0; region 1 1; *"),
    Case("ending in the second chunk", 4, "member 0 0; region 1 1; end; member 1 0; barrier; *"),
    Case("ending with a lock held, not 6", 4, "member 0 0; acquire 1; *"),
    Case("ending before 8 to 12", 4, "member 0 1; region 1 2; region 1 2; end; member 0 1; *"),
    Case("4 before 5: MEMBER 64 inside", 4, "member 0 0; *member 0 64; end"),
    Case("4 before 5: ACQUIRE 64 outside", 4, "*acquire 64"),
    Case("4 before 5: RELEASE 255 outside", 4, "*release 255"),
    Case("4 before 5: REGION size 0 outside", 4, "*region 1 0"),
    Case("4 before 5: REGION team 0 outside", 4, "member 0 0; end; *region 0 1"),
    Case("4 before 5: access count 0 outside", 4, "*write 1 0 0 0 1"),
    Case("4 before 5: access size 3 outside", 4, "*atomic-read 1 0 0 1 3"),
    Case("4 before 6: RELEASE unheld outside", 4, "member 0 0; end; *release 1"),
    Case("4 before 6: ACQUIRE twice outside", 4, "member 0 0; acquire 1; release 1; end; *acquire 1; acquire 1"),
    Case("4 before 7: 513th segment by MEMBER inside", 4, "member 0 0; times 511 barrier; *member 1 0; end"),
    Case("4 before 7: 513th segment by BARRIER outside", 4, "member 0 0; times 511 barrier; end; *barrier"),
    Case("4 before 7: 1,025th access outside", 4, f"member 0 0; times 1024 {ACCESS}; end; *{ACCESS}"),
    Case("4 at a lower offset than 2", 4, "*barrier; raw 00"),
    Case("4 at a lower offset than 3", 4, "*end; torn 1 member 0 0"),
    Case("4 before 8 to 12 at lower offsets", 4, "member 0 1; region 1 2; region 1 2; end; *end"),
]

OUT_OF_RANGE = [
    Case("MEMBER 64", 5, "*member 0 64; end"),
    Case("MEMBER 255 in the second chunk", 5, "member 0 0; end; *member 1 255; end"),
    Case("REGION team 0", 5, "member 0 0; *region 0 1; end"),
    Case("REGION size 0", 5, "member 0 0; *region 1 0; end"),
    Case("REGION size 65", 5, "member 0 0; *region 1 65; end"),
    Case("own team", 5, "member 0 0; region 3 1; end; member 3 0; *region 3 1; end"),
    Case("team below the own", 5, "member 0 0; region 3 1; end; member 3 0; *region 2 1; end"),
    Case("own team 65,535", 5, "member 65535 0; *region 65535 1; end"),
    Case("own team compared as 16 bits", 5, "member 256 0; *region 255 1; end"),
    Case("ACQUIRE 64", 5, "member 0 0; *acquire 64; end"),
    Case("count 0", 5, "member 0 0; *read 1 0 0 0 1; end"),
    Case("count 0 with a stride", 5, "member 0 0; *read 1 0 4 0 1; end"),
    Case("stride 0 with count 2", 5, "member 0 0; *write 1 0 0 2 1; end"),
    Case("stride 1 with count 1", 5, "member 0 0; *atomic-read 1 0 1 1 1; end"),
    *[Case(f"size {size}", 5, f"member 0 0; *atomic-write 1 0 0 1 {size}; end")
      for size in (0, 3, 5, 6, 7, 9, 16, 255)],
    Case("last byte 4,294,967,296 by size", 5, "member 0 0; *write 1 4294967295 0 1 2; end"),
    Case("last byte 4,294,967,296 by stride", 5, "member 0 0; *write 1 4294967287 8 2 2; end"),
    Case("last byte above 2 to the 33rd", 5, "member 0 0; *write 1 4294967295 65535 65535 8; end"),
    Case("5 before 6: RELEASE 64, unheld", 5, "member 0 0; *release 64; end"),
    Case("5 before 6: ACQUIRE 65 twice", 5, "member 0 0; *acquire 65; acquire 65; end"),
    Case("5 before 7: 513th segment by REGION size 0", 5, "member 0 0; times 511 barrier; *region 1 0; end"),
    Case("5 before 7: 513th segment by own team", 5, "member 7 0; times 511 barrier; *region 7 1; end"),
    Case("5 before 7: 513th segment by MEMBER 64", 5, "member 0 0; times 511 barrier; end; *member 1 64; end"),
    Case("5 before 7: 1,025th access with size 3", 5, f"member 0 0; times 1024 {ACCESS}; *read 1 0 0 1 3; end"),
    Case("5 at a lower offset than 2", 5, "member 0 0; *acquire 64; raw 00"),
    Case("5 at a lower offset than 4", 5, "member 0 0; *acquire 64"),
    Case("5 at a lower offset than 6", 5, "member 0 0; *acquire 64; release 3; end"),
    Case("5 before 8 to 12 at lower offsets", 5, "member 0 1; region 1 2; region 1 2; end; *member 0 64; end"),
]

LOCKS = [
    Case("a held lock acquired", 6, "member 0 0; acquire 3; *acquire 3; release 3; end"),
    Case("a held lock acquired behind others", 6, "member 0 0; acquire 0; acquire 63; barrier; *acquire 0; end"),
    Case("an unheld lock released", 6, "member 0 0; *release 3; end"),
    Case("another lock released", 6, "member 0 0; acquire 3; *release 4; end"),
    Case("a lock released twice", 6, "member 0 0; acquire 3; release 3; *release 3; end"),
    Case("a lock of an earlier chunk released", 6, "member 0 0; region 1 1; acquire 3; release 3; end; member 1 0; *release 3; end"),
    Case("a lock held at END", 6, "member 0 0; acquire 63; *end"),
    Case("one of two locks held at END", 6, "member 0 0; acquire 0; acquire 1; release 0; *end"),
    Case("6 at a lower offset than 2", 6, "member 0 0; *release 3; raw 00"),
    Case("6 at a lower offset than 4", 6, "member 0 0; acquire 1; *end; end"),
    Case("6 at a lower offset than 5", 6, "member 0 0; *release 3; acquire 64; end"),
    Case("6 at a lower offset than 7", 6, "member 0 0; times 511 barrier; *release 3; barrier; end"),
    Case("6 before 8 to 12 at lower offsets", 6, "member 0 1; region 1 2; region 1 2; end; member 0 1; *release 0; end"),
]

TOO_MANY = [
    Case("513th segment by BARRIER", 7, "member 0 0; times 511 barrier; *barrier; end"),
    Case("513th segment by REGION", 7, "member 0 0; times 511 barrier; *region 1 1; end; member 1 0; end"),
    Case("513th segment by MEMBER", 7, "member 0 0; times 511 barrier; end; *member 1 0; end"),
    Case("513th segment over several chunks", 7,
         "member 0 0; times 300 barrier; region 1 1; end; member 1 0; times 209 barrier; *barrier; end"),
    *[Case(f"1,025th access by {kind}", 7, f"member 0 0; times 1024 {ACCESS}; *{kind} 1 0 0 1 1; end")
      for kind in ("read", "write", "atomic-read", "atomic-write")],
    Case("1,025th access over several chunks", 7,
         f"member 0 0; times 1000 {ACCESS}; region 1 1; end; member 1 0; times 24 {ACCESS}; *{ACCESS}; end"),
    Case("7 by a segment before 7 by an access", 7,
         f"member 0 0; times 1024 {ACCESS}; times 511 barrier; *barrier; {ACCESS}; end"),
    Case("7 by an access before 7 by a segment", 7,
         f"member 0 0; times 511 barrier; times 1024 {ACCESS}; *{ACCESS}; barrier; end"),
    Case("7 at a lower offset than 2", 7, "member 0 0; times 511 barrier; *barrier; raw 00"),
    Case("7 at a lower offset than 4", 7, "member 0 0; times 511 barrier; *barrier"),
    Case("7 at a lower offset than 6", 7, "member 0 0; times 511 barrier; *barrier; release 3; end"),
    Case("7 before 8 to 12 at lower offsets", 7,
         "member 0 1; region 1 2; region 1 2; end; member 0 1; times 508 barrier; *barrier; end"),
]

FORKED_BEFORE = [
    Case("twice in a chunk", 8, "member 0 0; region 1 1; *region 1 1; end; member 1 0; end"),
    Case("in two chunks of a team", 8, """
        member 0 0; region 1 2; end
        member 1 0; region 2 1; end; member 1 1; *region 2 1; end; member 2 0; end"""),
    Case("later is the higher offset", 8, """
        member 1 0; region 2 1; end
        member 0 0; region 1 1; *region 2 1; end; member 2 0; end"""),
    Case("with another size", 8, "member 0 0; region 1 1; *region 1 2; end; member 1 0; end; member 1 1; end"),
    Case("three times", 8, "member 0 0; region 1 1; *region 1 1; region 1 1; end; member 1 0; end"),
    Case("two teams, the lower offset", 8,
         "member 0 0; region 1 1; region 2 1; *region 2 1; region 1 1; end; member 1 0; end; member 2 0; end"),
    Case("8 before 9 at a lower offset", 8, "member 9 0; end; member 0 0; region 1 1; *region 1 1; end; member 1 0; end"),
    Case("8 before 10 at a lower offset", 8, "member 0 0; region 2 1; region 1 1; *region 1 1; end; member 1 0; end"),
    Case("8 before 10: no chunk of the team", 8, "member 0 0; region 1 1; *region 1 1; end"),
    Case("8 before 11 at a lower offset", 8, CHAIN_4 + "member 4 0; region 5 1; *region 5 1; end; member 5 0; end"),
    Case("8 before 12 at a lower offset", 8, """
        member 1 1; end; member 1 0; barrier; end
        member 0 0; region 1 2; region 2 1; *region 2 1; end; member 2 0; end"""),
]

STRAY = [
    Case("never forked", 9, "member 0 0; end; *member 1 0; end"),
    Case("never forked, before the root", 9, "*member 1 0; end; member 0 0; end"),
    Case("never forked, without a root", 9, "*member 1 0; end"),
    Case("forked only by its number in low bytes", 9, "member 0 0; region 257 1; end; *member 1 0; end; member 257 0; end"),
    Case("member equal to the size", 9, "member 0 0; region 1 1; end; member 1 0; end; *member 1 1; end"),
    Case("member above the size", 9, "*member 1 63; end; member 0 0; region 1 2; end; member 1 0; end; member 1 1; end"),
    Case("root member 1", 9, "member 0 0; end; *member 0 1; end"),
    Case("root member 1 alone", 9, "*member 0 1; end"),
    Case("a second root", 9, "member 0 0; end; *member 0 0; end"),
    Case("a second chunk of a member", 9, "member 0 0; region 1 1; end; member 1 0; end; *member 1 0; end"),
    Case("a second chunk before the fork", 9, "member 1 0; end; *member 1 0; end; member 0 0; region 1 1; end"),
    Case("a third chunk", 9, "member 0 0; end; *member 0 0; end; member 0 0; end"),
    Case("several, the lowest offset", 9, """
        member 0 0; region 1 1; end
        member 1 0; end; *member 1 1; end; member 1 0; end; member 2 0; end"""),
    Case("several, the lowest offset, never forked first", 9, """
        member 0 0; region 1 1; end
        member 1 0; end; *member 2 0; end; member 1 1; end; member 1 0; end"""),
    Case("several, the lowest offset, second chunk first", 9, """
        member 0 0; region 1 1; end
        member 1 0; end; *member 1 0; end; member 2 0; end; member 1 1; end"""),
    Case("9 before 10 at a lower offset", 9, "member 0 0; region 1 2; end; member 1 0; end; *member 2 0; end"),
    Case("9 before 10: no root", 9, "*member 3 0; region 4 1; end; member 4 0; end"),
    Case("9 before 11 at a lower offset", 9, CHAIN_4 + "member 4 0; region 5 1; end; member 5 0; end; *member 6 0; end"),
    Case("9 before 12 at a lower offset", 9, """
        member 0 0; region 1 2; end
        member 1 0; barrier; end; member 1 1; end; *member 1 2; end"""),
    Case("9 before 12: second chunks unlike", 9, "member 0 0; end; *member 0 0; barrier; end"),
]

LACKING = [
    Case("the empty bundle", 10, "*"),
    Case("no chunk of the team", 10, "member 0 0; *region 1 1; end"),
    Case("the last member lacking", 10, "member 0 0; *region 1 3; end; member 1 0; end; member 1 1; end"),
    Case("member 0 lacking", 10, "member 0 0; *region 1 2; end; member 1 1; end"),
    Case("a middle member lacking", 10, "member 1 0; end; member 1 2; end; member 0 0; *region 1 3; end"),
    Case("the inner team lacking", 10, "member 0 0; region 1 1; end; member 1 0; *region 2 2; end; member 2 0; end"),
    Case("two teams, the lower offset", 10, "member 0 0; region 3 1; *region 2 1; region 1 1; end; member 3 0; end"),
    Case("two teams, the lower offset and higher depth", 10,
         "member 1 0; *region 2 1; end; member 0 0; region 1 1; region 3 1; end"),
    Case("10 before 11: the fifth level lacking", 10, CHAIN_4 + "member 4 0; *region 5 1; end"),
    Case("10 before 11 at a lower offset", 10, """
        member 4 0; region 5 1; end; member 5 0; end
        member 0 0; region 1 1; *region 9 1; end
        member 1 0; region 2 1; end; member 2 0; region 3 1; end; member 3 0; region 4 1; end"""),
    Case("10 before 12 at a lower offset", 10, """
        member 1 0; barrier; end; member 1 1; end
        member 0 0; region 1 2; *region 2 1; end"""),
    Case("10 before 12 within a team, member 0 lacking", 10, """
        member 1 1; barrier; end; member 1 2; end
        member 0 0; *region 1 3; end"""),
]

TOO_DEEP = [
    Case("depth 5", 11, CHAIN_4 + "member 4 0; *region 5 1; end; member 5 0; end"),
    Case("depth 6, the lower offset", 11,
         CHAIN_4 + "member 4 0; *region 5 1; end; member 5 0; region 6 1; end; member 6 0; end"),
    Case("depth 6 standing first", 11,
         "member 5 0; *region 6 1; end; member 6 0; end" + CHAIN_4 + "member 4 0; region 5 1; end"),
    Case("two of depth 5", 11,
         CHAIN_4 + "member 4 0; *region 6 1; region 5 1; end; member 5 0; end; member 6 0; end"),
    Case("11 before 12 at a lower offset", 11, """
        member 5 1; barrier; end; member 5 0; end
        """ + CHAIN_4 + "member 4 0; *region 5 2; end"),
]

BARRIERS = [
    Case("one fewer", 12, "member 0 0; region 1 2; end; member 1 0; barrier; end; *member 1 1; end"),
    Case("one more", 12, "member 0 0; region 1 2; end; member 1 0; end; *member 1 1; barrier; end"),
    Case("member 0 stands later", 12, "*member 1 1; end; member 0 0; region 1 2; end; member 1 0; barrier; end"),
    Case("member 0 unlike the others", 12, """
        member 0 0; region 1 3; end
        member 1 0; barrier; end; *member 1 2; end; member 1 1; end"""),
    Case("only the last unlike", 12, """
        member 0 0; region 1 3; end
        member 1 0; barrier; end; member 1 1; barrier; end; *member 1 2; barrier; barrier; end"""),
    Case("two teams, the lower offset", 12, """
        member 0 0; region 1 2; region 2 2; end
        member 2 0; end; *member 2 1; barrier; end
        member 1 0; end; member 1 1; barrier; end"""),
    Case("regions are not barriers", 12, """
        member 0 0; region 1 2; end
        member 1 0; barrier; end; *member 1 1; region 2 1; end; member 2 0; end"""),
    Case("in the fourth level", 12, """
        member 0 0; region 1 1; end; member 1 0; region 2 1; end; member 2 0; region 3 1; end
        member 3 0; region 4 2; end; member 4 0; barrier; end; *member 4 1; end"""),
]

# -------------------------------------------------------------- cut chunks

TEAM_OF_2, TEAM_OF_3 = "member 0 0; region 1 2; end; ", "member 0 0; region 1 3; end; "

# Every chunk but one is cut: behind a region, behind MEMBER, behind a barrier.
STOPPED = """
member 0 0; region 1 2; cut
member 1 0; barrier; region 4 1; region 2 2; cut
member 1 1; cut
member 4 0; end
member 2 0; barrier; cut
member 2 1; acquire 3; cut
"""

CUT_ACCEPTED = [
    Case("chunks cut at each kind of place", None, STOPPED, (6, 11, 0)),
    Case("E with a late read, stopped", None, E_STOPPED, (3, 5, 2)),
    Case("only a cut root", None, "member 0 0; cut", (1, 1, 0)),
    Case("a root cut behind a barrier", None, "member 0 0; barrier; cut", (1, 2, 0)),
    Case("a lock held at CUT", None, "member 0 0; acquire 63; cut", (1, 1, 0)),
    Case("two of three locks held at CUT", None, "member 0 0; acquire 0; acquire 1; release 0; acquire 63; cut", (1, 1, 0)),
    Case("a lock held at CUT is not the next chunk's", None,
         "member 0 0; region 1 1; acquire 3; cut; member 1 0; acquire 3; release 3; end", (2, 3, 0)),
    Case("all cut directly behind MEMBER or REGION", None, "member 1 1; cut; member 0 0; region 1 2; cut; member 1 0; cut", (3, 4, 0)),
    Case("one cut behind MEMBER, the other complete", None, TEAM_OF_2 + "member 1 0; barrier; end; member 1 1; cut", (3, 5, 0)),
    Case("fewer barriers than the complete one", None,
         TEAM_OF_2 + "member 1 0; barrier; barrier; end; member 1 1; barrier; cut", (3, 7, 0)),
    Case("as many barriers", None, TEAM_OF_2 + "member 1 0; barrier; end; member 1 1; barrier; cut", (3, 6, 0)),
    Case("member 0 cut with fewer", None,
         TEAM_OF_3 + "member 1 0; cut; member 1 1; barrier; barrier; end; member 1 2; barrier; barrier; end", (4, 9, 0)),
    Case("member 0 cut with fewer than a cut one", None,
         TEAM_OF_3 + "member 1 0; cut; member 1 1; barrier; cut; member 1 2; barrier; end", (4, 7, 0)),
    Case("two cut chunks lack different barriers", None,
         TEAM_OF_3 + "member 1 0; barrier; barrier; end; member 1 1; cut; member 1 2; barrier; cut", (4, 8, 0)),
    Case("no complete member, unlike barriers", None,
         TEAM_OF_3 + "member 1 0; barrier; cut; member 1 1; cut; member 1 2; barrier; barrier; cut", (4, 8, 0)),
    Case("regions of a cut chunk are not barriers", None,
         TEAM_OF_2 + "member 1 0; end; member 1 1; region 2 1; region 3 1; cut; member 2 0; cut; member 3 0; end", (5, 8, 0)),
    Case("a region inside a cut chunk", None, "member 0 0; region 1 1; cut; member 1 0; region 2 1; cut; member 2 0; cut", (3, 5, 0)),
    Case("exactly 65,536 bytes, cut", None, FULL_BYTES + "; cut", (1, 4, 0)),
    Case("exactly 512 segments, cut", None, "member 0 0; times 511 barrier; acquire 1; cut", (1, 512, 0)),
]

CUT_MISPLACED = [
    Case("CUT outside", 4, "*cut"),
    Case("CUT between chunks", 4, "member 0 0; region 1 1; end; *cut; member 1 0; end"),
    Case("a second CUT", 4, "member 0 0; cut; *cut"),
    Case("END behind CUT", 4, "member 0 0; cut; *end"),
    Case("BARRIER behind CUT", 4, "member 0 0; cut; *barrier; end"),
    Case("REGION behind CUT", 4, "member 0 0; cut; *region 1 1; end; member 1 0; end"),
    Case("an access behind CUT", 4, f"member 0 0; cut; *{ACCESS}; end"),
    Case("RELEASE behind CUT of a lock held there", 4, "member 0 0; acquire 1; cut; *release 1"),
    Case("MEMBER inside, not CUT", 4, "member 0 0; *member 1 0; cut; cut"),
    Case("ending inside the chunk behind a cut one", 4, "member 0 0; region 1 1; cut; member 1 0; *"),
    Case("4 by CUT at a lower offset than 2", 4, "member 0 0; end; *cut; raw 00"),
    Case("3 behind CUT, which has no operands", 3, "member 0 0; cut; *torn 1 member 0 0"),
    Case("2 behind CUT", 2, "member 0 0; cut; *raw 05"),
]

CUT_LOCKS = [
    Case("held at END beside a chunk that holds it at CUT", 6, "member 0 0; acquire 3; region 1 1; cut; member 1 0; acquire 3; *end"),
    Case("a held lock acquired before CUT", 6, "member 0 0; acquire 3; *acquire 3; cut"),
    Case("an unheld lock released before CUT", 6, "member 0 0; *release 3; cut"),
    Case("a lock held at CUT released in the next chunk", 6, "member 0 0; region 1 1; acquire 3; cut; member 1 0; *release 3; end"),
    Case("7 in a cut chunk", 7, "member 0 0; times 511 barrier; *barrier; cut"),
    Case("7 by MEMBER behind a cut chunk", 7, "member 0 0; times 511 barrier; cut; *member 1 0; cut"),
]

CUT_SHAPES = [
    Case("forked again in a cut chunk", 8, "member 0 0; region 1 1; *region 1 1; cut; member 1 0; cut"),
    Case("a second chunk, the first one cut", 9, "member 0 0; cut; *member 0 0; end"),
    Case("a second chunk, itself cut", 9, "member 0 0; end; *member 0 0; cut"),
    Case("never forked and cut", 9, "member 0 0; cut; *member 1 0; cut"),
    Case("a cut chunk's team lacks a member", 10, "member 0 0; *region 1 2; cut; member 1 0; cut"),
    Case("too deep below cut chunks", 11, CHAIN_4.replace("end", "cut") + "member 4 0; *region 5 1; cut; member 5 0; cut"),
    Case("8 before 19 at a lower offset", 8,
         "member 1 1; barrier; cut; member 1 0; end; member 0 0; region 1 2; region 2 1; *region 2 1; end; member 2 0; end"),
    Case("9 before 19 at a lower offset", 9, TEAM_OF_2 + "member 1 0; end; member 1 1; barrier; cut; *member 2 0; cut"),
    Case("10 before 19 at a lower offset", 10, "member 1 1; barrier; cut; member 1 0; end; member 0 0; region 1 2; *region 2 1; cut"),
    Case("11 before 19 at a lower offset", 11, "member 5 1; barrier; cut; member 5 0; end; " + CHAIN_4 + "member 4 0; *region 5 2; end"),
]

CUT_UNLIKE = [
    Case("member 0 cut, the complete ones unlike", 12,
         TEAM_OF_3 + "member 1 0; barrier; cut; member 1 1; barrier; barrier; end; *member 1 2; barrier; end"),
    Case("member 0 cut, like the last one alone", 12,
         TEAM_OF_3 + "member 1 0; cut; member 1 1; barrier; end; *member 1 2; end"),
    Case("members 0 and 1 cut, the lowest complete one stands last", 12, """
        *member 1 4; end; member 1 3; barrier; end; member 1 0; cut; member 1 1; cut
        member 0 0; region 1 5; end; member 1 2; barrier; end"""),
    Case("several unlike the lowest complete one, the lower offset", 12, """
        member 0 0; region 1 4; cut
        member 1 0; cut; *member 1 3; end; member 1 2; barrier; barrier; end; member 1 1; barrier; end"""),
    Case("12 before 19 at a lower offset", 12,
         "member 1 0; barrier; barrier; cut; member 0 0; region 1 3; end; member 1 1; end; *member 1 2; barrier; end"),
    Case("12 before 19 at a lower offset, in another team", 12, """
        member 1 0; end; member 1 1; barrier; cut
        member 0 0; region 1 2; region 2 2; cut; member 2 0; end; *member 2 1; barrier; end"""),
    Case("12 before 19, more than one complete one and fewer than another", 12,
         TEAM_OF_3 + "member 1 0; end; member 1 1; barrier; cut; *member 1 2; barrier; barrier; end"),
]

CUT_TOO_MANY = [
    Case("one more", 19, TEAM_OF_2 + "member 1 0; end; *member 1 1; barrier; cut"),
    Case("member 0 cut with one more", 19, TEAM_OF_2 + "*member 1 0; barrier; cut; member 1 1; end"),
    Case("two more", 19, TEAM_OF_2 + "member 1 0; barrier; end; *member 1 1; barrier; barrier; barrier; cut"),
    Case("two cut chunks, the lower offset", 19, """
        member 0 0; region 1 4; end; member 1 0; barrier; end; member 1 2; cut
        *member 1 3; barrier; barrier; cut; member 1 1; barrier; barrier; barrier; cut"""),
    Case("two cut chunks, one as many and one more", 19,
         TEAM_OF_3 + "member 1 0; barrier; end; member 1 1; barrier; cut; *member 1 2; barrier; barrier; cut"),
    Case("two cut chunks with as many as each other", 19,
         TEAM_OF_3 + "*member 1 1; barrier; barrier; cut; member 1 0; barrier; barrier; cut; member 1 2; barrier; end"),
    Case("only the last member is complete", 19,
         TEAM_OF_3 + "member 1 0; barrier; cut; *member 1 1; barrier; barrier; cut; member 1 2; barrier; end"),
    Case("two teams, the lower offset", 19, """
        member 0 0; region 1 2; region 2 2; cut
        member 2 0; end; *member 2 1; barrier; cut; member 1 0; end; member 1 1; barrier; cut"""),
    Case("a team without complete members beside it", 19, """
        member 0 0; region 1 2; region 2 2; cut
        member 1 0; cut; member 1 1; barrier; cut; member 2 0; end; *member 2 1; barrier; cut"""),
    Case("before its fork", 19, "*member 1 1; barrier; cut; member 1 0; end; member 0 0; region 1 2; cut"),
    Case("barriers around a region", 19,
         TEAM_OF_2 + "member 1 0; barrier; end; *member 1 1; barrier; region 2 1; barrier; cut; member 2 0; end"),
    Case("in the fourth level", 19, """
        member 0 0; region 1 1; end; member 1 0; region 2 1; end; member 2 0; region 3 1; end
        member 3 0; region 4 2; end; member 4 0; end; *member 4 1; barrier; cut"""),
    Case("6 before 19 at a lower offset", 6,
         "member 1 1; barrier; cut; member 0 0; region 1 2; end; member 1 0; acquire 1; *end"),
    Case("4 before 19 at a lower offset", 4, TEAM_OF_2 + "member 1 0; end; member 1 1; barrier; cut; *cut"),
    Case("ending before 19", 4, "member 1 1; barrier; cut; member 0 0; region 1 2; end; member 1 0; *"),
]

# -------------------------------------------------------------- wide sites

# E with 4-byte sites, one of them above 65,535.
E_WIDE = """
member 0 0; region 1 2; end
member 1 0; wide-write 70000 4096 8 2 4; barrier; end
member 1 1; wide-read 20 4106 0 1 4; barrier; end
"""

E_WIDE_BYTES = bytes.fromhex(
    "01 00 00 00 10 01 00 02 02"
    "01 01 00 00 39 70 11 01 00 00 10 00 00 08 00 02 00 04 11 02"
    "01 01 00 01 38 14 00 00 00 0a 10 00 00 00 00 01 00 04 11 02"
)

KINDS = ("read", "write", "atomic-read", "atomic-write")
WIDE_ACCESS = "wide-read 1 0 0 1 1"
WIDE_FULL_BYTES = "member 0 0; times 1024 wide-write 4294967295 0 0 1 1; times 3 barrier; times 12798 acquire 1, release 1"  # 65,535

WIDE_ACCEPTED = [
    Case("E with wide sites", None, E_WIDE, (3, 6, 2)),
    *[Case(f"wide {kind}, site {site}", None, f"member 0 0; wide-{kind} {site} 0 0 1 1; end", (1, 1, 1))
      for kind, site in zip(KINDS, (0, 65535, 65536, 4294967295))],
    Case("narrow, site 65,535", None, "member 0 0; atomic-write 65535 0 0 1 1; end", (1, 1, 1)),
    Case("all kinds of wide accesses", None, "member 0 0; " + "; ".join(f"wide-{kind} 9 0 0 1 1" for kind in KINDS) + "; end", (1, 1, 4)),
    Case("wide accesses in several chunks, the root last", None,
         "member 1 1; wide-read 65536 0 0 1 1; cut; member 1 0; wide-write 0 0 0 1 1; end; member 0 0; region 1 2; "
         "wide-read 4294967295 0 0 1 1; end", (3, 4, 3)),
    Case("wide, last byte 4,294,967,295", None, "member 0 0; wide-write 65536 4294967288 0 1 8; end", (1, 1, 1)),
    Case("exactly 65,536 bytes, wide", None, WIDE_FULL_BYTES + "; end", (1, 4, 1024)),
    Case("exactly 1,024 wide accesses", None, f"member 0 0; times 1024 {WIDE_ACCESS}; barrier; end", (1, 2, 1024)),
]

WIDE_TORN = [
    *[Case(f"wide access torn after {length}", 3, f"member 0 0; *torn {length} wide-{kind} 1 0 0 1 1")
      for length, kind in ((1, "read"), (2, "write"), (4, "atomic-read"), (12, "atomic-write"), (13, "read"))],
    *[Case(f"the unknown byte {byte:#x} behind an access", 2, f"member 0 0; {access}; *raw {byte:x}; end")
      for byte, access in ((0x34, WIDE_ACCESS), (0x37, ACCESS), (0x37, WIDE_ACCESS), (0x3C, ACCESS), (0x3C, WIDE_ACCESS))],
    Case("3 before 4: wide access outside a chunk", 3, "*torn 13 wide-write 1 0 0 1 1"),
    Case("3 before 20: narrow access torn", 3, f"member 0 0; {WIDE_ACCESS}; *torn 11 {ACCESS}"),
    Case("3 before 20: wide access torn", 3, f"member 0 0; {ACCESS}; *torn 13 {WIDE_ACCESS}"),
    Case("3 before 20 and 5: wide access torn, count 0", 3, f"member 0 0; {ACCESS}; *torn 13 wide-read 1 0 0 0 1"),
    Case("3 before 7: the 1,025th wide access cut off", 3, f"member 0 0; times 1024 {WIDE_ACCESS}; *torn 13 {WIDE_ACCESS}"),
]

WIDE_MISPLACED = [
    *[Case(f"wide {kind} outside", 4, f"*wide-{kind} 1 0 0 1 1; member 0 0; end") for kind in KINDS],
    Case("4 before 20: wide behind a narrow chunk", 4, f"member 0 0; {ACCESS}; end; *{WIDE_ACCESS}"),
    Case("4 before 20: narrow behind a wide chunk", 4, f"member 0 0; {WIDE_ACCESS}; cut; *{ACCESS}"),
    Case("4 before 20 and 5: wide with size 3 behind a narrow chunk", 4, f"member 0 0; {ACCESS}; end; *wide-write 1 0 0 1 3"),
    Case("4 before 20: MEMBER inside, behind a wide access", 4, f"member 0 0; {WIDE_ACCESS}; *member 0 0; {ACCESS}; end"),
    Case("4 at a lower offset than 20", 4, f"*{ACCESS}; member 0 0; {WIDE_ACCESS}; end"),
    Case("20 at a lower offset than 4 outside a chunk", 20, f"member 0 0; {ACCESS}; *{WIDE_ACCESS}; end; end"),
]

WIDE_OUT_OF_RANGE = [
    Case("wide, count 0", 5, "member 0 0; *wide-read 1 0 0 0 1; end"),
    Case("wide, stride 0 with count 2", 5, "member 0 0; *wide-write 1 0 0 2 1; end"),
    Case("wide, stride 1 with count 1", 5, "member 0 0; *wide-atomic-read 65536 0 1 1 1; end"),
    Case("wide, size 3", 5, "member 0 0; *wide-atomic-write 4294967295 0 0 1 3; end"),
    Case("wide, last byte 4,294,967,296", 5, "member 0 0; *wide-write 1 4294967295 0 1 2; end"),
    Case("5 by the first access, then the other group", 5, f"member 0 0; *wide-read 1 0 0 1 3; {ACCESS}; end"),
    Case("5 at a lower offset than 20", 5, f"member 0 0; {WIDE_ACCESS}; *acquire 64; {ACCESS}; end"),
    Case("5 by an access of the right group, then 20", 5, f"member 0 0; {WIDE_ACCESS}; *wide-write 1 0 0 1 3; {ACCESS}; end"),
    Case("5 before 7: the 1,025th wide access with size 3", 5, f"member 0 0; times 1024 {WIDE_ACCESS}; *wide-read 1 0 0 1 3; end"),
]

OTHER_GROUP = [
    *[Case(f"wide {kind} behind narrow {other}", 20, f"member 0 0; {other} 1 0 0 1 1; *wide-{kind} 1 0 0 1 1; end")
      for kind, other in zip(KINDS, reversed(KINDS))],
    *[Case(f"narrow {kind} behind wide {other}", 20, f"member 0 0; wide-{other} 1 0 0 1 1; *{kind} 1 0 0 1 1; end")
      for kind, other in zip(KINDS, KINDS)],
    Case("one wide among narrow ones", 20, f"member 0 0; {ACCESS}; {ACCESS}; *{WIDE_ACCESS}; {ACCESS}; end"),
    Case("one narrow among wide ones", 20, f"member 0 0; {WIDE_ACCESS}; {WIDE_ACCESS}; *{ACCESS}; {WIDE_ACCESS}; end"),
    Case("the first one alone is wide", 20, f"member 0 0; {WIDE_ACCESS}; *{ACCESS}; {ACCESS}; end"),
    Case("two of the other group, the lower offset", 20, f"member 0 0; {ACCESS}; *{WIDE_ACCESS}; {WIDE_ACCESS}; end"),
    Case("in another chunk, narrow first", 20,
         f"member 0 0; region 1 1; {ACCESS}; end; member 1 0; *{WIDE_ACCESS}; end"),
    Case("in another chunk, the root last", 20,
         f"member 1 0; {WIDE_ACCESS}; end; member 0 0; region 1 1; *{ACCESS}; end"),
    Case("in another chunk, wide first", 20,
         f"member 0 0; region 1 1; {WIDE_ACCESS}; end; member 1 0; *{ACCESS}; end"),
    Case("the first access stands in the second chunk", 20,
         f"member 0 0; region 1 2; end; member 1 1; {WIDE_ACCESS}; end; member 1 0; *{ACCESS}; {ACCESS}; end"),
    Case("each chunk has one group", 20,
         f"member 0 0; region 1 2; end; member 1 0; {ACCESS}; {ACCESS}; end; member 1 1; *{WIDE_ACCESS}; {WIDE_ACCESS}; end"),
    Case("a cut chunk between", 20,
         f"member 0 0; region 1 2; {ACCESS}; cut; member 1 0; cut; member 1 1; *{WIDE_ACCESS}; cut"),
    Case("behind a barrier, a region and locks", 20,
         f"member 0 0; acquire 1; {WIDE_ACCESS}; barrier; region 1 1; release 1; *{ACCESS}; end; member 1 0; end"),
    Case("site 0 too", 20, f"member 0 0; {ACCESS}; *wide-read 0 0 0 1 1; end"),
    Case("20 before 5: wide, count 0", 20, f"member 0 0; {ACCESS}; *wide-read 1 0 0 0 1; end"),
    Case("20 before 5: wide, size 3", 20, f"member 0 0; {ACCESS}; *wide-atomic-write 65536 0 0 1 3; end"),
    Case("20 before 5: narrow, stride 0 with count 2", 20, f"member 0 0; {WIDE_ACCESS}; *write 1 0 0 2 1; end"),
    Case("20 before 5: narrow, last byte 4,294,967,296", 20, f"member 0 0; {WIDE_ACCESS}; *read 1 4294967295 0 1 2; end"),
    Case("20 before 7: the 1,025th access is wide", 20, f"member 0 0; times 1024 {ACCESS}; *{WIDE_ACCESS}; end"),
    Case("20 before 7: the 1,025th access is narrow", 20, f"member 0 0; times 1024 {WIDE_ACCESS}; *{ACCESS}; end"),
    Case("20 before 5 and 7", 20, f"member 0 0; times 1024 {WIDE_ACCESS}; *read 1 0 0 1 3; end"),
    Case("20 at a lower offset than 2", 20, f"member 0 0; {ACCESS}; *{WIDE_ACCESS}; raw 34"),
    Case("20 at a lower offset than 3", 20, f"member 0 0; {ACCESS}; *{WIDE_ACCESS}; torn 1 acquire 1"),
    Case("20 at a lower offset than 4", 20, f"member 0 0; {ACCESS}; *{WIDE_ACCESS}"),
    Case("20 at a lower offset than 5", 20, f"member 0 0; {WIDE_ACCESS}; *{ACCESS}; acquire 64; end"),
    Case("20 at a lower offset than 6", 20, f"member 0 0; {WIDE_ACCESS}; *{ACCESS}; release 3; end"),
    Case("20 at a lower offset than 7", 20, f"member 0 0; {WIDE_ACCESS}; *{ACCESS}; times 512 barrier; end"),
    Case("6 at a lower offset than 20", 6, f"member 0 0; {WIDE_ACCESS}; *release 3; {ACCESS}; end"),
    Case("7 at a lower offset than 20", 7, f"member 0 0; {WIDE_ACCESS}; times 511 barrier; *barrier; {ACCESS}; end"),
    Case("20 before 8 to 12 and 19 at lower offsets", 20,
         f"member 0 1; region 1 2; region 1 2; {ACCESS}; end; member 1 0; barrier; cut; member 1 1; *{WIDE_ACCESS}; end"),
    Case("20 and no root chunk", 20, f"member 3 0; {WIDE_ACCESS}; *{ACCESS}; end"),
]

WIDE_TOO_MANY = [
    *[Case(f"1,025th access by wide {kind}", 7, f"member 0 0; times 1024 {WIDE_ACCESS}; *wide-{kind} 1 0 0 1 1; end") for kind in KINDS],
    Case("65,537 good bytes, wide", 1, "*" + WIDE_FULL_BYTES + "; barrier; end"),
    Case("1 before 20", 1, "*" + WIDE_FULL_BYTES.replace("0 0; ", f"0 0; {ACCESS}; ", 1) + "; end"),
]

WIDE_REFUSED = WIDE_TORN + WIDE_MISPLACED + WIDE_OUT_OF_RANGE + OTHER_GROUP + WIDE_TOO_MANY

REFUSED = (
    TOO_LONG + UNKNOWN + TORN + MISPLACED + OUT_OF_RANGE + LOCKS
    + TOO_MANY + FORKED_BEFORE + STRAY + LACKING + TOO_DEEP + BARRIERS
    + CUT_MISPLACED + CUT_LOCKS + CUT_SHAPES + CUT_UNLIKE + CUT_TOO_MANY
)

# ---------------------------------------------------------------- elements

# Two ranges as (base, stride, count, size), and the lowest shared byte with the lowest element of each that covers it.
Shared = namedtuple("Shared", "title first second overlap")

SHORT_RANGES = [
    Shared("outer bounds overlap, no shared byte", (0, 8, 4, 4), (4, 8, 4, 4), None),
    Shared("one element against several", (0, 8, 4, 4), (4, 0, 1, 8), (8, 1, 0)),
    Shared("strides without a common divisor", (0, 3, 3, 1), (1, 2, 3, 1), (3, 1, 1)),
    Shared("single elements", (5, 0, 1, 8), (12, 0, 1, 1), (12, 0, 0)),
    # stride 1, size 8: byte 67 is in all elements, 70 in 3 to 7, 74 in the last alone
    Shared("in all elements", (60, 1, 8, 8), (67, 0, 1, 1), (67, 0, 0)),
    Shared("in elements 1 to 7", (60, 1, 8, 8), (68, 0, 1, 1), (68, 1, 0)),
    Shared("in elements 3 to 7", (60, 1, 8, 8), (70, 0, 1, 1), (70, 3, 0)),
    Shared("in the last element", (60, 1, 8, 8), (74, 0, 1, 1), (74, 7, 0)),
    Shared("behind the last element", (60, 1, 8, 8), (75, 0, 1, 1), None),
    # stride 2: element 2 is 104 to 111; 111 is in elements 2 to 5
    Shared("stride 2, the last byte of an element", (100, 2, 8, 8), (111, 0, 1, 2), (111, 2, 0)),
    Shared("stride 2, the byte behind it", (100, 2, 8, 8), (112, 0, 1, 2), (112, 3, 0)),
    # stride 3: element 5 is 115 to 122, element 6 is 118 to 125
    Shared("stride 3, a byte of two elements", (100, 3, 8, 8), (120, 0, 1, 4), (120, 5, 0)),
    Shared("stride 3, the last byte of an element", (100, 3, 8, 8), (122, 0, 1, 1), (122, 5, 0)),
    Shared("stride 3, the byte behind it", (100, 3, 8, 8), (123, 0, 1, 1), (123, 6, 0)),
    # stride 7: neighbours have one byte in common; 14 ends element 1 and begins element 2
    Shared("stride 7, the common byte", (0, 7, 5, 8), (14, 0, 1, 1), (14, 1, 0)),
    Shared("stride 7, the byte behind it", (0, 7, 5, 8), (15, 0, 1, 1), (15, 2, 0)),
    Shared("size 2, stride 1", (10, 1, 5, 2), (13, 0, 1, 1), (13, 2, 0)),
    Shared("size 4, stride 3", (0, 3, 4, 4), (6, 0, 1, 2), (6, 1, 0)),
    Shared("size 4, stride 1", (20, 1, 9, 4), (27, 0, 1, 4), (27, 4, 0)),
    # 64 to 67, 80 to 83, .. against 70 to 84: byte 80 is in elements 3 to 7 of the second
    Shared("neither is element 0", (64, 16, 4, 4), (70, 1, 8, 8), (80, 1, 3)),
    Shared("the last element of both", (0, 10, 5, 1), (31, 1, 3, 8), (40, 4, 2)),
    Shared("from inside an element on", (0, 20, 4, 8), (44, 1, 4, 8), (44, 2, 0)),
    Shared("elements apart in both", (3, 7, 9, 2), (20, 11, 4, 2), (31, 4, 1)),
    Shared("elements apart, from inside one", (0, 9, 6, 4), (14, 11, 5, 4), (27, 3, 1)),
    Shared("overlapping elements in both", (0, 1, 4, 8), (9, 2, 4, 8), (9, 2, 0)),
    Shared("overlapping elements side by side", (0, 1, 4, 8), (11, 1, 4, 8), None),
    Shared("the last byte of memory", (4294967281, 1, 8, 8), (4294967295, 0, 1, 1), (4294967295, 7, 0)),
]

LONG_RANGES = [
    Shared("elements 3 to 5 of many", (5, 100, 6, 2), (390, 3, 20, 8), (405, 4, 3)),
    Shared("element 47", (200, 0, 1, 8), (100, 2, 60, 8), (200, 0, 47)),
    Shared("element 255", (0, 4, 1000, 8), (1027, 0, 1, 1), (1027, 255, 0)),
    Shared("element 256", (0, 4, 1000, 8), (1030, 0, 1, 1), (1030, 256, 0)),
    Shared("count 65,535, the last element", (0, 1, 65535, 8), (65541, 0, 1, 1), (65541, 65534, 0)),
    Shared("count 65,535, the last but one", (0, 1, 65535, 8), (65540, 0, 1, 8), (65540, 65533, 0)),
    Shared("count 65,535, in the last 8 elements", (0, 1, 65535, 8), (65534, 0, 1, 1), (65534, 65527, 0)),
    Shared("count 65,535, stride 7", (0, 7, 65535, 8), (458738, 0, 1, 1), (458738, 65533, 0)),
    Shared("count 65,535, stride 3, both", (196596, 1, 65535, 8), (0, 3, 65535, 8), (196596, 0, 65530)),
    Shared("count 65,535, stride 65,535", (0, 65535, 65535, 8), (4294770697, 0, 1, 8), (4294770697, 65534, 0)),
    Shared("element 1 of both", (0, 65535, 65535, 1), (1, 65534, 65535, 1), (65535, 1, 1)),
    Shared("the last element of both", (0, 65535, 65535, 1), (65534, 65534, 65535, 1), (4294770690, 65534, 65534)),
    Shared("one element fewer in the first", (0, 65535, 65534, 1), (65534, 65534, 65535, 1), None),
    Shared("one element fewer in the second", (0, 65535, 65535, 1), (65534, 65534, 65534, 1), None),
    # elements 65,533 and 65,534 have byte 4,294,967,288 in common
    Shared("up to the last byte of memory", (4294508550, 7, 65535, 8), (4294967288, 0, 1, 8), (4294967288, 65533, 0)),
    Shared("the last byte of memory", (4294508550, 7, 65535, 8), (4294967289, 0, 1, 4), (4294967289, 65534, 0)),
]

OVERLAPS = SHORT_RANGES + LONG_RANGES


NARROW_CASES, WIDE_CASES = ACCEPTED + CUT_ACCEPTED + REFUSED, WIDE_ACCEPTED + WIDE_REFUSED


def check_cases(cases=NARROW_CASES + WIDE_CASES):
    """The cases as (title, number, place, bytes)."""
    for case in cases:
        data, place = assemble(case.text)
        yield case.title, case.number, place, data
