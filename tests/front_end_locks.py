"""The locks of a race on the page, those that count for the pair and where they are held: by hand, and by a look at all commands."""

import random
import re
import unittest
from collections import Counter
from itertools import permutations

import generators
import second_reader as sr
from bundle_text import bundle
from front_end_details import PageCase
from front_end_setting import EXAMPLE
from frontend import bundles

# (bundle, for each race in order: the two cells of the row "Locks")
BY_HAND = {
    "no locks": (EXAMPLE, [("none", "none")]),
    "own locks alone": ("""
        member 0 0; region 1 2; end
        member 1 0; acquire 9; acquire 4; write 1 64 0 1 4; release 4; release 9; end
        member 1 1; acquire 63; write 2 64 0 1 4; release 63; end""", [("4, 9", "63")]),
    # Two members of team 1 hold different locks around their inner teams.
    "held around inner teams": ("""
        member 0 0; region 1 2; end
        member 1 0; acquire 3; region 2 1; release 3; end
        member 1 1; acquire 8; acquire 5; region 3 1; release 5; release 8; end
        member 2 0; write 1 64 0 1 4; end
        member 3 0; acquire 0; write 2 64 0 1 4; release 0; end""",
        [("3 at the REGION of team 2 (team 1, member 0)", "0; 5, 8 at the REGION of team 3 (team 1, member 1)")]),
    # The members of team 2 part in team 2: lock 3 of the member above them, and lock 7 of the root, count for neither.
    "siblings": ("""
        member 0 0; acquire 7; region 1 1; release 7; end
        member 1 0; acquire 3; region 2 2; release 3; end
        member 2 0; write 1 64 0 1 4; end
        member 2 1; acquire 2; write 2 64 0 1 4; release 2; end""", [("none", "2")]),
    # The first access stands in the parting member's own chunk, which holds lock 6 at a REGION that does not lead to it.
    "in the parting member's chunk": ("""
        member 0 0; acquire 7; region 1 2; release 7; end
        member 1 0; acquire 6; region 4 1; release 6; acquire 1; write 1 64 0 1 4; release 1; end
        member 1 1; acquire 3; region 2 1; release 3; end
        member 2 0; write 2 64 0 1 4; end
        member 4 0; end""", [("1", "3 at the REGION of team 2 (team 1, member 1)")]),
    # Of two REGIONs of a chunk the one that leads to the access counts, with what is held at it and not before or behind it.
    "the REGION that leads to the access": ("""
        member 0 0; region 1 2; end
        member 1 0; acquire 1; region 2 1; release 1; acquire 2; barrier; region 3 1; acquire 4; release 4; release 2; end
        member 1 1; barrier; write 9 64 0 1 4; end
        member 2 0; write 1 0 0 1 4; end
        member 3 0; write 2 64 0 1 4; end""",
        [("none", "2 at the REGION of team 3 (team 1, member 0)")]),
    # Teams 1, 2, 4, 5 one below the other: the accesses part in team 1, and team 4 is forked without a lock.
    "four deep": ("""
        member 0 0; acquire 40; region 1 3; release 40; end
        member 1 0; end
        member 1 1; region 3 1; end
        member 1 2; acquire 10; region 2 2; release 10; end
        member 2 0; end
        member 2 1; region 4 1; end
        member 3 0; acquire 50; write 1 64 0 1 1; release 50; end
        member 4 0; acquire 12; region 5 2; release 12; end
        member 5 0; end
        member 5 1; acquire 13; read 2 64 0 1 1; release 13; end""",
        [("50", "13; 12 at the REGION of team 5 (team 4, member 0); 10 at the REGION of team 2 (team 1, member 2)")]),
    # One access in two races: with its sibling lock 3 does not count, with the other member's write it does.
    "one access, two partings": ("""
        member 0 0; region 1 2; end
        member 1 0; acquire 3; region 2 2; release 3; end
        member 1 1; write 9 66 0 1 1; end
        member 2 0; write 1 64 0 1 4; end
        member 2 1; write 2 64 0 1 2; end""",
        [("none", "none"), ("none", "3 at the REGION of team 2 (team 1, member 0)")]),
}


def data_of(text):
    return text if isinstance(text, bytes) else bundle(text)


def told_on_page(article):
    return re.findall(r"<tr><th>Locks</th><td>(.*?)</td><td>(.*?)</td></tr>", article)


class Pages(PageCase):
    def test_by_hand(self):
        articles = self.articles([data_of(text) for text, _ in BY_HAND.values()])
        for article, (name, (_, wanted)) in zip(articles, BY_HAND.items(), strict=True):
            with self.subTest(name=name):
                self.assertEqual(told_on_page(article), wanted)

    def test_what_counts_is_told(self):
        self.articles([EXAMPLE])
        text = " ".join(self.page_text().split())
        self.assertIn("those held at the REGIONs that lead down to it, up to the member of the team where the two accesses part", text)


# ------------------------------------------------------------ by all commands


def regions_of(data):
    """The chunk that forks each team, and the locks held at its REGION, by a look at all commands."""
    found, locks, chunk = {}, set(), None
    for _, code, operands in bundles.commands(data):
        if code == sr.MEMBER:
            chunk, locks = operands, set()
        elif code == sr.REGION:
            found[operands[0]] = chunk, tuple(sorted(locks))
        elif code == sr.ACQUIRE:
            locks.add(operands[0])
        elif code == sr.RELEASE:
            locks.remove(operands[0])
    return found


def lineage(regions, chunk):
    """From the root down."""
    return [*lineage(regions, regions[chunk[0]][0]), chunk] if chunk[0] else [chunk]


def wanted_held(regions, name, other):
    """What is held from the parting member down, the lowest first; None if the lineages do not part into members of one team."""
    down, others = (lineage(regions, n[:2]) for n in (name, other))
    place = next((k for k, (one, two) in enumerate(zip(down, others)) if one != two), None)
    if place is None or down[place][0] != others[place][0]:
        return None
    held = [bundles.Held(regions[below[0]][1], below[0], *chunk) for chunk, below in zip(down[place:], down[place + 1 :])]
    return [h for h in reversed(held) if h.locks]


class Decoder(unittest.TestCase):
    def test_every_pair(self):
        rng, seen = random.Random(61), Counter()
        for _ in range(150):
            data = generators.random_bundle(rng, rng.choice((generators.NESTED, generators.LOCKED)))
            log, regions = bundles.Log(data), regions_of(data)
            names = [(*key, a.number) for key, m in log.members.items() for a in m.accesses]
            for name, other in permutations(names, 2):
                wanted = wanted_held(regions, name, other)
                if wanted is not None:
                    self.assertEqual(log.held_above(name, other), wanted)
                    seen[len(wanted)] += 1
        for several, least in ((0, 500), (1, 500), (2, 100)):
            self.assertGreater(seen[several], least)
