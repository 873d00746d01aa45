"""The loop turns of a race: in the decoder, on the page and in show, held to numbers by hand and to a look at every element."""

import random
import re
import sys
import unittest

import generators
import second_reader as sr
from front_end_details import PageCase, many_races
from front_end_setting import EXAMPLE, ROOT, Case
from frontend import bundles
from frontend.page import races_each
from second_reader import Command

R, W, AR, AW = sr.READ, sr.WRITE, sr.ATOMIC_READ, sr.ATOMIC_WRITE
KINDS = {R: "read", W: "write", AR: "atomic read", AW: "atomic write"}
LAST = sr.LAST_ADDRESS


def team(*members):
    """A root that forks one team, of which each member has these accesses: (kind, site, base, stride, count, size)."""
    chunks = [[Command(sr.MEMBER, (0, 0)), Command(sr.REGION, (1, len(members))), Command(sr.END, ())]]
    for number, accesses in enumerate(members):
        inner = [Command(kind, operands) for kind, *operands in accesses]
        chunks.append([Command(sr.MEMBER, (1, number)), *inner, Command(sr.END, ())])
    return generators.bundle_bytes(chunks)


# (bundle, for each race: racelist's line, the turns in words, the two cells of the row "Turn"), all by hand.
BY_HAND = {
    "the example": (EXAMPLE, [(
        "race 0000100a 1.0.0 10 1.1.0 20", "loop turn 1 of the write at site 10 and turn 0 of the read at site 20",
        ("1 of 0 to 1", "0, the only one"),
    )]),
    "the fourth of eight": (team([(W, 10, 0x1000, 8, 8, 4)], [(R, 20, 0x101A, 0, 1, 4)]), [(
        "race 0000101a 1.0.0 10 1.1.0 20", "loop turn 3 of the write at site 10 and turn 0 of the read at site 20",
        ("3 of 0 to 7", "0, the only one"),
    )]),
    "neither is the first": (team([(AW, 7, 0, 3, 3, 1)], [(R, 8, 1, 2, 3, 1)]), [(
        "race 00000003 1.0.0 7 1.1.0 8", "loop turn 1 of the atomic write at site 7 and turn 1 of the read at site 8",
        ("1 of 0 to 2", "1 of 0 to 2"),
    )]),
    # Elements 6 to 9 of the write hold byte 13, and only the first of the atomic read.
    "overlapping elements": (team([(W, 10, 0x1000, 2, 100, 8)], [(AR, 20, 0x1013, 3, 9, 4)]), [(
        "race 00001013 1.0.0 10 1.1.0 20", "loop turn 6 of the write at site 10 and turn 0 of the atomic read at site 20",
        ("6 of 0 to 99", "0 of 0 to 8"),
    )]),
    # The write holds 00 to 07, 10 to 17 and 20 to 27; the atomic write's elements 1 and 2 hold byte 10.
    "overlapping elements of the second": (team([(W, 1, 0x1000, 16, 3, 8)], [(AW, 2, 0x1008, 4, 4, 8)]), [(
        "race 00001010 1.0.0 1 1.1.0 2", "loop turn 1 of the write at site 1 and turn 1 of the atomic write at site 2",
        ("1 of 0 to 2", "1 of 0 to 3"),
    )]),
    "the last turn there can be": (team([(R, 3, LAST, 0, 1, 1)], [(W, 65535, LAST - 65534, 1, 65535, 1)]), [(
        "race ffffffff 1.0.0 3 1.1.0 65535", "loop turn 0 of the read at site 3 and turn 65534 of the write at site 65535",
        ("0, the only one", "65534 of 0 to 65534"),
    )]),
    "four races": (team([(W, 10, 0, 4, 4, 4)], [(R, 20, 9, 0, 1, 1), (W, 21, 5, 1, 3, 2)], [(R, 30, 8, 8, 2, 8)]), [
        (
            "race 00000005 1.0.0 10 1.1.1 21", "loop turn 1 of the write at site 10 and turn 0 of the write at site 21",
            ("1 of 0 to 3", "0 of 0 to 2"),
        ),
        (
            "race 00000008 1.0.0 10 1.2.0 30", "loop turn 2 of the write at site 10 and turn 0 of the read at site 30",
            ("2 of 0 to 3", "0 of 0 to 1"),
        ),
        (
            "race 00000008 1.1.1 21 1.2.0 30", "loop turn 2 of the write at site 21 and turn 0 of the read at site 30",
            ("2 of 0 to 2", "0 of 0 to 1"),
        ),
        (
            "race 00000009 1.0.0 10 1.1.0 20", "loop turn 2 of the write at site 10 and turn 0 of the read at site 20",
            ("2 of 0 to 3", "0, the only one"),
        ),
    ]),
}


# ------------------------------------------------------------ by every element


def holding(r, byte):
    """The elements of a range that cover a byte, each of them looked at."""
    return [k for k in range(r.count) if r.base + k * r.stride <= byte < r.base + k * r.stride + r.size]


def wanted_of(data, most):
    """What BY_HAND has of a bundle's first races, from the second reader's races and ranges; and for each race the elements of both
    accesses that hold the witness."""
    bundle = sr.check(data)
    accesses = {a.name: a for a in bundle.accesses()}
    lines = sr.racelist(data).decode().splitlines()[1:-1]
    races = sr.all_races(bundle)
    assert len(lines) == len(races)
    wanted, elements = [], []
    for line, race in list(zip(lines, races))[:most]:
        sides = [accesses[race.first], accesses[race.second]]
        elements.append([holding(access.range, race.witness) for access in sides])
        words, cells = [], []
        for access, (turn, *_) in zip(sides, elements[-1]):
            words.append(f"turn {turn} of the {KINDS[access.kind]} at site {access.site}")
            cells.append(f"{turn} of 0 to {access.range.count - 1}" if access.range.count > 1 else "0, the only one")
        wanted.append((line, f"loop {words[0]} and {words[1]}", tuple(cells)))
    return wanted, elements


def overlapping(rng):
    """A team whose accesses are near each other, most with elements that overlap."""

    def access():
        return (rng.choice((R, W, W, AW)), rng.randrange(1000), 4096 + rng.randrange(80), rng.randint(1, 5), rng.randint(2, 20), 8)

    return team(*([access() for _ in range(3)] for _ in range(4)))


def random_bundles(seed):
    """Bundles with races: of each style, and with overlapping elements."""
    rng = random.Random(seed)
    styles = (generators.SMALL, generators.MIDDLE, generators.NESTED, generators.WIDE, generators.LOCKED, generators.FAR)
    found = []
    for make in [lambda style=style: generators.random_bundle(rng, style) for style in styles] + [lambda: overlapping(rng)] * 4:
        data = make()
        while not sr.all_races(sr.check(data)):
            data = make()
        found.append(data)
    return found


def demand_sharp(test, elements):
    """These races tell a wrong turn from a right one: both accesses have turns above 0 where several elements hold the byte."""
    test.assertGreater(len(elements), 300)
    for side in (0, 1):
        test.assertGreater(sum(both[side][0] > 0 and len(both[side]) > 1 for both in elements), 20)


class Decoder(unittest.TestCase):
    def test_numbers_by_hand(self):
        for r, byte, wanted in (
            ((0, 8, 4, 4), 0, 0), ((0, 8, 4, 4), 3, 0), ((0, 8, 4, 4), 4, None), ((0, 8, 4, 4), 8, 1), ((0, 8, 4, 4), 27, 3),
            ((0, 8, 4, 4), 28, None), ((10, 0, 1, 2), 9, None), ((10, 0, 1, 2), 11, 0), ((10, 0, 1, 2), 12, None),
            ((0, 1, 5, 4), 3, 0), ((0, 1, 5, 4), 4, 1), ((0, 1, 5, 4), 7, 4), ((0, 1, 5, 4), 8, None),
            ((LAST - 65534, 1, 65535, 1), LAST, 65534),
        ):
            self.assertEqual(bundles.Range(*r).lowest_element(byte), wanted, (r, byte))

    def test_every_element(self):
        rng = random.Random(51)
        for _ in range(300):
            r = bundles.Range(*generators.small_range(rng))
            for byte in range(-2, 140):
                wanted = holding(r, byte)
                self.assertEqual(list(r.holding(byte)), wanted)
                self.assertEqual(r.elements_at(byte), len(wanted))
                self.assertEqual(r.lowest_element(byte), wanted[0] if wanted else None)
            for k in range(r.count):
                self.assertEqual([b for b in range(140) if k in holding(r, b)], list(r.element(k)))


# ----------------------------------------------------------------------- page


def told_on_page(article):
    """The sentence, the cells of the row "Turn" and the turns in the picture, of each race."""
    sentences = re.findall(r"<p>Loop (turn [^<]*)\.</p>", article)
    cells = [(a, b) for a, b in re.findall(r"<tr><th>Turn</th><td>(.*?)</td><td>(.*?)</td></tr>", article)]
    plain = [tuple(re.sub("</?b>", "", cell) for cell in both) for both in cells]
    drawn = re.findall(r">1st, turn (\d+)</text>.*?>2nd, turn (\d+)</text>", article)
    return list(zip((f"loop {s}" for s in sentences), plain, drawn, strict=True))


def wanted_on_page(wanted):
    return [(words, cells, tuple(re.match(r"\d+", cell)[0] for cell in cells)) for _, words, cells in wanted]


class Pages(PageCase):
    def test_by_hand(self):
        for article, (data, wanted) in zip(self.articles([data for data, _ in BY_HAND.values()]), BY_HAND.values(), strict=True):
            self.assertEqual(told_on_page(article), wanted_on_page(wanted))

    def test_every_element(self):
        datas, seen = random_bundles(52), []
        for article, data in zip(self.articles(datas), datas, strict=True):
            wanted, elements = wanted_of(data, races_each(len(datas)))
            self.assertEqual(told_on_page(article), wanted_on_page(wanted))
            seen += elements
        demand_sharp(self, seen)

    def test_what_a_turn_is(self):
        self.articles([EXAMPLE])
        for part in ("a turn is an element's number from 0 in its access", "it is the lowest"):
            self.assertIn(part, " ".join(self.page_text().split()))

    def test_the_element_is_marked(self):
        """The cells of the two elements have a class of their own: 4 from byte 4,104, and 4 from byte 4,106."""
        article, = self.articles([EXAMPLE])
        rows = re.findall(r'<path class="u" d="([^"]*)"/>', article)
        cells = [[int(x) for x in re.findall(r"M(\d+) ", row)] for row in rows]
        self.assertEqual(cells, [[1 + 14 * (b - 0x1000) for b in range(start, start + 4)] for start in (0x1008, 0x100A)])

    def test_a_file_changed_after_judging(self):
        """As many chunks, segments and accesses as before, and another site, range or place."""
        other = {
            "site": EXAMPLE.replace(b"\x31\x0a", b"\x31\x0b"), "range": EXAMPLE.replace(b"\x30\x14\0\x0a\x10", b"\x30\x14\0\x0a\x20"),
            "place": team([(W, 10, 0x1000, 8, 2, 4), (W, 10, 0x1000, 8, 2, 4)], []),
        }
        for what, data in other.items():
            with self.subTest(what=what):
                self.put("b", a=EXAMPLE)
                path = str(self.tray / "b" / "a")
                programs = self.faulty_programs(f"lines = real(names)\nopen({path!r}, 'wb').write({data!r})\n[say(x) for x in lines]\n")
                self.judge(sheet="build\nb\n", status=1, programs_at=programs)
                self.assertEqual(self.words(), {"b": "race"})
                self.assertIn("no longer the one that was judged", self.page_text())
                self.assertEqual(told_on_page(self.page_text()), [])


# ----------------------------------------------------------------------- show


class Show(Case):
    def races_shown(self, *arguments, **more):
        """The lines of show below the commands, and below the number of cut chunks, if there are any."""
        ended = self.run_command("show", *arguments, **more)
        self.assertEqual((ended.status, ended.err), (0, ""))
        lines = ended.out.splitlines()
        commands = [line for line in lines if line.startswith(" ")]
        self.assertEqual(lines[: len(commands)], commands)
        below = lines[len(commands) :]
        return below[1:] if below[0].endswith("the verdict is on what was logged") else below

    def test_by_hand(self):
        for name, (data, wanted) in BY_HAND.items():
            with self.subTest(name=name):
                self.assertEqual(self.races_shown("-", input=data), [f"{line}: {words}" for line, words, _ in wanted])

    def test_every_element(self):
        seen = []
        for data in random_bundles(53):
            wanted, elements = wanted_of(data, 200)
            shown = self.races_shown("-", input=data)
            self.assertEqual(shown[:200], [f"{line}: {words}" for line, words, _ in wanted])
            self.assertEqual(len(shown), min(len(sr.all_races(sr.check(data))), 201))
            seen += elements
        demand_sharp(self, seen)

    def test_race_free(self):
        self.assertEqual(self.races_shown(ROOT / "examples" / "late.bundle"), ["race-free"])
        self.assertEqual(self.races_shown("-", input=team([])), ["race-free"])

    def test_more_than_are_shown(self):
        one = (W, 1, 64, 2, 3, 4)
        for members, last in (
            (([one] * 10, [one] * 20), None), (([one] * 3, [one] * 67), "1 more race: ./dezhakom list {} lists all 201"),
            (([one] * 40, [one] * 60), "2,200 more races: ./dezhakom list {} lists all 2,400"),
        ):
            data = team(*members)
            wanted = [f"{line}: {words}" for line, words, _ in wanted_of(data, 200)[0]]
            self.assertEqual(len(wanted), 200)
            for name, shown_name in (("plain.bundle", "plain.bundle"), ("two words", "FILE"), ("-", "-")):
                (self.folder / name).write_bytes(data)
                shown = self.races_shown(name, input=data)
                self.assertEqual(shown, wanted + ([last.format(shown_name)] if last else []))
        self.assertEqual(self.races_shown("-", input=many_races(random.Random(1)))[-1], "1,456 more races: ./dezhakom list - lists all 1,656")

    def racelist_that(self, says, then=""):
        """Programs of which racelist prints this, whatever it reads."""
        folder = self.faulty_programs("")
        (folder / "racelist").unlink()
        (folder / "racelist").write_text(f"#!{sys.executable}\nimport os, sys\nsys.stdin.buffer.read()\nos.write(1, {says!r})\n{then}\n")
        (folder / "racelist").chmod(0o755)
        return folder

    def test_an_output_that_is_not_whole(self):
        counts, race = b"chunks 3 segments 6 accesses 2\n", b"race 0000100a 1.0.0 10 1.1.0 20\n"
        whole = counts + race + b"pairs 1\n"
        for says in (
            b"", counts, counts + race, whole[:-1], whole + race, whole + b"pairs 1\n", counts + race + b"pairs 2\n", counts + b"pairs 0\n",
            counts + race + b"race-free\n", counts + b"race-free\n" + race, counts + b"race-free\npairs 0\n", b"race-free\n",
            race + b"pairs 1\n", counts + counts + race + b"pairs 1\n", b"refused 3 at 31\n" + whole, b"refused 3 at 31\n\n",
            counts + b"race 100a 1.0.0 10 1.1.0 20\npairs 1\n", counts + race + b"\npairs 1\n", b"hello\n",
        ):
            with self.subTest(says=says):
                ended = self.run_command("show", "-", input=EXAMPLE, programs_at=self.racelist_that(says))
                self.assertEqual((ended.status, ended.out), (2, ""))
                self.assertIn("no verdict", ended.err)
        for then in ("sys.exit(3)", "os.kill(os.getpid(), 9)"):
            ended = self.run_command("show", "-", input=EXAMPLE, programs_at=self.racelist_that(whole, then))
            self.assertEqual((ended.status, ended.out), (2, ""))
        shown = self.races_shown("-", input=EXAMPLE, programs_at=self.racelist_that(whole))
        self.assertEqual(shown, ["race 0000100a 1.0.0 10 1.1.0 20: loop turn 1 of the write at site 10 and turn 0 of the read at site 20"])

    def test_a_race_that_the_log_does_not_have(self):
        """No such member, access, site or byte; or the bytes are no bundle. The line is printed as racelist gave it."""
        for data, line in (
            (EXAMPLE, "race 0000100a 1.0.0 10 7.1.0 20"), (EXAMPLE, "race 0000100a 1.0.0 10 1.1.9 20"),
            (EXAMPLE, "race 0000100a 1.0.0 11 1.1.0 20"), (EXAMPLE, "race 00001004 1.0.0 10 1.1.0 20"),
            (EXAMPLE[9:], "race 0000100a 1.0.0 10 1.1.0 20"), (b"\xff", "race 0000100a 1.0.0 10 1.1.0 20"),
        ):
            with self.subTest(line=line):
                programs = self.racelist_that(f"chunks 3 segments 6 accesses 2\n{line}\npairs 1\n".encode())
                self.assertEqual(self.races_shown("-", input=data, programs_at=programs), [line])
