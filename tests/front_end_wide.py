"""Bundles with wide sites: the decoder, the page and the commands for one bundle, among them convert."""

import os
import random
import subprocess
import sys
import unittest

import aimed_cases
import convert_cases
import front_end_setting as setting
import generators
import second_reader as sr
from bundle_text import assemble
from front_end_details import PageCase
from front_end_setting import EXAMPLE, TORN, Case
from frontend import bundles, refusals

WIDE = aimed_cases.E_WIDE_BYTES  # sites 70,000 and 20
SMALL_SITES = convert_cases.E_SMALL_SITES  # E, wide

# Bundles with accesses of both groups, the place of 20 marked.
MIXED = (
    "member 0 0; read 1 0 0 1 1; *wide-read 70000 0 0 1 1; end",
    "member 1 0; wide-write 1 0 0 1 1; end; member 0 0; region 1 1; *read 1 0 0 1 1; end",
)


def widened(rng, style):
    """A good bundle and the same with wide sites."""
    narrow = generators.random_bundle(rng, style._replace(wides=0))
    return narrow, sr.convert("wide", narrow)[0]


class Decoder(unittest.TestCase):
    def test_commands_by_hand(self):
        commands = list(bundles.commands(WIDE))
        self.assertEqual([c.offset for c in commands], [0, 4, 8, 9, 13, 27, 28, 29, 33, 47, 48])
        self.assertEqual(commands[4].operands, (70000, 4096, 8, 2, 4))
        self.assertEqual(commands[8].operands, (20, 4106, 0, 1, 4))

    def test_the_same_text(self):
        """A wide access is told as a narrow one."""
        for code, wide in zip(sr.NARROW, sr.WIDE):
            for operands in ((0, 64, 0, 1, 1), (65535, 64, 8, 3, 4)):
                texts = {bundles.command_text(bundles.Command(7, c, operands)) for c in (code, wide)}
                self.assertEqual(len(texts), 1)
        self.assertIn("site 4294967295", bundles.command_text(bundles.Command(0, sr.WIDE_READ, (4294967295, 64, 0, 1, 1))))

    def test_graph_and_accesses(self):
        rng = random.Random(81)
        for _ in range(100):
            data = generators.random_bundle(rng, rng.choice(generators.STYLES)._replace(wides=1))
            log, wanted = bundles.read_log(data), sr.check(data)
            self.assertEqual(log.counts(), (len(wanted.chunks), wanted.segment_count(), len(wanted.accesses())))
            for access in wanted.accesses():
                mine = log.access(access.name)
                self.assertEqual(
                    (bundles.WORDS[access.kind], access.site, tuple(access.range), sorted(access.locks), access.segment),
                    (mine.kind, mine.site, tuple(mine.range), list(mine.locks), mine.segment),
                )

    def test_the_same_log(self):
        rng = random.Random(82)
        for _ in range(60):
            narrow, wide = map(bundles.read_log, widened(rng, rng.choice(generators.STYLES)))
            self.assertEqual(sorted(narrow.edges()), sorted(wide.edges()))
            self.assertEqual({k: m.accesses for k, m in narrow.members.items()}, {k: m.accesses for k, m in wide.members.items()})

    def test_lengths(self):
        """How long a conversion is."""
        rng = random.Random(83)
        for data in [EXAMPLE, WIDE, SMALL_SITES] + [d for style in generators.STYLES for d in widened(rng, style)]:
            for word in sr.CONVERTERS:
                written, said = sr.convert(word, data)
                if not said:
                    self.assertEqual(bundles.converted_length(data, word), len(written))


class Pages(PageCase):
    def test_sites(self):
        [article] = self.articles([WIDE])
        self.assertIn("70000", article)
        self.assertIn("race 0000100a 1.0.0 70000 1.1.0 20", self.run_command("list", "-", input=WIDE).out)

    def test_the_same_article(self):
        """But for the name of the file, a bundle and its conversion are shown alike."""
        narrow, wide = self.articles([EXAMPLE, SMALL_SITES])
        self.assertEqual(len(EXAMPLE) + 4, len(SMALL_SITES))
        for piece in ("site 10", "site 20"):
            self.assertEqual((narrow.count(piece), narrow.count(piece) > 0), (wide.count(piece), True))

    def test_words(self):
        """The words of builds with wide and mixed bundles are the second reader's."""
        rng, wanted = random.Random(84), {}
        for k in range(40):
            make = rng.choice((
                lambda: generators.random_bundle(rng, generators.SMALL._replace(wides=1)), lambda: generators.mixed_groups(rng),
                lambda: generators.damage_bytes(rng, generators.random_bundle(rng, generators.LOCKED._replace(wides=1)))))
            data = make()
            self.put(f"b{k}", a=data)
            last = sr.racelist(data).decode().splitlines()[-1]
            wanted[f"b{k}"] = {"pairs": "race", "refused": "refused"}.get(last.split()[0], last)
        self.assertEqual(set(wanted.values()), {"race", "refused", "race-free"})
        self.judge(sheet="build\n" + "".join(f"{name}\n" for name in wanted), status=1)
        self.assertEqual(self.words(), wanted)


class Single(Case):
    def test_list_and_check(self):
        self.assertEqual(self.run_command("list", "-", input=WIDE), (
            1, "chunks 3 segments 6 accesses 2\nrace 0000100a 1.0.0 70000 1.1.0 20\npairs 1\n", ""))
        self.assertEqual(self.run_command("check", "-", input=WIDE), (0, "accepted chunks 3 segments 6 accesses 2\n", ""))

    def test_refusals(self):
        for text in MIXED:
            data, place = assemble(text)
            words = " ".join(refusals.in_words(20, place, len(data)))
            self.assertEqual(self.run_command("check", "-", input=data), (1, f"refused 20 at {place}: {words}\n", ""))

    def test_show(self):
        """As of a narrow bundle, but for the offsets."""
        shown = [self.run_command("show", "-", input=data).out.splitlines() for data in (EXAMPLE, SMALL_SITES)]
        self.assertEqual(*([line[6:] for line in lines] for lines in shown))
        self.assertEqual([int(line.split()[0]) for line in shown[1][:11]], [0, 4, 8, 9, 13, 27, 28, 29, 33, 47, 48])
        self.assertIn("    13    write site 70000, ", self.run_command("show", "-", input=WIDE).out)
        data, place = assemble(MIXED[0])
        self.assertEqual([line.split()[0] for line in self.run_command("show", "-", input=data).out.splitlines()[:3]], ["0", "4", "refused"])

    def test_graph(self):
        answers = [self.run_command("graph", "-", input=data) for data in (EXAMPLE, SMALL_SITES)]
        self.assertEqual(*answers)

    def test_canon(self):
        out = self.folder / "fixed"
        back = WIDE[29:] + WIDE[9:29] + WIDE[:9]
        self.assertEqual(self.run_command("canon", "-", "--out", out, input=back), (0, "", ""))
        self.assertEqual(out.read_bytes(), WIDE)


class Converting(Case):
    def convert(self, word, data, *more, **others):
        return self.run_command("convert", "-", "--to", word, *more, input=data, **others)

    def test_both_ways(self):
        rng = random.Random(85)
        out = self.folder / "out"
        datas = [d for case in convert_cases.PAIRS for d in (case.narrow, case.wide)] + [d for _, d in convert_cases.COPIED]
        for data in datas + [d for style in generators.STYLES[:3] for d in widened(rng, style)]:
            for word in sr.CONVERTERS:
                self.assertEqual(self.convert(word, data, "--out", out), (0, "", ""))
                self.assertEqual(out.read_bytes(), sr.convert(word, data)[0])

    def test_standard_output(self):
        environment = {**os.environ, "DEZHAKOM_PROGRAMS": str(setting.programs)}
        words = [sys.executable, setting.SCRIPT, "convert", "-", "--to", "wide"]
        ended = subprocess.run(words, input=EXAMPLE, capture_output=True, env=environment)
        self.assertEqual((ended.returncode, ended.stdout, ended.stderr), (0, SMALL_SITES, b""))

    def test_long_bundles(self):
        out = self.folder / "out"
        for _, data, length in convert_cases.AT_LIMIT:
            self.assertEqual(self.convert("wide", data, "--out", out), (0, "", ""))
            self.assertEqual(len(out.read_bytes()), length)
            self.assertEqual(self.convert("narrow", out.read_bytes(), "--out", out), (0, "", ""))
            self.assertEqual(out.read_bytes(), data)
        for _, data, _ in convert_cases.PAST_LIMIT:
            self.refused("wide", data, 1, 0, refusals.CONVERTING[1])

    def refused(self, word, data, number, place, known=None):
        """With its words; the file stays as it was."""
        out = self.folder / "kept"
        out.write_bytes(b"kept")
        wrong, advice = (known.wrong, known.advice) if known else refusals.in_words(number, place, len(data))
        self.assertEqual(self.convert(word, data, "--out", out), (1, "", f"refused {number} at {place}: {wrong} {advice}\n"))
        self.assertEqual(self.convert(word, data), (1, "", f"refused {number} at {place}: {wrong} {advice}\n"))
        self.assertEqual(out.read_bytes(), b"kept")

    def test_refusals(self):
        for _, data, place in convert_cases.ONLY_WIDE:
            self.refused("narrow", data, 21, place, refusals.CONVERTING[21])
        for word in sr.CONVERTERS:
            self.refused(word, TORN, 3, 31)
            self.refused(word, b"", 10, 0)
            self.refused(word, bytes(70000), 1, 0)
            for text in MIXED:
                data, place = assemble(text)
                self.refused(word, data, 20, place)

    def test_words_that_are_wrong(self):
        path = self.folder / "x"
        path.write_bytes(EXAMPLE)
        for words in ((), ("--to",), ("--to", "both"), ("--to", "wide", "narrow"), ("--to", "Wide")):
            ended = self.run_command("convert", path, *words)
            self.assertEqual((ended.status, ended.out), (2, ""), words)

    def test_a_convert_that_is_not_whole(self):
        """Too few bytes, too many, or none: nothing is written."""
        folder, out = self.faulty_programs(""), self.folder / "out"
        out.write_bytes(b"kept")
        for written in (SMALL_SITES[:-1], SMALL_SITES + b"\2", EXAMPLE, b""):
            text = f"import sys\nsys.stdin.buffer.read()\nsys.stdout.buffer.write({written!r})\n"
            (folder / "convert").write_text(f"#!{sys.executable}\n{text}")
            (folder / "convert").chmod(0o755)
            ended = self.convert("wide", EXAMPLE, "--out", out, programs_at=folder)
            self.assertEqual((ended.status, ended.out, "not whole" in ended.err), (2, "", True), ended)
            self.assertEqual(out.read_bytes(), b"kept")

    def test_no_convert(self):
        ended = self.convert("wide", EXAMPLE, programs_at=self.faulty_programs(""))
        self.assertEqual((ended.status, "no program" in ended.err), (2, True), ended)
