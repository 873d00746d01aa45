"""The page's markup and limits, the decoder for display, and the commands for one bundle."""

import os
import random
import re
import subprocess
import sys
import unittest
from html.parser import HTMLParser

import front_end_setting as setting
import generators
import readme_lines
import second_reader as sr
from front_end_setting import EXAMPLE, LATE, ROOT, SCRIPT, TORN, Case
from frontend import bundles, pictures, refusals
from frontend.names import readable
from frontend.tray import Build, Bundle
from second_reader import Command

VOID = {"meta", "br", "use", "rect", "path"}
TAGS = set(
    "html head meta title style body h1 h2 h3 p ul li table thead tbody tr th td span a code b section article details summary"
    " svg defs g path rect text use figure figcaption div pre mark".split()
)
ATTRIBUTES = set(
    "lang charset http-equiv content name class id href role width height viewbox d x y rx xmlns aria-hidden".split()
)


class Markup(HTMLParser):
    """Fails on what a page of ours never has, and keeps its text."""

    def __init__(self, test, text):
        super().__init__(convert_charrefs=True)
        self.test, self.open, self.text, self.ids, self.links = test, [], [], [], []
        self.feed(text)
        self.close()
        test.assertEqual(self.open, [])
        test.assertEqual(len(self.ids), len(set(self.ids)))
        test.assertLessEqual(set(self.links), set(self.ids))

    def handle_starttag(self, tag, attributes):
        self.test.assertIn(tag, TAGS)
        for name, value in attributes:
            self.test.assertIn(name, ATTRIBUTES)
            if name == "href":
                self.test.assertTrue(value.startswith("#"), value)
                self.links.append(value[1:])
            elif name == "id":
                self.ids.append(value)
            elif name != "xmlns":
                self.test.assertNotIn("//", value)
        if tag not in VOID:
            self.open.append(tag)

    def handle_startendtag(self, tag, attributes):
        self.handle_starttag(tag, attributes)
        self.test.assertIn(tag, VOID)

    def handle_endtag(self, tag):
        self.test.assertEqual(self.open.pop(), tag)

    def handle_data(self, data):
        self.text.append(data)

    def handle_comment(self, data):
        self.test.fail(f"a comment: {data}")


class PageCase(Case):
    def articles(self, datas):
        """The page's part on each of these bundles, in their order, all of which have races."""
        self.put("b", **{f"{k:03}": data for k, data in enumerate(datas)})
        self.judge(sheet="build\nb\n", status=1)
        Markup(self, self.page_text())
        found = self.page_text().split("<article>")[1:]
        self.assertEqual(len(found), len(datas))
        return found


def many_races(rng, members=24):
    """A team whose members all write the same words: very many races."""
    chunks = [[Command(sr.MEMBER, (0, 0)), Command(sr.REGION, (1, members)), Command(sr.END, ())]]
    for m in range(members):
        writes = [Command(sr.WRITE, (m, 4096 + 8 * k, 0, 1, 8)) for k in range(6)]
        chunks.append([Command(sr.MEMBER, (1, m)), *writes, Command(sr.END, ())])
    return generators.bundle_bytes(chunks)


class Pages(Case):
    def test_nothing_is_taken_for_markup(self):
        name = "<script>alert('1')<.script><img src=x onerror=alert(1)>\"&lt;"
        self.put(name, **{f"{name}.torn": TORN, f"{name}.race": EXAMPLE, f"{name}\n": LATE})
        (self.tray / name / f"{name}.dir").mkdir()
        (self.tray / f"{name}.slip").write_text("")
        self.judge(sheet=('build,<b>\n"' + name.replace('"', '""') + '",<i>\n"</td><script>",x\n').encode(), status=1)
        markup = Markup(self, self.page_text())
        text = "".join(markup.text)
        for shown in (name, f"{name}.torn", f"{name}.race", f"{name}.dir", f"{name}.slip", "</td><script>"):
            self.assertIn(shown, text)

    def test_generated_trays(self):
        rng = random.Random(11)
        for k in range(12):
            folder = self.put(f"b{k}")
            for j in range(3):
                style = rng.choice(generators.STYLES)
                make = rng.choice((generators.random_bundle, generators.damaged_bundle))
                (folder / f"{j}").write_bytes(make(rng, style))
        self.judge(sheet="build\n" + "".join(f"b{k}\n" for k in range(13)), status=1)
        markup = Markup(self, self.page_text())
        self.assertIn("details", TAGS)
        self.assertNotIn("no pictures", "".join(markup.text))

    def test_a_race_with_all_its_parts(self):
        self.put("b", a=EXAMPLE)
        self.judge(sheet="build\nb\n", status=1)
        page = self.page_text()
        text = " ".join(Markup(self, page).text)
        for part in (
            "0000100a", "1.0.0", "1.1.0", "write", "read", "team 1, member 0, segment 0", "team 1, member 1, segment 0",
            "00001000 to 0000100b: 2 elements of 4 bytes, 8 apart", "0000100a to 0000100d: 4 bytes", "1 race among 2 accesses",
        ):
            self.assertIn(part, text)
        self.assertEqual(page.count('class="m1"'), 1)
        self.assertEqual(page.count('class="m2"'), 1)
        self.assertEqual(page.count('<rect class="x"'), 1)

    def test_refusals_in_plain_words(self):
        rng = random.Random(2)
        self.put("b", cut=TORN, unknown=b"\x01\0\0\0\xee" + rng.randbytes(60), open=EXAMPLE[:44])
        self.judge(sheet="build\nb\n", status=1)
        page = self.page_text()
        Markup(self, page)
        self.assertIn("<mark>30</mark>", page)  # byte 31 of the torn example
        self.assertIn("<mark>ee</mark>", page)
        self.assertIn("end</mark>", page)
        self.assertIn("it was torn", page)

    def test_many_races(self):
        self.put("b", a=many_races(random.Random(1)))
        self.judge(sheet="build\nb\n", status=1)
        page = self.page_text()
        Markup(self, page)
        self.assertIn("1,656 races", page)  # 6 words, 24 * 23 / 2 pairs
        self.assertIn("200 races of 1,656 shown", page)
        self.assertEqual(page.count('class="m1"'), 200)
        self.assertIn("./dezhakom list", page)

    def test_a_thousand_racy_bundles(self):
        data = many_races(random.Random(1), 6)
        for k in range(20):
            self.put(f"b{k}", **{f"{j}": data for j in range(50)})
        self.judge(sheet="build\n" + "".join(f"b{k}\n" for k in range(20)), status=1)
        self.assertLess(self.page.stat().st_size, 8_000_000)
        Markup(self, self.page_text())
        self.assertIn("./dezhakom list", self.page_text())

    def test_each_bundle_is_listed_at_most_once_and_only_if_it_is_shown(self):
        data = many_races(random.Random(1), 12)
        for k in range(4):
            self.put(f"b{k}", **{f"{j:02}": data for j in range(35)})
        programs = self.faulty_programs("[say(x) for x in real(names)]\n")
        real, noted = (programs / "racelist").resolve(), self.folder / "listed"
        (programs / "racelist").unlink()
        (programs / "racelist").write_text(f"#!/bin/sh\nstat -L -c %i /dev/stdin >> {noted}\nexec {real}\n")
        (programs / "racelist").chmod(0o755)
        self.judge("--jobs", "2", sheet="build\n" + "".join(f"b{k}\n" for k in range(4)), status=1, programs_at=programs)
        listed, shown = noted.read_text().split(), self.page_text().count("<article>")
        self.assertEqual(len(listed), len(set(listed)))
        self.assertLess(shown, 120)
        self.assertLessEqual(shown, len(listed))
        self.assertLess(len(listed), shown + 4)
        self.assertIn(f"{140 - shown} bundles got one line each", self.page_text())

    def test_past_the_size_of_a_page(self):
        from frontend import page
        from frontend.programs import bundle_line

        before = page.MOST_PAGE
        self.addCleanup(setattr, page, "MOST_PAGE", before)
        page.MOST_PAGE = 1
        folder = self.put("b", a=EXAMPLE, b=EXAMPLE, c=TORN)
        build = Build("b", str(folder))
        race = b"race chunks 3 segments 6 accesses 2 race 0000100a 1.0.0 10 1.1.0 20 pairs 1"
        for name, line in (("a", race), ("b", race), ("c", b"refused 3 at 31")):
            build.bundles.append(Bundle(name, str(folder / name), None))
            build.bundles[-1].line = bundle_line(line)
        build.word = "race"
        text = page.Page("tray", [build], []).html().decode()
        Markup(self, text)
        self.assertIn("2 bundles more", text)
        self.assertIn("2 bundles got one line each", text)

    def test_a_file_changed_after_judging(self):
        programs = self.faulty_programs(
            f"lines = real(names)\nopen({str(self.tray / 'b' / 'a')!r}, 'wb').write(b'\\x01\\x02')\n[say(x) for x in lines]\n"
        )
        self.put("b", a=EXAMPLE)
        self.judge(sheet="build\nb\n", status=1, programs_at=programs)
        self.assertEqual(self.words(), {"b": "race"})
        self.assertIn("no longer the one that was judged", self.page_text())

    def test_refusals_are_those_of_the_readme(self):
        rows = readme_lines.table(readme_lines.readme(), "| N | What")
        for number, wrong, place, advice in rows:
            mine = refusals.REFUSALS[int(number)]
            self.assertEqual((mine.place, mine.advice), (place, advice))
            self.assertTrue(wrong.startswith(mine.wrong.rstrip(".")), number)
        self.assertEqual(len(rows), len(refusals.REFUSALS))

    def test_readme_shows_the_example(self):
        examples = {example.command: example.wanted for example in readme_lines.examples(readme_lines.readme())}
        self.assertIn((ROOT / "examples" / "verdicts.csv").read_text().splitlines(), examples.values())
        self.assertTrue([c for c in examples if "./dezhakom tray examples/tray --sheet examples/builds.csv" in c])

    def test_readable_names(self):
        self.assertEqual(readable("plain"), "plain")
        self.assertEqual(readable("a\nb\x1b[31m\u202e\udcff"), "a\\nb\\x1b[31m\\u202e\\xff")
        self.assertEqual(readable("größe 大"), "größe 大")


class Decoder(unittest.TestCase):
    """The decoder for display against the second reader, and on any bytes."""

    def test_graph_and_accesses(self):
        rng = random.Random(21)
        for _ in range(150):
            data = generators.random_bundle(rng, rng.choice(generators.STYLES))
            log, wanted = bundles.read_log(data), sr.check(data)
            self.assertEqual(log.counts(), (len(wanted.chunks), wanted.segment_count(), len(wanted.accesses())))
            edges = {s: set() for s in sr.graph_edges(wanted)}
            for here, after, _ in log.edges():
                edges[here].add(after)
            self.assertEqual(edges, sr.graph_edges(wanted))
            for access in wanted.accesses():
                mine = log.access(access.name)
                self.assertEqual(
                    (bundles.WORDS[access.kind], access.site, tuple(access.range), sorted(access.locks), access.segment),
                    (mine.kind, mine.site, tuple(mine.range), list(mine.locks), mine.segment),
                )

    def test_ranges(self):
        rng = random.Random(22)
        for _ in range(300):
            wanted = sr.bytes_of(r := bundles.Range(*generators.small_range(rng)))
            starts = {r.base + k * r.stride for k in range(r.count)}
            self.assertEqual({b for b in range(200) if r.touches(b)}, wanted)
            self.assertEqual({b for b in range(200) if r.starts_at(b)}, starts)
            self.assertEqual(r.last(), max(wanted))

    def test_any_bytes(self):
        rng = random.Random(23)
        codes = bytes(bundles.WIDTHS)
        for turn in range(4000):
            if turn % 3 == 0:
                data = generators.damaged_bundle(rng, rng.choice((generators.SMALL, generators.LOCKED, generators.NESTED)))
            elif turn % 3 == 1:
                data = bytes(rng.choice(codes + b"\0\0\0\1\1\2") for _ in range(rng.randrange(60)))
            else:
                data = rng.randbytes(rng.randrange(80))
            for command in bundles.commands(data):
                bundles.command_text(command)
            try:
                pictures.Graph(bundles.read_log(data)).whole("x")
            except bundles.NotAsExpected:
                pass

    def test_drawings(self):
        """Each segment of a graph has a place of its own; a cut graph has both segments of the race."""
        rng = random.Random(24)
        for style in generators.STYLES + (generators.LARGE,):
            for _ in range(4):
                data = generators.random_bundle(rng, style)
                log, bundle = bundles.read_log(data), sr.check(data)
                whole = pictures.Graph(log)
                self.assertEqual(set(whole.places), set(sr.graph_edges(bundle)))
                self.assertEqual(len(set(whole.places.values())), len(whole.places))
                for x, y in whole.places.values():
                    self.assertTrue(0 <= x <= whole.width - pictures.BOX and 0 <= y <= whole.height - pictures.TALL)
                for race in sr.all_races(bundle)[:5]:
                    keys = [(*name[:2], log.access(name).segment) for name in (race.first, race.second)]
                    cut = pictures.Graph(log, log.above(*keys[0]) | log.above(*keys[1]))
                    cut.marked("x", *keys, "g1")
                    ranges = [log.access(name).range for name in (race.first, race.second)]
                    picture, _ = pictures.bytes_picture("x", *ranges, race.witness)
                    self.assertIn(f"byte {race.witness:08x}", picture)
                    self.assertTrue(all(r.touches(race.witness) for r in ranges))


class Single(Case):
    def test_list_is_racelist(self):
        rng = random.Random(31)
        datas = [EXAMPLE, LATE, TORN, b"", bytes(70000), many_races(rng)] + [generators.random_bundle(rng, s) for s in generators.STYLES]
        for data in datas:
            path = self.folder / "x y"
            path.write_bytes(data)
            wanted = subprocess.run([setting.programs / "racelist"], input=data, capture_output=True).stdout.decode()
            self.assertEqual(wanted, sr.racelist(data[:65537]).decode())
            status = 0 if wanted.endswith("race-free\n") else 1
            self.assertEqual(self.run_command("list", path), (status, wanted, ""))
            self.assertEqual(self.run_command("list", "-", input=data), (status, wanted, ""))

    def test_check(self):
        path = self.folder / "x"
        for data, status, said in (
            (EXAMPLE, 0, "accepted chunks 3 segments 6 accesses 2\n"),
            (TORN, 1, "refused 3 at 31: It ends inside a command. Ask for it again.\n"),
            (b"", 1, "refused 10 at 0: The log is empty. Part of the log is still to come: wait for it, or ask for it.\n"),
            (EXAMPLE[:44], 1, "refused 4 at 44: It ends inside a member's log: it was torn. Ask for it again.\n"),
        ):
            path.write_bytes(data)
            self.assertEqual(self.run_command("check", path), (status, said, ""))

    def test_show(self):
        ended = self.run_command("show", ROOT / "examples" / "e.bundle")
        self.assertEqual(ended.status, 0)
        offsets = [int(line.split()[0]) for line in ended.out.splitlines()[:-1]]
        self.assertEqual(offsets, [0, 4, 8, 9, 13, 25, 26, 27, 31, 43, 44])
        ended = self.run_command("show", "-", input=TORN)
        self.assertEqual(ended.status, 1)
        lines = ended.out.splitlines()
        self.assertEqual([int(line.split()[0]) for line in lines[:8]], [0, 4, 8, 9, 13, 25, 26, 27])
        self.assertTrue(lines[8].startswith("refused 3 at 31: "))

    def test_show_any_bytes(self):
        rng = random.Random(33)
        for _ in range(25):
            data = generators.damaged_bundle(rng, rng.choice(generators.STYLES))
            ended = self.run_command("show", "-", input=data)
            self.assertIn(ended.status, (0, 1), ended)
            self.assertEqual(ended.err, "")
            refused = re.search(r"^refused (\d+) at (\d+): ", ended.out, re.MULTILINE)
            try:
                wanted = len([c for chunk in sr.check(data).chunks for c in chunk.accesses])
                self.assertEqual((refused, len(re.findall(r"^ .* site \d+, ", ended.out, re.MULTILINE))), (None, wanted))
            except sr.Refused as refusal:
                self.assertEqual((int(refused[1]), int(refused[2])), (refusal.number, refusal.place))
                offsets = [int(line.split()[0]) for line in ended.out[: refused.start()].splitlines()]
                self.assertEqual([at for at in offsets if at >= refusal.place], [])

    def test_graph(self):
        ended = self.run_command("graph", ROOT / "examples" / "e.bundle")
        self.assertEqual(ended.status, 0)
        self.assertIn("segments 6 edges 9\n", ended.out)
        self.assertIn("edge 1.0:0 1.1:1 barrier 1\n", ended.out)
        ended = self.run_command("graph", "--dot", ROOT / "examples" / "e.bundle")
        self.assertTrue(ended.out.startswith("digraph"))
        picture = self.folder / "g.svg"
        self.assertEqual(self.run_command("graph", "--svg", picture, ROOT / "examples" / "e.bundle"), (0, "", ""))
        self.assertTrue(picture.read_text().startswith("<svg"))
        self.assertEqual(self.run_command("graph", "-", input=TORN).status, 1)

    def test_canon(self):
        rng = random.Random(17)
        for _ in range(20):
            chunks = sr.check(data := generators.random_bundle(rng, rng.choice(generators.STYLES))).chunks
            parts = [data[c.offset : c.end] for c in chunks]
            rng.shuffle(parts)
            wanted, _ = sr.canon(data)
            for given in (data, b"".join(parts), wanted):
                path, out = self.folder / "given", self.folder / "fixed"
                path.write_bytes(given)
                self.assertEqual(self.run_command("canon", path, "--out", out), (0, "", ""))
                self.assertEqual(out.read_bytes(), wanted)
        line = f'"{sys.executable}" "{SCRIPT}" canon given | cmp - fixed'
        environment = {**os.environ, "DEZHAKOM_PROGRAMS": str(setting.programs)}
        self.assertEqual(subprocess.run(["sh", "-c", line], cwd=self.folder, env=environment).returncode, 0)
        for data, said in ((TORN, "refused 3 at 31: "), (b"", "refused 10 at 0: "), (bytes(70000), "refused 1 at 0: ")):
            path.write_bytes(data)
            ended = self.run_command("canon", path, "--out", out)
            self.assertEqual((ended.status, ended.out, ended.err.startswith(said)), (1, "", True), ended)
            self.assertEqual(out.read_bytes(), wanted)

    def test_a_canon_that_reads_late(self):
        """What does not fit into a pipe is written when it reads."""
        folder = self.faulty_programs("")
        late = "import sys, time\ntime.sleep(0.5)\nread = sys.stdin.buffer.read()\nsys.stderr.write(f'refused 1 at {len(read)}\\n')\n"
        (folder / "canon").write_text(f"#!{sys.executable}\n{late}")
        (folder / "canon").chmod(0o755)
        ended = self.run_command("canon", "--timeout", "20", "-", input=bytes(70000), programs_at=folder)
        self.assertEqual((ended.status, ended.err.split(":")[0]), (1, "refused 1 at 65537"), ended)

    def test_files_that_cannot_be_read(self):
        for command in (["list"], ["check"], ["show"], ["graph"], ["canon"], ["convert", "--to", "wide"], ["rows"]):
            for name in (self.folder / "none", self.tray):
                ended = self.run_command(*command, name)
                self.assertEqual(ended.status, 2)
                self.assertIn("cannot be read", ended.err)

    def test_closed_pipes_end_quietly(self):
        path = self.folder / "x"
        path.write_bytes(many_races(random.Random(1), 60))
        for command in ("list", "show", "graph"):
            line = f'"{sys.executable}" "{SCRIPT}" {command} x | head -1'
            environment = {**os.environ, "DEZHAKOM_PROGRAMS": str(setting.programs)}
            ended = subprocess.run(["sh", "-c", line], capture_output=True, cwd=self.folder, env=environment)
            self.assertEqual((ended.stdout.count(b"\n"), ended.stderr), (1, b""))


class Splitting(Case):
    """The lines of docs/TRAY.md for more than one machine, as they stand there, give the words of the whole tray."""

    def setUp(self):
        super().setUp()
        self.tray = self.tray.rename(self.folder / "TRAY")
        self.wanted = {"build 0": "race", "build 1": "race-free", "build 2": "refused", "build 3": "missing", "build 4": "refused"}
        for k, data in enumerate((EXAMPLE, LATE, TORN)):
            self.put(f"build {k}", a=data, b=LATE)
        self.put("build 3")
        (self.put("build 4", a=LATE) / "inner").mkdir()
        (self.folder / "target").mkdir()
        (self.folder / "target" / "bin").symlink_to(setting.programs)
        (self.folder / "dezhakom").symlink_to(SCRIPT)
        text = (ROOT / "docs" / "TRAY.md").read_text(encoding="utf-8")
        blocks = re.findall(r"(?:^    .*\n)+", text[text.index("## More than one machine") :], re.MULTILINE)
        self.xargs, self.slurm = ("".join(line[4:] for line in block.splitlines(True)) for block in blocks)

    def run_lines(self, lines, **environment):
        environment = {**os.environ, "DEZHAKOM_PROGRAMS": str(setting.programs), **environment}
        return subprocess.run(["sh", "-c", lines], cwd=self.folder, capture_output=True, text=True, env=environment).stdout

    def test_xargs(self):
        words = dict(line.rsplit(",", 1) for line in self.run_lines(self.xargs).splitlines())
        self.assertEqual(words, self.wanted)

    def test_slurm(self):
        for part in range(10):
            self.run_lines(self.slurm, SLURM_ARRAY_TASK_ID=str(part))
        lines = [line for out in (self.folder / "parts").glob("*.csv") for line in out.read_text().splitlines()[1:]]
        self.assertEqual({name.strip('"'): word for name, word in (line.split(",") for line in lines)}, self.wanted)
