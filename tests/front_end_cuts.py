"""Bundles of stopped runs, with cut chunks: the decoder, the pictures, the page and the commands for one bundle."""

import random
import re
import subprocess
import unittest
from types import SimpleNamespace

import front_end_setting as setting
import generators
import second_reader as sr
from bundle_text import assemble, bundle
from front_end_details import PageCase
from front_end_setting import EXAMPLE, LATE, Case
from frontend import bundles, pictures, refusals
from frontend.judging import cut_of
from frontend.programs import Counts

CUT = f"raw {bundles.CUT:02x}"

# The root and three of the members are cut. 1.0 lacks barrier 2 and holds lock 3, 1.1 lacks both barriers.
STOPPED = bundle(f"""
    member 0 0; region 1 3; {CUT}
    member 1 0; write 1 64 0 1 4; barrier; acquire 3; write 5 128 0 1 4; {CUT}
    member 1 1; write 2 64 0 1 4; {CUT}
    member 1 2; barrier; region 2 2; barrier; write 3 64 0 1 4; write 6 128 0 1 4; end
    member 2 0; write 7 128 0 1 4; {CUT}
    member 2 1; write 8 128 0 1 4; end""")

EDGES = """
    0.0:0 0.0:1 next; 0.0:0 1.0:0 fork; 0.0:0 1.1:0 fork; 0.0:0 1.2:0 fork; 1.0:1 0.0:1 join; 1.1:0 0.0:1 join; 1.2:3 0.0:1 join
    1.0:0 1.0:1 next; 1.2:0 1.2:1 next; 1.2:1 1.2:2 next; 1.2:2 1.2:3 next
    1.2:1 2.0:0 fork; 1.2:1 2.1:0 fork; 2.0:0 1.2:2 join; 2.1:0 1.2:2 join
    1.0:0 1.2:1 barrier 1; 1.2:0 1.0:1 barrier 1; 1.1:0 1.0:1 missing barrier 1; 1.1:0 1.2:1 missing barrier 1
    1.0:1 1.2:3 missing barrier 2; 1.1:0 1.2:3 missing barrier 2"""

# Nothing was logged but the members; race-free.
NOTHING = bundle(f"member 0 0; region 1 2; {CUT}; member 1 0; {CUT}; member 1 1; {CUT}")

# (number, bundle with its place marked)
REFUSED = (
    (12, f"""member 0 0; region 1 4; end; member 1 0; barrier; barrier; barrier; {CUT}; member 1 1; barrier; end
        member 1 2; {CUT}; *member 1 3; barrier; barrier; end"""),
    (19, f"""member 0 0; region 1 3; end; member 1 0; barrier; {CUT}; *member 1 1; barrier; barrier; {CUT}
        member 1 2; barrier; end"""),
    (4, f"*{CUT}"),
    (4, f"member 0 0; {CUT}; *{CUT}"),
    (6, "member 0 0; acquire 3; *end"),
)


def chunks_of(data):
    """The commands of each chunk, as bytes."""
    found = []
    for offset, code, _ in bundles.commands(data):
        if code == bundles.MEMBER:
            found.append([])
        found[-1].append(data[offset : offset + bundles.LENGTHS[code]])
    return found


def cut_some(rng, data):
    """Some chunks of a bundle cut, each at the end of a command, with no REGION lost."""
    chunks = chunks_of(data)
    for k in rng.sample(range(len(chunks)), rng.randint(1, len(chunks))):
        least = 1 + max(n for n, command in enumerate(chunks[k]) if command[0] in (bundles.MEMBER, bundles.REGION))
        chunks[k] = chunks[k][: rng.randrange(least, len(chunks[k]))] + [bytes([bundles.CUT])]
    return b"".join(b"".join(chunk) for chunk in chunks)


def random_cut(rng, *styles):
    return cut_some(rng, generators.random_bundle(rng, rng.choice(styles or generators.STYLES)))


def edge_text(edge):
    here, after, word = edge
    return "{}.{}:{} ".format(*here) + "{}.{}:{} ".format(*after) + word


class Decoder(unittest.TestCase):
    def test_edges_by_hand(self):
        wanted = [edge.strip() for edge in EDGES.replace("\n", ";").split(";") if edge.strip()]
        self.assertEqual(sorted(map(edge_text, bundles.read_log(STOPPED).edges())), sorted(wanted))

    def test_graph_and_accesses(self):
        """All edges, accesses and locks are the second reader's."""
        rng, missing = random.Random(71), 0
        for _ in range(150):
            data = random_cut(rng)
            log, wanted = bundles.read_log(data), sr.check(data)
            self.assertEqual(log.counts(), (len(wanted.chunks), wanted.segment_count(), len(wanted.accesses())))
            edges = {s: set() for s in sr.graph_edges(wanted)}
            for here, after, word in log.edges():
                edges[here].add(after)
                missing += word.startswith("missing")
            self.assertEqual(edges, sr.graph_edges(wanted))
            for access in wanted.accesses():
                mine = log.access(access.name)
                self.assertEqual((sorted(access.locks), access.segment), (list(mine.locks), mine.segment))
        self.assertGreater(missing, 1000)

    def test_locks_end_with_the_chunk(self):
        log = bundles.read_log(bundle(f"""
            member 1 0; acquire 3; region 2 1; acquire 4; write 1 0 0 1 1; {CUT}; member 0 0; region 1 1; write 2 0 0 1 1; {CUT}
            member 2 0; write 3 0 0 1 1; end"""))
        self.assertEqual([log.access(name).locks for name in ((1, 0, 0), (0, 0, 0), (2, 0, 0))], [(3, 4), (), ()])
        self.assertEqual([f.locks for m in log.members.values() for f in m.forks.values()], [(3,), ()])

    def test_shapes(self):
        for _, text in REFUSED[:2]:
            with self.assertRaises(bundles.NotAsExpected):
                bundles.read_log(bundle(text))
        # Without a complete member every number of barriers goes.
        log = bundles.read_log(bundle(f"member 0 0; region 1 2; {CUT}; member 1 0; barrier; barrier; {CUT}; member 1 1; {CUT}"))
        self.assertEqual([m.barriers() for m in log.teams[1]], [2, 0])

    def test_teams_and_members_that_are_there_twice(self):
        """A picture of them would have no end, or lack a chunk."""
        for text in (
            "member 1 0; region 1 1; end; member 0 0; region 1 1; end", "member 0 0; end; member 0 0; end",
            f"member 0 0; region 1 1; {CUT}; member 1 0; end; member 1 0; {CUT}",
        ):
            with self.assertRaises(bundles.NotAsExpected):
                bundles.read_log(bundle(text))

    def test_how_many_are_cut(self):
        self.assertEqual(bundles.cut_chunks(STOPPED), (4, 6))
        self.assertEqual(bundles.cut_chunks(NOTHING), (3, 3))
        self.assertEqual(bundles.cut_chunks(EXAMPLE), (0, 3))
        # The bytes of CUT and MEMBER inside an access, and a lock 3 before an END.
        inside = bundle("member 0 0; read 259 66307 0 1 1; acquire 3; release 3; end")
        self.assertEqual(bundles.cut_chunks(inside), (0, 1))
        rng = random.Random(72)
        for _ in range(100):
            data = random_cut(rng)
            members = bundles.read_log(data).members.values()
            self.assertEqual(bundles.cut_chunks(data), (sum(m.is_cut for m in members), len(members)))

    def test_in_words(self):
        self.assertEqual(bundles.cut_text(1, 3), "1 of 3 chunks is cut")
        self.assertEqual(bundles.cut_text(1, 1), "1 of 1 chunk is cut")
        self.assertEqual(bundles.cut_text(2, 3), "2 of 3 chunks are cut")


class Pictures(unittest.TestCase):
    def test_by_hand(self):
        graph = pictures.Graph(bundles.read_log(STOPPED))
        self.assertEqual([label for _, label in graph.rows], ["0.0 cut", "1.0 cut", "1.1 cut", "1.2", "2.0 cut", "2.1"])
        self.assertEqual((len(graph.jags), len(graph.missing), len(graph.barriers)), (4, 3, 2))
        # The jagged line of 1.1 stands before the first barrier, and the dashed one goes on through both barriers.
        jag, = (x for x, y in map(start_of, graph.jags) if y == graph.places[1, 1, 0][1] - 3)
        barriers = sorted(start_of(line)[0] for line in graph.barriers)
        self.assertTrue(graph.places[1, 1, 0][0] + pictures.BOX < jag < barriers[0])
        dashed = [line for line in graph.missing if start_of(line)[1] == graph.places[1, 1, 0][1] + pictures.TALL / 2]
        self.assertGreater(float(dashed[0].split("H")[1]), barriers[1])
        shapes = graph.shapes()
        self.assertIn('<path class="z"', shapes)
        self.assertIn('<path class="d"', shapes)

    def test_complete_bundles_have_no_marks(self):
        shapes = pictures.Graph(bundles.read_log(EXAMPLE)).whole("x")
        for mark in ('class="z"', 'class="d"', "cut"):
            self.assertNotIn(mark, shapes)

    def test_drawings(self):
        """Each segment has a place of its own, each cut chunk one mark behind its last segment; a part has both segments of a race."""
        rng = random.Random(73)
        for _ in range(40):
            data = random_cut(rng)
            log, wanted = bundles.read_log(data), sr.check(data)
            whole = pictures.Graph(log)
            self.assertEqual(set(whole.places), set(sr.graph_edges(wanted)))
            self.assertEqual(len(set(whole.places.values())), len(whole.places))
            cut = [(*key, len(m.segments) - 1) for key, m in log.members.items() if m.is_cut]
            ends = [(whole.places[key][0] + pictures.BOX + 2, whole.places[key][1] - 3) for key in cut]
            self.assertEqual(sorted(map(start_of, whole.jags)), sorted(ends))
            self.assertTrue(all(x + 4 < whole.width for x, _ in ends))
            for race in sr.all_races(wanted)[:5]:
                keys = [(*name[:2], log.access(name).segment) for name in (race.first, race.second)]
                pictures.Graph(log, log.above(*keys[0]) | log.above(*keys[1])).marked("x", *keys, "g1")


def start_of(path):
    return tuple(float(part) for part in re.match(r"M([\d.]+) ([\d.]+)", path).groups())


class Pages(PageCase):
    def note(self, build, there, named):
        return f"build {build}: {there} cut chunks, and the word is on what was logged: {named}"

    def test_races(self):
        stopped, whole = self.articles([STOPPED, EXAMPLE])
        self.assertIn("of 6 members. 4 of 6 chunks are cut: only what was logged is judged. The least:", stopped)
        self.assertIn('class="z"', stopped)
        self.assertIn(">1.0 cut</text>", stopped)
        for mark in ("chunks are cut", 'class="z"', " cut</text>"):
            self.assertNotIn(mark, whole)
        self.assertIn("<td>2 race of 2, 1 with cut chunks</td>", self.page_text())
        self.assertIn(self.note("b", "1 of 2 bundles has", "000 (4 of 6)"), self.page_text())

    def test_race_free(self):
        self.put("b", one=NOTHING, other=LATE)
        ended = self.judge("--quiet", sheet="build\nb\n", status=0)
        self.assertEqual(self.words(), {"b": "race-free"})
        note = self.note("b", "1 of 2 bundles has", "one (3 of 3)")
        self.assertEqual(ended.out, f"note: {note}\n")
        self.assertIn(f"<li>{note}</li>", self.page_text())
        self.assertIn("<td>2 bundles, 1 with cut chunks</td>", self.page_text())

    def test_without_cut_chunks(self):
        self.put("b", one=LATE)
        ended = self.judge("--quiet", sheet="build\nb\n", status=0)
        self.assertEqual(ended.out, "")
        self.assertNotIn("with cut chunks", self.page_text())
        self.assertIn("A cut one was closed where the run was stopped", self.page_text())

    def test_many(self):
        self.put("b", **{f"x{k}": NOTHING for k in range(7)}, torn=NOTHING[:-1])
        ended = self.judge(sheet="build\nb\n", status=1)
        self.assertIn(self.note("b", "7 of 8 bundles have", ", ".join(f"x{k} (3 of 3)" for k in range(5)) + " and 2 more"), ended.out)

    def test_a_file_changed_after_judging(self):
        path = self.folder / "x"
        path.write_bytes(STOPPED)
        for chunks, wanted in ((6, (4, 6)), (5, None)):
            line = SimpleNamespace(counts=Counts(chunks, 11, 7))
            self.assertEqual(cut_of(SimpleNamespace(path=str(path), line=line)), wanted)
        path.unlink()
        self.assertIsNone(cut_of(SimpleNamespace(path=str(path), line=line)))

    def test_words(self):
        """The words of builds with cut bundles are the second reader's."""
        rng, wanted = random.Random(74), {}
        for k in range(40):
            data = random_cut(rng, generators.SMALL, generators.NESTED, generators.LOCKED)
            if rng.randrange(3) == 0:
                data = generators.damage_bytes(rng, data)
            self.put(f"b{k}", a=data)
            last = sr.racelist(data).decode().splitlines()[-1]
            wanted[f"b{k}"] = {"pairs": "race", "refused": "refused"}.get(last.split()[0], last)
        self.assertEqual(set(wanted.values()), {"race", "refused", "race-free"})
        self.judge(sheet="build\n" + "".join(f"{name}\n" for name in wanted), status=1)
        self.assertEqual(self.words(), wanted)


class Single(Case):
    def test_list_is_racelist(self):
        rng = random.Random(75)
        for data in [STOPPED, NOTHING] + [random_cut(rng) for _ in range(20)]:
            wanted = subprocess.run([setting.programs / "racelist"], input=data, capture_output=True).stdout.decode()
            self.assertEqual(wanted, sr.racelist(data).decode())
            self.assertEqual(self.run_command("list", "-", input=data), (0 if "race-free" in wanted else 1, wanted, ""))

    def test_check(self):
        said = "accepted chunks {}\n{}: the verdict is on what was logged\n"
        for data, counts, cut in (
            (STOPPED, "6 segments 11 accesses 7", "4 of 6 chunks are cut"),
            (NOTHING, "3 segments 4 accesses 0", "3 of 3 chunks are cut"),
            (LATE[:-1] + bytes([bundles.CUT]), "3 segments 6 accesses 2", "1 of 3 chunks is cut"),
        ):
            self.assertEqual(self.run_command("check", "-", input=data), (0, said.format(counts, cut), ""))

    def test_refusals(self):
        for number, text in REFUSED:
            data, place = assemble(text)
            ended = self.run_command("check", "-", input=data)
            words = " ".join(refusals.in_words(number, place, len(data)))
            self.assertEqual(ended, (1, f"refused {number} at {place}: {words}\n", ""))
            with self.assertRaises(sr.Refused) as refused:
                sr.check(data)
            self.assertEqual((refused.exception.number, refused.exception.place), (number, place))

    def test_show(self):
        ended = self.run_command("show", "-", input=STOPPED)
        self.assertEqual((ended.status, ended.err), (0, ""))
        lines = ended.out.splitlines()
        self.assertEqual([line for line in lines if "CUT" in line], [f"{at:6}  CUT" for at in (8, 40, 57, 109)])
        self.assertEqual([line for line in lines if line.endswith("END")], [f"{at:6}  END" for at in (92, 126)])
        self.assertIn("    26    ACQUIRE lock 3", lines)
        self.assertEqual(lines[25], "4 of 6 chunks are cut: the verdict is on what was logged")
        self.assertEqual([line.split(":")[0] for line in lines[26:]], sr.racelist(STOPPED).decode().splitlines()[1:-1])
        self.assertEqual(self.run_command("show", "-", input=NOTHING).out.splitlines()[-2:], [
            "3 of 3 chunks are cut: the verdict is on what was logged", "race-free"])

    def test_graph(self):
        ended = self.run_command("graph", "-", input=STOPPED)
        self.assertEqual(ended.status, 0)
        self.assertIn("segments 11 edges 21\n", ended.out)
        self.assertIn("edge 1.1:0 1.2:3 missing barrier 2\n", ended.out)
        ended = self.run_command("graph", "--dot", "-", input=STOPPED)
        self.assertIn('"1.1:0" -> "1.0:1" [label="missing barrier 1", style=dashed];', ended.out)
        self.assertIn('"1.0:0" -> "1.2:1" [label="barrier 1"];', ended.out)
        picture = self.folder / "g.svg"
        self.assertEqual(self.run_command("graph", "--svg", picture, "-", input=STOPPED), (0, "", ""))
        self.assertIn("path.z{", picture.read_text())

    def test_canon(self):
        """Chunks keep their CUT."""
        for data in (STOPPED, NOTHING):
            out = self.folder / "fixed"
            chunks = chunks_of(data)[::-1]
            self.assertEqual(self.run_command("canon", "-", "--out", out, input=b"".join(map(b"".join, chunks))), (0, "", ""))
            self.assertEqual(out.read_bytes(), data)
