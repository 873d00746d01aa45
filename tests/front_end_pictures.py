"""The graphs under a race: both marked segments are in the picture, and it is no wider than its place on the page."""

import random
import re
import unittest

import generators
import second_reader as sr
from bundle_text import bundle
from frontend import bundles, page, pictures

CUT = f"raw {bundles.CUT:02x}"


def deep_bundle():
    """A race between members four teams down on both sides, which part in the first team. Each REGION that leads down has other ones and
    barriers around it; a leaf has the longest of labels."""
    chunks, sides = [], iter(range(65000, 65500))

    def fork(team, member, inner, size):
        before, after = next(sides), next(sides)
        chunks.append(f"member {team} {member}; region {before} 1; barrier; region {inner} {size}; barrier; region {after} 1; end")
        chunks.extend(f"member {side} 0; end" for side in (before, after))

    fork(0, 0, 50000, 2)
    for side in (0, 1):
        fork(50000, side, 60000 + side, 2)
        for depth in (0, 1):
            chunks.append(f"member {60000 + 100 * depth + side} 0; barrier; barrier; end")
        fork(60000 + side, 1, 60100 + side, 2)
        fork(60100 + side, 1, 65535 - side, (64, 2)[side])
        chunks.extend(f"member {65535 - side} {k}; barrier; barrier; end" for k in range((63, 1)[side]))
    chunks.append(f"member 65535 63; barrier; write 1 4096 0 1 4; {CUT}")
    chunks.append("member 65534 1; barrier; write 2 4096 0 1 4; barrier; end")
    return bundle("\n".join(chunks))


def far_apart(forks):
    """A race between the first segment of a member and the last of another, which forks so many teams of one before."""
    regions = "; ".join(f"region {k + 2} 1" for k in range(forks))
    inner = "".join(f"\nmember {k + 2} 0; end" for k in range(forks))
    return bundle(f"""
        member 0 0; region 1 2; end
        member 1 0; {regions}; write 1 64 0 1 4; end
        member 1 1; write 2 64 0 1 4; region 900 1; end
        member 900 0; end{inner}""")


DEEP, APART, FAR_APART = deep_bundle(), far_apart(6), far_apart(100)


def some_bundles(seed):
    rng = random.Random(seed)
    yield from (DEEP, APART, FAR_APART)
    for style in (*generators.STYLES, generators.LARGE):
        for _ in range(4):
            yield generators.random_bundle(rng, style)
    for _ in range(10):
        yield generators.stopped_run_bundle(rng)


def segments_of(log, race):
    return [(*name[:2], log.access(name).segment) for name in (race.first, race.second)]


def points_of(path):
    """The points of a path of M, H, V, h, v, l and z, each after a move."""
    x = y = 0
    for letter, numbers in re.findall(r"([MHVhvlz])([-\d. ]*)", path):
        given = [float(n) for n in re.findall(r"-?[\d.]+", numbers)]
        if letter in "MHV":
            x, y = (given if letter == "M" else (given[0], y) if letter == "H" else (x, given[0]))
        elif letter in "hvl":
            x, y = x + (given[0] if letter in "hl" else 0), y + (given[-1] if letter in "vl" else 0)
        yield x, y


class Graphs(unittest.TestCase):
    def test_the_deep_bundle(self):
        """It is as deep as can be: nine rows lead to the two segments, and only without the joins there is room for them."""
        log = bundles.read_log(DEEP)
        race, = sr.all_races(sr.check(DEEP))
        first, second = segments_of(log, race)
        keep = log.above(*first) | log.above(*second)
        self.assertEqual(len(keep), 9)
        self.assertEqual(pictures.cut_within(log, keep, pictures.NARROW), pictures.CUTS[-1])
        labels = [label for _, label in pictures.Graph(log, keep, pictures.CUTS[-1]).rows]
        self.assertIn("65535.63 cut", labels)

    def test_every_race_has_room(self):
        """All that is drawn lies within the width, and what would be a richer drawing does not fit."""
        cuts = set()
        for data in some_bundles(36):
            log = bundles.read_log(data)
            for race in sr.all_races(sr.check(data))[:12]:
                keys = segments_of(log, race)
                keep = log.above(*keys[0]) | log.above(*keys[1])
                for room in (pictures.WIDE, pictures.NARROW):
                    cut = pictures.cut_within(log, keep, room)
                    cuts.add(cut)
                    graph = pictures.Graph(log, keep, cut)
                    self.assertLessEqual(graph.width, room)
                    self.check_inside(graph, keys)
                    richer = pictures.CUTS[: pictures.CUTS.index(cut)]
                    self.assertTrue(all(pictures.Graph(log, keep, other).width > room for other in richer))
        self.assertGreater(len(cuts), 5)

    def check_inside(self, graph, keys):
        self.assertLessEqual(set(keys), set(graph.places))
        self.assertEqual(len(set(graph.places.values())), len(graph.places))
        for key in graph.windows.keys() - {(0, 0)}:
            x, y = graph.places[(*key, graph.windows[key].start)]
            arrives = f" {pictures.number(y + pictures.TALL / 2)}H{pictures.number(x)}"
            self.assertEqual(sum(line.endswith(arrives) for line in graph.lines + graph.more), 1, "a line leads from the fork to each row")
        picture = graph.marked("x", *keys, "g1") + graph.shapes()
        points = [point for path in re.findall(r' d="([^"]*)"', picture) for point in points_of(path)]
        for _, x, y, width, height in re.findall(r'class="(m\d)" x="([\d.]+)" y="([\d.]+)" width="(\d+)" height="(\d+)"', picture):
            points += [(float(x) - 1.25, float(y) - 1.25), (float(x) + float(width) + 1.25, float(y) + float(height) + 1.25)]
        for x, y in points:
            self.assertTrue(0 <= x <= graph.width and 0 <= y <= graph.height, (x, y, graph.width, graph.height))

    def test_the_whole_graph_if_it_fits(self):
        for data, wanted in ((APART, (True, False)), (FAR_APART, (False, False)), (far_apart(1), (True, True))):
            log = bundles.read_log(data)
            drawing = page.Drawing(page.Page("tray", [], []), log)
            race, = sr.all_races(sr.check(data))
            keys = segments_of(log, race)
            graphs = [drawing.graph_for(*keys, room)[1] for room in (pictures.WIDE, pictures.NARROW)]
            self.assertEqual(tuple(graph is drawing.whole for graph in graphs), wanted)

    def test_two_pictures_only_if_they_differ(self):
        for data, classes in ((APART, ["wide", "narrow"]), (FAR_APART, []), (DEEP, ["wide", "narrow"]), (far_apart(1), [])):
            log = bundles.read_log(data)
            race, = sr.all_races(sr.check(data))
            markup = page.Drawing(page.Page("tray", [], []), log).race(race, *(log.access(name) for name in (race.first, race.second)))
            self.assertEqual(re.findall(r'<figure class="(\w+)"', markup), classes)
            self.assertEqual(markup.count("<figure"), max(1, len(classes)))
