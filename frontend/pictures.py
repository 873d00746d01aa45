"""Pictures (SVG) of the fork-join graph and of the bytes of two ranges. Colours come from the classes of frontend/style.css.

The graph: a row for each member, time to the right, a team below the segment that forks it, a barrier as a line down its team. The
row of a cut chunk says so and ends in a jagged line; a dashed line leads on from there, through the barriers that it lacks, to the join.
A graph with two marked segments is never wider than the page is: one that would be is cut down to what leads to the two (cut_within).
"""

import math
from bisect import bisect_left
from collections import namedtuple

from frontend.bundles import BARRIER, REGION

BOX, TALL = 26, 16  # a segment
ROW = 34  # from one row to the next
GAP = 12  # between two segments of an interval
BUS = 10  # from a segment to the line that leads to the members of a team, and from there to them
BARRIER_GAP = 18
JAG = "l4 4l-4 4l4 4l-4 4l4 4"  # from the top of a row down, at the end of a cut chunk
LETTER = 6.1  # width of a letter of a row's label
MARGIN = 4

MANY_ROWS = 12  # a higher graph is cut down
WIDE, NARROW = 760, 330  # as is one of more pixels, on a screen and on a phone: drawn at 4/5 they fit at 44rem and at 320 pixels

Near = namedtuple("Near", "before after")  # how many segments are drawn on both sides of one that is kept
Cut = namedtuple("Cut", "above marked")  # of a segment that forks towards a marked one; of a marked one
CUTS = (  # each holds the next; the last is within NARROW if teams are as deep and labels as long as can be
    Cut(Near(2, 2), Near(2, 2)), Cut(Near(1, 1), Near(2, 2)), Cut(Near(1, 1), Near(1, 1)),
    Cut(Near(0, 1), Near(1, 1)), Cut(Near(0, 0), Near(1, 1)), Cut(Near(0, 0), Near(0, 0)),
)  # fmt: skip


def number(x):
    """A coordinate without needless digits."""
    return f"{x:g}"


def row_label(m):
    return f"{m.team}.{m.member}{' cut' * m.is_cut}"


class Sizes:
    """How large the drawing of a log is; or of the members in keep, which gives for each (team, member) a segment to draw with those
    near it."""

    def __init__(self, log, keep=None, cut=CUTS[0]):
        self.log = log
        self.keep = keep
        self.members = log.teams if keep is None else {}  # that are drawn, of each team
        for key in sorted(keep or ()):
            self.members.setdefault(key[0], []).append(log.members[key])
        self.windows = {(m.team, m.member): self.window(m, cut) for members in self.members.values() for m in members}
        self.parts = {team: self.intervals(team) for team in self.members}
        self.sizes = {}
        labels = [row_label(m) for members in self.members.values() for m in members]
        self.left = MARGIN + math.ceil(LETTER * max(map(len, labels))) + 14
        self.measure(0)
        width, height, _ = self.sizes[0]
        self.width = self.left + width + MARGIN + 8
        self.height = height + MARGIN + 8
        self.left_out = len(log.members) - len(labels)

    def window(self, m, cut):
        """The numbers of the segments that are drawn of a member."""
        if self.keep is None:
            return range(len(m.segments))
        segment = self.keep[m.team, m.member]
        fork = m.forks.get(segment)
        near = cut.above if fork and fork.team in self.members else cut.marked
        return range(max(0, segment - near.before), min(len(m.segments), segment + near.after + 1))

    def shown(self, m, number):
        """Whether a segment of a drawn member is drawn."""
        return number in self.windows[m.team, m.member]

    def intervals(self, team):
        """The drawn segments between two barriers, for each drawn member; an interval in which no member has any is left out. A cut
        member has none in those after its last one."""
        found = {m.member: self.by_barriers(m) for m in self.members[team]}
        used = sorted(set().union(*found.values()))
        return {member: [parts.get(k, []) for k in used] for member, parts in found.items()}

    def by_barriers(self, m):
        """The drawn segments of a member by the number of barriers before them."""
        window, found = self.windows[m.team, m.member], {}
        passed = m.segments[: window.start].count(BARRIER)
        for number in window:
            passed += m.segments[number] == BARRIER
            found.setdefault(passed, []).append(number)
        return found

    def is_within(self, room):
        return sum(map(len, self.members.values())) <= MANY_ROWS and self.width <= room

    def measure(self, team):
        """The width of each interval of a team; the height below each member's row."""
        members = self.members[team]
        for m in members:
            for fork in m.forks.values():
                if fork.team in self.members:
                    self.measure(fork.team)
        parts = [[self.length(m, interval) for interval in self.parts[team][m.member]] for m in members]
        widths = [max(lengths) for lengths in zip(*parts)]
        total = sum(widths) + BARRIER_GAP * (len(widths) - 1)
        height = sum(ROW + self.room_below(m) for m in members)
        self.sizes[team] = (total, height, widths)

    def length(self, m, interval):
        """The width of the drawn segments of a member between two barriers, with the teams that they fork."""
        return sum(BOX + self.room_behind(m, s) for s in interval[:-1]) + sum(BOX + self.room_at_end(m, s) for s in interval[-1:])

    def room_behind(self, m, segment):
        """The width between a segment and the next one of its interval, which a REGION opens."""
        inner = self.sizes.get(m.forks[segment].team)
        return inner[0] + 4 * BUS if inner else GAP

    def room_at_end(self, m, segment):
        """The width after the last drawn segment of an interval: that of a team whose join is left out."""
        inner = self.sizes.get(m.forks[segment].team) if segment in m.forks else None
        return inner[0] + 2 * BUS if inner else 0

    def room_below(self, m):
        return max((self.sizes[f.team][1] for f in m.forks.values() if f.team in self.sizes), default=0)


class Graph(Sizes):
    """A drawing of a log, or of a part of it."""

    def __init__(self, log, keep=None, cut=CUTS[0]):
        super().__init__(log, keep, cut)
        self.places = {}  # (team, member, segment): (x, y) of the box
        self.rows = []  # (y, label)
        self.lines, self.waits, self.barriers, self.more = [], [], [], []  # parts of paths; more is what leads to segments left out
        self.jags, self.missing = [], []  # the ends of cut chunks, and what leads on from there
        self.rows_of_team, self.ends = {}, {}
        self.place(0, self.left, MARGIN + 6)
        self.place_root_ends()
        self.has_more = bool(self.more)

    # ----------------------------------------------------------------- places

    def place(self, team, x, y):
        """Places a team with its left upper corner here."""
        starts, at = [], x
        for width in self.sizes[team][2]:
            starts.append(at)
            at += width + BARRIER_GAP
        top = y
        for m in self.members[team]:
            self.place_member(m, starts, y)
            y += ROW + self.room_below(m)
        bottom = self.rows_of_team[team] + TALL
        for start in starts[1:]:
            self.barriers.append(f"M{number(start - BARRIER_GAP / 2)} {top}V{bottom + 4}")

    def place_member(self, m, starts, y):
        self.rows.append((y + 4, row_label(m)))
        self.rows_of_team[m.team] = y + 4
        middle = y + 4 + TALL / 2
        behind = None  # the right end of the segment before
        for start, interval in zip(starts, self.parts[m.team][m.member]):
            x = start
            for s in interval:
                self.places[m.team, m.member, s] = (x, y + 4)
                if behind is not None:
                    waits = m.segments[s] == REGION
                    (self.waits if waits else self.lines).append(f"M{number(behind)} {number(middle)}H{number(x)}")
                behind = x + BOX
                if s in m.forks and self.shown(m, s + 1):
                    x = self.place_fork(m, s, behind, y, middle)
                elif s in m.forks and m.forks[s].team in self.sizes:
                    behind = self.place_open_fork(m, s, behind, y, middle)
        if m.is_cut and self.shown(m, len(m.segments) - 1):
            self.jags.append(f"M{number(behind + 2)} {y + 1}{JAG}")
            behind += 7
        self.ends[m.team, m.member] = behind

    def place_fork(self, m, segment, x, y, middle):
        """The team that this segment forks, and its join; answers where the next segment of the member starts."""
        team = m.forks[segment].team
        room = self.room_behind(m, segment)
        if team not in self.sizes:
            self.more.append(f"M{number(x + GAP / 2)} {number(middle + 3)}v8")
            return x + room
        self.place_team(team, x, y, middle)
        join = x + room - BUS
        for inner in self.members[team]:
            end, row, is_last = self.end_of(inner)
            lines = self.more if not is_last else self.missing if inner.is_cut else self.lines
            lines.append(f"M{number(end)} {number(row)}H{number(join)}")
        last = self.rows_of_team[team] + TALL / 2
        self.lines.append(f"M{number(join)} {number(last)}V{number(middle)}H{number(x + room)}")
        return x + room

    def place_open_fork(self, m, segment, x, y, middle):
        """The team that this segment forks, whose join is left out; answers where the row of the member goes on."""
        team = m.forks[segment].team
        self.place_team(team, x, y, middle)
        for inner in self.members[team]:
            end, row, is_last = self.end_of(inner)
            self.more.append(f"M{number(end)} {number(row)}h{5 if is_last and inner.is_cut else 10}")
        return x + BUS

    def place_team(self, team, x, y, middle):
        """A team below a segment, whose right end is here, and the lines from there to its members; dotted if segments are left out."""
        self.place(team, x + 2 * BUS, y + ROW)
        fork = x + BUS
        for inner in self.members[team]:
            left, row, is_first = self.start_of(inner)
            (self.lines if is_first else self.more).append(f"M{number(fork)} {number(row)}H{number(left)}")
        last = self.rows_of_team[team] + TALL / 2
        self.lines.append(f"M{number(x)} {number(middle)}H{number(fork)}V{number(last)}")

    def place_root_ends(self):
        """That the row of the root goes on at a side."""
        root, = self.members[0]
        left, row, is_first = self.start_of(root)
        end, row, is_last = self.end_of(root)
        self.more += [] if is_first else [f"M{number(left)} {number(row)}h-10"]
        self.more += [] if is_last else [f"M{number(end)} {number(row)}h10"]

    def start_of(self, m):
        """The left side of what is drawn of a member, the middle of its row, and whether that is its first segment."""
        first = self.windows[m.team, m.member].start
        x, y = self.places[m.team, m.member, first]
        return x, y + TALL / 2, first == 0

    def end_of(self, m):
        """The right end of what is drawn of a member, the middle of its row, and whether that is its last segment."""
        last = self.windows[m.team, m.member].stop - 1
        return self.ends[m.team, m.member], self.places[m.team, m.member, last][1] + TALL / 2, last == len(m.segments) - 1

    # -------------------------------------------------------------------- SVG

    def shapes(self):
        """All but the labels of the rows and the marks."""
        busy = {(*key, a.segment) for key in self.windows for a in self.log.members[key].accesses}
        full, empty, texts = [], [], []
        for key, (x, y) in self.places.items():
            (full if key in busy else empty).append(f"M{number(x)} {y}h{BOX}v{TALL}h-{BOX}z")
            texts.append(f'<text x="{number(x + BOX / 2)}" y="{y + 12}">{key[2]}</text>')
        parts = (
            ("l", self.lines), ("w", self.waits), ("d", self.missing), ("c", self.more), ("b", self.barriers), ("z", self.jags),
            ("e", empty), ("f", full),
        )
        paths = "".join(f'<path class="{name}" d="{"".join(drawn)}"/>' for name, drawn in parts if drawn)
        return f'{paths}<g class="n">{"".join(texts)}</g>'

    def labels(self):
        return '<g class="r">' + "".join(f'<text x="{MARGIN}" y="{y + 12}">{label}</text>' for y, label in self.rows) + "</g>"

    def mark(self, key, which, text):
        x, y = self.places[key]
        return (
            f'<rect class="m{which}" x="{number(x - 2.5)}" y="{number(y - 2.5)}" width="{BOX + 5}" height="{TALL + 5}" rx="3"/>'
            f'<text class="k" x="{number(x + BOX / 2)}" y="{number(y - 5.5)}">{text}</text>'
        )

    def whole(self, title):
        """The whole picture, by itself."""
        return self.svg(title, self.labels() + self.shapes(), ' xmlns="http://www.w3.org/2000/svg"')

    def used(self, title, reference, marks=""):
        """The drawing whose shapes are under the reference."""
        return self.svg(title, f'{self.labels()}<use href="#{reference}"/>{marks}')

    def marked(self, title, first, second, reference):
        """The same with two segments marked."""
        return self.used(title, reference, self.mark(first, 1, "1st") + self.mark(second, 2, "2nd"))

    def svg(self, title, inner, more=""):
        return (
            f'<svg{more} class="graph" role="img" width="{self.width}" height="{self.height}"'
            f' viewBox="0 0 {self.width} {self.height}"><title>{title}</title>{inner}</svg>'
        )


def cut_within(log, keep, room):
    """How the graph of what leads to the segments in keep is cut, to draw as many near them as there is room for."""
    return CUTS[bisect_left(CUTS, True, hi=len(CUTS) - 1, key=lambda cut: Sizes(log, keep, cut).is_within(room))]


# ---------------------------------------------------------------------- bytes

CELL = 14
CELLS = 24
BEFORE = 8  # cells before the witness, or up to three more
TOPS = (22, 56)  # of the two rows
GRID = "cells"


def first_cell(witness):
    return max(0, (witness - BEFORE) // 4 * 4)


def bytes_picture(title, first, second, witness):
    """Two rows of cells, one for each range, around the witness, which both touch. Answers the picture and whether all of both is in it.
    It uses cell_grid()."""
    start = first_cell(witness)
    stop = min(start + CELLS, 1 << 32)
    width, height = CELLS * CELL + 2, 106
    parts = [f'<use href="#{GRID}"/>' if stop - start == CELLS else grid_path(stop - start)]
    for address in range((start + 7) // 8 * 8, stop, 8):
        x = (address - start) * CELL + 1
        if x + 52 <= width:
            parts.append(f'<text class="a" x="{x}" y="10">{address:08x}</text><path class="t" d="M{x} 13v5"/>')
    for word, y, touched in (("1st", TOPS[0], first), ("2nd", TOPS[1], second)):
        turn = touched.lowest_element(witness)
        parts.append(byte_row(touched, turn, y, start, stop))
        parts.append(f'<text class="o" x="{width - 3}" y="{y + 28}">{word}, turn {turn}</text>')
    x = (witness - start) * CELL + 1
    parts.append(f'<rect class="x" x="{x - 1.5}" y="18" width="{CELL + 1}" height="68" rx="2"/>')
    anchor = min(max(x + CELL / 2, 52), width - 52)
    parts.append(f'<text class="k" x="{number(anchor)}" y="101">byte {witness:08x}</text>')
    whole = all(start <= r.base and r.last() < stop for r in (first, second))
    picture = (
        f'<svg class="bytes" role="img" width="{width}" height="{height}"'
        f' viewBox="0 0 {width} {height}"><title>{title}</title>{"".join(parts)}</svg>'
    )
    return picture, whole


def cell_grid():
    """All cells, under the name by which the pictures of a page use them."""
    return f'<g id="{GRID}" class="bytes">{grid_path(CELLS)}</g>'


def grid_path(cells):
    return f'<path class="g" d="{"".join(cell(k, y) for y in TOPS for k in range(cells))}"/>'


def cell(place, y):
    return f"M{place * CELL + 1} {y}h{CELL - 2}v16h-{CELL - 2}z"


def byte_row(touched, turn, y, start, stop):
    """The cells of one range: touched ones are full, those of the turn marked, the first byte of each element has a bar at its left."""
    marked, full, bars = [], [], []
    its = touched.element(turn)
    for address in range(start, stop):
        if touched.touches(address):
            (marked if address in its else full).append(cell(address - start, y))
        if touched.starts_at(address):
            bars.append(f"M{(address - start) * CELL + 2.5} {y}v16")
    parts = (("f", full), ("u", marked), ("s", bars))
    return "".join(f'<path class="{name}" d="{"".join(drawn)}"/>' for name, drawn in parts if drawn)
