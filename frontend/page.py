"""The page: one HTML file without outside parts and without scripts. All that comes from files goes through text()."""

import base64
import hashlib
import html
import os
import time

from frontend import bundles
from frontend.judging import list_races
from frontend.names import counted, readable, shell_name, to_text
from frontend.pictures import NARROW, WIDE, Graph, bytes_picture, cell_grid, cut_within
from frontend.refusals import in_words
from frontend.remarks import clock, in_short, more_parts, time_text
from frontend.tray import open_file

STYLE = os.path.join(os.path.dirname(os.path.abspath(__file__)), "style.css")
WORDS = ("race", "refused", "missing", "race-free")
SIGNS = {"race": "✗", "refused": "⚠", "missing": "–", "race-free": "✓"}  # so that a word is not known by its colour alone

ALL_RACES = 1200  # of the page, if there are many bundles with races
MANY_NOTES = 20  # more are folded
MANY_BUNDLES = 60  # more are laid out as they come into sight
MOST_PAGE = 3_000_000  # bytes; past them a bundle gets one line


def text(value):
    """Any text from outside, as text of the page."""
    return html.escape(readable(str(value)))


def word_html(word):
    return f'<span class="word {word}">{SIGNS[word]} {word}</span>'


def races_each(racy):
    """How many races of a bundle are shown if so many bundles have races."""
    return max(1, min(bundles.MOST_RACES, ALL_RACES // max(1, racy)))


class Page:
    def __init__(self, tray, builds, notes=(), sheet=None, strict=False):
        self.tray, self.builds, self.notes, self.sheet, self.strict = tray, builds, notes, sheet, strict
        self.size = 0
        self.short = 0  # bundles with one line only
        self.drawn = 0
        racy = [b for build in builds for b in in_order(build) if b.is_racy()]
        self.most = races_each(len(racy))
        self.unlisted = [b for b in racy if b.line.pairs > 1 and self.most > 1]  # in the order of the page
        self.sections = None  # until they are drawn

    def draw(self, programs, jobs):
        """Makes the parts on single builds. The races of a bundle are listed when its turn comes, with some of those after it, and not
        if the page is full by then."""
        self.list_ahead = lambda: list_races(programs, jobs, self.take(2 * jobs), self.most)
        self.sections = [self.section(number, build) for number, build in enumerate(self.builds) if has_section(build)]

    def take(self, count):
        taken, self.unlisted = self.unlisted[:count], self.unlisted[count:]
        return [b for b in taken if len(b.races) < min(self.most, b.line.pairs) and not b.races_failure]

    def html(self, notes=None, listed=None):
        """The page; listed is the time of the last listing of the tray. If nothing was drawn yet, no more races are listed."""
        if self.sections is None:
            self.unlisted = []
            self.draw(None, 1)
        parts = [self.head(listed), self.table(), self.noted(self.notes if notes is None else notes), *self.sections, self.foot()]
        return "".join(parts).encode("utf-8", "backslashreplace")

    # ------------------------------------------------------------------- frame

    def head(self, listed):
        with open(STYLE, encoding="utf-8") as file:
            style = "\n" + file.read()
        digest = base64.b64encode(hashlib.sha256(style.encode()).digest()).decode()
        counts = "".join(
            f"<li>{word_html(w)} {sum(b.word == w for b in self.builds):,}</li>" for w in WORDS
        )
        sheet = f", sheet <span class=\"name\">{text(self.sheet)}</span>" if self.sheet else ""
        bundles_there = sum(len(b.there()) for b in self.builds)
        when = "" if listed is None else f"The words cover what was in the tray when it was last listed, {time_text(listed)}. "
        many = ' class="many"' if sum(len(b.not_free()) for b in self.builds) > MANY_BUNDLES else ""
        return f"""<!DOCTYPE html>
<html lang="en">
<head>
<meta charset="utf-8">
<meta http-equiv="Content-Security-Policy" content="default-src 'none'; style-src 'sha256-{digest}'; base-uri 'none'; form-action 'none'">
<meta name="viewport" content="width=device-width, initial-scale=1">
<meta name="referrer" content="no-referrer">
<title>Verdicts: {text(self.tray)}</title>
<style>{style}</style>
</head>
<body{many}>
<h1>Verdicts</h1>
<p class="soft">Tray <span class="name">{text(self.tray)}</span>{sheet}: {counted(len(self.builds), "build")},
{counted(bundles_there, "bundle")}. {when}{made_at()}</p>
<ul class="counts">{counts}</ul>
"""

    def table(self):
        rows = []
        for number, build in enumerate(self.builds):
            name = f'<span class="name">{text(build.name)}</span>'
            if has_section(build):
                name = f'<a href="#build{number}">{name}</a>'
            rows.append(f"<tr><td>{name}</td><td>{word_html(build.word)}</td><td>{text(self.in_short(build))}</td></tr>")
        head = "<tr><th>Build</th><th>Word</th><th>Bundles</th></tr>"
        return f"<table class=\"builds\"><thead>{head}</thead><tbody>\n" + "\n".join(rows) + "\n</tbody></table>\n"

    def in_short(self, build):
        return "; ".join([in_short(build), *more_parts(build, self.strict)])

    def noted(self, notes):
        if not notes:
            return ""
        shown = '<ul class="notes">' + "".join(f"<li>{text(n)}</li>" for n in notes) + "</ul>"
        if len(notes) > MANY_NOTES:
            shown = f"<details><summary>{counted(len(notes), 'note')}</summary>{shown}</details>"
        return f"<h2>Notes</h2>{shown}\n"

    def foot(self):
        short = ""
        if self.short:
            short = (
                f"<p>{counted(self.short, 'bundle')} got one line each, to keep this page small:"
                " <code>./dezhakom list FILE</code> lists the races of a bundle, <code>./dezhakom show FILE</code> its commands and loop turns.</p>\n"
            )
        return f"""{short}<h2>How to read this</h2>
<p class="soft">The words come from the proved program judge_build, the races from the proved program racelist; this page shows them.
{word_html("race")}: two accesses of a log touch a byte, one writes, not both are atomic, they hold no lock in common, and nothing orders
them. {word_html("refused")}: a log is torn, damaged, not as announced or could not be read, so there is no verdict. {word_html("missing")}: the sheet has
the build, the tray has no log of it. {word_html("race-free")}: every log of the build was judged, and none has a race.</p>
<p class="soft">A segment is what a member of a team does between two forks or barriers. In the pictures each row is a member, named by
its team and its number; time runs to the right; boxes are segments, filled if they have accesses; a team is below the segment
that forks it; a thick line down is a barrier. Addresses are hexadecimal.</p>
<p class="soft">A chunk is the log of one member. A cut one was closed where the run was stopped: words and races are on what was logged,
and {word_html("race-free")} does not speak of what came after. Its row in a picture says cut and ends in a jagged line; the barriers
that it lacks and the join come after that, along the dashed line.</p>
<p class="soft">An access in a loop touches one element in each turn of the loop: a turn is an element's number from 0 in its access.
If several elements of an access hold the byte, it is the lowest. An access of one element has turn 0 alone.</p>
<p class="soft">The locks of an access are those that its member holds there, and those held at the REGIONs that lead down to it, up to
the member of the team where the two accesses part. Locks held above that team keep neither from the other, and are not shown. Turns,
locks and pictures are worked out by this page from the log.</p>
</body>
</html>
"""

    # ------------------------------------------------------------------ builds

    def section(self, number, build):
        parts = [f'<section>\n<h2 id="build{number}"><span class="name">{text(build.name)}</span> {word_html(build.word)}</h2>\n']
        if build.reason:
            parts.append(f"<p>{text(build.reason)}</p>\n")
        short = []
        for bundle in in_order(build):
            if self.size < MOST_PAGE:
                part = self.article(bundle)
                self.size += len(part)
                parts.append(part)
            else:
                self.short += 1
                short.append(f"<li>{one_line(bundle)}</li>")
        if short:
            parts.append(f"<details><summary>{counted(len(short), 'bundle')} more</summary><ul>{''.join(short)}</ul></details>\n")
        parts.append("</section>\n")
        return "".join(parts)

    def article(self, bundle):
        if bundle.line is None:
            body = f"<p>{text(bundle.reason or 'It was not judged.')}</p>"
            word = "refused"
        elif bundle.line.word == "race":
            body, word = self.races(bundle), "race"
        else:
            body, word = refusal(bundle), "refused"
        name = text(bundle.shown_name())
        return f'<article>\n<h3><span class="name">{name}</span> {word_html(word)}</h3>\n{body}\n</article>\n'

    # ------------------------------------------------------------------- races

    def races(self, bundle):
        line = bundle.line
        if self.unlisted and self.unlisted[0] is bundle:
            self.list_ahead()
        shown = bundle.races[: self.most] or [line.least]
        log, sides = self.log_of(bundle, shown)
        drawing = Drawing(self, log) if log else None
        shapes = [race_html(race, both, drawing) for race, both in zip(shown, sides)]
        parts = [
            f"<p>{counted(line.pairs, 'race')} among {counted(line.counts.accesses, 'access', 'accesses')} in"
            f" {counted(line.counts.segments, 'segment')} of {counted(line.counts.chunks, 'member')}. {cut_html(bundle)}The least:</p>"
        ]
        if not log:
            parts.append('<p class="soft">There are no turns and no pictures: the file is no longer the one that was judged.</p>')
        parts.append(shapes[0])
        rest = [
            f"<details><summary>{race_title(race)}</summary>{whole}</details>\n" for race, whole in zip(shown[1:], shapes[1:])
        ]
        if rest:
            left = "" if len(shown) == line.pairs else f", the first {len(rest):,} of them here"
            parts.append(f"<details><summary>{counted(line.pairs - 1, 'other race')}{left}</summary>\n{''.join(rest)}</details>")
        if len(shown) < line.pairs:
            parts.append(
                f'<p class="soft">{counted(len(shown), "race")} of {line.pairs:,} shown. All of them:'
                f" <code>./dezhakom list {text(shell_name(to_text(bundle.path)))}</code></p>"
            )
        if bundle.races_failure and line.pairs > 1:
            parts.append(f'<p class="soft">The other races could not be listed: {text(bundle.races_failure)}.</p>')
        if drawing:
            parts[1:1] = [drawing.store()]
            parts.append(drawing.overview())
        return "\n".join(parts)

    def log_of(self, bundle, shown):
        """The decoded bundle and the two sides of each race, for turns, locks and pictures; None for each if it is another file by now."""
        try:
            log = bundles.read_log(read_bytes(bundle.path))
            if log.counts() != tuple(bundle.line.counts):
                raise bundles.NotAsExpected("other counts")
            return log, [log.sides(race) for race in shown]
        except (OSError, bundles.NotAsExpected):
            return None, [None] * len(shown)


class Drawing:
    """The pictures of one bundle. What several races draw alike stands once, under a name."""

    def __init__(self, page, log):
        self.page, self.log = page, log
        self.is_first = not page.drawn
        self.whole = Graph(log)
        self.graphs = {}  # (name, graph) by what is kept and how it is cut
        self.fitting = {}  # and by what is kept and the room for it

    def graph_for(self, first, second, room):
        """The graph that shows both segments within this width: the whole one, or what leads to the two."""
        keep = None if self.whole.is_within(room) else self.log.above(*first) | self.log.above(*second)
        key = (frozenset(keep.items()), room) if keep else None
        if key not in self.fitting:
            cut = cut_within(self.log, keep, room) if keep else None
            self.fitting[key] = self.named((key and key[0], cut), lambda: Graph(self.log, keep, cut) if keep else self.whole)
        return self.fitting[key]

    def named(self, key, make):
        if key not in self.graphs:
            self.page.drawn += 1
            self.graphs[key] = (f"g{self.page.drawn}", make())
        return self.graphs[key]

    def store(self):
        """The drawings under their names; it has to be asked for last."""
        inner = "".join(f'<g id="{name}">{graph.shapes()}</g>' for name, graph in self.graphs.values()) + cell_grid() * self.is_first
        return f'<svg class="store" aria-hidden="true"><defs>{inner}</defs></svg>'

    def race(self, race, first, second):
        """The graph with both segments marked, and the one for a phone if it is another."""
        here, there = (*race.first[:2], first.segment), (*race.second[:2], second.segment)
        wide, narrow = (self.graph_for(here, there, room) for room in (WIDE, NARROW))
        if wide is narrow:
            return graph_html("", wide, here, there)
        return graph_html(' class="wide"', wide, here, there) + graph_html(' class="narrow"', narrow, here, there)

    def overview(self):
        """The whole graph, if it is not under each race."""
        graph, only = self.whole, ""
        if graph.is_within(NARROW):
            return ""
        title = f"The whole graph: {counted(len(graph.rows), 'member')}, {counted(len(graph.places), 'segment')}"
        picture = graph.whole(title)
        if graph.is_within(WIDE):
            only, picture = ' class="narrow"', graph.used(title, self.fitting[None][0])
        return f'<details{only}><summary>{title}</summary><div class="box whole">{picture}</div></details>'


def graph_html(only, named, first, second):
    name, graph = named
    title = f"Graph of the run with segments {segment_text(first)} and {segment_text(second)} marked"
    caption = "No path leads from one marked segment to the other."
    if graph.left_out:
        caption += f" {counted(graph.left_out, 'other member')} left out."
    if graph.has_more:
        caption += " Dotted: more segments or teams."
    picture = graph.marked(title, first, second, name)
    return f'<figure{only}><div class="box">{picture}</div><figcaption>{caption}</figcaption></figure>'


def cut_html(bundle):
    """That chunks are cut, if some are."""
    return f"{bundles.cut_text(*bundle.cut)}: only what was logged is judged. " if bundle.cut else ""


def race_title(race):
    return f"byte <code>{race.witness:08x}</code>, sites {race.first_site} and {race.second_site}"


def name_text(name):
    return ".".join(map(str, name))


def segment_text(key):
    return f"{key[2]} of member {key[0]}.{key[1]}"


def race_html(race, sides, drawing):
    """One race: the two accesses side by side, and, if its sides are known, their loop turns and the pictures."""
    parts = [f"<p>Both touch byte <code>{race.witness:08x}</code>, the lowest that they share, and nothing orders them.</p>"]
    rows = [("Site", f"<b>{race.first_site}</b>", f"<b>{race.second_site}</b>")]
    if sides:
        parts.append(f"<p>{sentence(bundles.turns_text(sides))}</p>")
        rows.append(("Turn", *map(turn_html, sides)))
    rows.append(("Access", name_text(race.first), name_text(race.second)))
    if sides:
        keys, accesses = (race.first, race.second), [s.access for s in sides]
        rows += [
            ("Does", *(a.kind for a in accesses)),
            ("Segment", *(f"team {k[0]}, member {k[1]}, segment {a.segment}" for k, a in zip(keys, accesses))),
            ("Bytes", *(f"<code>{a.range.text()}</code>" for a in accesses)),
            ("Locks", *map(bundles.locks_text, sides)),
        ]
    head = '<tr><th></th><th class="one">1st access</th><th class="two">2nd access</th></tr>'
    body = "".join(f"<tr><th>{a}</th><td>{b}</td><td>{c}</td></tr>" for a, b, c in rows)
    parts.append(f'<table class="accesses">{head}{body}</table>')
    if sides:
        parts.append(f'<div class="pictures">{bytes_html(race, *accesses)}{drawing.race(race, *accesses)}</div>')
    return "\n".join(parts)


def sentence(words):
    return f"{words[0].upper()}{words[1:]}."


def turn_html(side):
    """The turn among those of its access."""
    last = side.access.range.count - 1
    return f"<b>{side.turn}</b> of 0 to {last}" if last else f"<b>{side.turn}</b>, the only one"


def bytes_html(race, first, second):
    title = f"The bytes of both accesses around byte {race.witness:08x}"
    picture, whole = bytes_picture(title, first.range, second.range, race.witness)
    more = "" if whole else " A range goes on at a side."
    return (
        f'<figure><div class="box">{picture}</div><figcaption>Bytes touched are filled, those of the turn in a'
        f" stronger colour; a bar starts an element.{more}</figcaption></figure>"
    )


# ------------------------------------------------------------------- refusals


def refusal(bundle):
    if bundle.line.refusal is None:
        return f"<p>{sentence(('it could not be read: ' if bundle.present else '') + text(bundle.reason or 'no reason known'))}</p>"
    number, place = bundle.line.refusal
    try:
        data = read_bytes(bundle.path)
        length = os.stat(bundle.path).st_size
    except OSError:
        data, length = None, None
    wrong, advice = in_words(number, place, length)
    said = f"<p>{text(wrong)} {text(advice)}</p>\n<p class=\"soft\">Refusal {number} at byte {place:,}"
    said += f" of {length:,}.</p>" if length is not None else ".</p>"
    if not data:
        return said
    if place > len(data):
        return said + '\n<p class="soft">The file is no longer the one that was judged.</p>'
    return f"{said}\n{dump(data, place)}"


def dump(data, place, rows=3):
    """The bytes around a place, eight to a line, the place marked. At the end of the log the mark is after the last byte."""
    start = max(0, place // 8 * 8 - 8 * rows)
    stop = min(len(data), place // 8 * 8 + 8 * (rows + 1))
    lines = []
    for at in range(start, max(stop, place + 1), 8):
        cells = [f"{data[k]:02x}" if k < stop else "  " for k in range(at, at + 8)]
        if at <= place < at + 8:
            k = place - at
            cells[k] = f"<mark>{cells[k] if place < len(data) else '▮ end'}</mark>"
        lines.append(f"{at:8,}  {' '.join(cells)}".rstrip())
    more = [f"{'…':>8}"] if start else []
    tail = [f"{'…':>8}"] if stop < len(data) else []
    return "<pre>" + "\n".join(more + lines + tail) + "</pre>"


# ----------------------------------------------------------------- small parts


def read_bytes(path):
    with open_file(path) as file:
        return file.read(bundles.MOST_BYTES + 1)


def has_section(build):
    return bool(build.reason or build.not_free())


def in_order(build):
    """The bundles of a build that are not race-free, as the page has them: those with races first."""
    order = {"race": 0, "refused": 1}
    return sorted(build.not_free(), key=lambda b: order.get(b.line.word if b.line else None, 2))


def one_line(bundle):
    name = f'<span class="name">{text(bundle.shown_name())}</span>'
    line = bundle.line
    if line is None or line.word == "refused":
        why = f"refusal {line.refusal[0]} at {line.refusal[1]}" if line and line.refusal else text(bundle.reason or "not judged")
        return f"{name}: {word_html('refused')}, {why}"
    return f"{name}: {word_html('race')}, {counted(line.pairs, 'race')}, the least at {race_title(line.least)}"


def made_at():
    return time.strftime("Made %Y-%m-%d %H:%M UTC.", time.gmtime(clock(time.time())))
