"""The commands for one bundle: list, check, show, graph, canon, convert. Whether it is accepted, and its races, come from a proved program."""

import html
import os
import sys

from frontend import bundles
from frontend.failures import CannotDo, reason_of
from frontend.names import counted, readable, shell_name
from frontend.programs import COUNTS_LINE, REFUSED_LINE, Failed, Programs, end
from frontend.refusals import converting_in_words, in_words


def read_input(name):
    """The bytes of a bundle; of one that is too long, no more than shows it."""
    try:
        if name == "-":
            return sys.stdin.buffer.read(bundles.MOST_BYTES + 1)
        with open(name, "rb") as file:
            return file.read(bundles.MOST_BYTES + 1)
    except OSError as error:
        raise CannotDo(f"{readable(name)} cannot be read: {reason_of(error)}") from error


def programs_of(options, name="racelist"):
    programs = Programs(options.programs, options.timeout, options.stop)
    programs.demand(name)
    return programs


def list_file(options):
    """Hands racelist's output on as it comes. Its last line decides the status."""
    programs = programs_of(options)
    data = read_input(options.file)
    last = None
    process = programs.start("racelist", data)
    try:
        for last in programs.lines(process):
            sys.stdout.buffer.write(last + b"\n")
    except Failed as failure:
        sys.stdout.buffer.flush()
        raise CannotDo(f"no verdict: {failure}") from failure
    finally:
        end(process)
    sys.stdout.buffer.flush()
    if last == b"race-free":
        return 0
    if last is None or not (last.startswith(b"pairs ") or REFUSED_LINE.fullmatch(last)):
        raise CannotDo("no verdict: the output of racelist is not whole")
    return 1


def verdict_of(options, data):
    """(counts, None) of an accepted bundle, (None, (number, place)) of a refused one."""
    programs = programs_of(options)
    lines = []
    process = programs.start("racelist", data)
    try:
        for line in programs.lines(process):
            lines.append(line)
            if len(lines) == 2:
                break
    except Failed as failure:
        raise CannotDo(f"no verdict: {failure}") from failure
    finally:
        end(process)
    if lines and (found := REFUSED_LINE.fullmatch(lines[0])):
        return None, tuple(map(int, found.groups()))
    if len(lines) == 2 and (found := COUNTS_LINE.fullmatch(lines[0])):
        return tuple(map(int, found.groups())), None
    raise CannotDo("no verdict: the output of racelist is not whole")


def refusal_text(refusal, data, words=in_words):
    number, place = refusal
    wrong, advice = words(number, place, len(data))
    return f"refused {number} at {place}: {wrong} {advice}"


def check_file(options):
    data = read_input(options.file)
    counts, refusal = verdict_of(options, data)
    if refusal:
        print(refusal_text(refusal, data))
        return 1
    print("accepted chunks {} segments {} accesses {}".format(*counts))
    print_cut(data)
    return 0


def listing_of(options, data):
    """The races of a bundle, or its refusal, by one run of racelist."""
    try:
        return programs_of(options).listing(data, bundles.MOST_RACES)
    except Failed as failure:
        raise CannotDo(f"no verdict: {failure}") from failure


def show_file(options):
    """The commands of a bundle, and below them its races; or those before the place of the refusal, which is below them."""
    data = read_input(options.file)
    listing = listing_of(options, data)
    refusal = listing.refusal
    inside, segment = False, 0
    for command in bundles.commands(data[: bundles.MOST_BYTES]):
        if refusal and command.offset >= refusal[1]:
            break
        note = ""
        if command.code in (bundles.MEMBER, bundles.REGION, bundles.BARRIER):
            segment = 0 if command.code == bundles.MEMBER else segment + 1
            note = f"  -- segment {segment}"
        inside = inside and command.code not in bundles.CLOSES
        print(f"{command.offset:6}  {'  ' if inside else ''}{bundles.command_text(command)}{note}")
        inside = inside or command.code == bundles.MEMBER
    if refusal:
        print(refusal_text(refusal, data))
        if data and refusal[0] != 1:
            print(plain_dump(data, refusal[1]))
        return 1
    print_cut(data)
    print_races(listing, data, options.file)
    return 0


def print_cut(data):
    """How many chunks of an accepted bundle are cut, if any."""
    cut, chunks = bundles.cut_chunks(data)
    if cut:
        print(f"{bundles.cut_text(cut, chunks)}: the verdict is on what was logged")


def print_races(listing, data, name):
    """racelist's line for each of the first races, each with its loop turns; or that there are none."""
    try:
        log = bundles.read_log(data)
    except bundles.NotAsExpected:
        log = None
    for line, race in listing.races:
        print(line + turns_of(log, race))
    if more := listing.pairs - len(listing.races):
        print(f"{counted(more, 'more race')}: ./dezhakom list {shell_name(name)} lists all {listing.pairs:,}")
    if not listing.pairs:
        print("race-free")


def turns_of(log, race):
    """What comes after the line of a race: nothing, if the decoded log does not have the race."""
    try:
        return f": {bundles.turns_text(log.sides(race))}" if log else ""
    except bundles.NotAsExpected:
        return ""


def plain_dump(data, place):
    """The bytes from the place on, in hexadecimal."""
    if place >= len(data):
        return f"{place:6}  (the end of the log)"
    more = " .." if place + 16 < len(data) else ""
    return f"{place:6}  {data[place : place + 16].hex(' ')}{more}"


# ------------------------------------------------------------- canon, convert


def canon_file(options):
    """Writes the bundle with its chunks in the fixed order."""
    return rewrite_file(options, ["canon"], lambda written, data: len(written) == len(data), in_words)


def convert_file(options):
    """Writes the bundle with its accesses in one group."""
    def is_whole(written, data):
        return len(written) == bundles.converted_length(data, options.to)

    return rewrite_file(options, ["convert", options.to], is_whole, converting_in_words)


def rewrite_file(options, command, is_whole, words, is_text=False):
    """Writes what a program and its arguments make of a bundle: to standard output, or whole and last to a file. is_whole says whether
    an output is whole, by the bundle; one that is no text is not written to a terminal."""
    from frontend.outputs import demand_writable

    if options.out:
        demand_writable([options.out])
    elif not is_text and sys.stdout.isatty():
        raise CannotDo("a bundle is no text for a terminal: give --out, or send the output to a file")
    programs = programs_of(options, command[0])
    data = read_input(options.file)
    written, refusal = made_by(programs, command, data, lambda written: is_whole(written, data))
    if refusal:
        sys.stderr.write(refusal_text(refusal, data, words) + "\n")
        return 1
    hand_over(options, written)
    return 0


def made_by(programs, command, given, is_whole, otherwise="nothing was written"):
    """(what a program and its arguments write, None), or (None, the refusal). An output that is not whole is not taken."""
    name, *arguments = command
    try:
        written, said = programs.rewrite(name, given, *arguments)
    except Failed as failure:
        raise CannotDo(f"{otherwise}: {failure}") from failure
    if written and is_whole(written) and not said:
        return written, None
    found = REFUSED_LINE.fullmatch(said.rstrip(b"\n"))
    if written or not found:
        raise CannotDo(f"{otherwise}: the output of {name} is not whole")
    return None, tuple(map(int, found.groups()))


def hand_over(options, written):
    """To the file that was asked for, whole and last, or to standard output."""
    from frontend.outputs import write_all

    if options.out:
        write_all([(options.out, written)])
    else:
        sys.stdout.buffer.write(written)
        sys.stdout.buffer.flush()


# ---------------------------------------------------------------------- graph


def segment_name(key):
    return f"{key[0]}.{key[1]}:{key[2]}"


def graph_file(options):
    data = read_input(options.file)
    counts, refusal = verdict_of(options, data)
    if refusal:
        print(refusal_text(refusal, data))
        return 1
    try:
        log = bundles.read_log(data)
    except bundles.NotAsExpected as problem:
        raise CannotDo(f"the graph cannot be shown: {problem}") from problem
    if options.svg:
        write_picture(options.svg, log, options.file)
    elif options.dot:
        print_dot(log)
    else:
        print_graph(log)
    return 0


def print_graph(log):
    edges = list(log.edges())
    print(f"segments {log.counts()[1]} edges {len(edges)}")
    for (team, member), m in sorted(log.members.items()):
        for number in range(len(m.segments)):
            there = sum(a.segment == number for a in m.accesses)
            print(f"segment {team}.{member}:{number} {counted(there, 'access', 'accesses')}")
    for here, after, word in edges:
        print(f"edge {segment_name(here)} {segment_name(after)} {word}")


def print_dot(log):
    print("digraph bundle {\n  rankdir=LR;\n  node [shape=box];")
    for (team, member), m in sorted(log.members.items()):
        names = "; ".join(f'"{team}.{member}:{n}"' for n in range(len(m.segments)))
        print(f'  subgraph "{team}.{member}" {{ {names}; }}')
    for here, after, word in log.edges():
        dashed = ", style=dashed" if word.startswith("missing") else ""
        print(f'  "{segment_name(here)}" -> "{segment_name(after)}" [label="{word}"{dashed}];')
    print("}")


def write_picture(path, log, name):
    from frontend.outputs import demand_writable, write_all
    from frontend.pictures import Graph

    demand_writable([path])
    graph = Graph(log)
    style = (
        "<style>svg{background:#fff}text{font:10px monospace;fill:#1b1f24}.n text{text-anchor:middle}path{fill:none;stroke:#6e7781}"
        "path.w{stroke-dasharray:2 3}path.d{stroke-dasharray:5 3}path.z{stroke:#a40e26;stroke-width:2}"
        "path.b{stroke:#1b1f24;stroke-width:2.5}path.e{fill:#fff}path.f{fill:#dbe4ee}</style>"
    )
    title = html.escape(f"The fork-join graph of {readable(os.path.basename(name))}")
    picture = graph.svg(title, style + graph.labels() + graph.shapes())
    write_all([(path, picture.encode("utf-8", "backslashreplace"))])
