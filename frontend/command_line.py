"""The command line: which words there are, and the exit status.

0: everything is race-free (check: accepted); 1: something is not; 2: the job could not be done, for whatever reason.
"""

import argparse
import os
import signal
import sys
import threading

from frontend import VERSION, outputs
from frontend.failures import CannotDo, Stopped, reason_of
from frontend.names import readable

ROOT = os.path.dirname(os.path.dirname(os.path.abspath(__file__)))
PROGRAMS = "DEZHAKOM_PROGRAMS"

DESCRIPTION = """\
Dezhakom reads the logs of OpenMP runs ("bundles") and says whether a run had a data race. The words come from proved
programs; this front end walks the tray, runs them, and writes the spreadsheet and a page."""

STATUSES = """\
exit status:
  0  every build is race-free (list: the bundle is race-free; check, show, graph, canon: it is accepted;
     convert: it is accepted and was converted; rows: it is accepted, and with --check the rows are its own;
     tray --part: the part was written, whatever its words)
  1  some build or bundle is not
  2  the job could not be done, or was stopped: there is no verdict, and no file was changed"""

TRAY = """\
Judges every build of a tray and writes one word beside each.

TRAY holds a folder for each build, and each folder one file for each bundle. Names that begin with a dot are left out. Every
other entry of a build's folder is a bundle, but a file MANIFEST: a folder, a pipe or a device there is a bundle that cannot be read
(refused), since a log that was not judged must not pass. Folders inside a build's folder are not searched. An entry of the tray that
is not a folder is reported and not judged.

The words:
  race-free  there is at least one bundle, and every one was judged and has no race
  race       some bundle has a race
  refused    none has, but some bundle is torn, damaged, not as announced or could not be read
  missing    there is no bundle: no folder of this name, or an empty one

The word of a build with cut chunks, logs of runs that were stopped, is on what was logged. A note tells which bundles have them.
How many bundles a build should have is read from the sheet's column 'bundles', and from the file MANIFEST in its folder, as
'sha256sum *.bundle' prints it.

With --strict more is refused and noted:
  - names that begin with a dot (an unfinished transfer looks so) and links that lead out of the tray are bundles that cannot be read;
  - the tray and the sheet are listed again just before the files are written: a build that changed by then is judged again, and
    refused if it goes on changing;
  - a tray in which no build of the sheet has a folder is not judged, and nothing is written;
  - notes say of which builds the number of bundles was not announced, and which bundles have no accesses.

A folder without a row is judged and reported, and counts for the exit status. A bundle whose worker dies, is killed, hangs
or prints nonsense is refused, with the reason; the other bundles are judged all the same."""

SHEET = """\
the sheet:
  CSV with a first row that names the columns; commas, semicolons or tabs; UTF-8. All cells, quotes and line ends are kept.
  The word goes into the column 'verdict', which is added last if there is none. Rows without a build's name get no word.

examples:
  ./dezhakom tray TRAY --sheet builds.csv --out verdicts.csv --page report.html
  ./dezhakom tray TRAY --sheet builds.csv --part 3/10 --out parts/3      on one of ten machines, then
  ./dezhakom join parts/* --sheet builds.csv --out verdicts.csv --page report.html

Files are written whole and last: a job that is stopped leaves the old ones as they were."""

JOIN = """\
Joins the parts that 'tray --part K/N' wrote, and writes the sheet and the page: the same bytes as one run over the whole tray.

All parts from 1 to N have to be there, each once, and made with this sheet, by this version. The tray is listed again: a build that
is no longer as its part saw it is judged again here, so that an old part gives no old word."""


CANON = """\
example (are these two the same run?):
  ./dezhakom canon ONE --out one.fixed && ./dezhakom canon OTHER --out other.fixed && cmp one.fixed other.fixed"""

CONVERT = """\
Writes an accepted bundle with all of its accesses in one group: narrow, with sites up to 65,535 in 2 bytes, or wide, with sites in
4 bytes. The rest is copied, and the verdict stays the same. A bundle that is in that group already, or has no accesses, is copied.

It is refused with 1 if it would have over 65,536 bytes with wide sites, and with 21 if a site does not fit into a narrow command."""


ROWS = """\
Writes SWORD's interval rows of an accepted bundle as CSV: a line for each barrier interval of each member's log, by team, member and
interval. The first line names the columns:
  pid, ppid         the team, and the team that forked it (0 for the root)
  bid               the interval: how many barriers the member has passed
  offset, span      of the last triple of the label at the interval's start
  level             how many forks lead from the root to the team
  data begin, size  where its data begins in the bundle and how many bytes it has: after MEMBER or BARRIER, through the next BARRIER,
                    END or CUT

With --check nothing is written: it says whether the rows of a CSV file are those of the bundle, and if not, the first record, from
0, that is missing, extra or differs, with its line. The file may have its columns in any order, commas, semicolons or tabs, and quotes."""


def jobs_of(text):
    number = int(text)
    if not 1 <= number <= 1024:
        raise ValueError
    return number


jobs_of.__name__ = "number from 1 to 1024"


def seconds_of(text):
    seconds = float(text)
    if not 0 < seconds < 1e6:
        raise ValueError
    return seconds


seconds_of.__name__ = "number of seconds"


def part_of(text):
    part, parts = map(int, text.split("/"))
    if not 1 <= part <= parts <= 100_000:
        raise ValueError
    return part, parts


part_of.__name__ = "part K/N, K from 1 to N and N at most 100,000"


def hidden_name(text):
    if not text.startswith(".") or "/" in text or text in (".", ".."):
        raise ValueError
    return os.fsencode(text)


hidden_name.__name__ = "name that begins with a dot"


def cores():
    try:
        return len(os.sched_getaffinity(0))
    except AttributeError:
        return os.cpu_count() or 1


def parser():
    top = argparse.ArgumentParser(
        prog="dezhakom", description=DESCRIPTION, epilog=STATUSES, formatter_class=argparse.RawDescriptionHelpFormatter,
        allow_abbrev=False,
    )
    top.add_argument("--version", action="version", version=f"dezhakom {VERSION}")
    commands = top.add_subparsers(dest="command", metavar="COMMAND", required=True)

    def add(name, short, description, epilog=STATUSES):
        made = commands.add_parser(
            name, help=short, description=description, epilog=epilog, allow_abbrev=False,
            formatter_class=argparse.RawDescriptionHelpFormatter,
        )
        made.add_argument(
            "--programs", metavar="DIR", default=os.environ.get(PROGRAMS) or os.path.join(ROOT, "target", "bin"),
            help=f"folder of the proved programs (default: {PROGRAMS}, else target/bin beside this script)",
        )
        made.add_argument(
            "--timeout", type=seconds_of, default=60, metavar="SECONDS", help="for one bundle, until its worker is ended (60)"
        )
        return made

    tray = add("tray", "judge all builds of a tray", TRAY, SHEET + "\n\n" + STATUSES)
    tray.add_argument("tray", metavar="TRAY", help="a folder with a folder for each build")
    tray.add_argument("--column", default="build", metavar="NAME", help="the column of builds (build), in any case")
    tray.add_argument(
        "--count-column", metavar="NAME", help="the column that says how many bundles a build has (bundles, if there is one)"
    )
    tray.add_argument("--strict", action="store_true", help="refuse and note more, as said above")
    tray.add_argument(
        "--ignore", type=hidden_name, action="append", default=[], metavar=".NAME",
        help="with --strict: leave entries of this name, as .DS_Store, out of the builds; may be given more than once",
    )
    tray.add_argument("--follow-links", action="store_true", help="with --strict: take links that lead out of the tray")
    tray.add_argument("--part", type=part_of, metavar="K/N", help="judge one of N parts of the tray, and write it to --out")
    join = add("join", "join the parts of a tray that several machines judged", JOIN)
    join.add_argument("parts", nargs="+", metavar="PART", help="the files that 'tray --part K/N --out PART' wrote")
    join.add_argument("--tray", metavar="DIR", help="where the tray is on this machine (default: as the parts say)")
    for made in (tray, join):
        made.add_argument("--sheet", metavar="CSV", help="the builds that hope to go out; without it, the folders are the builds")
        made.add_argument("--out", metavar="CSV", help="the sheet with the words; it may be the file of --sheet, or - for standard output")
        made.add_argument("--page", metavar="HTML", help="a page with the words, the refusals and the races")
        made.add_argument("--verdict-column", default="verdict", metavar="NAME", help="the column of words (verdict)")
        made.add_argument("--remark-column", metavar="NAME", help="a column for one line on each build, as '13 bundles, 1 with cut chunks'")
        made.add_argument("--allow-empty", action="store_true", help="with --strict: write 'missing' even if no build of the sheet has a folder")
        made.add_argument("--jobs", type=jobs_of, default=cores(), metavar="N", help="programs at a time (as many as cores)")
        made.add_argument("--quiet", action="store_true", help="no progress and no lines for builds that are race-free")

    one = "FILE, '-' for standard input"
    listing = add("list", "list the races of a bundle", "Prints exactly what the proved program racelist prints of a bundle.")
    check = add("check", "say whether a bundle is whole", "Prints 'accepted' and the counts, or the refusal in plain words.")
    show = add(
        "show", "print the commands of a bundle, and its races with their loop turns",
        "Prints each command with its offset, and below them the races with their loop turns, the first 200 of them, or race-free;\n"
        "of a refused bundle the commands before the place of the refusal, and the refusal. A turn is the number, from 0, of the\n"
        "lowest element of an access that holds the byte of the race.",
    )
    graph = add(
        "graph", "print the fork-join graph of a bundle", "Prints the segments and the edges of the graph of an accepted bundle."
    )
    canon = add(
        "canon", "write a bundle with its chunks in the fixed order",
        "Writes an accepted bundle with its chunks by team, then member: two bundles come out as equal bytes exactly when they hold the same chunks.",
        CANON + "\n\n" + STATUSES,
    )
    convert = add("convert", "write a bundle with wide or with narrow sites", CONVERT)
    convert.add_argument("--to", required=True, choices=("wide", "narrow"), help="which sites the result has")
    rows = add("rows", "write the interval rows of a bundle, or check given ones", ROWS)
    form = rows.add_mutually_exclusive_group()
    form.add_argument("--out", metavar="CSV", help="the file to write, whole and last (default: standard output)")
    form.add_argument("--check", metavar="ROWS", help="a CSV file of rows, which are compared with those of the bundle")
    for made in (canon, convert):
        made.add_argument("--out", metavar="OUT", help="the file to write, whole and last (default: standard output)")
    for made in (listing, check, show, graph, canon, convert, rows):
        made.add_argument("file", metavar="FILE", help=one)
    form = graph.add_mutually_exclusive_group()
    form.add_argument("--svg", metavar="OUT", help="write a picture instead")
    form.add_argument("--dot", action="store_true", help="print it for Graphviz instead")
    return top


def command_of(options):
    """The function for a command; only its modules are loaded."""
    if options.command == "tray":
        from frontend.job import judge_tray

        return judge_tray
    if options.command == "join":
        from frontend.parts import join_parts

        return join_parts
    if options.command == "rows":
        from frontend.rows import rows_file

        return rows_file
    from frontend import single

    return {
        "list": single.list_file,
        "check": single.check_file,
        "show": single.show_file,
        "graph": single.graph_file,
        "canon": single.canon_file,
        "convert": single.convert_file,
    }[options.command]


def stop_on_signals(stop):
    """Ctrl-C, SIGTERM and SIGHUP end the job in good order."""

    def stopped(number, frame):
        stop.set()
        raise Stopped(signal.Signals(number).name)

    for number in (signal.SIGINT, signal.SIGTERM, signal.SIGHUP):
        if signal.getsignal(number) != signal.SIG_IGN:  # as nohup asks for
            signal.signal(number, stopped)


def say(message):
    try:
        sys.stderr.write(f"dezhakom: {message}\n")
        sys.stderr.flush()
    except (OSError, ValueError):
        pass


def status_of(arguments):
    stop = threading.Event()
    try:
        stop_on_signals(stop)
        options = parser().parse_args(arguments)
        options.stop = stop
        status = command_of(options)(options)
        sys.stdout.flush()
        return status
    except SystemExit as wanted:  # by argparse: --help or a wrong option
        return wanted.code if wanted.code in (0, 2) else 2
    except BrokenPipeError:
        return 2  # whoever read the output has read enough
    except CannotDo as problem:
        say(readable(str(problem)))
    except (Stopped, KeyboardInterrupt):
        say("stopped; no file was changed")
    except OSError as error:
        # Files are opened by name; what fails without one is standard output. The proved programs have no status that says so.
        where = readable(str(error.filename)) if error.filename else "the output cannot be written"
        say(f"{where}: {reason_of(error)}")
    except BaseException as error:  # whatever it is, it is not a verdict
        say(f"unexpected: {type(error).__name__}: {readable(str(error))}; this is a fault of the front end")
    return 2


def open_closed_streams():
    """Standard streams that the caller closed lead nowhere, so that no file of ours gets their numbers."""
    outputs.closed_output = sys.stdout is None
    while (handle := os.open(os.devnull, os.O_RDWR)) <= 2:
        pass
    os.close(handle)
    sys.stdin = sys.stdin or open(0)
    sys.stdout = sys.stdout or open(1, "w")
    sys.stderr = sys.stderr or open(2, "w")
    for stream in (sys.stdout, sys.stderr):
        stream.reconfigure(errors="backslashreplace")


def run(arguments):
    """Ends the process with the status; nothing that happens after it can change the status."""
    status = 2
    try:
        open_closed_streams()
        status = status_of(arguments)
        sys.stdout.flush()
    except BaseException:  # what could be said was said
        status = 2
    finally:
        os._exit(status)
