"""The example lines of README.md and docs/TRAY.md: what they are, and running them.

An indented block is commands, each a line that begins with "$ ", and below each the lines that it prints. In README.md every indented
block is of that kind; in docs/TRAY.md blocks that do not begin so are left alone.
"""

import os
import re
import subprocess
import tempfile
from collections import namedtuple
from pathlib import Path

import second_reader as sr

ROOT = Path(__file__).resolve().parent.parent
README = ROOT / "README.md"
TRAY = "docs/TRAY.md"
FORMAT = "docs/FORMAT.md"
LIBRARY = "docs/LIBRARY.md"
PROGRAM = "target/bin/racelist"

# The tests themselves: it is only looked whether they are there.
NOT_RUN = (".ci/run",)
BUILDING = re.compile(r"tools/build_programs && ")  # in front of a command; its own lines are not in the README

QUOTED = {"c": "examples/judge.c", "rust": "bindings/rust/examples/judge.rs"}  # in LIBRARY, by the fence's language

Example = namedtuple("Example", "command wanted")


class Wrong(Exception):
    pass


def want(title, got, wanted):
    if got != wanted:
        raise Wrong(f"README.md: {title}: got {got!r}, wanted {wanted!r}")


def readme():
    return README.read_text(encoding="utf-8")


# ------------------------------------------------------- commands and output


def examples(text):
    """All examples. Every indented line is a command or stands below one; what stands between fences (```) is none."""
    found = []
    text = re.sub(r"^```.*?^```$", "", text, flags=re.MULTILINE | re.DOTALL)
    for block in re.findall(r"(?:^    .*\n)+", text, re.MULTILINE):
        for line in block.splitlines():
            if line.startswith("    $ "):
                found.append(Example(line[6:], []))
            elif block.startswith("    $ "):
                found[-1].wanted.append(line[4:])
            else:
                raise Wrong(f"README.md: no command above {line!r}")
    return found


def run_examples(programs):
    """Runs the examples with these programs, by name; without judge_build those of the front end are left out. Answers how many
    were run."""
    count = 0
    with tempfile.TemporaryDirectory() as folder:
        for name, path in programs.items():
            (Path(folder) / name).symlink_to(Path(path).absolute())
        for example in examples(readme()):
            command = BUILDING.sub("", example.command)
            if command in NOT_RUN or ("judge_build" not in programs and PROGRAM not in command):
                continue
            given = run(command.replace(PROGRAM, str(programs["racelist"])), folder)
            want(example.command, given, example.wanted)
            count += 1
    return count


def run(command, programs):
    """The lines that it prints, in the folder of the README. The front end's status is 1 where something is not race-free."""
    (ROOT / "target").mkdir(exist_ok=True)
    given = dict(os.environ, DEZHAKOM_PROGRAMS=programs)
    done = subprocess.run(["sh", "-c", command], cwd=ROOT, env=given, capture_output=True, text=True)
    if done.returncode not in (0, 1) or done.stderr:
        raise Wrong(f"README.md: {command}: status {done.returncode}: {done.stderr}")
    return done.stdout.splitlines()


# ------------------------------------------------------------------- tables


def table(text, heading):
    """The rows below a heading of a table, as lists of cells."""
    start = text.index(heading)
    lines = text[start:].splitlines()[2:]
    rows = []
    for line in lines:
        if not line.startswith("|"):
            return rows
        rows.append([cell.strip() for cell in line.strip("|").split("|")])
    return rows


def form_pattern(form):
    """A form of a line: a word in capitals stands for a number, W for eight hexadecimal digits."""
    pattern = re.sub(r"\b[A-Z]+\b", lambda word: r"[0-9a-f]{8}" if word[0] == "W" else r"(0|[1-9][0-9]*)", form.replace(".", r"\."))
    return re.compile(pattern)


def check_forms(text, listings):
    """Each printed line has exactly one of the forms in the table, and each form is met."""
    forms = [row[0].strip("`") for row in table(text, "| Line |")]
    met = set()
    for line in {line for listing in listings for line in listing}:
        fitting = [form for form in forms if form_pattern(form).fullmatch(line)]
        want(f"forms of {line!r}", len(fitting), 1)
        met.update(fitting)
    want("forms that are met", sorted(met), sorted(forms))


def check_refusals(text, refused):
    """One table has a row for each number that racelist prints, the next for each of the others."""
    want("rows of refusals", [row[0] for row in table(text, "| N | What")], [str(number) for number in (*range(1, 13), 19, 20)])
    want("rows of others", [row[0] for row in table(text, "| N | Operation")], [str(number) for number in (*range(13, 19), 21, 22, 23)])
    for line in re.findall(r"`(refused \d+ at \d+)`", text):
        want(f"{line} comes from an example", line in refused, True)


def check_paths(text):
    """What is named by its path is there."""
    for words in re.findall(r"`((?:tests|bench|docs|crates|examples|bindings|include|frontend|\.ci)/[^`]*)`", text) + [e.command for e in examples(text)]:
        path = BUILDING.sub("", words).split()[0]
        if "/" in path and not path.startswith("target/"):
            want(f"{path} is there", bool(list(ROOT.glob(path))), True)


def check_limits(text):
    """Numbers of the text that the second reader has too."""
    for number in (sr.MOST_BYTES, sr.MOST_SEGMENTS, sr.MOST_ACCESSES):
        want(f"{number:,} is told", f"{number:,}" in text, True)
    want("depth", f"more than {sr.MOST_DEPTH} deep" in text, True)


# -------------------------------------------------------------- other pages


def want_in(name, title, got, wanted):
    if got != wanted:
        raise Wrong(f"{name}: {title}: got {got!r}, wanted {wanted!r}")


def document(name):
    return (ROOT / name).read_text(encoding="utf-8")


def blocks(text):
    """The indented blocks, each as its lines without the indent; what is between fences (```) is none."""
    text = re.sub(r"^```.*?^```$", "", text, flags=re.MULTILINE | re.DOTALL)
    return [[line[4:] for line in block.splitlines()] for block in re.findall(r"(?:^    .*\n)+", text, re.MULTILINE)]


def page_examples(name):
    found = []
    for block in blocks(document(name)):
        for line in block if block[0].startswith("$ ") else ():
            if line.startswith("$ "):
                found.append(Example(line[2:], []))
            else:
                found[-1].wanted.append(line)
    return found


def run_page_examples(name, programs):
    """The same of another page; its examples need all programs."""
    found = page_examples(name)
    with tempfile.TemporaryDirectory() as folder:
        for program, path in programs.items():
            (Path(folder) / program).symlink_to(Path(path).absolute())
        for example in found:
            want_in(name, example.command, run(example.command.replace(PROGRAM, str(programs["racelist"])), folder), example.wanted)
    return len(found)


def check_page_refusals(name):
    """A refusal that the page names is printed by an example, of the page or of README."""
    printed = {line for example in [*examples(readme()), *page_examples(name)] for line in example.wanted}
    for line in re.findall(r"`(refused \d+ at \d+)`", document(name)):
        want_in(name, f"{line} comes from an example", any(text.endswith(line) for text in printed), True)


def check_page_paths(name):
    """What is named by its path is there."""
    named = re.findall(r"`((?:tests|bench|docs|crates|examples|bindings|include|frontend|tools|\.ci)/[^`]*)`", document(name))
    for words in named + [example.command for example in page_examples(name)]:
        path = words.split()[0]
        if "/" in path and not path.startswith("target/"):
            want_in(name, f"{path} is there", bool(list(ROOT.glob(path))), True)


def check_format():
    """FORMAT's rows of refusals, its forms of lines, its example (bytes, listing and rows), and the numbers of the limits."""
    text = document(FORMAT)
    want_in(FORMAT, "rows of refusals", [row[0] for row in table(text, "| Number | Cause")], [str(number) for number in range(1, 24)])
    want_in(FORMAT, "forms of lines", [row[0] for row in table(text, "| Line |")], [row[0] for row in table(readme(), "| Line |")])
    found = blocks(text)
    data = (ROOT / "examples/e.bundle").read_bytes()
    bytes_given = [bytes.fromhex(" ".join(block)) for block in found if block[0].startswith("01 ")]
    want_in(FORMAT, "the example's bytes", bytes_given, [data])
    want_in(FORMAT, "the example's listing", [block for block in found if block[0].startswith("chunks ")], [sr.racelist_lines(data)])
    rows = [block for block in found if block[0].startswith("pid,")]
    want_in(FORMAT, "the example's rows", rows, [sr.interval_rows([], data)[0].decode().splitlines()])
    for number in (sr.MOST_BYTES, sr.MOST_SEGMENTS, sr.MOST_ACCESSES):
        want_in(FORMAT, f"{number:,} is named", f"{number:,}" in text, True)
    want_in(FORMAT, "depth", f"at most {sr.MOST_DEPTH} deep" in text, True)


def check_quotes():
    """LIBRARY has the example programs as they are."""
    fences = dict(re.findall(r"^```(\w+)\n(.*?)^```$", document(LIBRARY), re.MULTILINE | re.DOTALL))
    for language, path in QUOTED.items():
        want_in(LIBRARY, path, fences.get(language), document(path))
