"""What the tests of the front end share: trays in a temporary folder, running ./dezhakom, programs that fail on purpose."""

import csv
import io
import os
import shutil
import subprocess
import sys
import tempfile
import unittest
from collections import namedtuple
from pathlib import Path

ROOT = Path(__file__).resolve().parent.parent
SCRIPT = ROOT / "dezhakom"
NEEDED = ("judge_build", "racelist", "canon", "convert", "interval_rows")
EXAMPLE = (ROOT / "examples" / "e.bundle").read_bytes()  # a race
LATE = (ROOT / "examples" / "late.bundle").read_bytes()  # race-free
TORN = EXAMPLE[:40]  # refused 3 at 31

programs = ROOT / "target" / "bin"

Ended = namedtuple("Ended", "status out err")


def use_programs(folder):
    global programs
    programs = Path(folder).resolve()


def lacking_programs():
    return [str(programs / name) for name in NEEDED if not os.access(programs / name, os.X_OK)]


def flat(suite):
    for test in suite:
        if isinstance(test, unittest.TestSuite):
            yield from flat(test)
        else:
            yield test


class Case(unittest.TestCase):
    """A test with a folder of its own, in it a tray."""

    def setUp(self):
        self.folder = Path(tempfile.mkdtemp(prefix="front-end-"))
        self.addCleanup(shutil.rmtree, self.folder, ignore_errors=True)
        self.tray = self.folder / "tray"
        self.tray.mkdir()
        self.sheet, self.out, self.page = (self.folder / name for name in ("builds.csv", "verdicts.csv", "report.html"))

    def put(self, build, **bundles):
        """A build's folder with these bundles; names are given with _ for what Python cannot have in a name, or by put_file."""
        folder = self.tray / build
        folder.mkdir(exist_ok=True)
        for name, data in bundles.items():
            (folder / name).write_bytes(data)
        return folder

    def run_command(self, *arguments, programs_at=None, **more):
        """Runs ./dezhakom; answers its status and what it printed."""
        environment = {**os.environ, "DEZHAKOM_PROGRAMS": str(programs_at or programs), **more.pop("env", {})}
        more.setdefault("stdin", subprocess.DEVNULL) if "input" not in more else None
        streams = {"stdout": subprocess.PIPE, "stderr": subprocess.PIPE} | more
        ended = subprocess.run([sys.executable, SCRIPT, *arguments], env=environment, timeout=120, cwd=self.folder, **streams)
        return Ended(ended.returncode, (ended.stdout or b"").decode(errors="replace"), ended.stderr.decode(errors="replace"))

    def judge(self, *more, sheet=None, status=None, **others):
        """Runs the whole job with a sheet, a result and a page; answers what ended, and keeps no older files."""
        if sheet is not None:
            self.sheet.write_bytes(sheet if isinstance(sheet, bytes) else sheet.encode())
        arguments = ["tray", self.tray, "--sheet", self.sheet, "--out", self.out, "--page", self.page, *more]
        ended = self.run_command(*arguments, **others)
        if status is not None:
            self.assertEqual(ended.status, status, ended)
        return ended

    def words(self, column="verdict", separator=","):
        """{build: word} of the result."""
        text = self.out.read_bytes().decode("utf-8-sig", "surrogateescape")
        rows = list(csv.reader(io.StringIO(text, newline=""), delimiter=separator))
        place = rows[0].index(column)
        return {row[0]: row[place] for row in rows[1:] if row and row[0]}

    def page_text(self):
        return self.page.read_text(encoding="utf-8")

    def leftovers(self):
        """Temporary files that were left."""
        return [p.name for p in self.folder.iterdir() if p.name.startswith(".")]

    # ------------------------------------------------- programs that fail

    def faulty_programs(self, body):
        """Programs of which judge_build is this Python text over the names; real(names) gives the lines of the real one."""
        folder = self.folder / "programs"
        folder.mkdir(exist_ok=True)
        (folder / "racelist").unlink(missing_ok=True)
        (folder / "racelist").symlink_to(programs / "racelist")
        (folder / "judge_build").write_text(FAULTY.format(real=str(programs / "judge_build"), python=sys.executable) + body)
        (folder / "judge_build").chmod(0o755)
        return folder


FAULTY = """\
#!{python}
import os, signal, subprocess, sys, time

def real(names):
    given = b"".join(n + b"\\0" for n in names)
    return subprocess.run([{real!r}], input=given, stdout=subprocess.PIPE).stdout.decode().splitlines()

text = sys.stdin.buffer.read()
names = text.removesuffix(b"\\0").split(b"\\0") if text else []

def say(line):
    print(line, flush=True)

"""

# Fails at bundles whose names say how.
BY_NAME = """
for name in names:
    if b"dies" in name:
        os.kill(os.getpid(), signal.SIGKILL)
    if b"hangs" in name:
        time.sleep(1000)
    if b"leaves" in name:
        sys.exit(3)
    if b"babbles" in name:
        say("race-free chunks many")
        continue
    if b"shouts" in name:
        os.write(1, b"x" * 100000)
    say(real([name])[0])
say(real(names)[-1])
"""
