"""A tray that changes while it is judged: with --strict a word covers what was there when the tray was last listed.

The changes are made by a second process, while a slow judge_build or racelist keeps the job busy.
"""

import os
import shutil
import subprocess
import sys
import time
import unittest

import front_end_setting as setting
from front_end_setting import EXAMPLE, LATE, ROOT, TORN, Case
from frontend import tray

CHANGED = "changed while it was judged"


class ArrivalCase(Case):
    def slow_programs(self, seconds=1.0, page_seconds=0.0):
        """The real programs, each of which waits first. The first one that starts leaves a file `busy`."""
        folder = self.folder / "programs"
        folder.mkdir(exist_ok=True)
        for name, wait in (("judge_build", seconds), ("racelist", page_seconds)):
            (folder / name).write_text(
                f"#!/bin/sh\necho > {self.folder / f'busy-{name}'}\nsleep {wait}\nexec {setting.programs / name}\n"
            )
            (folder / name).chmod(0o755)
        return folder

    def judge_while(self, change, sheet, *more, after="judge_build", status=None, **programs):
        """Runs the job; once the program `after` has begun, another process runs this text of Python in the tray."""
        slow = self.slow_programs(**programs)
        busy = self.folder / f"busy-{after}"
        wait = f"import os, time\nwhile not os.path.exists({str(busy)!r}): time.sleep(0.01)\n"
        other = subprocess.Popen([sys.executable, "-c", wait + change], cwd=self.tray)
        self.addCleanup(other.wait)
        self.addCleanup(other.kill)
        ended = self.judge("--strict", *more, sheet=sheet, programs_at=slow)
        if status is not None:
            self.assertEqual(ended.status, status, ended)
        return ended


class Bundles(ArrivalCase):
    def setUp(self):
        super().setUp()
        self.put("b", a=LATE)
        self.put("other", a=LATE)
        (self.folder / "racy").write_bytes(EXAMPLE)
        self.sheet_text = "build,bundles\nb,\nother,1\n"

    def assert_changed(self, change, word, **more):
        ended = self.judge_while(change, self.sheet_text, status=1, **more)
        self.assertEqual(self.words(), {"b": word, "other": "race-free"})
        self.assertIn(f"note: build b {CHANGED}, and was judged again", ended.out)
        return ended

    def test_one_arrives(self):
        self.assert_changed("import shutil; shutil.copy('../racy', 'b/late')", "race")

    def test_one_grows(self):
        self.assert_changed(f"open('b/a', 'ab').write({EXAMPLE!r})", "refused")

    def test_one_is_replaced_by_one_of_the_same_size_and_time(self):
        """Only the inode and the time of the change say so."""
        (self.tray / "b" / "a").write_bytes(same := EXAMPLE.replace(b"\x30\x14", b"\x30\x15"))
        self.assertEqual(len(same), len(EXAMPLE))
        self.tray.joinpath("b", "a").write_bytes(LATE)
        self.assertEqual(len(LATE), len(EXAMPLE))
        change = "s = os.stat('b/a'); os.utime('../racy', ns=(s.st_atime_ns, s.st_mtime_ns)); os.rename('../racy', 'b/a')"
        self.assert_changed(change, "race")

    def test_one_is_written_in_place_with_its_old_time(self):
        change = f"s = os.stat('b/a'); open('b/a', 'r+b').write({EXAMPLE!r}); os.utime('b/a', ns=(s.st_atime_ns, s.st_mtime_ns))"
        self.assert_changed(change, "race")

    def test_one_goes_away(self):
        self.put("b", a=LATE, torn=TORN)
        self.sheet_text = "build,bundles\nb,1\nother,1\n"
        ended = self.judge_while("os.unlink('b/torn')", self.sheet_text, status=0)
        self.assertEqual(self.words(), {"b": "race-free", "other": "race-free"})
        self.assertIn(CHANGED, ended.out)

    def test_one_arrives_while_the_page_is_made(self):
        self.put("b", a=(ROOT / "examples" / "tray" / "settle-4.2.1" / "dam.bundle").read_bytes())  # 6 races, so that it is listed
        change = "import shutil; shutil.copy('../racy', 'other/late')"
        self.judge_while(change, self.sheet_text, after="racelist", seconds=0, page_seconds=1, status=1)
        self.assertEqual(self.words(), {"b": "race", "other": "race"})
        self.assertIn("late", self.page_text())

    def test_a_manifest_arrives(self):
        change = "open('b/MANIFEST', 'w').write('0' * 64 + '  a\\n')"
        ended = self.assert_changed(change, "refused")
        self.assertIn("its SHA-256 is another", ended.out)

    def test_a_link_is_turned(self):
        self.put("c", racy=EXAMPLE, free=LATE)
        (self.tray / "b" / "a").unlink()
        (self.tray / "b" / "a").symlink_to("../c/free")
        self.sheet_text += "c,\n"
        change = "os.symlink('../c/racy', 'b/x'); os.rename('b/x', 'b/a')"
        self.judge_while(change, self.sheet_text, status=1)
        self.assertEqual(self.words(), {"b": "race", "other": "race-free", "c": "race"})

    def test_one_that_never_rests(self):
        change = "import itertools\nfor k in itertools.count(): open('b/a', 'ab').write(b'x'); time.sleep(0.05)"
        start = time.monotonic()
        ended = self.judge_while(change, self.sheet_text, seconds=0.3, status=1)
        self.assertLess(time.monotonic() - start, 30)
        self.assertEqual(self.words(), {"b": "refused", "other": "race-free"})
        self.assertIn(f"    {CHANGED}\n", ended.out)
        self.assertIn(CHANGED, self.page_text())

    def test_the_time_of_the_listing(self):
        before = int(time.time())
        self.judge("--remark-column", "remark", sheet="build,bundles\nb,1\nother,1\n", status=0)
        rows = self.out.read_text().splitlines()
        listed = rows[1].split("; listed ")[1]
        self.assertIn(f"when it was last listed, {listed}", self.page_text())
        self.assertEqual(rows[2].split("; listed ")[1], listed)
        import calendar

        self.assertIn(calendar.timegm(time.strptime(listed, "%Y-%m-%d %H:%M:%S UTC")), range(before, int(time.time()) + 1))


class Builds(ArrivalCase):
    def test_a_folder_arrives(self):
        self.put("b", a=LATE)
        change = f"os.mkdir('x'); open('x/a', 'wb').write({EXAMPLE!r}); os.rename('x', 'late'); os.mkdir('late 2')"
        ended = self.judge_while(change, "build,bundles\nb,1\nlate,1\n", status=1)
        self.assertEqual(self.words(), {"b": "race-free", "late": "race"})
        self.assertIn("folder late 2 has no row in the sheet", ended.out)

    def test_the_tray_goes_away(self):
        self.put("b", a=LATE)
        self.out.write_text("old")
        ended = self.judge_while("os.rename('../tray', '../gone')", "build\nb\n", status=2)
        self.assertIn("the tray", ended.err)
        self.assertEqual(self.out.read_text(), "old")

    def test_the_tray_is_emptied(self):
        """As by a share that is no longer mounted."""
        self.put("b", a=LATE)
        self.out.write_text("old")
        ended = self.judge_while("import shutil; shutil.rmtree('b')", "build\nb\n", status=2)
        self.assertIn("no build of the sheet has a folder", ended.err)
        self.assertEqual(self.out.read_text(), "old")


class SheetChanges(ArrivalCase):
    def run_on_itself(self, change, status, sheet="build,bundles\nb,1\n", **programs):
        """--out is the file of --sheet."""
        self.out = self.sheet
        return self.judge_while(change, sheet, status=status, **programs)

    def test_a_row_is_added(self):
        self.put("b", a=LATE)
        self.put("c", a=EXAMPLE)
        self.run_on_itself("open('../builds.csv', 'a').write('c,1\\n')", 1)
        self.assertEqual(self.sheet.read_text(), "build,bundles,verdict\nb,1,race-free\nc,1,race\n")

    def test_a_row_is_added_while_the_page_is_made(self):
        self.put("b", a=(ROOT / "examples" / "tray" / "settle-4.2.1" / "dam.bundle").read_bytes())
        change = "open('../builds.csv', 'a').write('none,\\n')"
        self.run_on_itself(change, 1, after="racelist", seconds=0, page_seconds=1)
        self.assertEqual(self.words(), {"b": "race", "none": "missing"})
        self.assertIn("none", self.page_text())

    def test_a_number_is_changed(self):
        self.put("b", a=LATE)
        self.run_on_itself("open('../builds.csv', 'w').write('build,bundles\\nb,2\\n')", 1)
        self.assertEqual(self.words(), {"b": "refused"})

    def test_a_sheet_that_never_rests(self):
        self.put("b", a=LATE)
        change = "while True: open('../builds.csv', 'a').write('x,1\\n'); time.sleep(0.02)"
        ended = self.run_on_itself(change, None, seconds=0.2)
        if ended.status == 2:
            self.assertIn("the sheet changes", ended.err)
        self.assertNotIn("verdict\nb,1,race-free\nx,1\n", self.sheet.read_text())

    def test_at_the_last_moment(self):
        """The sheet changes after everything is made, and before anything is renamed."""
        self.put("b", a=LATE)
        self.sheet.write_text("build\nb\n")
        text = (
            "import sys; sys.path.insert(0, sys.argv[1])\n"
            "from frontend import command_line, outputs\n"
            "make, times = outputs.make_beside, []\n"
            "def late(path, target, data, leftovers):\n"
            "    made = make(path, target, data, leftovers)\n"
            "    times.append(path)\n"
            f"    if len(times) == 1: open({str(self.sheet)!r}, 'a').write('c\\n')\n"
            "    return made\n"
            "outputs.make_beside = late\n"
            "command_line.run(sys.argv[2:])\n"
        )
        environment = {**os.environ, "DEZHAKOM_PROGRAMS": str(setting.programs)}
        arguments = ["tray", self.tray, "--strict", "--sheet", self.sheet, "--out", self.sheet]
        ended = subprocess.run([sys.executable, "-c", text, ROOT, *arguments], capture_output=True, env=environment)
        self.assertEqual(ended.returncode, 1, ended)
        self.assertEqual(self.sheet.read_text(), "build,verdict\nb,race-free\nc,missing\n")
        self.assertEqual(self.leftovers(), [])


class Quiet(unittest.TestCase):
    """Two writes may leave one time on a file. So nothing is read until such a time has passed since the listing."""

    def listed(self, *entries):
        seen = tray.Seen((1, 1), entries, None)
        return tray.Listed(10**6, 0, {"b": seen}, [], [])

    def entry(self, mtime, ctime):
        return tray.Entry(b"a", (0o100644, 7, 45, mtime, ctime), None)

    def test_fine_times(self):
        for mtime, ctime in ((999_999_500_000_001, 999_999_500_000_001), (999_999 * 10**9, 999_999_500_000_001)):
            self.assertEqual(tray.quiet_seconds(self.listed(self.entry(mtime, ctime))), tray.GRAIN)

    def test_whole_seconds(self):
        """A file system that keeps whole seconds; a link to a file there; and files of long ago."""
        young, old = 999_999 * 10**9, 900_000 * 10**9
        self.assertEqual(tray.quiet_seconds(self.listed(self.entry(young, young))), tray.COARSE_GRAIN)
        link = tray.Entry(b"a", (0o120777, 8, 5, 1, 1), (0o100644, 7, 45, young, young))
        self.assertEqual(tray.quiet_seconds(self.listed(link)), tray.COARSE_GRAIN)
        self.assertEqual(tray.quiet_seconds(self.listed(self.entry(old, old))), tray.GRAIN)

    def test_the_job_waits(self):
        """No program starts before that time has passed."""
        text = (
            "import sys, time; sys.path.insert(0, sys.argv[1])\n"
            "from frontend import command_line, job, judging\n"
            "listed, judged = [], []\n"
            "before, start = job.list_tray, job.judge_all\n"
            "def list_tray(*a, **k): found = before(*a, **k); listed.append(time.monotonic()); return found\n"
            "def judge_all(*a): judged.append(time.monotonic()); return start(*a)\n"
            "job.list_tray, job.judge_all, job.quiet_seconds = list_tray, judge_all, lambda listed: 0.5\n"
            "command_line.status_of(sys.argv[2:])\n"
            "print(judged[0] - listed[0])\n"
        )
        environment = {**os.environ, "DEZHAKOM_PROGRAMS": str(setting.programs)}
        ended = subprocess.run(
            [sys.executable, "-c", text, ROOT, "tray", ROOT / "examples" / "tray", "--strict", "--quiet"], capture_output=True, env=environment
        )
        self.assertGreaterEqual(float(ended.stdout.split()[-1]), 0.49)
