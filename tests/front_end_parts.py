"""A tray judged in parts and joined: the same bytes as one run, and no word from parts that are missing, doubled, old or of another sheet."""

import json
import os
import random
import shutil
import signal
import subprocess
import sys
import time

import front_end_setting as setting
from front_end_parts_setting import PartCase
from front_end_setting import EXAMPLE, LATE, SCRIPT


class Joining(PartCase):
    def test_the_same_bytes_as_one_run(self):
        for parts in range(1, 8):
            with self.subTest(parts=parts):
                wanted = self.one_run()
                for part in range(1, parts + 1):
                    self.assertEqual(self.judge_part(part, parts).status, 0)
                self.assertEqual(self.joined(parts), wanted)
                shutil.rmtree(self.parts)

    def test_in_any_order_and_with_other_columns(self):
        wanted = self.one_run("--verdict-column", "word", "--remark-column", "remark")
        for part in (1, 2, 3):
            self.judge_part(part, 3)
        paths = [self.parts / str(k) for k in (3, 1, 2)]
        self.assertEqual(self.joined(3, "--verdict-column", "word", "--remark-column", "remark", paths=paths), wanted)

    def test_without_a_sheet(self):
        environment = {"env": {"SOURCE_DATE_EPOCH": "0"}}
        self.run_command("tray", self.tray, "--out", self.out, "--page", self.page, **environment)
        wanted = self.out.read_bytes(), self.page.read_bytes()
        self.parts.mkdir(exist_ok=True)
        for k in (1, 2, 3):
            ended = self.run_command("tray", self.tray, "--part", f"{k}/3", "--out", self.parts / str(k), **environment)
            self.assertEqual(ended.status, 0)
        ended = self.run_command("join", *self.part_paths(3), "--out", self.out, "--page", self.page, **environment)
        self.assertEqual((ended.status, (self.out.read_bytes(), self.page.read_bytes())), (1, wanted))

    def test_more_parts_than_builds(self):
        wanted = self.one_run()
        for part in range(1, 31):
            self.judge_part(part, 30)
        self.assertEqual(self.joined(30), wanted)

    def test_every_build_is_in_one_part(self):
        for part in range(1, 5):
            self.judge_part(part, 4)
        names = [build["name"] for path in self.part_paths(4) for build in self.content(path)["builds"]]
        self.assertEqual(len(names), len(set(names)))
        self.assertEqual(set(names), {*os.listdir(self.tray), "none"})

    def test_what_a_part_says(self):
        self.judge_part(1, 1)
        content = self.content(self.parts / "1")
        self.assertEqual((content["tray"], content["part"], content["parts"]), (str(self.tray), 1, 1))
        words = {build["name"]: (build["word"], build["remark"]) for build in content["builds"]}
        self.assertEqual(words["racy"], ("race", "1 race of 2; listed 1970-01-01 00:00:00 UTC"))


class Refused(PartCase):
    def setUp(self):
        super().setUp()
        for part in (1, 2, 3):
            self.judge_part(part, 3)
        self.out.write_text("old")

    def assert_refused(self, message, paths=None, *more, **others):
        ended = self.join(paths or self.part_paths(3), *more, **others)
        self.assertEqual(ended.status, 2, ended)
        self.assertIn(message, ended.err)
        self.assertEqual((self.out.read_text(), self.page.exists(), self.leftovers()), ("old", False, []))

    def test_missing(self):
        self.assert_refused("2 parts of 3 missing: 2, 3", [self.parts / "1"])
        self.assert_refused("cannot be read: No such file", [self.parts / "1", self.parts / "none"])

    def test_doubled(self):
        shutil.copy(self.parts / "2", self.parts / "again")
        self.assert_refused("part 2 of 3 is there twice", [*self.part_paths(3), self.parts / "again"])

    def test_of_another_sheet(self):
        with open(self.sheet, "a") as file:
            file.write("late,1\n")
        self.assert_refused("judged with another sheet")
        self.assert_refused("with a sheet: name it by --sheet", sheet=None)
        self.judge_part(2, 3)
        self.assert_refused("is of another sheet than")

    def test_of_another_number_of_parts(self):
        self.judge_part(2, 4, self.parts / "2")
        self.assert_refused("is of another number of parts than")

    def test_of_another_tray(self):
        other = self.folder / "other"
        shutil.copytree(self.tray, other)
        self.judge_part(2, 3, self.parts / "2", tray=other)
        self.assert_refused("is of another tray than")

    def test_of_another_program(self):
        programs = self.faulty_programs("[say(x) for x in real(names)]\n")
        self.assert_refused("judged by another build of the program", programs_at=programs)

    def test_files_that_are_no_parts(self):
        good = (self.parts / "2").read_bytes()
        rng = random.Random(5)
        other = json.dumps({**self.content(self.parts / "2"), "part": "2"}).encode()
        for data in (
            b"", good[:-1], good[: len(good) // 2], good[:40], good + b"x", good.replace(b'"race"', b'"race-free"'), b"build,verdict\nb,race\n",
            rng.randbytes(1000), self.signed(other), self.signed(b"[]"), self.signed(b"1"), self.signed(b"x"), self.signed(b"[" * 100_000),
            self.signed(json.dumps({**self.content(self.parts / "2"), "version": "0.0.1"}).encode()),
        ):
            (self.parts / "2").write_bytes(data)
            self.assert_refused("is no part of a tray that can be joined")

    def test_a_tray_that_is_not_there(self):
        self.tray.rename(self.folder / "moved")
        self.assert_refused("cannot be read")
        ended = self.join(self.part_paths(3), "--tray", self.folder / "moved")
        self.assertEqual(ended.status, 1)

    def test_an_empty_tray(self):
        for part in (1, 2, 3):
            self.judge_part(part, 3, more=["--strict"])
        shutil.rmtree(self.tray)
        self.tray.mkdir()
        self.assert_refused("no build of the sheet has a folder")


class Stale(PartCase):
    """What changed after its part was judged is judged again when the parts are joined."""

    def test_a_build_that_changed(self):
        for part in (1, 2, 3):
            self.judge_part(part, 3)
        (self.tray / "free" / "late").write_bytes(EXAMPLE)
        (self.tray / "racy" / "b").unlink()
        shutil.rmtree(self.tray / "torn")
        self.put("new", a=EXAMPLE)
        ended = self.join(self.part_paths(3))
        self.assertEqual(ended.status, 1)
        self.assertIn("note: 3 builds are not as their parts saw them, and were judged again: free, racy, torn\n", ended.out)
        self.assertEqual((self.out.read_bytes(), self.page_builds()), self.one_run_words())

    def test_parts_of_last_week(self):
        """The sheet is the same, every log is another one."""
        for part in (1, 2, 3):
            self.judge_part(part, 3)
        (self.tray / "inner" / "folder").rmdir()
        for folder in self.tray.iterdir():
            for file in folder.iterdir():
                file.write_bytes(LATE)
        self.judge_part(2, 3)
        self.assertEqual(self.join(self.part_paths(3)).status, 1)
        joined = self.words()
        self.assertEqual(set(joined.values()), {"race-free", "missing", "refused"})
        self.one_run()
        self.assertEqual(joined, self.words())

    def test_a_tray_that_changes_while_a_part_is_judged(self):
        programs = self.faulty_programs("time.sleep(0.7)\n[say(x) for x in real(names)]\n")
        self.parts.mkdir(exist_ok=True)
        command = [sys.executable, SCRIPT, "tray", self.tray, "--strict", "--sheet", self.sheet, "--part", "1/1", "--out", self.parts / "1"]
        process = subprocess.Popen(command, env={**os.environ, "DEZHAKOM_PROGRAMS": str(programs)}, stdout=subprocess.PIPE)
        time.sleep(0.5)
        (self.tray / "free" / "late").write_bytes(EXAMPLE)
        process.communicate(timeout=60)
        self.assertEqual(process.returncode, 0)
        words = {build["name"]: build["word"] for build in self.content(self.parts / "1")["builds"]}
        self.assertEqual(words["free"], "race")


class Killed(PartCase):
    def test_a_part_that_was_killed(self):
        """kill -9 leaves no part, and an old one as it was; the part is judged again, by the same line."""
        wanted = self.one_run()
        slow = self.faulty_programs("time.sleep(20)\n[say(x) for x in real(names)]\n")
        for part in (1, 3):
            self.judge_part(part, 3)
        command = [sys.executable, SCRIPT, "tray", self.tray, "--sheet", self.sheet, "--part", "2/3", "--out", self.parts / "2"]
        for old in (False, True):
            process = subprocess.Popen(command, env={**os.environ, "DEZHAKOM_PROGRAMS": str(slow)}, stdout=subprocess.DEVNULL)
            time.sleep(0.7)
            process.send_signal(signal.SIGKILL)
            process.wait()
            self.assertEqual((self.parts / "2").exists(), old)
            if not old:
                self.assertIn("1 part of 3 missing: 2", self.join(self.part_paths(3)[::2]).err)
            self.judge_part(2, 3)
            self.assertEqual(self.joined(3), wanted)

    def test_two_that_write_one_part(self):
        """A requeued job and the one that it replaces: the last one to end counts, and the part is whole at all times."""
        wanted = self.one_run()
        self.parts.mkdir(exist_ok=True)
        self.judge_part(1, 2)
        command = [sys.executable, SCRIPT, "tray", self.tray, "--sheet", self.sheet, "--part", "2/2", "--out", self.parts / "2"]
        environment = {**os.environ, "DEZHAKOM_PROGRAMS": str(setting.programs), "SOURCE_DATE_EPOCH": "0"}
        both = [subprocess.Popen(command, env=environment, stdout=subprocess.DEVNULL) for _ in range(4)]
        self.assertEqual([process.wait() for process in both], [0, 0, 0, 0])
        self.assertEqual(self.joined(2), wanted)


    def test_a_program_that_is_replaced(self):
        """Words of the program that was there before are not taken for those of the one that is there now."""
        programs = self.faulty_programs("time.sleep(1.5)\n[say(x) for x in real(names)]\n")
        command = [sys.executable, SCRIPT, "tray", self.tray, "--sheet", self.sheet, "--part", "1/1", "--out", self.folder / "1"]
        process = subprocess.Popen(
            command, env={**os.environ, "DEZHAKOM_PROGRAMS": str(programs)}, stdout=subprocess.PIPE, stderr=subprocess.PIPE
        )
        time.sleep(0.8)
        shutil.copy(setting.programs / "judge_build", programs / "new")
        os.rename(programs / "new", programs / "judge_build")
        err = process.communicate(timeout=120)[1]
        self.assertEqual((process.returncode, (self.folder / "1").exists()), (2, False))
        self.assertIn(b"was replaced while the part was judged", err)


class Files(PartCase):
    """A part overwrites a part and nothing else; what is read is not overwritten."""

    def test_a_part_over_another_file(self):
        self.out.write_text("build,verdict\nfree,race\n")
        for out in (self.sheet, self.out):
            before = out.read_bytes()
            ended = self.judge_part(1, 2, out)
            self.assertEqual((ended.status, out.read_bytes()), (2, before))
            self.assertIn("is no part of a tray", ended.err)
        self.assertEqual([self.judge_part(1, 2).status for _ in range(2)], [0, 0])

    def test_outputs_over_inputs(self):
        for part in (1, 2):
            self.judge_part(part, 2)
        before = self.sheet.read_bytes(), (self.parts / "1").read_bytes()
        paths = self.part_paths(2)
        for arguments in (
            ["tray", self.tray, "--sheet", self.sheet, "--page", self.sheet], ["join", *paths, "--sheet", self.sheet, "--page", self.sheet],
            ["join", *paths, "--sheet", self.sheet, "--out", paths[0]], ["join", *paths, "--sheet", self.sheet, "--page", paths[1]],
        ):
            ended = self.run_command(*arguments)
            self.assertEqual(ended.status, 2)
            self.assertIn("that is read", ended.err)
        self.assertEqual((self.sheet.read_bytes(), (self.parts / "1").read_bytes()), before)

    def test_a_pipe_as_a_part(self):
        self.parts.mkdir()
        os.mkfifo(self.parts / "1")
        self.assertIn("it is not a file", self.join([self.parts / "1"]).err)

    def test_a_part_in_a_linked_folder(self):
        """Also if the build of that folder is in another part."""
        outside = self.folder / "outside"
        outside.mkdir()
        (self.tray / "linked").symlink_to(outside)
        for part in (1, 2):
            ended = self.judge_part(part, 2, outside / "p", more=["--strict", "--follow-links"])
            self.assertEqual((ended.status, (outside / "p").exists()), (2, False))


class Options(PartCase):
    def test_wrong_parts(self):
        for part in ("0/3", "4/3", "1", "1/0", "a/b", "-1/3", "1/3/5", ""):
            ended = self.run_command("tray", self.tray, "--sheet", self.sheet, "--part", part, "--out", self.out)
            self.assertEqual(ended.status, 2, part)
        for more in (["--page", self.page, "--out", self.out], []):
            ended = self.run_command("tray", self.tray, "--sheet", self.sheet, "--part", "1/2", *more)
            self.assertEqual(ended.status, 2)
            self.assertIn("--part K/N needs --out", ended.err)

    def test_what_the_parts_were_judged_with(self):
        """Names left out and links followed are those of the parts, in joining too; parts that differ in them are not joined."""
        (self.tray / "free" / ".DS_Store").write_bytes(b"")
        more = ("--strict", "--ignore", ".DS_Store")
        wanted = self.one_run(*more)
        for part in (1, 2):
            self.judge_part(part, 2, more=more)
        self.assertEqual(self.joined(2), wanted)
        self.judge_part(2, 2)
        ended = self.join(self.part_paths(2))
        self.assertEqual(ended.status, 2)
        self.assertIn("other options", ended.err)
