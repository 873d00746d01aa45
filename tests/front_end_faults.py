"""Programs that die, hang or print nonsense cost their bundle its word and nothing else."""

import os
import signal
import subprocess
import sys
import time

from front_end_setting import BY_NAME, EXAMPLE, LATE, ROOT, SCRIPT, TORN, Case


class Faults(Case):
    def test_each_way_to_fail(self):
        programs = self.faulty_programs(BY_NAME)
        for way, reason in (
            ("dies", "signal 9"), ("hangs", "no answer within 1.5 s"), ("leaves", "status 3"), ("babbles", "no form of ours"),
            ("shouts", "too long"),
        ):
            with self.subTest(way=way):
                self.put(way, **{"a": LATE, f"b {way}": LATE, "c": LATE})
                ended = self.judge("--timeout", "1.5", sheet=f"build\n{way}\n", status=1, programs_at=programs)
                self.assertEqual(self.words()[way], "refused")
                self.assertIn(reason, ended.out)
                self.assertIn(reason, self.page_text())
                self.assertEqual(ended.out.count("could not be read"), ended.out.count(f"    b "))

    def test_others_are_judged_all_the_same(self):
        programs = self.faulty_programs(BY_NAME)
        self.put("racy", **{"a dies": LATE, "b": EXAMPLE, "c dies": LATE, "d": TORN, "e dies": EXAMPLE})
        self.put("free", a=LATE)
        ended = self.judge(sheet="build\nracy\nfree\n", status=1, programs_at=programs)
        self.assertEqual(self.words(), {"racy": "race", "free": "race-free"})
        self.assertEqual(ended.out.count("signal 9"), 3)
        self.assertIn("d: refused 3 at 31", ended.out)

    def test_many_that_die(self):
        programs = self.faulty_programs(BY_NAME)
        self.put("b", **{f"{k:02} dies": LATE for k in range(20)}, zz=EXAMPLE)
        ended = self.judge(sheet="build\nb\n", status=1, programs_at=programs)
        self.assertEqual(self.words(), {"b": "refused"})
        self.assertIn("not judged, since", ended.out)

    def test_a_program_that_never_works(self):
        for body in (
            "sys.exit(0)", "os.kill(os.getpid(), 11)", "say('build race-free')", "[say(x) for x in real(names)[:-1]]",
            "[say(x) for x in real(names) + ['build race-free']]", "[say(x) for x in [*real(names)[:-1], 'build free']]",
            "[say(x) for x in [*real(names)[:-1], 'build race-free']] if b'r' in names else [say(x) for x in [*real(names)[:-1], 'build missing']]",
            "os.write(1, ''.join(x + chr(10) for x in real(names)).encode()[:-1])",
        ):
            with self.subTest(body=body):
                programs = self.faulty_programs(body + "\n")
                self.put("b", a=LATE, r=EXAMPLE)
                ended = self.judge(sheet="build\nb\nnone\n", status=1, programs_at=programs)
                self.assertEqual(self.words(), {"b": "refused", "none": self.words()["none"]})
                self.assertNotIn("race-free", self.out.read_text())
                self.assertIn("could not be judged", ended.out)
                self.assertIn("could not be judged", self.page_text())

    def test_never_race_free_without_the_program(self):
        """All lines say race-free, and the program ends before its last line."""
        programs = self.faulty_programs("[say(x) for x in real(names)[:-1]]\n")
        self.put("b", a=LATE)
        self.judge(sheet="build\nb\n", status=1, programs_at=programs)
        self.assertEqual(self.words(), {"b": "refused"})

    def test_killed_from_outside(self):
        """The first run is killed while it works; the bundles are good, so the second one gives the word."""
        note = self.folder / "pid"
        programs = self.faulty_programs(
            f"if not os.path.exists({str(note)!r}):\n"
            f"    open({str(note)!r}, 'w').write(str(os.getpid()))\n"
            "    time.sleep(30)\n"
            "[say(x) for x in real(names)]\n"
        )
        self.put("b", a=LATE, b=LATE)
        self.sheet.write_text("build\nb\n")
        process = subprocess.Popen(
            [sys.executable, SCRIPT, "tray", self.tray, "--sheet", self.sheet, "--out", self.out],
            env={**os.environ, "DEZHAKOM_PROGRAMS": str(programs)}, stdout=subprocess.PIPE, stderr=subprocess.PIPE,
        )
        while not (note.exists() and note.read_text()):
            time.sleep(0.05)
        os.kill(int(note.read_text()), signal.SIGKILL)
        process.communicate(timeout=30)
        self.assertEqual(process.returncode, 0)
        self.assertEqual(self.words(), {"b": "race-free"})

    def test_a_folder_that_vanishes(self):
        """One build's folder goes away while another build is judged."""
        gone = self.put("z gone", a=LATE)
        programs = self.faulty_programs(
            f"import shutil\nif len(names) == 2: shutil.rmtree({str(gone)!r}, ignore_errors=True)\n[say(x) for x in real(names)]\n"
        )
        self.put("b", a=LATE, b=LATE)
        ended = self.judge("--jobs", "1", sheet="build\nb\nz gone\n", status=1, programs_at=programs)
        self.assertEqual(self.words(), {"b": "race-free", "z gone": "refused"})
        self.assertIn("the folder cannot be entered", ended.out)

    def test_a_program_that_cannot_start(self):
        programs = self.faulty_programs("")
        (programs / "judge_build").write_text("#!/no/such/interpreter\n")
        self.put("b", a=LATE)
        ended = self.judge(sheet="build\nb\n", status=2, programs_at=programs)
        self.assertIn("does not start", ended.err)
        self.assertFalse(self.out.exists())

    def test_racelist_that_fails_costs_a_list_and_no_word(self):
        programs = self.faulty_programs("[say(x) for x in real(names)]\n")
        (programs / "racelist").unlink()
        (programs / "racelist").write_text("#!/bin/sh\nkill -9 $$\n")
        (programs / "racelist").chmod(0o755)
        self.put("b", a=(ROOT / "examples" / "tray" / "settle-4.2.1" / "dam.bundle").read_bytes())  # with 6 races
        self.judge(sheet="build\nb\n", status=1, programs_at=programs)
        self.assertEqual(self.words(), {"b": "race"})
        self.assertIn("The other races could not be listed", self.page_text())
        for command in ("list", "check", "show", "graph"):
            self.assertEqual(self.run_command(command, self.tray / "b" / "a", programs_at=programs).status, 2)

    def test_a_list_that_is_not_whole_is_not_taken(self):
        programs = self.faulty_programs("[say(x) for x in real(names)]\n")
        real = (programs / "racelist").resolve()
        (programs / "racelist").unlink()
        (programs / "racelist").write_text(f"#!/bin/sh\n{real} | head -n 4\n")  # the counts and 3 of 6 races
        (programs / "racelist").chmod(0o755)
        self.put("b", a=(ROOT / "examples" / "tray" / "settle-4.2.1" / "dam.bundle").read_bytes())
        self.judge(sheet="build\nb\n", status=1, programs_at=programs)
        self.assertEqual(self.words(), {"b": "race"})
        self.assertIn("The other races could not be listed: the output of racelist is not whole", self.page_text())

    def test_timeout_is_for_each_bundle(self):
        """A run that is slow as a whole, and quick for each bundle, is not ended."""
        programs = self.faulty_programs("for x in real(names):\n    time.sleep(0.4)\n    say(x)\n")
        self.put("b", **{str(k): LATE for k in range(6)})
        self.judge("--timeout", "1.5", sheet="build\nb\n", status=0, programs_at=programs)
