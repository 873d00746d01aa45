"""Whole trays: every word is the second reader's; names, odd entries, exit statuses, files that are written whole."""

import contextlib
import ctypes
import importlib.util
import os
import pty
import random
import select
import shutil
import signal
import stat
import subprocess
import sys
import time
from importlib.machinery import SourceFileLoader

import front_end_setting as setting
import generators
import second_reader as sr
from front_end_setting import EXAMPLE, LATE, ROOT, SCRIPT, TORN, Case


def as_anybody():
    """Root gives up the right to read what nobody may read (two capabilities, by PR_CAPBSET_DROP)."""
    library = ctypes.CDLL(None)
    for capability in (1, 2):  # CAP_DAC_OVERRIDE, CAP_DAC_READ_SEARCH
        library.prctl(24, capability, 0, 0, 0)


@contextlib.contextmanager
def small_disk(test, size="16k"):
    """A disk of its own, as small as this."""
    disk = test.folder / "disk"
    disk.mkdir()
    mounted = subprocess.run(["mount", "-t", "tmpfs", "-o", f"size={size}", "tmpfs", disk], capture_output=True)
    if mounted.returncode:
        test.skipTest("no small tmpfs can be mounted here")
    try:
        yield disk
    finally:
        subprocess.run(["umount", disk])


class Words(Case):
    def random_bundle(self, rng):
        turn = rng.randrange(10)
        if turn < 6:
            return generators.random_bundle(rng, rng.choice((generators.QUIET, generators.QUIET, generators.SMALL)))
        if turn < 7:
            return generators.bundle_bytes(generators.one_interval(rng))
        if turn < 8:
            return generators.damaged_bundle(rng, rng.choice(generators.STYLES))
        return LATE

    def test_every_word_is_the_second_readers(self):
        rng = random.Random(7)
        wanted = {}
        for number in range(80):
            build = f"b{number:02}"
            folder = self.put(build)
            datas = [self.random_bundle(rng) for _ in range(rng.choice((0, 1, 1, 2, 3, 5)))]
            for k, data in enumerate(datas):
                (folder / f"case {k}").write_bytes(data)
            wanted[build] = sr.build_word(map(sr.bundle_line, datas))
        self.judge(sheet="build\n" + "".join(f"{b}\n" for b in wanted), status=1)
        self.assertEqual(self.words(), wanted)
        self.assertEqual(set(wanted.values()), {"race", "refused", "missing", "race-free"})

    def test_lines_of_bundles_are_the_second_readers(self):
        rng = random.Random(8)
        datas = [generators.random_bundle(rng, style) for style in generators.STYLES] + [b"", bytes(70000), rng.randbytes(500), TORN]
        folder = self.put("b")
        for k, data in enumerate(datas):
            (folder / f"{k:02}").write_bytes(data)
        names = b"".join(b"%02d\0" % k for k in range(len(datas))) + b"\0none\0"
        ended = subprocess.run([setting.programs / "judge_build"], input=names, capture_output=True, cwd=folder)
        self.assertEqual(ended.stdout, sr.build_text([*datas, None, None]))

    def test_example_tray(self):
        ended = self.run_command(
            "tray", ROOT / "examples" / "tray", "--sheet", ROOT / "examples" / "builds.csv", "--out", self.out, "--page", self.page
        )
        self.assertEqual(ended.status, 1)
        self.assertEqual(self.out.read_bytes(), (ROOT / "examples" / "verdicts.csv").read_bytes())

    def test_one_job_and_many_give_the_same(self):
        for k in range(12):
            self.put(f"b{k}", a=LATE, b=(EXAMPLE, LATE, TORN)[k % 3])
        sheet = "build\n" + "".join(f"b{k}\n" for k in range(12))
        results = []
        for jobs in ("1", "2", "9"):
            self.judge("--jobs", jobs, sheet=sheet, status=1, env={"SOURCE_DATE_EPOCH": "0"})
            results.append((self.out.read_bytes(), self.page.read_bytes()))
        self.assertEqual(results[0], results[1])
        self.assertEqual(results[0], results[2])


class Speed(Case):
    def test_a_thousand_bundles_in_five_seconds(self):
        """The tray of bench/tray, the page included."""
        bench = SourceFileLoader("bench_tray", str(ROOT / "bench" / "tray"))
        module = importlib.util.module_from_spec(importlib.util.spec_from_loader("bench_tray", bench))
        bench.exec_module(module)
        module.WORK = self.folder / "work"
        module.make_tray(1000)
        start = time.monotonic()
        ended = self.run_command(
            "tray", module.WORK / "tray", "--sheet", module.WORK / "builds.csv", "--out", self.out, "--page", self.page
        )
        self.assertEqual(ended.status, 1)
        self.assertLess(time.monotonic() - start, 5)


class Entries(Case):
    def test_odd_bundles(self):
        rng = random.Random(3)
        builds = {"cut": EXAMPLE[:20], "empty": b"", "large": bytes(70000), "random": rng.randbytes(1000)}
        for name, data in builds.items():
            self.put(name, good=LATE, other=data)
        (self.put("folder", good=LATE) / "x.bundle").mkdir()
        os.mkfifo(self.put("pipe", good=LATE) / "x.bundle")
        (self.put("dangling", good=LATE) / "x.bundle").symlink_to("nowhere")
        (self.put("loop", good=LATE) / "x.bundle").symlink_to("x.bundle")
        (self.put("device", good=LATE) / "x.bundle").symlink_to("/dev/zero")
        names = [*builds, "folder", "pipe", "dangling", "loop", "device"]
        ended = self.judge(sheet="build\n" + "\n".join(names) + "\n", status=1)
        self.assertEqual(self.words(), dict.fromkeys(names, "refused"))
        self.assertIn("it is a folder", ended.out)
        self.assertIn("it is a pipe", self.page_text())
        self.assertIn("It has over 65,536 bytes.", self.page_text())
        self.assertIn("The log is empty.", self.page_text())

    def test_race_goes_before_refused(self):
        self.put("b", a=TORN, b=EXAMPLE, c=LATE)
        self.judge(sheet="build\nb\n", status=1)
        self.assertEqual(self.words(), {"b": "race"})

    def test_links_to_files_and_hidden_entries(self):
        other = self.folder / "elsewhere"
        other.write_bytes(LATE)
        folder = self.put("b")
        (folder / "link").symlink_to(other)
        (folder / ".hidden").write_bytes(EXAMPLE)
        (self.tray / ".git").mkdir()
        self.judge(sheet="build\nb\n", status=0)
        self.assertEqual(self.words(), {"b": "race-free"})

    def test_a_build_of_hidden_files_alone_is_missing(self):
        (self.put("b") / ".hidden").write_bytes(LATE)
        self.judge(sheet="build\nb\n", status=1)
        self.assertEqual(self.words(), {"b": "missing"})

    def test_links_inside_the_tray(self):
        self.put("a", real=LATE)
        (self.put("b") / "link").symlink_to(self.tray / "a" / "real")
        (self.tray / "c").symlink_to("a")
        self.judge(sheet="build\nb\nc\n", status=0)
        self.assertEqual(self.words(), {"b": "race-free", "c": "race-free"})

    def test_links_that_lead_out_of_the_tray(self):
        """With --strict they are not taken."""
        outside = self.folder / "outside"
        outside.mkdir()
        (outside / "x").write_bytes(LATE)
        (self.put("file", a=LATE) / "link").symlink_to(outside / "x")
        (self.tray / "folder").symlink_to(outside)
        (self.put("through", a=LATE) / "link").symlink_to("../folder/x")
        sheet = "build\nfile\nfolder\nthrough\n"
        ended = self.judge("--strict", sheet=sheet, status=1)
        self.assertEqual(self.words(), dict.fromkeys(("file", "folder", "through"), "refused"))
        self.assertEqual(ended.out.count("a link that leads out of the tray"), 3)
        for more in (("--strict", "--follow-links"), ()):
            (outside / "x").write_bytes(LATE)
            self.judge(*more, sheet=sheet, status=0)
            self.assertEqual(set(self.words().values()), {"race-free"})
            (outside / "x").write_bytes(EXAMPLE)
            self.judge(*more, sheet=sheet, status=1)
            self.assertEqual(set(self.words().values()), {"race"})

    def test_a_name_that_begins_with_a_dot(self):
        """With --strict it is a bundle that cannot be read: an unfinished rsync looks so, and what it is to be is not known."""
        for build, name in (("b", ".case.bundle.Xy12Zq"), ("c", ".DS_Store"), ("d", ".~tmp~")):
            (self.put(build, a=LATE) / name).write_bytes(LATE)
        (self.put("e") / ".hidden").write_bytes(LATE)
        (self.put("f", a=EXAMPLE) / ".hidden").write_bytes(LATE)
        (self.tray / ".git").mkdir()
        ended = self.judge("--strict", sheet="build\nb\nc\nd\ne\nf\n", status=1)
        self.assertEqual(self.words(), {**dict.fromkeys("bcde", "refused"), "f": "race"})
        self.assertIn(".case.bundle.Xy12Zq: refused: it could not be read: its name begins with a dot", ended.out)
        self.assertIn("begins with a dot", self.page_text())
        self.assertIn("note: not judged, since its name begins with a dot: .git in the tray", ended.out)

    def test_names_that_are_left_out(self):
        for build in "bcd":
            (self.put(build, a=LATE) / ".DS_Store").write_bytes(b"x")
        (self.tray / "d" / ".gitkeep").write_bytes(b"")
        (self.tray / "d" / ".other").write_bytes(b"")
        ended = self.judge("--strict", "--ignore", ".DS_Store", "--ignore", ".gitkeep", sheet="build\nb\nc\nd\n", status=1)
        self.assertEqual(self.words(), {"b": "race-free", "c": "race-free", "d": "refused"})
        self.assertIn("note: left out, as --ignore asks: .DS_Store in 3 builds", ended.out)
        self.assertIn("left out, as --ignore asks: .gitkeep in 1 build", self.page_text())
        for name in ("a", "x.bundle", "..", "./a", ""):
            self.assertEqual(self.judge("--ignore", name, sheet="build\nb\n").status, 2, name)

    def test_slip_in_the_tray(self):
        self.put("b", a=LATE)
        (self.tray / "slip.txt").write_text("b")
        ended = self.judge(sheet="build\nb\n", status=0)
        self.assertIn("slip.txt in the tray is not a folder", ended.out)

    def test_unreadable_file_and_folder(self):
        folder = self.put("b", a=LATE, b=LATE)
        (folder / "b").chmod(0)
        closed = self.put("c", a=LATE)
        closed.chmod(0)
        self.addCleanup(closed.chmod, 0o700)
        self.sheet.write_text("build\nb\nc\n")
        ended = self.judge(status=1, preexec_fn=as_anybody)
        if "Permission denied" not in ended.out and os.geteuid() == 0:
            self.skipTest("root may read everything here, and cannot give that up")
        self.assertEqual(self.words(), {"b": "refused", "c": "refused"})
        self.assertIn("Permission denied", ended.out)
        self.assertIn("Permission denied", self.page_text())

    def test_odd_names(self):
        names = ["two words", 'q"uo\'te', "new\nline", "<b>bold</b>".replace("/", "-"), "&amp;", "-n", "--help", "ünï", "\u202eevil", "a;b,c\td"]
        for name in names:
            self.put(name, **{f"{name} bundle": EXAMPLE, f"{name}.torn": TORN})
        raw = os.fsencode(self.tray) + b"/\xff\xfe"
        os.mkdir(raw)
        with open(raw + b"/\xfe", "wb") as file:
            file.write(LATE)
        cells = ['"' + n.replace('"', '""') + '"' for n in names]
        self.judge(sheet=("build\n" + "\n".join(cells) + "\n").encode() + b"\xff\xfe\n", status=1)
        wanted = dict.fromkeys(names, "race") | {"\udcff\udcfe": "race-free"}
        self.assertEqual(self.words(), wanted)
        self.assertIn("\\xff\\xfe", self.page_text())
        self.assertIn("new\\nline", self.page_text())

    def test_names_never_lead_outside(self):
        (self.folder / "outside").mkdir()
        (self.folder / "outside" / "a").write_bytes(LATE)
        self.put("inner", a=LATE)
        names = ["..", ".", "../outside", str(self.folder / "outside"), "inner/.", "./inner", "tray/../inner", "/", ".hidden"]
        (self.tray / ".hidden").mkdir()
        (self.tray / ".hidden" / "a").write_bytes(LATE)
        ended = self.judge(sheet="build\n" + "\n".join(names) + "\n", status=1)
        self.assertEqual(self.words(), dict.fromkeys(names, "missing"))
        self.assertIn("../outside in the sheet is not the name of a folder", ended.out)


class Terminal(Case):
    def test_progress(self):
        """A line that is written over, on a terminal alone."""
        for k in range(5):
            self.put(f"b{k}", a=LATE)
        try:
            ours, theirs = pty.openpty()
        except OSError as error:
            self.skipTest(f"no terminal can be made here: {error}")
        self.addCleanup(os.close, ours)
        command = [sys.executable, SCRIPT, "tray", self.tray]
        environment = {**os.environ, "DEZHAKOM_PROGRAMS": str(setting.programs)}
        for more, shown in (([], True), (["--quiet"], False)):
            ended = subprocess.run([*command, *more], stderr=theirs, stdout=subprocess.PIPE, env=environment)
            self.assertEqual(ended.returncode, 0)
            last = b"5 of 5 builds, 5 of 5 bundles, 0 not race-free"
            seen = b""
            # what was written reaches this side a little later where the machine is busy
            while last not in seen and select.select([ours], [], [], 10 if shown else 0.2)[0]:
                seen += os.read(ours, 10000)
            self.assertEqual(last in seen, shown)
        os.close(theirs)
        self.assertEqual(self.run_command("tray", self.tray).err, "")


class Statuses(Case):
    def test_all_race_free(self):
        self.put("b", a=LATE)
        self.judge(sheet="build\nb\n", status=0)

    def test_race_refused_missing(self):
        for name, data in (("race", EXAMPLE), ("refused", TORN), ("missing", None)):
            self.put("free", a=LATE)
            if data:
                self.put(name, a=data)
            self.judge(sheet=f"build\nfree\n{name}\n", status=1)
            self.assertEqual(self.words(), {"free": "race-free", name: name})
            shutil.rmtree(self.tray / name, ignore_errors=True)

    def test_folder_without_row_counts(self):
        self.put("b", a=LATE)
        self.put("other", a=EXAMPLE)
        ended = self.judge(sheet="build\nb\n", status=1)
        self.assertEqual(self.words(), {"b": "race-free"})
        self.assertIn("folder other has no row in the sheet", ended.out)
        self.assertIn("other", self.page_text())

    def test_nothing_to_judge(self):
        ended = self.judge(sheet="build\n", status=2)
        self.assertIn("nothing to judge", ended.err)
        self.assertFalse(self.out.exists())

    def test_no_tray_no_sheet_no_folder(self):
        self.sheet.write_text("build\nb\n")
        self.assertEqual(self.run_command("tray", self.folder / "none", "--sheet", self.sheet).status, 2)
        self.assertEqual(self.run_command("tray", self.sheet).status, 2)
        self.assertEqual(self.run_command("tray", self.tray, "--sheet", self.folder / "none.csv").status, 2)
        self.put("b", a=LATE)
        for out in (self.folder / "none" / "x.csv", self.tray, "/dev/null"):
            ended = self.run_command("tray", self.tray, "--sheet", self.sheet, "--out", out)
            self.assertEqual(ended.status, 2, ended)
            self.assertIn("cannot be written", ended.err)
        ended = self.run_command("tray", self.tray, "--out", self.out, "--page", self.out)
        self.assertEqual(ended.status, 2)

    def test_missing_programs(self):
        self.put("b", a=LATE)
        ended = self.run_command("tray", self.tray, programs_at=self.folder)
        self.assertEqual(ended.status, 2)
        self.assertIn("tools/build_programs", ended.err)
        ended = self.run_command("list", "-", programs_at=self.folder)
        self.assertEqual(ended.status, 2)

    def test_wrong_options(self):
        for arguments in ([], ["tray"], ["tray", "x", "--jobs", "0"], ["tray", "x", "--timeout", "-1"], ["nothing"], ["list"]):
            ended = self.run_command(*arguments)
            self.assertEqual(ended.status, 2, arguments)
        for arguments in (["--help"], ["tray", "--help"], ["list", "--help"], ["graph", "--help"]):
            ended = self.run_command(*arguments)
            self.assertEqual(ended.status, 0)
            self.assertIn("exit status", ended.out)

    def test_a_fault_of_the_front_end_is_no_verdict(self):
        for error in ("ValueError('x')", "RecursionError()", "MemoryError()", "SystemExit(1)", "AssertionError()"):
            text = (
                "import sys; sys.path.insert(0, sys.argv[1])\n"
                "from frontend import command_line, job\n"
                f"def fail(options): raise {error}\n"
                "job.judge_tray = fail\n"
                "command_line.run(['tray', '.'])\n"
            )
            ended = subprocess.run([sys.executable, "-c", text, ROOT], capture_output=True)
            self.assertEqual(ended.returncode, 2, error)
        shutil.copy(SCRIPT, self.folder / "alone")  # without its modules
        ended = subprocess.run([sys.executable, self.folder / "alone", "tray", self.tray], capture_output=True)
        self.assertEqual(ended.returncode, 2)
        self.assertIn(b"cannot be loaded", ended.stderr)


class Files(Case):
    """Outputs are written whole and last."""

    def old(self):
        self.put("b", a=EXAMPLE)
        self.sheet.write_text("build\nb\n")
        self.out.write_text("old sheet")
        self.page.write_text("old page")

    def assert_old(self):
        self.assertEqual(self.out.read_text(), "old sheet")
        self.assertEqual(self.page.read_text(), "old page")
        self.assertEqual(self.leftovers(), [])

    def test_limited_file_size(self):
        self.old()
        import resource

        for most in (0, 5, 4096):  # the sheet has some 20 bytes, the page some thousand
            limit = lambda: resource.setrlimit(resource.RLIMIT_FSIZE, (most, most))
            ended = self.judge(preexec_fn=limit)
            self.assertEqual(ended.status, 2, ended)
            self.assertIn("cannot be written", ended.err)
            self.assert_old()

    def test_full_disk(self):
        self.old()
        disk = self.folder / "disk"
        disk.mkdir()
        mounted = subprocess.run(["mount", "-t", "tmpfs", "-o", "size=16k", "tmpfs", disk], capture_output=True)
        if mounted.returncode:
            self.skipTest("no small tmpfs can be mounted here")
        self.addCleanup(subprocess.run, ["umount", disk])
        for page, out in ((disk / "page", self.out), (self.page, disk / "out"), (disk / "page", disk / "out")):
            for path in (page, out):
                path.write_text("old")
            filler = disk / "filler"
            filler.write_bytes(b"")
            with open(filler, "ab", buffering=0) as file:
                try:
                    while True:
                        file.write(b"x" * 512)
                except OSError:
                    pass
            ended = self.run_command("tray", self.tray, "--sheet", self.sheet, "--out", out, "--page", page)
            self.assertEqual(ended.status, 2, ended)
            self.assertIn("No space left", ended.err)
            self.assertEqual([p.read_text() for p in (page, out)], ["old", "old"])
            self.assertEqual([p.name for p in disk.iterdir() if p.name.startswith(".")] + self.leftovers(), [])
            filler.unlink()

    def test_a_part_on_a_full_disk(self):
        self.old()
        with small_disk(self) as disk:
            with contextlib.suppress(OSError):
                (disk / "filler").write_bytes(bytes(20000))
            ended = self.run_command("tray", self.tray, "--sheet", self.sheet, "--part", "1/1", "--out", disk / "part")
            self.assertEqual(ended.status, 2, ended)
            self.assertIn("No space left", ended.err)
            self.assertEqual([p.name for p in disk.iterdir()], ["filler"])

    def test_a_read_only_disk(self):
        """A tray there is judged; nothing can be written there, and then nothing is written elsewhere either."""
        self.old()
        with small_disk(self) as disk:
            shutil.copytree(self.tray, disk / "tray")
            (disk / "old.csv").write_text("old")
            subprocess.run(["mount", "-o", "remount,ro", disk], check=True)
            for out, page in ((disk / "old.csv", self.page), (self.out, disk / "new.html")):
                ended = self.run_command("tray", disk / "tray", "--sheet", self.sheet, "--out", out, "--page", page)
                self.assertEqual(ended.status, 2, ended)
                self.assertIn("cannot be written", ended.err)
                self.assert_old()
            ended = self.run_command("tray", disk / "tray", "--sheet", self.sheet, "--out", self.out)
            self.assertEqual((ended.status, self.words()), (1, {"b": "race"}))

    def test_stopped(self):
        self.old()
        note = self.folder / "hanging"
        programs = self.faulty_programs(f"open({str(note)!r}, 'w').close()\ntime.sleep(1000)\n")
        for number in (signal.SIGINT, signal.SIGTERM, signal.SIGHUP):
            process = subprocess.Popen(
                [sys.executable, SCRIPT, "tray", self.tray, "--sheet", self.sheet, "--out", self.out, "--page", self.page],
                env={**os.environ, "DEZHAKOM_PROGRAMS": str(programs)}, stdout=subprocess.PIPE, stderr=subprocess.PIPE,
                preexec_fn=lambda: signal.signal(signal.SIGINT, signal.default_int_handler),
            )
            while not note.exists():
                time.sleep(0.05)
            note.unlink()
            process.send_signal(number)
            _, err = process.communicate(timeout=20)
            self.assertEqual(process.returncode, 2)
            self.assertIn(b"stopped", err)
            self.assert_old()

    def test_second_rename_fails(self):
        """Whatever happens between the two renames, both old files stay."""
        self.old()
        text = (
            "import os, sys; sys.path.insert(0, sys.argv[1])\n"
            "from frontend import command_line, outputs\n"
            "rename, seen = os.rename, []\n"
            "def second_fails(a, b):\n"
            "    seen.append(b)\n"
            "    if len(seen) == 2: raise OSError(13, 'Permission denied')\n"
            "    rename(a, b)\n"
            "os.rename = second_fails\n"
            "command_line.run(sys.argv[2:])\n"
        )
        arguments = ["tray", self.tray, "--sheet", self.sheet, "--out", self.out, "--page", self.page]
        environment = {**os.environ, "DEZHAKOM_PROGRAMS": str(setting.programs)}
        ended = subprocess.run([sys.executable, "-c", text, ROOT, *arguments], capture_output=True, env=environment)
        self.assertEqual(ended.returncode, 2, ended)
        self.assert_old()

    def test_out_is_the_sheet(self):
        self.put("b", a=LATE)
        self.sheet.write_text("build,verdict\nb,race\n")
        ended = self.run_command("tray", self.tray, "--sheet", self.sheet, "--out", self.sheet)
        self.assertEqual(ended.status, 0)
        self.assertEqual(self.sheet.read_text(), "build,verdict\nb,race-free\n")

    def test_rights_and_links_are_kept(self):
        self.put("b", a=LATE)
        real = self.folder / "real.csv"
        real.write_text("old")
        real.chmod(0o640)
        self.out.symlink_to(real)
        self.judge(sheet="build\nb\n", status=0)
        self.assertTrue(self.out.is_symlink())
        self.assertEqual(real.read_text(), "build,verdict\nb,race-free\n")
        self.assertEqual(stat.S_IMODE(real.stat().st_mode), 0o640)
        mask = os.umask(0)
        os.umask(mask)
        self.assertEqual(stat.S_IMODE(self.page.stat().st_mode), 0o666 & ~mask)

    def test_closed_output_changes_no_verdict(self):
        self.put("b", a=LATE)
        self.sheet.write_text("build\nb\n")
        reader, writer = os.pipe()
        os.close(reader)
        process = subprocess.run(
            [sys.executable, SCRIPT, "tray", self.tray, "--sheet", self.sheet, "--out", self.out], stdout=writer,
            stderr=subprocess.PIPE, env={**os.environ, "DEZHAKOM_PROGRAMS": str(setting.programs)},
        )
        os.close(writer)
        self.assertEqual((process.returncode, process.stderr), (0, b""))
        self.assertEqual(self.words(), {"b": "race-free"})

    def test_output_that_cannot_be_written_changes_no_verdict(self):
        self.put("b", a=LATE)
        self.sheet.write_text("build\nb\n")
        for where in (">/dev/full", ">&-", ">&- 2>&- <&-"):
            self.out.unlink(missing_ok=True)
            line = f'"{sys.executable}" "{SCRIPT}" tray tray --sheet builds.csv --out verdicts.csv {where}'
            environment = {**os.environ, "DEZHAKOM_PROGRAMS": str(setting.programs)}
            ended = subprocess.run(["sh", "-c", line], cwd=self.folder, env=environment)
            self.assertEqual(ended.returncode, 0)
            self.assertEqual(self.words(), {"b": "race-free"})
            ended = subprocess.run(["sh", "-c", f'"{sys.executable}" "{SCRIPT}" list tray/b/a {where}'], cwd=self.folder, env=environment)
            self.assertEqual(ended.returncode, 2 if "full" in where else 0)

    def test_each_command_says_that_its_output_cannot_be_written(self):
        self.put("b", a=LATE)
        for command in (["list"], ["check"], ["show"], ["graph"], ["canon"], ["convert", "--to", "wide"], ["rows"]):
            with open("/dev/full", "wb") as full:
                ended = self.run_command(*command, self.tray / "b" / "a", stdout=full)
            self.assertEqual(ended.status, 2, command)
            self.assertIn("cannot be written: No space left on device", ended.err)

    def test_without_sheet_and_without_files(self):
        self.put("b", a=LATE)
        self.put('c,"d"', a=EXAMPLE)
        ended = self.run_command("tray", self.tray, "--out", self.out)
        self.assertEqual(ended.status, 1)
        self.assertEqual(self.words(), {"b": "race-free", 'c,"d"': "race"})
        before = sorted(p.name for p in self.folder.iterdir())
        self.assertEqual(self.run_command("tray", self.tray).status, 1)
        self.assertEqual(sorted(p.name for p in self.folder.iterdir()), before)
