"""How many bundles a build should have: by the sheet and by MANIFEST; and words over nothing."""

import hashlib
import os
import subprocess

from front_end_cuts import NOTHING
from front_end_setting import EXAMPLE, LATE, TORN, Case

IDLE = bytes.fromhex("01000000 02")  # a root that does nothing


class Sheet(Case):
    def test_numbers(self):
        for build in ("right", "fewer", "more", "silent", "racy"):
            self.put(build, a=LATE, b=LATE)
        self.put("racy", c=EXAMPLE)
        sheet = "build,bundles\nright,2\nfewer,3\nmore, 1 \nsilent,\nracy,1\nnone,4\n"
        ended = self.judge("--strict", "--remark-column", "remark", sheet=sheet, status=1)
        wanted = {"right": "race-free", "fewer": "refused", "more": "refused", "silent": "race-free", "racy": "race", "none": "missing"}
        self.assertEqual(self.words(), wanted)
        remarks = self.words("remark")
        self.assertIn("3 bundles announced, 2 there", remarks["fewer"])
        self.assertIn("1 bundle announced, 2 there", remarks["more"])
        self.assertIn("number of bundles not announced", remarks["silent"])
        self.assertNotIn("announced", remarks["right"])
        self.assertIn("4 bundles announced, 0 there", remarks["none"])
        self.assertIn("(the folder): refused: 3 bundles announced in the sheet, and 2 there: a, b", ended.out)
        self.assertIn("1 bundle announced in the sheet, and 2 there: a, b", self.page_text())
        self.assertIn("note: the number of bundles was not announced for 1 build: silent", ended.out)
        self.assertIn("the number of bundles was not announced for 1 build: silent", self.page_text())

    def test_cells_that_are_no_number(self):
        for k, cell in enumerate(("two", "-1", "2.0", "2 or 3", "1e3", '"1,0"', "²")):
            with self.subTest(cell=cell):
                self.put("b", a=LATE, b=LATE)
                ended = self.judge(sheet=f"build,bundles\nb,{cell}\n", status=1)
                self.assertEqual(self.words(), {"b": "refused"})
                self.assertIn("which is not a number", ended.out)

    def test_two_rows(self):
        self.put("b", a=LATE)
        self.judge(sheet="build,bundles\nb,1\nb,\n", status=0)
        ended = self.judge(sheet="build,bundles\nb,1\nb,2\n", status=1)
        self.assertIn("different numbers", ended.out)
        self.assertEqual(self.words(), {"b": "refused"})

    def test_other_column(self):
        self.put("b", a=LATE)
        self.judge("--count-column", "Logs", sheet="build,bundles,logs\nb,7,1\n", status=0)
        self.judge("--count-column", "bundles", sheet="build,bundles,logs\nb,7,1\n", status=1)
        ended = self.judge("--count-column", "cases", sheet="build,bundles\nb,1\n", status=2)
        self.assertIn("no column 'cases'", ended.err)
        for more, sheet in ((("--count-column", "build"), "build\nb\n"), (("--verdict-column", "bundles"), "build,bundles\nb,1\n")):
            self.assertIn("are the same", self.judge(*more, sheet=sheet, status=2).err)
        self.judge("--column", "bundles", sheet="bundles\nb\n", status=0)

    def test_dot_entries_and_folders_do_not_count_as_announced(self):
        folder = self.put("b", a=LATE)
        (folder / ".b").write_bytes(LATE)
        for more in ((), ("--strict",)):
            self.judge(*more, sheet="build,bundles\nb,2\n", status=1)
            self.assertEqual(self.words(), {"b": "refused"})


class Manifest(Case):
    def digest(self, build="b", names="*.bundle"):
        """MANIFEST, made by the standard tool in the build's folder."""
        subprocess.run(["sh", "-c", f"sha256sum {names} > MANIFEST"], cwd=self.tray / build, check=True)

    def judged(self, status, sheet="build\nb\n", *more):
        ended = self.judge("--strict", "--remark-column", "remark", *more, sheet=sheet, status=status)
        return self.words()["b"], ended

    def test_as_announced(self):
        folder = self.put("b", **{"a.bundle": LATE, "two words.bundle": LATE, "back\\slash\nline.bundle": LATE})
        for names in ("*.bundle", "./*.bundle", "--binary *.bundle", "*"):
            self.digest(names=names)
            word, ended = self.judged(0)
            self.assertEqual((word, ended.out.count("note")), ("race-free", 0), ended)
        (folder / "MANIFEST").write_bytes((folder / "MANIFEST").read_bytes().replace(b"\n", b"\r\n"))
        self.assertEqual(self.judged(0)[0], "race-free")
        self.assertEqual(self.judged(0, "build,bundles\nb,3\n")[0], "race-free")
        self.assertEqual(self.judged(1, "build,bundles\nb,4\n")[0], "refused")

    def test_fewer_more_and_others(self):
        folder = self.put("b", **{"a.bundle": LATE, "b.bundle": LATE})
        self.digest()
        (folder / "b.bundle").unlink()
        word, ended = self.judged(1)
        self.assertEqual(word, "refused")
        self.assertIn("MANIFEST announces 2 bundles; not there: b.bundle", ended.out)
        self.assertIn("2 bundles announced, 1 there", self.words("remark")["b"])
        self.put("b", **{"b.bundle": LATE, "c.bundle": LATE})
        word, ended = self.judged(1)
        self.assertEqual(word, "refused")
        self.assertIn("MANIFEST does not announce c.bundle", self.page_text())
        (folder / "c.bundle").unlink()
        self.put("b", **{"b.bundle": LATE[:-1] + b"\x03"})  # cut, and so accepted too
        word, ended = self.judged(1)
        self.assertEqual(word, "refused")
        self.assertIn("b.bundle: refused: it could not be read: it is not the file that MANIFEST announces", ended.out)
        self.assertIn("1 bundle not as announced", self.words("remark")["b"])
        self.put("b", **{"a.bundle": EXAMPLE, "b.bundle": EXAMPLE})
        self.digest(names="a.bundle")
        self.assertEqual(self.judged(1)[0], "race")

    def test_alone_in_its_folder(self):
        folder = self.put("b", **{"a.bundle": LATE})
        self.digest()
        (folder / "a.bundle").unlink()
        self.assertEqual(self.judged(1)[0], "refused")
        (folder / "MANIFEST").write_bytes(b"")
        self.assertEqual(self.judged(1)[0], "missing")

    def test_what_is_no_manifest(self):
        folder = self.put("b", **{"a.bundle": LATE})
        good = f"{hashlib.sha256(LATE).hexdigest()}  a.bundle\n".encode()
        (folder / "MANIFEST").write_bytes(good)
        self.assertEqual(self.judged(0)[0], "race-free")
        for text, why in (
            (b"", "does not announce a.bundle"), (b"\n", "line 1 is not"), (good + b"x\n", "line 2 is not"), (good[:-1], "last line is not whole"),
            (good + good, "twice"), (good[1:], "line 1 is not"), (b"SHA256 (a.bundle) = " + good[:64] + b"\n", "line 1 is not"),
            (good.replace(b"a.bundle", b"../b/a.bundle"), "not there: ../b/a.bundle"), (os.urandom(5000), "MANIFEST announces nothing"),
            (good * 250_000, "over 16,777,216 bytes"),
        ):
            with self.subTest(why=why):
                (folder / "MANIFEST").write_bytes(text)
                word, ended = self.judged(1)
                self.assertEqual(word, "refused")
                self.assertIn(why, ended.out)

    def test_one_that_cannot_be_read(self):
        folder = self.put("b", **{"a.bundle": LATE})
        (folder / "MANIFEST").mkdir()
        self.assertEqual(self.judged(1)[0], "refused")
        (folder / "MANIFEST").rmdir()
        os.mkfifo(folder / "MANIFEST")
        self.assertEqual(self.judged(1)[0], "refused")
        (folder / "MANIFEST").unlink()
        (folder / "MANIFEST").symlink_to("nowhere")
        self.assertEqual(self.judged(1)[0], "refused")
        (folder / "MANIFEST").unlink()
        (self.folder / "elsewhere").write_bytes(f"{hashlib.sha256(LATE).hexdigest()}  a.bundle\n".encode())
        (folder / "MANIFEST").symlink_to(self.folder / "elsewhere")
        self.assertEqual(self.judged(1)[0], "refused")
        self.assertEqual(self.judged(0, "build\nb\n", "--follow-links")[0], "race-free")

    def test_bundles_that_are_too_long_or_odd(self):
        folder = self.put("b", **{"a.bundle": bytes(70000)})
        self.digest()
        word, ended = self.judged(1)
        self.assertIn("a.bundle: refused 1 at 0", ended.out)
        (folder / "a.bundle").unlink()
        (folder / "a.bundle").mkdir()
        self.assertEqual(self.judged(1)[0], "refused")


class OverNothing(Case):
    def test_bundles_without_accesses(self):
        self.put("b", idle=IDLE, cut=NOTHING, full=LATE)
        ended = self.judge("--strict", "--remark-column", "remark", sheet="build,bundles\nb,3\n", status=0)
        self.assertEqual(self.words(), {"b": "race-free"})
        note = "build b: 2 of 3 bundles have no accesses, so that there was nothing to compare: cut, idle"
        self.assertIn(f"note: {note}\n", ended.out)
        self.assertIn(note, self.page_text())
        self.assertTrue(self.words("remark")["b"].startswith("3 bundles, 1 with cut chunks; 2 bundles without accesses; listed "))


class Remarks(Case):
    def test_every_word(self):
        self.put("free", a=LATE)
        self.put("racy", a=EXAMPLE, b=TORN, c=LATE)
        self.put("torn", a=TORN)
        self.put("empty")
        sheet = "build,bundles\nfree,1\nracy,3\ntorn,1\nempty,\nnone,\n,\n"
        self.judge("--remark-column", "remark", sheet=sheet, status=1, env={"SOURCE_DATE_EPOCH": "0"})
        listed = "listed 1970-01-01 00:00:00 UTC"
        self.assertEqual(self.words("remark"), {
            "free": f"1 bundle; {listed}", "racy": f"1 race, 1 refused of 3; {listed}",
            "torn": f"1 refused of 1; {listed}", "empty": f"empty folder; {listed}", "none": f"no folder; {listed}",
        })
        self.assertTrue(self.out.read_text().endswith("\n,\n"))

    def test_the_next_monday(self):
        """A remark of ours is overwritten, anybody else's text is not."""
        self.put("b", a=LATE)
        self.judge("--remark-column", "Remark", sheet="build,bundles\nb,1\n", status=0)
        again = self.out.read_bytes()
        self.judge("--remark-column", "remark", sheet=again, status=0)
        self.assertEqual(self.out.read_text().splitlines()[0], "build,bundles,verdict,Remark")
        self.out.unlink()
        ended = self.judge("--remark-column", "remark", sheet="build,remark\nb,first choice\n", status=2)
        self.assertIn("'first choice'", ended.err)
        self.assertFalse(self.out.exists())
        for name in ("verdict", "Verdict ", "build", "bundles"):
            self.assertIn("are the same", self.judge("--remark-column", name, sheet="build,bundles\nb,1\n", status=2).err)

    def test_without_a_sheet(self):
        self.put("b", a=LATE)
        for more, said in ((), ""), (("--strict",), "number of bundles not announced; "):
            arguments = ["tray", self.tray, "--out", self.out, "--remark-column", "remark", *more]
            ended = self.run_command(*arguments, env={"SOURCE_DATE_EPOCH": "0"})
            self.assertEqual(ended.status, 0)
            wanted = f'build,verdict,remark\nb,race-free,"1 bundle; {said}listed 1970-01-01 00:00:00 UTC"\n'
            self.assertEqual(self.out.read_text(), wanted)
