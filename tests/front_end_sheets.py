"""The sheet: everything but the verdicts is kept as it was."""

import io
import os
import subprocess
import sys
import zipfile

import front_end_setting as setting
from front_end_setting import EXAMPLE, LATE, ROOT, SCRIPT, TORN, Case


def workbook(*names):
    """A file as spreadsheet programs write it."""
    data = io.BytesIO()
    with zipfile.ZipFile(data, "w") as archive:
        for name in names:
            archive.writestr(name, "application/vnd.oasis.opendocument.spreadsheet" if name == "mimetype" else "<xml/>")
    return data.getvalue()


class Sheets(Case):
    def setUp(self):
        super().setUp()
        self.put("free", a=LATE)
        self.put("racy", a=EXAMPLE)
        self.put("torn", a=TORN)

    def assert_sheet(self, given, wanted, *more, status=1):
        ended = self.judge(*more, sheet=given, status=status)
        self.assertEqual(self.out.read_bytes(), wanted if isinstance(wanted, bytes) else wanted.encode())
        return ended

    def test_plain(self):
        self.assert_sheet("build,x\nfree,1\nracy,2\ntorn,3\nnone,4\n", "build,x,verdict\nfree,1,race-free\nracy,2,race\ntorn,3,refused\nnone,4,missing\n")

    def test_semicolons_quotes_and_line_ends(self):
        self.assert_sheet(
            'Owner;"BUILD";note\r\n"a;b";free;"say ""hi"""\r\nx;"racy";"two\r\nlines"\r\n',
            'Owner;"BUILD";note;verdict\r\n"a;b";free;"say ""hi""";race-free\r\nx;"racy";"two\r\nlines";race\r\n',
        )

    def test_tabs(self):
        self.assert_sheet("build\ta,b;c\nracy\t,;\n", "build\ta,b;c\tverdict\nracy\t,;\trace\n")

    def test_all_in_quotes(self):
        self.assert_sheet('"build","x"\n"free","1"\n"racy",""\n', '"build","x","verdict"\n"free","1","race-free"\n"racy","","race"\n')

    def test_byte_order_mark(self):
        self.assert_sheet("\ufeffbuild,x\nfree,1\nracy,\n", "\ufeffbuild,x,verdict\nfree,1,race-free\nracy,,race\n")

    def test_separator_line(self):
        self.assert_sheet("sep=;\r\nbuild;x\r\nfree;1,2\r\nracy;\r\n", "sep=;\r\nbuild;x;verdict\r\nfree;1,2;race-free\r\nracy;;race\r\n")

    def test_no_line_end_at_the_end(self):
        self.assert_sheet("build\nfree\nracy", "build,verdict\nfree,race-free\nracy,race")

    def test_old_mac_line_ends(self):
        self.assert_sheet("build,x\rfree,1\rracy,2\r", "build,x,verdict\rfree,1,race-free\rracy,2,race\r")

    def test_verdict_column_is_filled_where_it_is(self):
        self.assert_sheet(
            'Verdict,build,x\nrace-free,racy,1\n"old",free,2\n,torn,3\n', 'Verdict,build,x\nrace,racy,1\n"race-free",free,2\nrefused,torn,3\n'
        )

    def test_other_columns_by_name(self):
        self.assert_sheet("build,name,result\nracy,free,x\nx,racy,\n", "build,name,result\nracy,free,race-free\nx,racy,race\n", "--column", "Name", "--verdict-column", "RESULT")

    def test_not_utf8_survives(self):
        self.assert_sheet(b"build,x\nfree,\xe4\xff\nracy,\n", b"build,x,verdict\nfree,\xe4\xff,race-free\nracy,,race\n")

    def test_names_with_nul(self):
        ended = self.assert_sheet(b"build,x\nfree\0,1\nracy,2\n", b"build,x,verdict\nfree\0,1,missing\nracy,2,race\n")
        self.assertIn("free\\x00 in the sheet is not the name of a folder", ended.out)

    def test_two_rows_of_one_build(self):
        ended = self.assert_sheet("build,x\nracy,1\nfree,2\nracy,3\n", "build,x,verdict\nracy,1,race\nfree,2,race-free\nracy,3,race\n")
        self.assertIn("build racy has two rows or more", ended.out)
        self.assertIn("build racy has two rows or more", self.page_text())

    def test_spaces_around_a_name(self):
        self.assert_sheet("build\n free \nracy\n", "build,verdict\n free ,race-free\nracy,race\n")

    def test_short_long_and_empty_rows(self):
        ended = self.assert_sheet(
            "x,build,y\n1,free\n\n2,racy,3,4\n,,\n5\n6,free,7,,\n", "x,build,y,verdict\n1,free,,race-free\n\n2,racy,3,race,4\n,,\n5,,,\n6,free,7,race-free,,\n"
        )
        self.assertIn("line 4 of the sheet has more cells than the header", ended.out)
        self.assertIn("line 6 of the sheet has no build", ended.out)

    def test_row_without_build_loses_an_old_word(self):
        self.assert_sheet("build,verdict\n,race-free\nracy,\n ,race-free\n", "build,verdict\n,\nracy,race\n ,\n")

    def test_empty_lines_before_the_header(self):
        self.assert_sheet("\n\nbuild\nfree\nracy\n", "\n\nbuild,verdict\nfree,race-free\nracy,race\n")

    def test_header_alone(self):
        ended = self.assert_sheet("build\n", "build,verdict\n")
        self.assertIn("folder free has no row", ended.out)

    def test_sheets_that_cannot_be_used(self):
        for sheet, message in (
            ("", "empty"),
            ("\n\n", "empty"),
            (",,\n", "no column 'build'"),
            ("name,x\nfree,1\n", "no column 'build'"),
            ("build,Build,BUILD\n".replace("build,", "BUild,"), "two columns"),
            ("build,verdict,Verdict,verdict\nfree,,,\n", "two columns"),
            ('build,x\nfree,"1\nracy,2\n', "never closed"),
            ('build,x\nfree,"1\nracy,"2"\n', "behind a closing quote"),
            ("build\nfree\n".encode("utf-16"), "UTF-16"),
            (b"build" + bytes(20), "no text"),
        ):
            with self.subTest(sheet=sheet):
                ended = self.judge(sheet=sheet, status=2)
                self.assertIn(message, ended.err)
                self.assertFalse(self.out.exists())
        ended = self.judge("--verdict-column", "build", sheet="build\nfree\n", status=2)
        self.assertIn("are the same", ended.err)

    def test_doubled_columns_and_workbooks(self):
        for sheet, message in (
            ("build,Verdict,verdict\nfree,race,\n", "two columns 'verdict': 'Verdict' and 'verdict'"),
            ("build,x,Build \nfree,,racy\n", "two columns 'build': 'build' and 'Build '"),
            ("build,bundles,BUNDLES\nfree,1,2\n", "two columns 'bundles'"),
            (workbook("[Content_Types].xml", "xl/workbook.xml"), "an Excel workbook (.xlsx), not CSV: save it as CSV"),
            (workbook("mimetype", "content.xml"), "an OpenDocument spreadsheet (.ods), not CSV"),
            (workbook("readme.txt"), "a ZIP archive, not CSV"),
            (bytes.fromhex("d0cf11e0a1b11ae1") + bytes(600), "an Excel workbook (.xls), not CSV"),
        ):
            with self.subTest(sheet=sheet):
                self.assertIn(message, self.judge(sheet=sheet, status=2).err)
                self.assertFalse(self.out.exists())

    def test_new_cells_are_no_formulas(self):
        """A spreadsheet program would compute a cell that begins so."""
        names = ("=cmd|'x'!A1", "+1", "-n", "@x", "plain", "=a,b")
        for name in names:
            self.put(name, a=LATE)
        self.run_command("tray", self.tray, "--out", self.out, "--verdict-column", "=word")
        lines = self.out.read_text().splitlines()
        self.assertEqual(lines[0], "build,'=word")
        cells = {line.rsplit(",", 1)[0] for line in lines[1:]}
        self.assertEqual(cells, {"'=cmd|'x'!A1", "'+1", "'-n", "'@x", "plain", "\"'=a,b\"", "free", "racy", "torn"})
        given = "build,note\n=a,@b\nfree,+1\n"  # old cells stay as they were
        self.assert_sheet(given, "build,note,verdict\n=a,@b,missing\nfree,+1,race-free\n")

    def test_did_you_mean(self):
        self.put("Gr\u00f6\u00dfe 7")
        ended = self.judge(sheet="build\nFREE\nra cy\nGro\u0308sse7\nother\nfree\n", status=1)
        for name, meant in (("FREE", "free"), ("ra cy", "racy"), ("Gro\u0308sse7", "Gr\u00f6\u00dfe 7")):
            self.assertIn(f"build {name} has no folder in the tray; did you mean the folder {meant}?", ended.out)
        self.assertIn("build other has no folder in the tray\n", ended.out)

    def test_to_standard_output(self):
        self.sheet.write_text("build\nfree\nracy\n")
        ended = self.run_command("tray", self.tray, "--sheet", self.sheet, "--out", "-", "--page", self.page)
        self.assertEqual((ended.status, ended.out), (1, "build,verdict\nfree,race-free\nracy,race\n"))
        self.assertIn("racy  race", ended.err)
        self.assertTrue(self.page.exists())
        self.page.unlink()
        with open("/dev/full", "wb") as full:
            ended = self.run_command("tray", self.tray, "--sheet", self.sheet, "--out", "-", "--page", self.page, stdout=full)
        self.assertEqual(ended.status, 2)
        self.assertIn("standard output cannot be written: No space left", ended.err)
        self.assertFalse(self.page.exists())

    def test_a_closed_standard_output(self):
        self.sheet.write_text("build\nfree\n")
        line = f'"{sys.executable}" "{SCRIPT}" tray tray --sheet builds.csv --out - >&-'
        environment = {**os.environ, "DEZHAKOM_PROGRAMS": str(setting.programs)}
        ended = subprocess.run(["sh", "-c", line], cwd=self.folder, env=environment, capture_output=True)
        self.assertEqual(ended.returncode, 2)
        self.assertIn(b"standard output cannot be written: it is closed", ended.stderr)

    def test_a_sheet_from_a_pipe(self):
        line = f'printf "build\\nfree\\nracy\\n" | "{sys.executable}" "{SCRIPT}" tray tray --sheet /dev/stdin --out verdicts.csv'
        environment = {**os.environ, "DEZHAKOM_PROGRAMS": str(setting.programs)}
        ended = subprocess.run(["sh", "-c", line], cwd=self.folder, env=environment, capture_output=True)
        self.assertEqual((ended.returncode, self.words()), (1, {"free": "race-free", "racy": "race"}), ended)

    def test_version(self):
        ended = self.run_command("--version")
        header = (ROOT / "include" / "dezhakom.h").read_text()
        number = ended.out.removeprefix("dezhakom ").strip()
        self.assertEqual((ended.status, f'#define DEZHAKOM_VERSION "{number}"' in header), (0, True))


class EmptyTrays(Case):
    """A share that is not mounted must not overwrite last week's words."""

    def setUp(self):
        super().setUp()
        self.out.write_text("old")

    def assert_nothing(self, message, *more, **others):
        ended = self.judge("--strict", *more, status=2, **others)
        self.assertIn(message, ended.err)
        self.assertEqual((self.out.read_text(), self.page.exists()), ("old", False))

    def test_no_build_has_a_folder(self):
        self.assert_nothing("no build of the sheet has a folder", sheet="build\na\nb\n")
        self.put("other", a=LATE)
        self.assert_nothing("no build of the sheet has a folder", sheet="build\na\nb\n")
        for more in (("--strict", "--allow-empty"), ()):
            self.judge(*more, sheet="build\na\nb\n", status=1)
            self.assertEqual(self.words(), {"a": "missing", "b": "missing"})

    def test_one_build_has_a_folder(self):
        self.put("a")
        self.judge("--strict", sheet="build\na\nb\n", status=1)
        self.assertEqual(self.words(), {"a": "missing", "b": "missing"})

    def test_the_folder_of_a_build_given_as_the_tray(self):
        self.tray = self.put("free", a=LATE, b=LATE)
        self.assert_nothing("it has 2 files and no folder: is it the folder of one build?", sheet="build\nx\n")
        self.assert_nothing("free is a build of the sheet: give the folder above it", sheet="build\nFree\n")
        ended = self.run_command("tray", self.tray, "--out", self.out)
        self.assertEqual(ended.status, 2)
        self.assertIn("is it the folder of one build?", ended.err)

    def test_outputs_among_the_bundles(self):
        self.put("free", a=LATE)
        outside = self.folder / "outside"
        outside.mkdir()
        (self.tray / "linked").symlink_to(outside)
        (self.tray / "free" / "deeper").mkdir()
        for page in (self.tray / "free" / "p.html", self.tray / "linked" / "p.html", outside / "p.html", self.tray / "free" / "deeper" / "p.html"):
            self.sheet.write_text("build\nfree\n")
            for option in ("--page", "--out"):
                ended = self.run_command("tray", self.tray, "--sheet", self.sheet, option, page)
                self.assertEqual(ended.status, 2)
                self.assertIn("among its bundles", ended.err)
                self.assertFalse(page.exists())
        (self.tray / "free" / "deeper").rmdir()
        self.assertEqual(self.run_command("tray", self.tray, "--sheet", self.sheet, "--page", self.tray / "p.html").status, 1)
