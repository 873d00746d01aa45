"""Interval rows by the command rows: writing them as CSV, and checking such a file."""

import random
import sys

import front_end_setting as setting
import generators
import rows_cases
import second_reader as sr
from front_end_setting import EXAMPLE, TORN, Case
from frontend import refusals, rows
from frontend.failures import CannotDo

HEADING = "pid,ppid,bid,offset,span,level,data begin,size\n"
E_ROWS = rows_cases.EXAMPLE_E[0].rows
E_TEXT = sr.rows_text(E_ROWS).decode()
CALLED = "#!{python}\nimport sys\ngiven = sys.stdin.buffer.read()\nchecking = sys.argv[1:] == ['check']\n"


class RowsCase(Case):
    def setUp(self):
        super().setUp()
        self.csv = self.folder / "rows.csv"

    def rows(self, data, *more, **others):
        return self.run_command("rows", "-", *more, input=data, **others)

    def check(self, data, text, **others):
        """Of a CSV file with this text."""
        self.csv.write_bytes(text if isinstance(text, bytes) else text.encode())
        return self.rows(data, "--check", self.csv, **others)

    def faulty(self, body):
        """Programs of which interval_rows is this Python text."""
        folder = self.faulty_programs("")
        (folder / "interval_rows").write_text(CALLED.format(python=sys.executable) + body)
        (folder / "interval_rows").chmod(0o755)
        return folder

    def assert_cannot(self, ended, *pieces):
        self.assertEqual((ended.status, ended.out), (2, ""), ended)
        for piece in pieces:
            self.assertIn(piece, ended.err)


class Writing(RowsCase):
    def test_by_hand(self):
        out = self.folder / "out.csv"
        for case in rows_cases.CASES + rows_cases.LARGE[:3] + rows_cases.FULL:
            self.assertEqual(self.rows(case.data, "--out", out), (0, "", ""), case.title)
            self.assertEqual(out.read_bytes(), sr.rows_text(case.rows), case.title)

    def test_standard_output(self):
        self.assertEqual(self.rows(EXAMPLE), (0, E_TEXT, ""))
        path = self.folder / "e.bundle"
        path.write_bytes(EXAMPLE)
        self.assertEqual(self.run_command("rows", path), (0, E_TEXT, ""))

    def test_random(self):
        rng = random.Random(91)
        for style in generators.STYLES:
            data = generators.random_bundle(rng, style)
            self.assertEqual(self.rows(data), (0, sr.rows_text(sr.rows_of(data)).decode(), ""))

    def test_refusals(self):
        """With the words of check; the file stays as it was."""
        self.csv.write_bytes(b"kept")
        for data, number, place in ((TORN, 3, 31), (b"", 10, 0), (bytes(70000), 1, 0), (EXAMPLE[:-1], 4, 44)):
            words = " ".join(refusals.in_words(number, place, len(data)))
            for more in ((), ("--out", self.csv)):
                self.assertEqual(self.rows(data, *more), (1, "", f"refused {number} at {place}: {words}\n"))
        self.assertEqual(self.csv.read_bytes(), b"kept")

    def test_an_output_that_is_not_whole(self):
        lines = E_TEXT.splitlines(keepends=True)
        self.csv.write_bytes(b"kept")
        for text in (
            "", HEADING, E_TEXT[:-1], "".join(lines[:-1]), "".join(lines[:2] + lines[3:]), "".join(lines[1:]), E_TEXT + lines[-1],
            E_TEXT + "\n", E_TEXT.replace("data begin", "begin"), E_TEXT.replace(",44,", ",044,"), E_TEXT.replace("0,0,0,0", "0,0,0"),
            E_TEXT.replace(",", ";"),
        ):
            ended = self.rows(EXAMPLE, "--out", self.csv, programs_at=self.faulty(f"sys.stdout.write({text!r})\n"))
            self.assert_cannot(ended, "interval_rows is not whole")
        for more in ("sys.exit(3)\n", "sys.stderr.write('refused 3 at 1\\n')\n"):
            folder = self.faulty(f"sys.stdout.write({E_TEXT!r})\n" + more)
            self.assert_cannot(self.rows(EXAMPLE, "--out", self.csv, programs_at=folder), "nothing was written")
        self.assertEqual((self.csv.read_bytes(), self.leftovers()), (b"kept", []))

    def test_no_program(self):
        self.assert_cannot(self.rows(EXAMPLE, programs_at=self.faulty_programs("")), "no program", "interval_rows")

    def test_words_that_are_wrong(self):
        for more in (("--out", self.csv, "--check", self.csv), ("--check",), ("--out",), ("x", "y")):
            self.assert_cannot(self.rows(EXAMPLE, *more), "usage")
        self.assert_cannot(self.rows(EXAMPLE, "--out", self.folder / "none" / "x"), "there is no folder")


class Checking(RowsCase):
    def test_the_rows(self):
        for case in rows_cases.CASES[:9] + rows_cases.LARGE[:3]:
            told = f"these are the rows of standard input: {len(case.rows)} record{'s' * (len(case.rows) > 1)}\n"
            self.assertEqual(self.check(case.data, sr.rows_text(case.rows)), (0, told, ""), case.title)
        path = self.folder / "e.bundle"
        path.write_bytes(EXAMPLE)
        self.csv.write_text(E_TEXT)
        self.assertEqual(self.run_command("rows", "--check", self.csv, path), (0, f"these are the rows of {path}: 5 records\n", ""))

    def assert_differs(self, data, right, given, index):
        """23 with the index, the line and what it is; given stands in a file of one line for each record."""
        ended = self.check(data, sr.rows_text(given))
        self.assertEqual((ended.status, ended.err, ended.out.count("\n")), (1, "", 1), ended)
        line, text = index + 2, lambda record: ",".join(map(str, record))
        if index == len(given):
            self.assertIn(f"Record {index} is missing behind line {line - 1} of {self.csv}: {text(right[index])}; ", ended.out)
        elif index == len(right):
            self.assertIn(f"Record {index}, in line {line} of {self.csv}, is extra: the bundle has {len(right)} record", ended.out)
        else:
            columns = ", ".join(name for name, one, other in zip(sr.COLUMNS, given[index], right[index]) if one != other)
            self.assertIn(
                f"Record {index}, in line {line} of {self.csv}, differs in {columns}: it is {text(given[index])}, "
                f"and the bundle has {text(right[index])}.", ended.out)
        self.assertTrue(ended.out.startswith(f"refused 23 at {index}: Record {index}"), ended.out)

    def test_other_records(self):
        rng = random.Random(92)
        cases = [(case, wrong) for case in rows_cases.CASES[5:9] for wrong in rows_cases.wrong_records(case.rows)]
        for case, (given, index) in rng.sample(cases, 40):
            self.assert_differs(case.data, case.rows, given, index)
        self.assert_differs(EXAMPLE, E_ROWS, (), 0)
        self.assert_differs(EXAMPLE, E_ROWS, E_ROWS[:-1], 4)
        self.assert_differs(EXAMPLE, E_ROWS, rows_cases.changed(E_ROWS, 4, 7, 31), 4)

    def test_many_records(self):
        """More than the program reads."""
        longest = rows_cases.LARGE[0]
        for more in (1, 2, 100, 3000):
            self.assert_differs(longest.data, longest.rows, longest.rows + longest.rows[:1] * more, 512)
        self.assert_differs(EXAMPLE, E_ROWS, E_ROWS + E_ROWS[:1] * 70000, 5)

    def test_lines_are_those_of_the_file(self):
        ended = self.check(EXAMPLE, "sep=,\n" + E_TEXT.replace("1,1,2,1,44", "1,1,2,1,43"))
        self.assertIn("Record 4, in line 7 of ", ended.out)
        ended = self.check(EXAMPLE, "\n".join(E_TEXT.splitlines()[:3]) + "\n\n\n")
        self.assertIn("Record 2 is missing behind line 3 of ", ended.out)

    def test_refused_bundles(self):
        for data, number, place in ((TORN, 3, 31), (b"", 10, 0), (bytes(70000), 1, 0)):
            words = " ".join(refusals.in_words(number, place, len(data)))
            self.assertEqual(self.check(data, E_TEXT), (1, f"refused {number} at {place}: {words}\n", ""))

    def test_a_file_that_is_not_read(self):
        ended = self.check(EXAMPLE, E_TEXT.replace("44", "4x"))
        self.assert_cannot(ended, f"{self.csv}: line 6, column 7 (data begin): '4x' is no decimal number")
        for name in (self.folder / "none", self.tray):
            self.assert_cannot(self.rows(EXAMPLE, "--check", name), f"{name} cannot be read")

    def test_answers_that_do_not_fit(self):
        """A checker that is wrong is not believed."""
        told = f"sys.stdout.write('' if checking else {E_TEXT!r})\n"
        for said in ("refused 23 at 0", "refused 23 at 5", "refused 23 at 6"):
            folder = self.faulty(told + f"sys.stderr.write({said + chr(10)!r} if checking else '')\n")
            self.assert_cannot(self.check(EXAMPLE, E_TEXT, programs_at=folder), "no verdict", "do not fit")
        for said in ("", "interval_rows: not a bundle and records\n", "the rows"):
            folder = self.faulty(f"sys.stderr.write({said!r})\n")
            self.assert_cannot(self.check(EXAMPLE, E_TEXT, programs_at=folder), "no verdict", "not whole")
        folder = self.faulty(f"sys.stdout.write('the rows\\nthe rows\\n')\n")
        self.assert_cannot(self.check(EXAMPLE, E_TEXT, programs_at=folder), "no verdict", "not whole")

    def test_what_the_program_reads(self):
        """Long bundles and long lists are cut; all numbers are low byte first."""
        kept = self.folder / "given"
        folder = self.faulty(f"open({str(kept)!r}, 'wb').write(given)\nsys.stdout.write('the rows\\n')\n")
        for data in (EXAMPLE, bytes(65537), bytes(70000)):
            for count in (0, 1, 513, 600):
                records = [sr.Row(*range(k, k + 7), 2**32 - 1) for k in range(count)]
                self.assertEqual(self.check(data, sr.rows_text(records), programs_at=folder).status, 0)
                self.assertEqual(kept.read_bytes(), rows_cases.check_input(data[:65537], records[:513]))


class Files(RowsCase):
    """The reader of such files."""

    def read(self, text):
        self.csv.write_bytes(text if isinstance(text, bytes) else text.encode())
        given, _ = rows.read_records(str(self.csv))
        return [one.record for one in given]

    def test_forms(self):
        lines = E_TEXT.splitlines()
        quoted = "\n".join(",".join(f'"{cell}"' for cell in line.split(",")) for line in lines)
        for text in (
            E_TEXT, E_TEXT[:-1], E_TEXT + "\n\n", E_TEXT + " \n,,,,,,,\n\n", E_TEXT.replace("\n", "\r\n"), E_TEXT.replace("\n", "\r"),
            "\ufeff" + E_TEXT, "\ufeff" + E_TEXT.replace("\n", "\r\n"),
            E_TEXT.replace(",", ";"), E_TEXT.replace(",", "\t"), "sep=;\r\n" + E_TEXT.replace(",", ";"),
            quoted, "\ufeff" + quoted + "\r\n", E_TEXT.replace("pid,ppid", "PID, Ppid "), E_TEXT.replace(",13\n", ",0000000000013\n"),
        ):
            self.assertEqual(self.read(text), list(E_ROWS), text)
        self.assertEqual(self.read(HEADING), [])
        self.assertEqual(self.read(HEADING[:-1]), [])
        self.assertEqual(self.read(HEADING + "0,1,2,3,4,5,6,4294967295\n"), [(0, 1, 2, 3, 4, 5, 6, 4294967295)])

    def test_columns_in_any_order(self):
        rng = random.Random(93)
        for _ in range(20):
            order = rng.sample(range(8), 8)
            lines = [",".join(line.split(",")[k] for k in order) for line in E_TEXT.splitlines()]
            self.assertEqual(self.read("\n".join(lines) + "\n"), list(E_ROWS))

    def assert_not_read(self, text, *pieces):
        with self.assertRaises(CannotDo) as caught:
            self.read(text)
        for piece in (str(self.csv), *pieces):
            self.assertIn(piece, str(caught.exception), text)

    def test_headings(self):
        for text, *pieces in (
            ("", "empty"), ("\n\n", "empty"), ('""\n', "empty"), (",,\n", "line 1, column 1"), ("\ufeff", "empty"),
            ("\n" + E_TEXT, "line 1, column 1", "''"),
            (E_TEXT[len(HEADING):], "line 1, column 1", "'0'"),
            (E_TEXT.replace("data begin", "begin"), "line 1, column 7", "'begin'"),
            (E_TEXT.replace("ppid", "pid"), "line 1, column 2", "'pid' is there twice"),
            (E_TEXT.replace(",size", ""), "line 1", "no column 'size'"),
            (E_TEXT.replace("bid,offset,", ""), "no column 'bid' and no column 'offset'"),
            (E_TEXT.replace("size\n", "size,note\n"), "line 1, column 9", "'note'"),
            (E_TEXT.replace("size\n", "size,\n"), "line 1, column 9", "''"),
            ("sep=,\n" + E_TEXT.replace("level", "depth"), "line 2, column 6", "'depth'"),
            (E_TEXT.encode("utf-16"), "UTF-16"),
            (bytes(100), "no text"),
            (E_TEXT.replace("pid", "p\u0131d", 1), "line 1, column 1"),
        ):
            self.assert_not_read(text, *pieces)

    def test_cells(self):
        for cell in (
            "", " ", "x", "-1", "+1", "1.0", "1e3", "0x1", " 1", "1 ", "1_0", "'1", "1\x00", "4294967296", "9" * 5000, "\u0661", "\uff11", "\u00b2",
        ):
            self.assert_not_read(HEADING + "0,0,0,0,1,0,4,5\n" + f"1,0,0,{cell},2,1,13,13\n", "line 3, column 4 (offset)", "decimal number")
        self.assert_not_read(HEADING + '0,0,0,"1,000",1,0,4,5\n', "line 2, column 4 (offset)", "'1,000'")
        self.assert_not_read(HEADING + '0,0,0,"1\n0",1,0,4,5\n', "line 2, column 4 (offset)")
        self.assert_not_read(HEADING.encode() + b"0,0,0,0,1,0,4,\xff\n", "line 2, column 8 (size)")
        self.assert_not_read("size,bid,pid,ppid,offset,span,level,data begin\n0,0,0,0,0,x,0,0\n", "line 2, column 6 (span)")

    def test_rows(self):
        for text, *pieces in (
            (HEADING + "0,0,0,0,1,0,4\n", "line 2 has 7 cells, not 8"),
            (HEADING + "0,0,0,0,1,0,4,5,\n", "line 2 has 9 cells, not 8"),
            (HEADING + "0,0,0,0,1,0,4,5\n\n1,0,0,0,2,1,13,13\n", "line 3 has 1 cell, not 8"),
            (HEADING + "0,0,0,0,1,0,4,5\n,,,,,,,\n1,0,0,0,2,1,13,13\n", "line 3, column 1 (pid)"),
            (HEADING + '0,0,0,0,1,0,4,"5\n', "line 2", "never closed"),
            (HEADING + '0,0,0,0,1,0,4,"5"5\n', "line 2", "behind a closing quote"),
            (HEADING + "0;0;0;0;1;0;4;5\n", "line 2 has 1 cell, not 8"),
        ):
            self.assert_not_read(text, *pieces)


class Words(RowsCase):
    def test_help(self):
        ended = self.run_command("rows", "--help")
        self.assertEqual((ended.status, ended.err), (0, ""))
        for piece in ("--check ROWS", "--out CSV", *sr.COLUMNS):
            self.assertIn(piece, ended.out)
        self.assertIn("rows", self.run_command("--help").out)

    def test_columns(self):
        self.assertEqual(rows.COLUMNS, sr.COLUMNS)
        self.assertEqual((HEADING, rows.HEADING), (E_TEXT.splitlines(keepends=True)[0], HEADING[:-1].encode()))
        self.assertTrue(set(setting.NEEDED) >= {rows.PROGRAM})

    def test_refusals(self):
        for number in (22, 23):
            self.assertEqual(refusals.rows_in_words(number, 0, 5), (refusals.ROWS[number].wrong, refusals.ROWS[number].advice))
        self.assertEqual(refusals.rows_in_words(3, 31, 40), refusals.in_words(3, 31, 40))
