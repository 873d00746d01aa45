"""What the tests of parts share: a tray with builds of every word, and running its parts."""

import hashlib
import json
import re

from front_end_cuts import STOPPED
from front_end_setting import EXAMPLE, LATE, ROOT, TORN, Case

FIXED = {"SOURCE_DATE_EPOCH": "0"}  # so that all runs show the same time


class PartCase(Case):
    def setUp(self):
        super().setUp()
        self.parts = self.folder / "parts"
        self.put("free", a=LATE, b=LATE)
        self.put("racy", a=EXAMPLE, b=LATE)
        self.put("torn", a=TORN, b=LATE)
        self.put("many", **{f"{k}": (ROOT / "examples" / "tray" / "settle-4.2.1" / "dam.bundle").read_bytes() for k in range(3)})
        self.put("stopped", a=STOPPED)
        self.put("wrong", a=LATE)
        self.put("empty")
        self.put("odd \udcff\n,name", a=LATE)
        self.put("unlisted", a=EXAMPLE)
        (self.put("inner", a=LATE) / "folder").mkdir()
        rows = b"".join(b"%s,%s,x\n" % row for row in (
            (b"free", b"2"), (b"racy", b"2"), (b"none", b""), (b"torn", b""), (b"many", b"3"), (b"stopped", b""), (b"wrong", b"3"),
            (b"empty", b""), (b'"odd \xff\n,name"', b"1"), (b"racy", b"2"), (b"inner", b""),
        ))
        self.sheet.write_bytes(b"build,bundles,note\n" + rows)

    def one_run(self, *more):
        """The sheet and the page of one run over the whole tray."""
        self.judge(*more, status=1, env=FIXED)
        return self.out.read_bytes(), self.page.read_bytes()

    def judge_part(self, part, parts, path=None, tray=None, more=()):
        self.parts.mkdir(exist_ok=True)
        arguments = ["tray", tray or self.tray, "--sheet", self.sheet, "--part", f"{part}/{parts}", "--out", path or self.parts / str(part)]
        return self.run_command(*arguments, *more, env=FIXED)

    def part_paths(self, parts):
        return [self.parts / str(part) for part in range(1, parts + 1)]

    def join(self, paths, *more, sheet="", **others):
        sheet = ["--sheet", self.sheet] if sheet is not None else []
        return self.run_command("join", *paths, *sheet, "--out", self.out, "--page", self.page, *more, env=FIXED, **others)

    def joined(self, parts, *more, paths=None):
        """The sheet and the page of all parts."""
        self.out.unlink(missing_ok=True)
        self.page.unlink(missing_ok=True)
        ended = self.join(paths or self.part_paths(parts), *more)
        self.assertEqual(ended.status, 1, ended)
        return self.out.read_bytes(), self.page.read_bytes()

    def content(self, path):
        return json.loads(path.read_bytes().split(b"\n")[1])

    def signed(self, text):
        """A part of this text, with the right digest."""
        return b"dezhakom part 1\n" + text + b"\n" + hashlib.sha256(text).hexdigest().encode() + b"\n"

    def page_builds(self):
        """The builds of the page with their words."""
        table = self.page_text().split("<tbody>")[1].split("</tbody>")[0]
        return re.findall(r'class="name">([^<]*)<.*?class="word ([a-z-]+)"', table)

    def one_run_words(self):
        self.judge(status=1, env=FIXED)
        return self.out.read_bytes(), self.page_builds()
