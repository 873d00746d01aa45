"""Progress on a terminal: one line on standard error that is written over."""

import sys
import time

EVERY = 0.1  # seconds between two lines


class Progress:
    def __init__(self, builds, wanted=True):
        self.shown = wanted and sys.stderr.isatty()
        self.builds = len(builds)
        self.bundles = sum(len(b.bundles) for b in builds)
        self.judged_builds = self.judged_bundles = self.others = 0
        self.last = 0.0

    def judged(self, build):
        """A build is judged."""
        self.judged_builds += 1
        self.others += build.word != "race-free"
        self.tick(self.bundles if self.judged_builds == self.builds else self.judged_bundles, self.judged_builds == self.builds)

    def tick(self, bundles, last=False):
        """So many bundles are judged; some of them twice, if a program failed."""
        self.judged_bundles = min(bundles, self.bundles)
        if self.shown and (last or time.monotonic() - self.last > EVERY):
            self.last = time.monotonic()
            self.write(
                f"{self.judged_builds:,} of {self.builds:,} builds, {self.judged_bundles:,} of {self.bundles:,} bundles,"
                f" {self.others:,} not race-free"
            )

    def doing(self, text):
        if self.shown:
            self.write(text)

    def write(self, text):
        sys.stderr.write(f"\r\x1b[K{text}")
        sys.stderr.flush()

    def clear(self):
        if self.shown:
            sys.stderr.write("\r\x1b[K")
            sys.stderr.flush()
