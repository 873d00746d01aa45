"""Whole runs of interval_rows, held to the second reader: one process for each bundle, standard output and standard error compared."""

import random
from collections import Counter

import generators
import listing_cases
import listing_runs
import rows_cases
import second_reader as sr


class Tally:
    """What was compared."""

    def __init__(self):
        self.runs = self.rows = 0
        self.said = Counter()
        self.refused = Counter()

    def add(self, words, written, said):
        self.runs += 1
        if said.startswith(b"refused "):
            self.refused[int(said.split()[1])] += 1
        elif words:
            self.said[(written or said).decode().strip()] += 1
        else:
            self.rows += written.count(b"\n") - 1

    def text(self):
        told = ", ".join(f"{count} times {text!r}" for text, count in sorted(self.said.items()))
        return f"{self.runs} runs agreed; {self.rows} rows written; told {told}; refusals {sorted(self.refused)}"


def held(program, title, words, given, tally):
    """What the program writes to standard output, where that is what the second reader says."""
    wanted = sr.interval_rows(words, given)
    listing_runs.demand(f"{title}: {words}", given, listing_runs.ended(listing_runs.start(program, *words), given), wanted)
    tally.add(words, *wanted)
    return wanted[0]


def hold_given(program, title, data, records, tally):
    """The records are given with the bundle."""
    held(program, title, ["check"], rows_cases.check_input(data, records), tally)


def compare_fixed(program, tally):
    """The cases by hand, what is not read, other words, and the fixed bundles of the listings."""
    rng = random.Random(1)
    for case in rows_cases.CASES + rows_cases.LARGE + rows_cases.FULL:
        if held(program, case.title, [], case.data, tally) != sr.rows_text(case.rows):
            raise listing_runs.Different(f"{case.title}: not what was wanted by hand")
        for given in rows_cases.some_given(rng, case.rows, 4):
            hold_given(program, case.title, case.data, given, tally)
    for given, *_ in rows_cases.CHECK_INPUTS:
        held(program, "an input by hand", ["check"], given, tally)
    held(program, "longer than it reads", [], bytes(200000), tally)
    for words in rows_cases.OTHER_WORDS:
        held(program, "other words", words, rows_cases.ONE_ROOT, tally)
    for title, data in listing_cases.fixed_bundles():
        held(program, title, [], data, tally)
        hold_given(program, title, data[: sr.MOST_BYTES + 1], rows_cases.rows_or_none(data), tally)


def compare_random(program, seed, tally):
    """Fresh bundles, good and damaged, with their rows and with other records; inputs that are damaged anywhere."""
    rng = random.Random(seed)
    bundles = list(rows_cases.some_bundles(rng, 24, 3000)) + [generators.random_bundle(rng, style) for style in generators.STYLES]
    for data in bundles:
        held(program, "a random bundle", [], data, tally)
        right = rows_cases.rows_or_none(data)
        for given in rows_cases.some_given(rng, right, 1) if right else ((), sr.records_in(rng.randbytes(64))):
            hold_given(program, "a random bundle", data, given, tally)
        damaged = generators.damage_bytes(rng, rows_cases.check_input(data, right))
        held(program, "a damaged input", ["check"], damaged, tally)
    for title, data in listing_cases.random_bundles(seed):
        held(program, title, [], data, tally)
