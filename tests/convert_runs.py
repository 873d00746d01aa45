"""Whole runs of convert, held to the second reader: one process for each bundle and way, standard output and standard error compared."""

import random
from collections import Counter

import convert_cases
import generators
import listing_cases
import listing_runs
import second_reader as sr


class Tally:
    """What was compared."""

    def __init__(self):
        self.runs = self.changed = self.restored = 0
        self.refused = Counter()

    def add(self, data, out, said):
        self.runs += 1
        if said:
            self.refused[int(said.split()[1])] += 1
        else:
            self.changed += out != data

    def text(self):
        return (
            f"{self.runs} runs agreed; {self.changed} bundles put into another group, {self.restored} restored; "
            f"refusals {sorted(self.refused)}"
        )


def held(program, title, word, data, tally):
    """What the program writes, where that is what the second reader says."""
    wanted = sr.convert(word, data)
    listing_runs.demand(f"{title}: to {word}", data, listing_runs.ended(listing_runs.start(program, word), data), wanted)
    tally.add(data, *wanted)
    return wanted[0]


def both_ways(program, title, data, tally):
    """To each group and, where it was of the other one, back."""
    for word, back in (("wide", "narrow"), ("narrow", "wide")):
        result = held(program, title, word, data, tally)
        if result and result != data:
            if held(program, f"{title}, back", back, result, tally) != data:
                raise listing_runs.Different(f"{title}: to {word} and back is another bundle")
            tally.restored += 1


def fixed_bundles():
    """The cases by hand, and those about 65,536 bytes."""
    for data in convert_cases.by_hand():
        yield "by hand", data
    for title, data, _ in convert_cases.AT_LIMIT + convert_cases.PAST_LIMIT:
        yield title, data
    yield "65,536 bytes, wide", convert_cases.FULL_WIDE
    yield "65,536 bytes, without accesses", convert_cases.FULL_WITHOUT
    yield "a large site at the end", convert_cases.LATE_SITE
    yield "65,537 bytes", convert_cases.FULL_WIDE + b"\x02"
    yield from listing_cases.fixed_bundles()


def compare_fixed(program, tally):
    for case in convert_cases.PAIRS:
        for word, data, result in (("wide", case.narrow, case.wide), ("narrow", case.wide, case.narrow)):
            if held(program, case.title, word, data, tally) != result:
                raise listing_runs.Different(f"{case.title}: not what was wanted by hand")
    for title, data in fixed_bundles():
        both_ways(program, title, data, tally)


def compare_random(program, seed, tally):
    """Fresh bundles of both groups, good and damaged."""
    rng = random.Random(seed)
    for data in convert_cases.given_bundles(rng, 60):
        both_ways(program, "a random bundle", data, tally)
    full = generators.full_bundle(rng, generators.LARGE, length=rng.choice((63487, 63488, 63489, 63490, 65535, 65536)))
    both_ways(program, "at the limits", generators.bundle_bytes(generators.shuffled(rng, full)), tally)
    for title, data in listing_cases.random_bundles(seed):
        both_ways(program, title, data, tally)
