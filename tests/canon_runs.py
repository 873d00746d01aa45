"""Whole runs of canon, held to the second reader: one process for each bundle, standard output and standard error compared."""

import random

import generators
import listing_cases
import listing_runs
import rewrite_cases
import second_reader as sr


class Tally:
    """What was compared."""

    def __init__(self):
        self.bundles = self.accepted = self.moved = self.orders = 0
        self.refused = set()

    def add(self, data, out, said):
        self.bundles += 1
        if said:
            self.refused.add(int(said.split()[1]))
            return
        self.accepted += 1
        self.moved += out != data

    def text(self):
        return (
            f"{self.bundles} bundles agreed; {self.accepted} accepted, {self.moved} of them put into another order; "
            f"refusals {sorted(self.refused)}; {self.orders} orders of chunks came out as one"
        )


def held(program, title, data, tally):
    """What the program writes, where that is what the second reader says."""
    wanted = sr.canon(data)
    listing_runs.demand(title, data, listing_runs.with_pipe(program, data), wanted)
    tally.add(data, *wanted)
    return wanted[0]


def compare_fixed(program, tally):
    """The cases by hand, twice over, and the fixed bundles of the listings."""
    for case in rewrite_cases.CASES:
        if held(program, case.title, case.data, tally) != case.result:
            raise listing_runs.Different(f"{case.title}: not what was wanted by hand")
        held(program, case.title + ", again", case.result, tally)
    for title, data in listing_cases.fixed_bundles():
        held(program, title, data, tally)


def compare_random(program, seed, tally):
    """Fresh bundles; all orders of a few chunks and some of many come out as one, and stay so."""
    rng = random.Random(seed)
    for chunks in (*(generators.random_chunks(rng, style) for style in generators.STYLES), generators.stopped_run(rng)):
        few = generators.all_orders(chunks) if len(chunks) <= 4 else (generators.shuffled(rng, chunks) for _ in range(6))
        results = {held(program, "an order of chunks", generators.bundle_bytes(order), tally) for order in few}
        if len(results) != 1:
            raise listing_runs.Different("orders of one bundle's chunks came out differently")
        result = results.pop()
        if held(program, "rewritten again", result, tally) != result:
            raise listing_runs.Different("rewriting twice changed the bundle")
        tally.orders += 1
    for title, data in listing_cases.random_bundles(seed):
        held(program, title, data, tally)
