"""The law of cutting, request A.4 of document 02: where chunks of an accepted bundle are cut at command ends and no REGION is lost, the
result is accepted, and its races are exactly those races of the full one whose two accesses both survive.

Which accesses survive is counted from the commands. A bundle is chunks, lists of Commands, as in generators.
"""

from itertools import product

import generators
import races_by_labels
import second_reader as sr


def places(chunk):
    """All places at which a chunk is cut: behind MEMBER and behind every command up to its END or CUT, from the last REGION on."""
    return range(generators.first_place(chunk), len(chunk))


def all_cuts(chunks):
    """All ways to cut some of the chunks, and to leave the others as they are."""
    ways = ([chunk, *(generators.cut_at(chunk, at) for at in places(chunk))] for chunk in chunks)
    return (list(cut) for cut in product(*ways))


def surviving(chunks):
    """The names of the accesses."""
    return {
        (*chunk[0].operands, number)
        for chunk in chunks
        for number in range(sum(command.code in sr.ACCESSES for command in chunk))
    }


def races_of(chunks):
    return sr.all_races(sr.check(generators.bundle_bytes(chunks)))


def races_left(races, cut):
    """Those whose two accesses both survive."""
    names = surviving(cut)
    return [race for race in races if race.first in names and race.second in names]


def differs(races, cut):
    """How a bundle cut from one with these races breaks the law, or None."""
    try:
        found = races_of(cut)
    except sr.Refused as refusal:
        return f"refused {refusal.number} at {refusal.place}"
    wanted = races_left(races, cut)
    return None if found == wanted else f"races {found}, wanted {wanted}"


def labels_differ(chunks):
    """Whether the comparison of labels gives other races than the graph."""
    return [sr.Race(*race) for race in races_by_labels.races(chunks)] != races_of(chunks)


def random_full(rng):
    """An accepted bundle to be cut; many hold cut chunks already."""
    styles = (generators.SMALL, generators.MIDDLE, generators.NESTED, generators.LOCKED, generators.AROUND)
    turn = rng.randrange(8)
    if turn < 4:
        return generators.stopped_run(rng)
    if turn == 4:
        return generators.locked_nest(rng)
    if turn == 5:
        return generators.one_interval(rng)
    chunks = generators.random_chunks(rng, rng.choice(styles))
    return generators.with_cuts(rng, chunks) if turn == 6 else chunks
