"""The races of a good bundle by another way than the second reader's: from the commands that a generator made, by labels
and tables of bytes. Nothing of the second reader's bundles, graph and races is used; ranges must be short. A barrier missing from a
cut chunk has no label: all that the chunk did is in lower intervals.
"""

from collections import namedtuple

from second_reader import ACQUIRE, BARRIER, REGION, RELEASE

# held: of each chunk of the lineage, by team and member, the locks that it holds on the way to the access: at the REGION that
# leads on to it, and the access's own chunk at the access
Access = namedtuple("Access", "name site writes atomic touched held label")

# Of each access, whether it writes and whether it is atomic.
KINDS = {0x30: (False, False), 0x31: (True, False), 0x32: (False, True), 0x33: (True, True)}
KINDS |= {code + 8: kind for code, kind in KINDS.items()}  # with a wide site


def races(chunks):
    """All races as (witness, first name, second name, first site, second site, first element, second element), in order."""
    accesses = all_accesses(chunks)
    found = []
    for first in accesses:
        for second in accesses:
            if first.name < second.name and race(first, second):
                witness = min(first.touched.keys() & second.touched.keys())
                elements = first.touched[witness], second.touched[witness]
                found.append((witness, first.name, second.name, first.site, second.site, *elements))
    return sorted(found)


def race(first, second):
    return bool(
        first.touched.keys() & second.touched.keys()
        and (first.writes or second.writes)
        and not (first.atomic and second.atomic)
        and concurrent(first.label, second.label)
        and not locks_apart(first, second) & locks_apart(second, first)
    )


def locks_apart(access, other):
    """The locks of the chunks of its lineage that are not in the other's."""
    return set().union(*(locks for chunk, locks in access.held.items() if chunk not in other.held))


def concurrent(label, other):
    """By the first triples that differ; there are none where one label is a prefix of the other."""
    for (offset, span, interval), (other_offset, _, other_interval) in zip(label, other):
        if (offset, interval) != (other_offset, other_interval):
            return interval == other_interval and offset % span != other_offset % span
    return False


def all_accesses(chunks):
    """Outer teams first, so that the label of a forking segment is there before its team's labels."""
    forks, found = {0: ((), 1, {})}, []  # of a team: the label of its forking segment, its size, and what is held around it
    for chunk in sorted(chunks, key=lambda chunk: chunk[0].operands[0]):
        team, member = chunk[0].operands
        before, span, above = forks[team]
        barriers = regions = number = 0
        locks = frozenset()
        for code, operands in chunk[1:]:
            label = (*before, (member + span * regions, span, barriers))
            held = {**above, (team, member): locks}
            if code == BARRIER:
                barriers += 1
            elif code == REGION:
                forks[operands[0]] = label, operands[1], held
                regions += 1
            elif code == ACQUIRE:
                locks |= {operands[0]}
            elif code == RELEASE:
                locks -= {operands[0]}
            elif code in KINDS:
                site, *touched = operands
                found.append(Access((team, member, number), site, *KINDS[code], elements_by_byte(*touched), held, label))
                number += 1
    return found


def elements_by_byte(base, stride, count, size):
    """The touched bytes, each with the lowest element that covers it, which is the first to come."""
    found = {}
    for k in range(count):
        for j in range(size):
            found.setdefault(base + k * stride + j, k)
    return found
