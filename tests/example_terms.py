"""Numbers, answers and races as terms of the computed examples."""

import second_reader as sr


def bytes_term(data):
    return f"(bytes {len(data)} 0x{data.hex() or '0'})"


def race_term(race):
    first = (*race.first, race.first_site, race.first_element)
    second = (*race.second, race.second_site, race.second_element)
    return "race " + " ".join(str(n) for n in (race.witness, *first, *second))


KINDS = ("Read", "Write", "AtomicRead", "AtomicWrite")


def access_term(command):
    """An access of either group as a command."""
    group = sr.group_of(command.code)
    kind, wide = KINDS[group.index(command.code)], "true" if group == sr.WIDE else "false"
    site, *touched = command.operands
    return f"Com.Access (record {{ kind = Kind.{kind}; wide = {wide}; site = {site}; range = {range_term(touched)[1:-1]} }})"


def taken_term(read):
    """An access that was read, and the position after it."""
    return f"(record {{ command = {access_term(read[0])}; next = {read[1]} }})"


def name_term(name):
    return "(name " + " ".join(str(n) for n in name) + ")"


def triples_term(triples):
    return "(" + "".join(f"triple {o} {s} {i} ∷ " for o, s, i in triples) + "[])"


def races_term(races):
    return "".join(f"{race_term(r)} ∷ " for r in races) + "[]"


def range_term(r):
    return "(range " + " ".join(str(n) for n in r) + ")"


def overlap_term(overlap):
    """What two ranges share, or that they share nothing."""
    return "(some (overlap " + " ".join(str(n) for n in overlap) + "))" if overlap else "none"


def found_term(race):
    """A race, or that there is none."""
    return f"(some ({race_term(race)}))" if race else "none"


def judgement_term(judgement):
    counts = ("chunks", "segments", "accesses", "races")
    fields = "".join(f"{name} = {getattr(judgement, name)}; " for name in counts)
    least = f"Some ({race_term(judgement.least)})" if judgement.least else "None"
    return f"(record {{ {fields}least = {least} }})"


def answer_term(term, operation, *arguments):
    """The answer of an operation of the second reader; term gives the term of its value."""
    try:
        value = operation(*arguments)
    except sr.Refused as refusal:
        return f"(refuses {refusal.number} {refusal.place})"
    return f"(gives {term(value)})"
