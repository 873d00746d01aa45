"""The line by which a program of tests/ says that it skipped a test, and the exit status if it skipped all of them."""

import re

STATUS = 77
LINE = re.compile(r"(?P<program>\w+): skipped (?P<test>.+?): (?P<reason>.+)")


def line(program, test, reason):
    """A line; what would end a part of it too early, or the line, is taken out."""
    test = " ".join(test.replace(": ", " ").split())
    return f"{program}: skipped {test}: {' '.join(reason.split()) or 'no reason given'}"


def skipped_in(text):
    """(program, test) of each such line, once, in order."""
    found = filter(None, map(LINE.fullmatch, text.splitlines()))
    return list(dict.fromkeys((match["program"], match["test"]) for match in found))


def summary(skipped):
    """One line that counts and names them."""
    names = "; ".join(f"{program}: {test}" for program, test in skipped)
    return f"{len(skipped)} test{'s' * (len(skipped) != 1)} skipped{': ' * bool(names)}{names}"
