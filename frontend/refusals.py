"""The refusals in plain words: the tables of README.md."""

from collections import namedtuple

from frontend.bundles import MOST_BYTES

Refusal = namedtuple("Refusal", "wrong place advice")

REFUSALS = {
    1: Refusal("It has over 65,536 bytes.", "0", "Ask for a smaller regression case."),
    2: Refusal("A byte is no command.", "that byte", "The log is damaged, or a newer logger wrote it: ask for it again."),
    3: Refusal("It ends inside a command.", "that command", "Ask for it again."),
    4: Refusal(
        "It ends inside a member's log; or a command stands between two members' logs, or a MEMBER inside one.",
        "the log's length; or that command",
        "If P is the length, it was torn: ask for it again. Else parts were mixed up.",
    ),
    5: Refusal(
        "A number is out of its range, or a REGION's team is not greater than the team that it stands in.",
        "that command",
        "The log is damaged, or the logger at fault.",
    ),
    6: Refusal(
        "A lock is acquired while held, released while not held, or held at the END.",
        "that command",
        "Lock commands are missing: look at the logger.",
    ),
    7: Refusal(
        "It has over 512 segments or over 1,024 accesses.", "the first command too many", "Ask for a smaller regression case."
    ),
    8: Refusal("A team is forked twice.", "the later REGION", "Team numbers were used again, or two runs are in one log."),
    9: Refusal(
        "A member's log is there twice, or its team was never forked, or its number is not below the team's size.",
        "its MEMBER",
        "Two runs are in one log, or the log of the member that forks the team is missing.",
    ),
    10: Refusal(
        "The log of a member is missing.",
        "its team's REGION; 0 if the log is empty",
        "Part of the log is still to come: wait for it, or ask for it.",
    ),
    11: Refusal("A team is nested more than 4 deep.", "its REGION", "This reader does not take such a case."),
    12: Refusal(
        "A complete member, its log closed by END, met more or fewer barriers than the lowest-numbered complete one of its team.",
        "its MEMBER",
        "Part of the log is missing, or a log that was broken off was closed by END: ask for it again.",
    ),
    19: Refusal(
        "A cut member, its log closed by CUT, met more barriers than a complete one of its team.",
        "its MEMBER",
        "Part of a complete member's log is missing, or a log that was broken off was closed by END: look at the logger.",
    ),
    20: Refusal(
        "An access has a wide site, of 4 bytes, where the log's first access has a narrow one, of 2; or the other way round.",
        "that access",
        "The log is damaged, or its members were logged with sites of different widths: look at the logger.",
    ),
}

# What an accepted bundle cannot be converted for.
CONVERTING = {
    1: Refusal("With wide sites it would have over 65,536 bytes.", "0", "Keep it with narrow sites."),
    21: Refusal("An access has a site over 65,535, which needs 4 bytes.", "that access", "Keep it with wide sites."),
}

# What interval rows are turned away for: those of an accepted bundle that do not fit into the lent list, and given ones.
ROWS = {
    22: Refusal("Too few records are lent.", "0", "Lend one for each barrier interval: 512 are always enough."),
    23: Refusal("A given record is missing, extra or differs.", "the lowest such index, from 0", "Write the rows of the bundle again."),
}

TORN = "It ends inside a member's log: it was torn."
MIXED = "A command stands between two members' logs, or a MEMBER inside one."
NONE_THERE = "The log is empty."


def in_words(number, place, length):
    """(what is wrong, what to do) of a refused bundle. The length tells two meanings of one number apart; None if not known."""
    known = REFUSALS.get(number)
    if known is None:
        return "It is refused for a reason that this front end does not know.", "Look into README.md."
    if number == 4 and length is not None:
        return (TORN, "Ask for it again.") if place == length else (MIXED, "Parts of the log were mixed up.")
    if number == 10 and length == 0:
        return NONE_THERE, known.advice
    return known.wrong, known.advice


def converting_in_words(number, place, length):
    """The same where a bundle was to be converted: one that is accepted, or one that is refused by check."""
    if number in CONVERTING and length <= MOST_BYTES:
        return CONVERTING[number].wrong, CONVERTING[number].advice
    return in_words(number, place, length)


def rows_in_words(number, place, length):
    """The same where rows were wanted or given."""
    if number in ROWS:
        return ROWS[number].wrong, ROWS[number].advice
    return in_words(number, place, length)
