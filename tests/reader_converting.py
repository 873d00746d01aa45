"""Converting a bundle between the two groups of access commands: request A.6 of document 02."""

from functools import lru_cache

from reader_bundles import MOST_BYTES, check
from reader_commands import ACCESSES, LAST_NARROW_SITE, NARROW, WIDE, Command, Refused, code_in, command_bytes, read_command


@lru_cache(maxsize=4)
def placed_commands(data):
    """The commands of a bundle, each with its offset, where check accepts it."""
    check(data)
    found, position = [], 0
    while position < len(data):
        command, after = read_command(data, position)
        found.append((position, command))
        position = after
    return found


@lru_cache(maxsize=4)
def in_group(group, data):
    """The bundle with each access in the group, the operands being the same."""
    return b"".join(command_bytes(Command(code_in(group, code), operands)) for _, (code, operands) in placed_commands(data))


def fill(buffer, result):
    """Puts the result over the front of the buffer; answers how many bytes that is."""
    if len(buffer) < len(result):
        raise Refused(17, 0)
    buffer[: len(result)] = result
    return len(result)


def to_wide(data, buffer):
    result = in_group(WIDE, data)
    if len(result) > MOST_BYTES:
        raise Refused(1, 0)
    return fill(buffer, result)


def to_narrow(data, buffer):
    for offset, (code, operands) in placed_commands(data):
        if code in ACCESSES and operands[0] > LAST_NARROW_SITE:
            raise Refused(21, offset)
    return fill(buffer, in_group(NARROW, data))


CONVERTERS = {"wide": to_wide, "narrow": to_narrow}


def convert(word, data):
    """What the program convert, with this word, writes to standard output and to standard error."""
    buffer = bytearray(MOST_BYTES)
    try:
        size = CONVERTERS[word](data, buffer)
    except Refused as refusal:
        return b"", b"refused %d at %d\n" % (refusal.number, refusal.place)
    return bytes(buffer[:size]), b""
