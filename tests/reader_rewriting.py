"""Rewriting a bundle with its chunks in a fixed order: request A.1 of document 02."""

from reader_bundles import check
from reader_commands import Refused


def rewrite(data, buffer):
    """Puts the chunks by team, then member, over the front of the buffer; answers how many bytes that is."""
    chunks = sorted(check(data).chunks, key=lambda c: (c.team, c.member))
    result = b"".join(data[c.offset : c.end] for c in chunks)
    if len(buffer) < len(result):
        raise Refused(17, 0)
    buffer[: len(result)] = result
    return len(result)


def canon(data):
    """What the program canon writes to standard output and to standard error."""
    buffer = bytearray(65536)
    try:
        size = rewrite(data, buffer)
    except Refused as refusal:
        return b"", b"refused %d at %d\n" % (refusal.number, refusal.place)
    return bytes(buffer[:size]), b""
