"""Names of files and builds: as bytes, as text for any bytes, and as readable text."""

import unicodedata

SHORT = {"\n": "\\n", "\r": "\\r", "\t": "\\t"}

# Controls, format characters (they can turn the direction of writing), surrogates, unassigned ones, line separators.
HIDDEN = ("Cc", "Cf", "Cs", "Co", "Cn", "Zl", "Zp")


def to_text(name):
    """The text of a file's name, whatever the locale: UTF-8, other bytes as surrogates, as in the sheet."""
    return name.decode("utf-8", "surrogateescape")


def to_bytes(text):
    return text.encode("utf-8", "surrogateescape")


def readable(name):
    """A name on one line: what has no picture of its own is written as an escape, a byte that is no UTF-8 as \\xNN."""
    if name.isascii() and name.isprintable():
        return name
    return "".join(readable_character(c) for c in name)


def readable_character(c):
    if c in SHORT:
        return SHORT[c]
    if unicodedata.category(c) not in HIDDEN:
        return c
    code = ord(c)
    if 0xDC80 <= code <= 0xDCFF:
        return f"\\x{code - 0xDC00:02x}"
    if code < 0x100:
        return f"\\x{code:02x}"
    return f"\\u{code:04x}" if code < 0x10000 else f"\\U{code:08x}"


def shell_name(path):
    """The text of a path as one word of a shell, if it is plain; else FILE."""
    return path if all(c.isalnum() or c in "/._-+" for c in path) and path.isascii() else "FILE"


def named(names, most=5):
    """'a, b and 3 more': the first of some names, readable."""
    more = f" and {len(names) - most:,} more" if len(names) > most else ""
    return ", ".join(map(readable, names[:most])) + more


def counted(number, one, many=None):
    """'1 bundle', '2 bundles', '1,000 bundles'."""
    return f"{number:,} {one if number == 1 else many or one + 's'}"
