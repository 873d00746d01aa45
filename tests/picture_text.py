"""The text that the page shows, and the PNG that holds it."""

import struct
import zlib
from html.parser import HTMLParser

KEYWORD = b"Text of the page"
SIGNATURE = b"\x89PNG\r\n\x1a\n"


class Shown(HTMLParser):
    """The pieces of text of a page that are seen on a wide screen with nothing unfolded, up to the end of the first article."""

    NEVER = ("style", "title")
    EMPTY = ("meta",)

    def __init__(self):
        super().__init__()
        self.open = []  # (tag, whether its text is hidden)
        self.pieces, self.ended = [], False

    def handle_starttag(self, tag, attributes):
        classes = (dict(attributes).get("class") or "").split()
        above, hidden = self.open[-1] if self.open else ("", False)
        folded = above == "details" and tag != "summary"
        if tag not in self.EMPTY:
            self.open.append((tag, hidden or folded or tag in self.NEVER or "narrow" in classes or "store" in classes))

    def handle_startendtag(self, tag, attributes):
        pass

    def handle_endtag(self, tag):
        while self.open and self.open.pop()[0] != tag:
            pass
        self.ended = self.ended or tag == "article"

    def handle_data(self, data):
        if not self.ended and data.strip() and not (self.open and self.open[-1][1]):
            self.pieces.append(" ".join(data.split()))


def shown_text(page):
    shown = Shown()
    shown.feed(page)
    shown.close()
    return "\n".join(shown.pieces)


# ------------------------------------------------------------------------ PNG


def chunks(png):
    """(kind, body) of each chunk."""
    at = len(SIGNATURE)
    while at < len(png):
        length, kind = struct.unpack(">I4s", png[at : at + 8])
        yield kind, png[at + 8 : at + 8 + length]
        at += 12 + length


def put_chunks(parts):
    packed = (struct.pack(">I", len(body)) + kind + body + struct.pack(">I", zlib.crc32(kind + body)) for kind, body in parts)
    return SIGNATURE + b"".join(packed)


def with_text(png, text):
    """The picture with this text as compressed UTF-8 after its header."""
    header, *rest = chunks(png)
    return put_chunks([header, (b"iTXt", KEYWORD + b"\0\1\0\0\0" + zlib.compress(text.encode(), 9)), *rest])


def text_of(png):
    """The text of a picture, or None."""
    for kind, body in chunks(png):
        if kind == b"iTXt" and body.startswith(KEYWORD + b"\0"):
            return zlib.decompress(body[len(KEYWORD) + 5 :]).decode()
    return None
