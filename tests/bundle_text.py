"""Bundles written as text.

Commands are parted by ";" or line ends and written as in the vectors:
"member T M", "end", "cut", "region T S", "barrier", "acquire L", "release L",
"read SITE BASE STRIDE COUNT SIZE" and so on. Further forms:
    raw HEX              these bytes
    torn N command       the first N bytes of the command
    times N a, b         the commands a and b, N times
    *command             marks the place of the command
    *                    alone: marks the place reached
"""

import second_reader as sr
from second_reader import Command
from vector_frames import COMMAND_NAMES

CODES = {name: code for code, name in COMMAND_NAMES.items()}


def parse_command(text):
    words = text.split()
    return Command(CODES[words[0]], tuple(int(w) for w in words[1:]))


def item_bytes(text):
    """The bytes of one command or further form."""
    head, _, rest = text.partition(" ")
    if head == "raw":
        return bytes.fromhex(rest)
    if head == "torn":
        length, _, command = rest.partition(" ")
        return item_bytes(command)[: int(length)]
    if head == "times":
        count, _, group = rest.partition(" ")
        return int(count) * b"".join(item_bytes(part.strip()) for part in group.split(","))
    return sr.command_bytes(parse_command(text))


def assemble(text):
    """Answers the bytes and the marked place, None if there is none."""
    data, place = b"", None
    for item in text.replace("\n", ";").split(";"):
        item = item.strip()
        if item.startswith("*"):
            place = len(data)
            item = item[1:].strip()
        if item:
            data += item_bytes(item)
    return data, place


def bundle(text):
    return assemble(text)[0]
