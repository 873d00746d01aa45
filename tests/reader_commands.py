"""Commands: their bytes, reading one and putting one."""

from collections import namedtuple

MEMBER, END, CUT, REGION, BARRIER, ACQUIRE, RELEASE = 0x01, 0x02, 0x03, 0x10, 0x11, 0x20, 0x21
READ, WRITE, ATOMIC_READ, ATOMIC_WRITE = 0x30, 0x31, 0x32, 0x33
WIDE_READ, WIDE_WRITE, WIDE_ATOMIC_READ, WIDE_ATOMIC_WRITE = 0x38, 0x39, 0x3A, 0x3B

# The two groups of accesses, the same kinds in the same order.
NARROW = (READ, WRITE, ATOMIC_READ, ATOMIC_WRITE)
WIDE = (WIDE_READ, WIDE_WRITE, WIDE_ATOMIC_READ, WIDE_ATOMIC_WRITE)
ACCESSES = NARROW + WIDE
OPENS_SEGMENT = (MEMBER, REGION, BARRIER)
CLOSES_CHUNK = (END, CUT)

# The width in bytes of each operand, in order.
NARROW_WIDTHS = (2, 4, 2, 2, 1)  # site, base, stride, count, size
WIDE_WIDTHS = (4, 4, 2, 2, 1)
WIDTHS = {
    MEMBER: (2, 1),  # team, member
    END: (),
    CUT: (),
    REGION: (2, 1),  # team, size
    BARRIER: (),
    ACQUIRE: (1,),  # lock
    RELEASE: (1,),  # lock
    **dict.fromkeys(NARROW, NARROW_WIDTHS),
    **dict.fromkeys(WIDE, WIDE_WIDTHS),
}

LAST_ADDRESS = 4294967295
LAST_NARROW_SITE = 65535

Command = namedtuple("Command", "code operands")
Range = namedtuple("Range", "base stride count size")


class Refused(Exception):
    """A refusal: its number and its place."""

    def __init__(self, number, place):
        super().__init__(number, place)
        self.number = number
        self.place = place


def command_length(code):
    return 1 + sum(WIDTHS[code])


def group_of(code):
    """The group of an access, None for other commands."""
    return NARROW if code in NARROW else WIDE if code in WIDE else None


def code_in(group, code):
    """The access of the same kind in a group; other commands stay as they are."""
    return group[group_of(code).index(code)] if code in ACCESSES else code


def range_is_good(r):
    """The rules for count, stride, size and last byte."""
    if r.count < 1:
        return False
    if (r.stride == 0) != (r.count == 1):
        return False
    if r.size not in (1, 2, 4, 8):
        return False
    return r.base + (r.count - 1) * r.stride + r.size - 1 <= LAST_ADDRESS


def operands_are_good(command):
    """Every operand is in its range; the own-team rule is not tested."""
    code, operands = command
    if code == MEMBER:
        return operands[1] <= 63
    if code == REGION:
        return operands[0] != 0 and 1 <= operands[1] <= 64
    if code in (ACQUIRE, RELEASE):
        return operands[0] <= 63
    if code in NARROW and operands[0] > LAST_NARROW_SITE:
        return False
    if code in ACCESSES:
        return range_is_good(Range(*operands[1:]))
    return True


def split_operands(code, data):
    """The operands of a command from exactly their bytes."""
    operands = []
    at = 0
    for width in WIDTHS[code]:
        operands.append(int.from_bytes(data[at : at + width], "little"))
        at += width
    return tuple(operands)


def command_bytes(command):
    """The bytes of a command, good or not; each operand must have its width."""
    out = bytes([command.code])
    for width, value in zip(WIDTHS[command.code], command.operands):
        out += value.to_bytes(width, "little")
    return out


def take_command(data, position):
    """The command at a position without the test of its operands."""
    if position >= len(data):
        raise Refused(18, position)
    code = data[position]
    if code not in WIDTHS:
        raise Refused(2, position)
    after = position + command_length(code)
    if after > len(data):
        raise Refused(3, position)
    return Command(code, split_operands(code, data[position + 1 : after])), after


def read_command(data, position):
    """Answers the command and the position after it."""
    command, after = take_command(data, position)
    if not operands_are_good(command):
        raise Refused(5, position)
    return command, after


def put_command(command, buffer, position):
    """Writes the command into a bytearray; answers the position after it."""
    if not operands_are_good(command):
        raise Refused(5, position)
    data = command_bytes(command)
    after = position + len(data)
    if after > len(buffer):
        raise Refused(17, position)
    buffer[position:after] = data
    return after
