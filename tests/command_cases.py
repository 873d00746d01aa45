"""Frames for reading and putting single commands."""

import random

import second_reader as sr
from generators import wide_site
from second_reader import Command
from vector_frames import put_frame, read_frame

HIGHEST = 2**64 - 1
FAR_POSITIONS = (
    2**16, 2**31, 2**32 - 1, 2**32, 2**32 + 1, 2**63, 2**63 + 1,
    HIGHEST - 14, HIGHEST - 13, HIGHEST - 12, HIGHEST - 11, HIGHEST - 10, HIGHEST - 3, HIGHEST - 2, HIGHEST - 1, HIGHEST,
)

# One good command of each kind; no operand byte is 0.
GOOD = (
    Command(sr.MEMBER, (0x0201, 3)),
    Command(sr.END, ()),
    Command(sr.CUT, ()),
    Command(sr.REGION, (0x0504, 6)),
    Command(sr.BARRIER, ()),
    Command(sr.ACQUIRE, (7,)),
    Command(sr.RELEASE, (8,)),
    Command(sr.READ, (0x0A09, 0x0E0D0C0B, 0x100F, 0x1211, 1)),
    Command(sr.WRITE, (0x1413, 0x18171615, 0x1A19, 0x1C1B, 2)),
    Command(sr.ATOMIC_READ, (0x1E1D, 0x2221201F, 0x2423, 0x2625, 4)),
    Command(sr.ATOMIC_WRITE, (0x2827, 0x2C2B2A29, 0x2E2D, 0x302F, 8)),
    Command(sr.WIDE_READ, (0x34333231, 0x38373635, 0x3A39, 0x3C3B, 1)),
    Command(sr.WIDE_WRITE, (0x403F3E3D, 0x44434241, 0x4645, 0x4847, 2)),
    Command(sr.WIDE_ATOMIC_READ, (0x4C4B4A49, 0x504F4E4D, 0x5251, 0x5453, 4)),
    Command(sr.WIDE_ATOMIC_WRITE, (0x58575655, 0x5C5B5A59, 0x5E5D, 0x605F, 8)),
)

NARROW_SITES = (0, 1, 255, 256, 65535)
WIDE_SITES = (*NARROW_SITES, 65536, 65537, 2**24 - 1, 2**24, 2**31, 2**32 - 1)
TEAMS = (0, 1, 2, 255, 256, 257, 32767, 32768, 65534, 65535)
SMALL_LIMITS = (0, 1, 2, 62, 63, 64, 65, 66, 127, 128, 254, 255)
STRIDES = (0, 1, 2, 8, 255, 256, 65534, 65535)
COUNTS = (0, 1, 2, 3, 255, 256, 65534, 65535)
SIZES = (0, 1, 2, 3, 4, 5, 6, 7, 8, 9, 16, 64, 128, 129, 255)

# Good (stride, count) pairs for the last-byte rule.
SHAPES = ((0, 1), (1, 2), (2, 2), (1, 65535), (65535, 2), (255, 257), (65535, 65535), (65534, 65535))


# ---------------------------------------------------- commands at limits


def limit_commands():
    """Commands with each operand at, below and above each limit."""
    yield Command(sr.END, ())
    yield Command(sr.CUT, ())
    yield Command(sr.BARRIER, ())
    for code in (sr.MEMBER, sr.REGION):
        for team in TEAMS:
            for small in (0, 1, 63, 64, 65):
                yield Command(code, (team, small))
        for small in SMALL_LIMITS:
            yield Command(code, (1, small))
    for code in (sr.ACQUIRE, sr.RELEASE):
        for lock in SMALL_LIMITS:
            yield Command(code, (lock,))
    for place, code in enumerate(sr.ACCESSES):
        yield from limit_accesses(code, place % 4)


def limit_accesses(code, place):
    for site in WIDE_SITES if code in sr.WIDE else NARROW_SITES:
        yield Command(code, (site, 4096, 0, 1, 4))
    for base in (0, 1, 255, 256, 65535, 65536, 2**24, 2**31 - 1, 2**31, 2**32 - 1):
        yield Command(code, (9, base, 0, 1, 1))
    for size in SIZES:
        yield Command(code, (9, 4096, 0, 1, size))
        yield Command(code, (9, 4096, 3, 4, size))
    # Each command takes the whole product for size 1, and a quarter of it for other sizes.
    turn = 0
    for stride in STRIDES:
        for count in COUNTS:
            turn += 1
            for size in (0, 1, 2, 3, 4, 8, 9):
                if turn % 4 == place or size == 1:
                    yield Command(code, (9, 16, stride, count, size))
    yield from last_byte_accesses(code)


def last_byte_accesses(code):
    """Last byte one below, at and above 4,294,967,295, and far above it."""
    for stride, count in SHAPES:
        for size in (1, 2, 4, 8):
            base = sr.LAST_ADDRESS - ((count - 1) * stride + size - 1)
            for shift in (-1, 0, 1):
                if 0 <= base + shift <= sr.LAST_ADDRESS:
                    yield Command(code, (77, base + shift, stride, count, size))
        yield Command(code, (77, sr.LAST_ADDRESS, stride, count, 1))
        yield Command(code, (77, sr.LAST_ADDRESS, stride, count, 8))


def bad_commands():
    """One command with a bad operand for each kind that can have one."""
    yield Command(sr.MEMBER, (1, 64))
    yield Command(sr.REGION, (0, 2))
    yield Command(sr.REGION, (1, 0))
    yield Command(sr.REGION, (1, 65))
    yield Command(sr.ACQUIRE, (64,))
    yield Command(sr.RELEASE, (255,))
    for code in sr.ACCESSES:
        yield Command(code, (1, 0, 0, 0, 1))
        yield Command(code, (1, 0, 1, 1, 1))
        yield Command(code, (1, 0, 0, 2, 1))
        yield Command(code, (1, 0, 0, 1, 3))
        yield Command(code, (1, sr.LAST_ADDRESS, 0, 1, 2))


def sites_too_large():
    """Narrow commands with sites that need more than 2 bytes, which can be put but not read; the last three are bad besides."""
    for code in sr.NARROW:
        for site in (65536, 65537, 131071, 131072, 2**24, 2**31, 2**32 - 65536, 2**32 - 1):
            yield Command(code, (site, 4096, 0, 1, 4))
        yield Command(code, (65536, 0, 0, 0, 1))
        yield Command(code, (2**31, 0, 0, 1, 3))
        yield Command(code, (2**32 - 1, sr.LAST_ADDRESS, 0, 1, 2))


# -------------------------------------------------------- random commands


def random_good_command(rng):
    code = rng.choice(list(sr.WIDTHS))
    if code == sr.MEMBER:
        return Command(code, (rng.randrange(65536), rng.randrange(64)))
    if code == sr.REGION:
        return Command(code, (rng.randrange(1, 65536), rng.randrange(1, 65)))
    if code in (sr.ACQUIRE, sr.RELEASE):
        return Command(code, (rng.randrange(64),))
    if code in sr.ACCESSES:
        return random_good_access(rng, code)
    return Command(code, ())


def random_good_access(rng, code):
    count = rng.choice((1, 2, rng.randrange(1, 65536)))
    stride = 0 if count == 1 else rng.choice((1, 8, rng.randrange(1, 65536)))
    size = rng.choice((1, 2, 4, 8))
    room = sr.LAST_ADDRESS - ((count - 1) * stride + size - 1)
    base = rng.choice((0, room, rng.randrange(room + 1)))
    return Command(code, (random_site(rng, code), base, stride, count, size))


def random_site(rng, code):
    return wide_site(rng) if code in sr.WIDE else rng.randrange(65536)


def random_command(rng):
    """Any operands of the widths; most are out of range."""
    code = rng.choice(list(sr.WIDTHS))
    operands = tuple(rng.choice((rng.randrange(4), rng.randrange(256**w))) for w in sr.WIDTHS[code])
    return Command(code, operands)


# ------------------------------------------------------------ READ frames


def read_frames(seed):
    rng = random.Random(seed)
    yield from read_every_byte()
    for command in limit_commands():
        yield read_frame(0, sr.command_bytes(command))
    yield from read_torn()
    yield from read_positions()
    yield from read_precedence()
    yield from read_rows(rng)
    yield from read_random(rng)


def read_every_byte():
    for byte in range(256):
        for filler in (b"\x00", b"\x01", b"\xff"):
            yield read_frame(0, bytes([byte]) + filler * 11)
            yield read_frame(0, bytes([byte]) + filler * 13)
        yield read_frame(2, b"\x11\x02" + bytes([byte]) + b"\x02\x00\x03\x00\x00\x00\x01\x00\x02\x00\x04")
        yield read_frame(2, b"\x11\x02" + bytes([byte]) + b"\x02\x00\x01\x00\x03\x00\x00\x00\x01\x00\x02\x00\x04")


def read_torn():
    """Every command torn at every length, alone and behind three bytes."""
    for command in (*GOOD, *bad_commands()):
        data = sr.command_bytes(command)
        for length in range(len(data) + 1):
            yield read_frame(0, data[:length])
            yield read_frame(3, b"\x11\x11\x11" + data[:length])
        yield read_frame(0, data + b"\x11")


def read_positions():
    """Positions inside, at and past the end."""
    for length in range(5):
        data = b"\x11" * length
        for position in (*range(length + 3), *FAR_POSITIONS):
            yield read_frame(position, data)
    data = b"".join(sr.command_bytes(c) for c in GOOD)
    for position in (*range(len(data) + 3), *FAR_POSITIONS):
        yield read_frame(position, data)


def read_precedence():
    unknown = b"\x00\x05\xff"
    for position in range(5):  # 18 before 2
        yield read_frame(position, unknown)
    for byte in (0x00, 0x05, 0x0F, 0x12, 0x1F, 0x22, 0x2F, 0x34, 0x37, 0x3C, 0x3F, 0x40, 0xFF):  # 2 before 3
        yield read_frame(0, bytes([byte]))
        yield read_frame(1, b"\x02" + bytes([byte]))
    yield read_frame(0, b"\x10\x00\x00")  # 3 before 5: team 0, size cut off
    yield read_frame(0, b"\x10\x00\x00\x00")
    for code in sr.ACCESSES:  # 3 before 5: count 0 or stride 0 with count 2
        for rest in ("01000000000000000000", "01000000000000000200", "0100ffffffffffffffff"):
            data = bytes([code]) + bytes(2 * (code in sr.WIDE)) + bytes.fromhex(rest)
            yield read_frame(0, data)
            yield read_frame(0, data + b"\x01")
            yield read_frame(0, data + b"\x03")


def read_rows(rng):
    """Several commands in a row, read at each position."""
    for _ in range(20):
        row = [random_good_command(rng) for _ in range(rng.randrange(2, 5))]
        data = b"".join(sr.command_bytes(c) for c in row)
        for position in range(len(data) + 2):
            yield read_frame(position, data)


def read_random(rng):
    for _ in range(300):
        data = sr.command_bytes(random_good_command(rng))
        before = rng.randbytes(rng.randrange(4))
        after = rng.randbytes(rng.randrange(4))
        yield read_frame(len(before), before + data + after)
    for _ in range(200):
        yield read_frame(0, sr.command_bytes(random_command(rng)))
    for _ in range(300):
        data = bytes([rng.choice(list(sr.WIDTHS))]) + rng.randbytes(rng.randrange(15))
        yield read_frame(0, data)
    for _ in range(100):
        yield read_frame(rng.randrange(16), rng.randbytes(rng.randrange(16)))


# ------------------------------------------------------------- PUT frames


def put_frames(seed):
    rng = random.Random(seed)
    for command in (*limit_commands(), *sites_too_large()):
        yield put_frame(1, command, b"\xaa" * (sr.command_length(command.code) + 2))
    yield from put_every_position()
    yield from put_far()
    yield from put_precedence()
    yield from put_random(rng)


def put_every_position():
    """Buffers from empty to two bytes more than the command."""
    for command in GOOD:
        for length in range(sr.command_length(command.code) + 3):
            for position in range(length + 2):
                if is_near_fit(command, length, position):
                    yield put_frame(position, command, bytes(0xA0 + k for k in range(length)))


def is_near_fit(command, length, position):
    """All small cases; of the long ones those about the limit."""
    over = position + sr.command_length(command.code) - length
    return length <= 4 or over <= 1 or position in (0, length, length + 1)


def put_far():
    for command in GOOD:
        for length in (0, sr.command_length(command.code), 15):
            for position in FAR_POSITIONS:
                yield put_frame(position, command, b"\x55" * length)


def put_precedence():
    """5 before 17."""
    for command in (*bad_commands(), *sites_too_large()):
        length = sr.command_length(command.code)
        for room in (0, length - 1, length):
            for position in (0, 1, HIGHEST):
                yield put_frame(position, command, b"\x77" * room)


def put_random(rng):
    for _ in range(300):
        command = random_good_command(rng)
        length = sr.command_length(command.code)
        position = rng.randrange(6)
        buffer = rng.randbytes(max(0, position + length + rng.randrange(-2, 4)))
        yield put_frame(position, command, buffer)
    for _ in range(200):
        yield put_frame(rng.randrange(3), random_command(rng), rng.randbytes(rng.randrange(10, 18)))
    for _ in range(200):
        site = rng.choice((rng.randrange(65536), 65535, 65536, rng.randrange(2**32)))
        command = random_good_access(rng, rng.choice(sr.ACCESSES))
        yield put_frame(rng.randrange(3), command._replace(operands=(site, *command.operands[1:])), rng.randbytes(rng.randrange(10, 18)))
