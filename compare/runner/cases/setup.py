"""What ethercrab leaves unread of an image."""

from independent.crc import crc

from ..request import line
from . import images
from .images import category, image
from .tools import CHUNKS, around, ramp

READ_OUTS = ("pdi", "bootmail", "version", "checksum", "clocks")
CLOCK = 60
CLOCK_BYTES = 24


def small():
    yield from heads()
    yield from sums()
    yield from clocks()
    yield from largest()


def heads():
    """Images that end within what is read."""
    for length in range(0, 131):
        for kind in READ_OUTS:
            yield line(kind, ramp(length), CHUNKS[length % 2])


def sums():
    """Every sum that may be stored, the right one too, and the byte behind."""
    data = bytearray(ramp(16))
    for stored in range(256):
        data[14:16] = bytes([stored, 255 - stored])
        yield line("checksum", data, CHUNKS[stored % 2])
    for place in range(16):
        for value in (0, 1, 0x80, 0xFF):
            other = bytearray(summed(ramp(16)))
            other[place] = value
            yield line("checksum", other, 4)


def summed(head):
    """A copy whose checksum is right."""
    return head[:14] + bytes([crc(head[:14]), 0]) + head[16:]


def clocks():
    """Whole records and a rest, at and around the limit."""
    for count in (0, 1, 2, 7, 8, 9, 10):
        for rest in (0, 1, 2, 18, 20, 22, 23):
            data = image(category(CLOCK, ramp(CLOCK_BYTES * count + rest)))
            yield line("clocks", data, CHUNKS[rest % 2])
    for place in range(CLOCK_BYTES):
        for value in (1, 0x7F, 0x80, 0xFF):
            record = bytearray(CLOCK_BYTES)
            record[place] = value
            yield line("clocks", image(category(CLOCK, record)), 4)
    # The image may end before the category does.
    for length in (12, 24, 95, 96, 107, 108, 500):
        for there in (0, 5, 24, 30):
            data = image(category(CLOCK, ramp(there), length), end=b"")
            yield line("clocks", data, 8)
    for length in around(32_767 - 0x42, 32_768 - 0x42, 65_536 - 0x42, 65_535):
        for kind in (CLOCK, 0, 0xFFFF):
            yield line("clocks", image(category(kind, b"", length), end=b""), 4)


def largest():
    """As large as an image may be, and a byte more."""
    for length in (131_072, 131_073):
        for kind in READ_OUTS:
            yield line(kind, bytes(length), 4)


def some(rng):
    """Questions to one image: a good one, one cut short, or a damaged one."""
    data = with_clocks(rng, images.built(rng))
    pick = rng.random()
    if pick < 0.2:
        data = data[:rng.randint(0, 140)]
    elif pick < 0.5:
        data = images.damaged(rng, data)
    elif pick < 0.8:
        data = summed(data)
    for kind in READ_OUTS:
        yield line(kind, data, rng.choice(CHUNKS))


def with_clocks(rng, data):
    """The category before the others, mostly; else behind the last of them,
    where a search may miss it."""
    count = rng.choice((0, 1, 1, 2, 3, 7, 8, 9))
    rest = rng.choice((0, 0, 0, 2, 12, 22))
    part = category(CLOCK, rng.randbytes(CLOCK_BYTES * count + rest))
    if rng.random() < 0.9:
        start = images.CATEGORIES_START
        return data[:start] + part + data[start:]
    return data + part
