"""Checksum and EEPROM range."""

from itertools import product

from ..request import line
from . import images
from .tools import CHUNKS, U16, U32, asked, around, near, number, ramp

TOP = around(65_534)
WORDS = around(0, 2, 64, 32_767, 65_535)
SKIPS = around(0, 3, 255, 65_280, 65_534)
# Past 16 bits, at the highest position and end, and above it.
MOST = 131_072
HIGH = (*around(65_536, MOST, most=U32), MOST + 2, U32 - 1)


def small():
    yield from checksums()
    for word in WORDS:
        for count in WORDS:
            yield line("new", word, count)
            yield line("startat", word, count)
    yield from skips()
    yield from single_bytes()
    yield from reads()
    yield from writes()
    yield from high()


def checksums():
    for byte in range(256):
        yield line("crc", bytes([byte]))
    for length in range(33):
        for data in (bytes(length), b"\xff" * length, ramp(length)):
            yield line("crc", data)


def skips():
    for pos in range(7):
        for end in range(7):
            for skip in range(7):
                yield line("skip", pos, end, skip)
    for pos in SKIPS:
        for end in SKIPS:
            for skip in SKIPS:
                yield line("skip", pos, end, skip)


def single_bytes():
    for length in range(6):
        for pos in range(7):
            for end in (0, 1, 2, 4, 6, 8):
                for chunk in CHUNKS:
                    yield line("byte", ramp(length), chunk, pos, end)
    for pos in TOP:
        for end in TOP:
            yield line("byte", b"", 4, pos, end)


def reads():
    for kind in ("read", "exact"):
        for length in (0, 1, 3, 4, 5, 8, 9, 17):
            for pos in (0, 1, 2, 3, 4, 5, 7, 8, 9):
                for end in (0, 2, 4, 5, 6, 8, 10, 18):
                    for room in (0, 1, 2, 3, 4, 5, 8, 9, 17):
                        chunk = CHUNKS[(length + pos + room) % 2]
                        yield line(kind, ramp(length), chunk, pos, end,
                                   b"\xee" * room)
        for pos in around(65_530, 65_534):
            for end in around(65_530, 65_534):
                for room in range(6):
                    yield line(kind, b"\x01", 8, pos, end, b"\xee" * room)


def writes():
    for length in range(8):
        for pos in range(8):
            for end in (0, 2, 3, 4, 6, 8):
                for count in range(7):
                    yield line("write", ramp(length), pos, end,
                               ramp(count, 100))
    for pos in TOP:
        for end in TOP:
            yield line("write", b"\x01\x02", pos, end, b"\xaa")


def high():
    for pos, end in product((0, *HIGH), repeat=2):
        for skip in (0, 1, 2, U16):
            yield line("skip", pos, end, skip)
        yield line("byte", b"", 4, pos, end)
        for count in (0, 1, 2, 3):
            yield line("read", b"\x01", 8, pos, end, b"\xee" * count)
            yield line("exact", b"\x01", 4, pos, end, b"\xee" * count)
            yield line("write", b"\x01\x02", pos, end, ramp(count))


def some(rng):
    """A range is made over an image and used, call by call."""
    yield line("crc", rng.randbytes(rng.randint(0, 40)))
    image = any_image(rng)
    word, count = number(rng), number(rng)
    if rng.random() < 0.8:
        word, count = rng.randint(0, len(image) // 2 + 4), rng.randint(0, 40)
    yield line("new", word, count)
    yield line("startat", word, count)
    pos, end = 2 * word, min(2 * (word + count), MOST)
    for _ in range(rng.randint(3, 10)):
        if rng.random() < 0.04:
            most = rng.choice((U16, U16, MOST + 2, U32))
            pos, end = number(rng, most), number(rng, most)
        request, (record, slices) = step(rng, image, pos, end)
        yield request
        if record:
            pos, end = record
        if request.startswith(b"write"):
            image = slices[0]


def any_image(rng):
    pick = rng.random()
    if pick < 0.85:
        return rng.randbytes(rng.randint(0, 60))
    if pick < 0.999:
        return images.built(rng)
    return rng.randbytes(near(rng, (65_536, MOST, MOST), most=U32))


def step(rng, image, pos, end):
    chunk = rng.choice(CHUNKS)
    left = min(max(0, end - pos), U16)
    length = rng.choice((rng.randint(0, 20), near(rng, (left,))))
    kind = rng.choice(("skip", "byte", "read", "exact", "write"))
    if kind == "skip":
        return asked(kind, pos, end, length)
    if kind == "byte":
        return asked(kind, image, chunk, pos, end)
    data = rng.randbytes(min(length, 300))
    if kind == "write":
        return asked(kind, image, pos, end, data)
    return asked(kind, image, chunk, pos, end, data)
