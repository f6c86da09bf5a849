"""Strings, device name, description."""

from itertools import product

from ..request import line, values
from . import images
from .images import category, counted_strings, image
from .tools import CHUNKS, near, number, said

BENCH = bytes.fromhex("02034100b5014200")


def small():
    for index in range(6):
        for room in range(5):
            for chunk in CHUNKS:
                data = image(category(10, BENCH))
                yield line("string", data, chunk, index, b"\xa5" * room)
    yield from all_short()
    yield from rooms()
    yield from names()
    yield from empty()


def all_short():
    """Every strings category of four bytes out of these, cut or whole."""
    for payload in product((0, 1, 2, 0x41), repeat=4):
        for words in (0, 1, 2):
            data = image(category(10, payload, words))
            for index in (1, 2, 3):
                yield line("string", data, 4, index, b"\xa5\xa5")


def rooms():
    for length in (0, 1, 2, 254, 255):
        stored = bytes(65 + place % 26 for place in range(length))
        data = image(category(10, counted_strings([b"q", stored])))
        for room in (0, 1, 2, 3, 253, 254, 255, 256, 257):
            for index in (0, 2):
                yield line("string", data, 8, index, b"\xa5" * room)
    for byte in range(256):
        data = image(category(10, counted_strings([bytes([65, byte, 66])])))
        yield line("string", data, 4, 1, b"\xa5\xa5\xa5")


def names():
    for order, name in product(range(5), repeat=2):
        record = bytearray(18)
        record[2:4] = order, name
        for parts in ((10, 30), (30, 10), (30,), (10,), ()):
            made = {10: category(10, BENCH), 30: category(30, record)}
            data = image(*[made[kind] for kind in parts])
            for kind in ("name", "desc"):
                for room in (0, 1, 4, 256):
                    yield line(kind, data, 4, b"\xa5" * room)


def empty():
    """Strings without a byte, and what stands behind them: a count that would
    have the index, or not, and a length."""
    for count, length in product((0, 1, 2, 255), (0, 1, 2, 255)):
        behind = category(count + 256 * length, b"A")
        for index in (0, 1, 2, 3):
            record = bytearray(18)
            record[2:4] = index, 3 - index
            made = image(category(30, record), category(10, b""), behind)
            # The image may end where the strings do.
            for data in (made, made[:-len(behind) - 2]):
                yield line("string", data, 4, index, b"\xa5\xa5")
                yield line("name", data, 8, b"\xa5\xa5")
                yield line("desc", data, 4, b"\xa5\xa5")


def some(rng):
    """Each string of one image, and some that aren't there."""
    data = any_image(rng)
    many = 2 if len(data) > 60_000 else 7
    for index in indices(rng, data, many):
        yield line("string", data, rng.choice(CHUNKS), index, room(rng))
    for kind in rng.sample(("name", "name", "desc", "desc"), many // 2):
        yield line(kind, data, rng.choice(CHUNKS), room(rng))


def any_image(rng):
    pick = rng.random()
    if pick < 0.66:
        return images.built(rng)
    if pick < 0.88:
        return images.damaged(rng, images.built(rng))
    if pick < 0.9995:
        return images.ending_high(rng)
    return images.tall(rng)


def indices(rng, data, many):
    """Around the count that the strings category gives."""
    found = values(said(line("category", data, 4, 10)))
    count = data[found[0]] if found and found[0] < len(data) else 255
    likely = [0, 1, 1, 2, 2, 3, count - 1, count, count, count + 1, count + 2,
              rng.randint(0, 255), 255]
    return [max(0, min(255, index)) for index in rng.sample(likely, many)]


def room(rng):
    length = rng.choice((rng.randint(0, 5), rng.randint(0, 40), 64, 255))
    if rng.random() < 0.02:
        length = near(rng, (255, number(rng, 300)), most=400)
    return rng.randbytes(1) * length
