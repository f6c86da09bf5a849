"""What is read out of an image, and the category search."""

from ..request import line
from . import images
from .images import NAMED, category, image
from .tools import CHUNKS, around, number, ramp

READ_OUTS = ("alias", "size", "identity", "mailbox", "hasmail", "general",
             "physport", "physaddr", "sms", "usages", "fmmus", "fmmuex")
HOLDS = {"general": 30, "physport": 30, "physaddr": 30, "fmmus": 40,
         "sms": 41, "usages": 41, "fmmuex": 42}


def small():
    yield from heads()
    yield from largest()
    yield from last_words()
    yield from searches()
    yield from insides()
    yield from lists()
    yield from generals()


def largest():
    """As large as an image may be, and a byte more; in every call. In a few
    calls a byte less, and as large as it could be before."""
    for length in (65_536, 65_537, 131_071):
        data = filled(length)
        yield line("alias", data, 4)
        yield line("category", data, 8, 41)
        yield line("string", data, 4, 1, b"\xa5")
    for length in (131_072, 131_073):
        data = filled(length)
        for kind in READ_OUTS:
            yield line(kind, data, 4)
        yield line("category", data, 8, 41)
        yield line("inside", data, 4, 41)
        yield line("inside", data, 8, 10)
        yield line("pdos", data, 8, 50)
        yield line("string", data, 4, 0, b"\xa5")
        yield line("string", data, 4, 1, b"\xa5")
        yield line("name", data, 4, b"\xa5")
        yield line("desc", data, 4, b"\xa5")
        yield line("setalias", data, 1)
        yield line("byte", data, 8, 131_071, 131_072)
        yield line("byte", data, 8, 131_072, 131_072)
        yield line("read", data, 4, 131_068, 131_072, b"\xee" * 5)
        yield line("exact", data, 4, 131_068, 131_072, b"\xee" * 5)
        yield line("exact", data, 4, 65_530, 65_534, b"\xee" * 4)
        yield line("write", data, 131_070, 131_072, b"\xaa\xbb\xcc")
        yield line("write", data, 131_069, 131_072, b"\xaa\xbb\xcc")


def filled(length):
    """From byte 128 to the end one category behind another."""
    data = bytes(128) + b"\x29\x00" + b"\xff\x00" * ((length - 130) // 2)
    return data + bytes(length - len(data))


def last_words():
    """A header at the last words of the largest image, and a category that
    ends with it."""
    for place in (65_531, 65_532, 65_533, 65_534):
        for words in around(65_534 - place, most=4):
            data = image(category(1, b"", place - 0x42), end=b"")
            data = (data.ljust(2 * place, b"\0")
                    + category(10, b"\1\1A\0\0\0", words))
            data = data.ljust(131_072, b"\0")[:131_072]
            yield line("category", data, 4, 10)
            yield line("string", data, 8, 1, b"\xa5\xa5")
        yield line("category", data, 8, 30)
        yield line("inside", data, 8, 10)


def heads():
    """Images that end within what is read, and every flag."""
    for length in range(0, 131):
        for kind in ("alias", "size", "identity", "mailbox", "hasmail"):
            yield line(kind, ramp(length), CHUNKS[length % 2])
    for sizes in range(8):
        data = bytearray(58)
        data[50], data[55], data[56] = sizes & 1, sizes & 2, sizes & 4
        yield line("hasmail", data, 4)
    for protocols in range(256):
        data = bytearray(ramp(128))
        data[56] = protocols
        yield line("mailbox", data, 4)
    for size in around(0, 2, 255, 510, 511, 32_767, 65_535):
        yield line("size", bytes(124) + images.word(size), 8)
    for length in range(20):
        for alias in (0, 1, 0x1234, 0xFFFF):
            yield line("setalias", ramp(length), alias)


def searches():
    for length in around(128, 132):
        for number_ in NAMED:
            yield line("category", bytes(length), 4, number_)
    for kind in around(*NAMED, 0, 20, 43, 65_535):
        data = image(category(kind, b"\x01\x02"))
        yield line("category", data, 8, kind)
        yield line("category", data, 4, 10)
    for count in range(28, 35):
        for last in (b"", b"\x00\x00"):
            data = image(category(0, b"") * count, category(10, last))
            yield line("category", data, 4, 10)
            yield line("category", data, 8, 30)
    yield from long_categories()


def long_categories():
    """From word 0x42 on: past byte 65,535, past word 65,535 and byte
    131,072."""
    edges = around(0, 32_767 - 0x42, 32_768 - 0x42, 65_535 - 0x42 - 2,
                   65_535 - 0x42, 65_536 - 0x42, 65_535)
    for length in edges:
        for kind in (10, 0, 0xFFFF):
            data = image(category(kind, b"", length), end=b"")
            yield line("category", data, 4, 10)
            yield line("string", data, 4, 1, b"\xa5")
    for number_, kind in ((30, "general"), (41, "sms"), (40, "fmmus"),
                          (42, "fmmuex")):
        for found in (0, number_):
            data = image(category(found, b"", 65_500), end=b"")
            yield line(kind, data, 8)


def insides():
    """Images cut at every byte, with a mark and without one; searches that end
    at the 32nd empty header, or past the last word."""
    parts = (category(10, b"\x01\x02\x03\x04"), category(41, bytes(8)),
             category(30, b""), category(50, bytes(2)))
    for end in (b"\xff\xff", b"\xff\xff\x00\x00", b""):
        data = image(*parts, end=end)
        for length in range(120, len(data) + 2):
            cut = (data + bytes(2))[:length]
            for number_ in (10, 30, 41, 50, 60, 11):
                yield line("inside", cut, CHUNKS[length % 2], number_)
    for count in range(29, 34):
        data = image(category(0, b"") * count, category(10, b""))
        for length in range(len(data) - 8, len(data) + 1):
            yield line("inside", data[:length], 4, 10)
            yield line("inside", data[:length], 8, 30)
    for length in around(0, 32_767 - 0x42, 65_536 - 0x42, 65_535):
        for kind in (10, 0, 0xFFFF):
            data = image(category(kind, b"", length), end=b"")
            yield line("inside", data, 8, 10)


def lists():
    for count in range(0, 11):
        for cut in range(0, 9):
            records = (ramp(6) + b"\x01\x02") * count + ramp(cut)
            yield line("sms", image(category(41, records)), 4)
    for value in range(256):
        for place in (4, 6, 7):
            record = bytearray(8)
            record[place] = value
            yield line("sms", image(category(41, record)), 8)
            yield line("usages", image(category(41, record)), 4)
        yield line("fmmus", image(category(40, bytes([value, 1]))), 4)
    yield from limits()
    yield from pdos()


def limits():
    """The last that has room, the first that has none, and a bad one there."""
    for bad in (0x0F, 0x10):
        for count in (7, 8, 9, 10):
            record = bytes(6) + bytes([bad, 1])
            records = bytes(8) * (count - 1) + record
            yield line("sms", image(category(41, records)), 4)
    for count in range(14, 20):
        for bad in (1, 4):
            usages = bytes(count - 1) + bytes([bad])
            yield line("fmmus", image(category(40, usages)), 8)
        for cut in range(3):
            records = ramp(3 * count + cut)
            yield line("fmmuex", image(category(42, records)), 4)


def pdos():
    for entries in range(5):
        for there in range(0, 8 * entries + 9, 2):
            record = bytes([0, 26, entries, 3, 0, 0, 0, 0])
            data = image(category(50, record + ramp(there)))
            yield line("pdos", data, CHUNKS[there // 2 % 2], 50)
            yield line("pdos", data, 4, 51)
    for count in (63, 64, 65, 66):
        for last in (0, 1):
            records = bytes(8) * (count - 1) + bytes([0, 0, last, 0]) + bytes(4)
            yield line("pdos", image(category(51, records)), 8, 51)
    many = bytes([0, 26, 255, 0, 0, 0, 0, 0]) + b"\xff" * (8 * 255)
    yield line("pdos", image(category(50, many)), 4, 50)


def generals():
    base = bytes(18)
    for place in range(18):
        for value in (1, 2, 4, 5, 0x10, 0x1F, 0x20, 0x3F, 0x40, 0x80, 0xFF):
            record = bytearray(base)
            record[place] = value
            yield line("general", image(category(30, record)), 4)
    for length in range(0, 24, 2):
        for kind in ("general", "physport", "physaddr"):
            yield line(kind, image(category(30, bytes(length)), end=b""), 8)
            yield line(kind, image(category(30, bytes(length), 9), end=b""), 8)
    for place in range(12, 22):
        for value in range(0, 256, 5):
            record = bytearray(ramp(32))
            record[place] = value
            data = image(category(30, record))
            yield line("physport", data, 4)
            yield line("physaddr", data, 8)


def some(rng):
    """Questions to one image."""
    kinds = rng.sample(READ_OUTS, 4)
    direction = rng.choice((50, 51))
    # What is asked for is mostly there.
    data = any_image(rng, [HOLDS[kind] for kind in kinds if kind in HOLDS]
                     + [direction])
    tall = len(data) > 60_000
    for kind in kinds[:1 if tall else 4]:
        yield line(kind, data, rng.choice(CHUNKS))
    for _ in range(1 if tall else 2):
        yield line("category", data, rng.choice(CHUNKS), sought(rng))
    cut = rng.choice((len(data), rng.randint(0, len(data))))
    yield line("inside", data[:cut], rng.choice(CHUNKS), sought(rng))
    yield line("pdos", data, rng.choice(CHUNKS), direction)
    if not tall or rng.random() < 0.2:
        yield line("setalias", data[:rng.choice((14, 15, 16, 40, 140_000))],
                   number(rng))


def any_image(rng, wanted):
    pick = rng.random()
    if pick < 0.62:
        return images.built(rng, wanted)
    if pick < 0.88:
        return images.damaged(rng, images.built(rng, wanted))
    if pick < 0.93:
        return images.jumping(rng)
    if pick < 0.979:
        return images.ending_high(rng)
    if pick < 0.999:
        return rng.randbytes(rng.randint(0, 300))
    return images.tall(rng)


def sought(rng):
    if rng.random() < 0.9:
        return rng.choice(NAMED)
    return images.other_kind(rng)
