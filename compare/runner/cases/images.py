"""Images of an EEPROM: well-formed ones, and ones that are a little off."""

from .tools import near, number

CATEGORIES_START = 128
END_MARK = b"\xff\xff"
NAMED = (10, 30, 40, 41, 42, 50, 51, 60)


def word(value):
    return (value & 0xFFFF).to_bytes(2, "little")


def category(kind, payload, length=None):
    """A category. Its length is in words, so an odd payload gets a byte."""
    payload = bytes(payload)
    payload += bytes(len(payload) % 2)
    if length is None:
        length = len(payload) // 2
    return word(kind) + word(length) + payload


def image(*categories, head=bytes(CATEGORIES_START), end=END_MARK):
    return head + b"".join(categories) + end


def built(rng, wanted=()):
    """An image with some categories, most of them right."""
    parts = [some_category(rng) for _ in range(rng.randint(1, 4))]
    parts += [category(kind, PAYLOADS.get(kind, anything)(rng))
              for kind in wanted]
    if rng.random() < 0.1:
        parts.insert(rng.randint(0, len(parts)), empty_headers(rng))
    if rng.random() < 0.9:
        # Names point into the strings, so that they are mostly found.
        parts += [category(10, strings(rng)), category(30, general(rng))]
        rng.shuffle(parts)
    end = END_MARK if rng.random() < 0.8 else rng.randbytes(rng.randint(0, 3))
    return image(*parts, head=head(rng), end=end)


def damaged(rng, good):
    """A copy with a byte changed, cut off, put in, or a length changed."""
    bad = bytearray(good)
    for _ in range(rng.choice((1, 1, 2, 4))):
        place = rng.randint(min(len(bad), 110), len(bad))
        pick = rng.randrange(5)
        if pick == 0:
            del bad[place:]
        elif pick == 1:
            bad[place:place] = rng.randbytes(rng.randint(1, 3))
        elif pick == 2:
            del bad[place:place + rng.randint(1, 3)]
        elif place < len(bad):
            if pick == 3:
                bad[place] ^= 1 << rng.randrange(8)
            else:
                bad[place] = rng.choice((0, 1, 0x7F, 0x80, 0xFE, 0xFF))
    return bytes(bad)


def head(rng):
    """The first 128 bytes: configuration, identity, mailbox, size."""
    data = bytearray(rng.randbytes(CATEGORIES_START))
    if rng.random() < 0.9:
        # Protocols that have a name.
        data[56] &= 0x3F
    size = rng.randint(0, 511) if rng.random() < 0.8 else number(rng)
    data[0x7C:0x7E] = word(size)
    return bytes(data)


def empty_headers(rng):
    kind = rng.choice((0, 0, 43, 7))
    return category(kind, b"") * rng.choice((1, 2, 29, 30, 31, 32, 33))


def some_category(rng):
    kind = rng.choice(NAMED) if rng.random() < 0.85 else other_kind(rng)
    payload = PAYLOADS.get(kind, anything)(rng)
    length = None
    if rng.random() < 0.04:
        length = near(rng, (len(payload) // 2, 0, 32_700, 65_469, 65_535))
    return category(kind, payload, length)


def other_kind(rng):
    return rng.choice((0, 1, 2, 11, 20, 29, 31, 39, 43, 49, 52, 61, 0x0A00,
                       0x0800, 0xFFFE, rng.randrange(65_536)))


def anything(rng):
    return rng.randbytes(2 * rng.randint(0, 12))


# --- Payloads ---


def text(rng):
    """Mostly letters; zeros and bytes from 0x80 now and then."""
    length = rng.choice((0, 1, 2, 3, rng.randint(0, 30)))
    if rng.random() < 0.01:
        length = rng.choice((254, 255))
    letters = b"ABCxyz 019?" if rng.random() < 0.6 else b"A\x00\x01\x7f\x80\xb5\xff"
    return bytes(rng.choice(letters) for _ in range(length))


def strings(rng):
    texts = [text(rng) for _ in range(rng.randint(0, 5))]
    return counted_strings(texts, rng.choice((0, 0, 0, 0, 1, -1)))


def counted_strings(texts, off=0):
    count = max(0, min(255, len(texts) + off))
    return bytes([count]) + b"".join(bytes([len(t)]) + t for t in texts)


def general(rng):
    data = bytearray(rng.randbytes(18))
    data[2], data[3] = rng.randint(0, 6), rng.randint(0, 6)
    if rng.random() < 0.9:
        data[5] &= 0x3F
        data[11] &= 0x1F
    if rng.random() < 0.7:
        data[14:16] = bytes(rng.randint(0, 4) + 16 * rng.randint(0, 5)
                            for _ in range(2))
    # ETG2010 gives it 32 bytes; 18 are read.
    return data + bytes(14) if rng.random() < 0.5 else data[:rng.choice(
        (18, 18, 18, 16, 2))]


def sync_managers(rng):
    count = rng.choice((0, 1, 2, 3, 4, 4, 7, 8, 9))
    records = b"".join(sync_manager(rng) for _ in range(count))
    return records + tail(rng, 7)


def sync_manager(rng):
    data = bytearray(rng.randbytes(8))
    if rng.random() < 0.97:
        data[6] &= 0x0F
    if rng.random() < 0.8:
        data[7] = rng.randint(0, 5)
    return bytes(data)


def fmmu_usages(rng):
    count = rng.choice((0, 1, 2, 3, 4, 8, 15, 16, 17, 18, 20))
    usages = bytearray(rng.choice((0, 1, 2, 3, 255)) for _ in range(count))
    if usages and rng.random() < 0.3:
        usages[rng.randrange(count)] = rng.choice((4, 5, 127, 254))
    return bytes(usages)


def extended_fmmus(rng):
    count = rng.choice((0, 1, 2, 3, 15, 16, 17))
    return rng.randbytes(3 * count) + tail(rng, 2)


def pdos(rng):
    if rng.random() < 0.03:
        return b"".join(pdo(rng, 0) for _ in range(rng.randint(63, 66)))
    return b"".join(pdo(rng, rng.choice((0, 1, 2, 4, 9)))
                    for _ in range(rng.randint(1, 4))) + tail(rng, 7)


def pdo(rng, entries):
    record = bytearray(rng.randbytes(8))
    record[2] = entries
    if rng.random() < 0.03:
        # An entry short, or many.
        record[2] = rng.choice((entries + 1, 255))
    return bytes(record) + rng.randbytes(8 * entries)


def tail(rng, most):
    """Mostly nothing, else a part of a record."""
    return rng.randbytes(rng.randint(0, most)) if rng.random() < 0.2 else b""


PAYLOADS = {10: strings, 30: general, 40: fmmu_usages, 41: sync_managers,
            42: extended_fmmus, 50: pdos, 51: pdos}


# --- Near the top of the address space ---


def jumping(rng):
    """A category whose length leads near word 65,535, or past it."""
    before = [some_category(rng) for _ in range(rng.randint(0, 2))]
    so_far = sum(map(len, before)) // 2
    behind = 0x40 + so_far + 2
    target = near(rng, (65_533, 65_535, 65_536), most=65_700)
    kind = rng.choice((0, 20, *NAMED))
    return image(*before, category(kind, b"", target - behind), head=head(rng),
                 end=b"")


def ending_high(rng):
    """A category that is found and ends near byte 65,535 or 131,072."""
    before = category(0, bytes(2 * rng.randint(0, 200)))
    start = 2 * 0x40 + len(before) + 4
    end = near(rng, (65_534, 65_536, 131_070, 131_072, 131_074), most=131_100)
    kind = rng.choice((10, 10, 10, *NAMED))
    payload = PAYLOADS.get(kind, anything)(rng)
    if kind == 10 and rng.random() < 0.7:
        # Past the image each length is 255: strings lead up to the top.
        payload = b"\xff" + rng.randbytes(rng.randint(0, 4))
    return image(before, category(kind, payload, (end - start) // 2),
                 head=head(rng), end=b"")


def tall(rng):
    """As long as an image can be, or as the Rust's 16 bits reach, with a
    category in its last words."""
    top = rng.choice((32_768, 65_536, 65_536))
    length = 2 * top - rng.choice((6, 2, 1, 0, 0, -1))
    target = rng.randint(top - 28, min(top, 65_535))
    first = category(0, b"", target - 0x42)
    last = some_category(rng)
    if rng.random() < 0.6:
        payload = bytes([2, 0]) + strings(rng)
        last = category(10, payload, near(rng, (top - 2 - target, 0)))
    data = bytearray(head(rng) + first)
    data += bytes(2 * target - len(data)) + last
    data += rng.randbytes(length)[:max(0, length - len(data))]
    return bytes(data[:length])
