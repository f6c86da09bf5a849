"""The builder and the frame reader."""

from ..request import line
from .tools import U8, U32, asked, around, near, number, ramp

OVERHEAD = 12
# The Rust has these, of the 0 to 14 that are admitted.
COMMANDS = (1, 2, 4, 5, 7, 8, 10, 11, 12, 14)


def small():
    for size in list(range(0, 40)) + around(2_047):
        yield line("open", ramp(size))
    for used in list(range(0, 2_051)) + around(4_095, 32_768, 65_535):
        yield line("header", used)
    yield from first_pushes()
    yield from second_pushes()
    yield from states()
    yield from commands()
    yield from full_areas()
    yield from read_frames()


def first_pushes():
    for size in range(0, 30):
        for length in (0, 1, 2, 3, size - 13, size - 12, size - 11):
            if length < 0:
                continue
            area, data = b"\xd1" * size, ramp(length)
            for override in (0, 1, length, length + 1):
                yield line("push", area, 0, 0, 0, 254, 7, 1, data, override)
            yield line("handle", area, 0, 0, 0, size, 8, 1, data, 0)
            yield line("rest", area, 0, 0, 0, 255, 12, 0x0102_0304, data)
            yield line("canpush", size, 0, 0, 0, length)


def second_pushes():
    """After one PDU; the area's other bytes are all ones."""
    for size in range(12, 50):
        for used in {12, 13, max(12, size - 13), max(12, size - 12), size}:
            area = b"\xff" * size
            for length in range(0, 4):
                state = (used, 1, 0)
                yield line("push", area, *state, 255, 5, U32, ramp(length), 0)
                yield line("rest", area, *state, 0, 11, U32, ramp(length))
                yield line("canpush", size, *state, length)


def states():
    """All small states of a small area, right and broken."""
    for used in (0, 1, 11, 12, 13, 23, 24, 25, 29, 30, 31):
        for count in (0, 1, 2, 3):
            for last in (0, 1, 2, 3, 12, 13, 14, 15, 20, 21, 65_535):
                yield line("push", bytes(30), used, count, last, 7, 1, 0,
                           b"", 0)
                yield line("rest", bytes(30), used, count, last, 7, 1, 0,
                           b"\x05")
                yield line("canpush", 30, used, count, last, 0)


def commands():
    for command in around(0, 14, 255, most=255) + list(range(2, 13)):
        for address in (0, 1, 0x0130_0000, U32):
            for kind in ("push", "handle"):
                yield line(kind, bytes(14), 0, 0, 0, 0, command, address,
                           b"\x01\x02", 0)
            yield line("rest", bytes(14), 0, 0, 0, 0, command, address,
                       b"\x01\x02\x03")
    for length in around(2_035, 2_047, 65_535):
        yield line("canpush", 2_047, 0, 0, 0, length)
        yield line("push", bytes(20), 0, 0, 0, 9, 1, 0, b"", length)
    for length in around(65_535, most=65_536):
        yield line("push", bytes(12), 0, 0, 0, 7, 1, 0, bytes(length), 0)
        yield line("rest", bytes(14), 0, 0, 0, 7, 1, 0, bytes(length))
    for size in around(2_047):
        yield line("push", bytes(size), 0, 0, 0, 9, 1, 0, b"", 2_035)
        yield line("rest", bytes(size), 0, 0, 0, 9, 1, 0, ramp(2_100))
        yield line("canpush", size, 0, 0, 0, 2_035)


def full_areas():
    """As many PDUs as an area can have, and frames of that size to read."""
    for count in (168, 169, 170, 171):
        state = (12 * count, count, 12 * (count - 1))
        for size in around(2_040, 2_046):
            yield line("push", bytes(size), *state, 250, 1, 0, b"", 0)
            yield line("rest", bytes(size), *state, 250, 1, 0, b"\x01")
            yield line("canpush", size, *state, 0)
        body = b"".join(pdu(4, place, place, b"", place < count - 1)
                        for place in range(count))
        yield line("frame", framed(body[:2_047]))
    for length in around(2_035):
        body = pdu(12, 1, 2, ramp(length), False)
        yield line("frame", framed(body[:2_047]))
        yield line("frame", framed(body[:2_047])[:-1])


# --- Frames to read ---


def pdu(command, index, address, data, more, flags=0, irq=0, counter=0):
    bits = len(data) | flags | (0x8000 if more else 0)
    return (bytes([command, index]) + address.to_bytes(4, "little")
            + bits.to_bytes(2, "little") + irq.to_bytes(2, "little")
            + data + counter.to_bytes(2, "little"))


def framed(body, high=0x10):
    return bytes([len(body) & 0xFF, len(body) >> 8 | high]) + body


def read_frames():
    for first in (0, 1, 11, 12, 13, 255):
        for second in range(256):
            yield line("frame", bytes([first, second]))
    for length in range(0, 4):
        yield line("frame", bytes(length))
    for header in around(12, 14, 26):
        for given in around(12, 14, 26):
            body = pdu(1, 2, 3, ramp(2), False) + bytes(14)
            yield line("frame", framed(bytes(header))[:2] + body[:given])
    one = framed(pdu(7, 1, 0x0130_0000, ramp(2), False))
    two = framed(pdu(4, 2, 5, b"", True) + pdu(12, 3, U32, ramp(3), False))
    for frame in (one, two):
        for bad in every_damage(frame):
            yield line("frame", bad)


def every_damage(frame):
    """Each byte changed, the frame cut everywhere, bytes behind it."""
    for length in range(len(frame) + 4):
        yield (frame + bytes(4))[:length]
    for place in range(len(frame)):
        for value in around(frame[place], most=U8) + [0x80, U8]:
            bad = bytearray(frame)
            bad[place] = value
            yield bad
        for bit in range(8):
            bad = bytearray(frame)
            bad[place] ^= 1 << bit
            yield bad


# --- Random ---


def some(rng):
    """A frame is built, call by call; then it is read, whole and damaged."""
    size = area_size(rng)
    area = rng.randbytes(size) if rng.random() < 0.3 else bytes(size)
    if rng.random() < 0.5:
        request, (_, slices) = asked("open", area)
        yield request
        area = slices[0]
    state, index = (0, 0, 0), rng.choice((0, 254, 255, rng.randint(0, 255)))
    for _ in range(rng.randint(1, 6)):
        free = size - state[0]
        yield line("canpush", size, *state, near(rng, (max(0, free - 12),)))
        if rng.random() < 0.1:
            area = marked(rng, area, state)
        request, (record, slices) = pushed(rng, area, state, index)
        yield request
        *state, index = record
        area = slices[0]
        if rng.random() < 0.15:
            yield broken(rng, area, state, index)
    yield line("header", state[0])
    yield from readings(rng, framed(area[:state[0] & 0x7FF]))
    yield from readings(rng, chain(rng))


def area_size(rng):
    pick = rng.random()
    if pick < 0.93:
        return rng.randint(rng.choice((0, 30, 60)), 160)
    if pick < 0.995:
        return rng.randint(120, 500)
    return near(rng, (2_047, 1_486))


def pushed(rng, area, state, index):
    free = max(0, len(area) - state[0])
    length = rng.choice((0, 1, 2, 4, rng.randint(0, 20), free // 3,
                         near(rng, (max(0, free - 12),))))
    data = rng.randbytes(length)
    command, address = any_command(rng), number(rng, U32)
    if command == 0 and rng.random() < 0.8:
        address = 0
    if rng.random() < 0.35:
        return asked("rest", area, *state, index, command, address, data)
    override = rng.choice((0, 0, 0, length, length + 1, number(rng)))
    if rng.random() < 0.9:
        override = min(override, max(0, free - 12))
    kind = rng.choice(("push", "push", "handle"))
    return asked(kind, area, *state, index, command, address, data, override)


def marked(rng, area, state):
    """The area as handed in by someone who set bits in the last PDU's flags
    or behind it."""
    marked = bytearray(area)
    if state[1]:
        marked[state[2] + 7] ^= rng.choice((0x08, 0x10, 0x38, 0x40, 0x80))
    behind = marked[state[0]:]
    marked[state[0]:] = rng.randbytes(len(behind))
    return bytes(marked)


def any_command(rng):
    pick = rng.random()
    if pick < 0.9:
        return rng.choice(COMMANDS)
    return 0 if pick < 0.93 else rng.choice((3, 6, 9, 13, 15, 255))


def broken(rng, area, state, index):
    """A state a little off, or anything."""
    state = list(state)
    for _ in range(rng.choice((1, 1, 2))):
        place = rng.randrange(3)
        step = rng.choice((-12, -11, -10, -1, 1, 10, 11, 12))
        state[place] = max(0, state[place] + step)
        if rng.random() < 0.2:
            state[place] = number(rng)
    kind = rng.choice(("push", "handle", "rest", "canpush"))
    data = rng.randbytes(rng.randint(0, 3))
    if kind == "canpush":
        return line(kind, len(area), *state, len(data))
    words = (area, *state, index, rng.choice(COMMANDS), 0, data)
    return line(kind, *words, *([] if kind == "rest" else [0]))


def chain(rng):
    """PDUs with all flags, as they may come back from the wire."""
    count = rng.choice((0, 1, 1, 2, 3, 4, 8))
    body = b""
    for place in range(count):
        more = place < count - 1
        if rng.random() < 0.03:
            more = not more
        body += pdu(rng.randint(0, 255), rng.randint(0, 255), number(rng, U32),
                    rng.randbytes(rng.choice((0, 1, 2, 4, 12, 40))), more,
                    rng.choice((0, 0, 0x4000, 0x0800, 0x3000, 0x7800)),
                    rng.choice((0, number(rng))), number(rng))
    return framed(body, rng.choice((0x10, 0x10, 0x10, 0x18)))


def readings(rng, frame):
    yield line("frame", frame)
    yield line("frame", frame + bytes(rng.randint(1, 46)))
    for _ in range(2):
        yield line("frame", damaged(rng, frame))


def damaged(rng, frame):
    bad = bytearray(frame)
    for _ in range(rng.choice((1, 1, 2))):
        if not bad:
            break
        place = rng.choice((0, 1, rng.randrange(len(bad))))
        place = min(place, len(bad) - 1)
        pick = rng.randrange(4)
        if pick == 0:
            bad[place] ^= 1 << rng.randrange(8)
        elif pick == 1:
            bad[place] = (bad[place] + rng.choice((1, 255, 12))) & 0xFF
        elif pick == 2:
            del bad[rng.randrange(len(bad)):]
        else:
            bad[place:place] = rng.randbytes(rng.randint(1, 13))
    return bytes(bad)
