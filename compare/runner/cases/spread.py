"""An image over a row of areas."""

from ..request import line
from .frames import COMMANDS
from .tools import U32, asked, around, near, number, ramp

OVERHEAD = 12
LOGICAL = (10, 11, 12)


def capacity(size, count, used):
    """What the areas can take: one piece each."""
    return max(0, size - used - OVERHEAD) + (count - 1) * max(
        0, size - OVERHEAD)


def small():
    for size in (1, 2, 11, 12, 13, 14, 15, 23, 24, 25, 26, 27, 30):
        for count in (1, 2, 3):
            for state in first_states(size):
                yield from all_lengths(size, count, state)
    yield from bench()
    yield from bounds()
    yield from longest()


def first_states(size):
    yield 0, 0, 0
    for used in sorted({12, 13, size - 14, size - 13, size - 12, size - 1,
                        size}):
        if 12 <= used <= size:
            yield used, 1, 0


def all_lengths(size, count, state):
    most = capacity(size, count, state[0])
    areas = b"\xee" * (size * count)
    for length in sorted({0, 1, 2, 3, most // 2} | set(around(
            size - state[0] - OVERHEAD, size - OVERHEAD, most))):
        yield line("spread", size, areas, *state, 255, 12, 0x100,
                   ramp(length))


def bench():
    for used, count in ((0, 0), (87, 1), (88, 1), (89, 1), (90, 1), (100, 1)):
        for length in (0, 1, *around(88, 176)):
            yield line("spread", 100, bytes(200), used, count, 0, 0, 12, 0,
                       ramp(length))


def bounds():
    """Addresses, commands, sizes, numbers of areas, broken states."""
    for length in (0, 1, 3):
        for address in around(U32 - length, U32, most=U32):
            for count in (1, 2):
                yield line("spread", 14, bytes(14 * count), 0, 0, 0, 0, 11,
                           address, ramp(length))
    for command in range(0, 17):
        yield line("spread", 14, bytes(14), 0, 0, 0, 0, command, 0, b"\x01")
    for size in (0, 1, 13, 20, 65_535, *around(2_047)):
        for length in {0, 1, 13, 19, 20, 40, size, size * 2, size + 1}:
            if length < 6_000:
                yield line("spread", size, bytes(length), 0, 0, 0, 0, 10, 5,
                           b"\x01")
    for count in (31, 32, 33):
        for length in around(count, 32):
            yield line("spread", 13, bytes(13 * count), 0, 0, 0, 250, 10, 5,
                       ramp(length))
    for used in (0, 1, 11, 12, 13, 24, 30, 31):
        for count in (0, 1, 2, 3):
            for last in (0, 2, 3, 12, 14, 20, 21):
                yield line("spread", 30, bytes(60), used, count, last, 9, 12,
                           7, ramp(25))


def longest():
    """What the most and largest areas can take, and the longest image."""
    for length in (65_120, 65_121, 65_535, 65_536):
        yield line("spread", 2_047, bytes(32 * 2_047), 0, 0, 0, 240, 11, 9,
                   ramp(length))
    yield line("spread", 2_047, bytes(33 * 2_047), 0, 0, 0, 240, 11, 9, b"")


def some(rng, off=0.06):
    """The first area is filled by pushes, then the image is spread. A state
    is now and then a little off."""
    size, count = row(rng)
    areas = rng.randbytes(size * count)
    state, index = (0, 0, 0), rng.choice((0, 240, 255, rng.randint(0, 255)))
    first = bytes(size)
    for _ in range(rng.choice((0, 0, 1, 1, 2, 3))):
        data = rng.randbytes(rng.randint(0, max(0, min(size, 40) - 12)))
        _, (record, slices) = asked("push", first, *state, index,
                                    rng.choice(COMMANDS), number(rng, U32),
                                    data, 0)
        *state, index = record
        first = slices[0]
    areas = first + areas[size:]
    for _ in range(3):
        length = image_length(rng, capacity(size, count, state[0]))
        yield line("spread", size, areas, *damaged(rng, state, off), index,
                   command(rng), address(rng, length), rng.randbytes(length))


def row(rng):
    pick = rng.random()
    if pick < 0.9:
        return rng.randint(rng.choice((1, 13, 13)), 60), rng.randint(1, 6)
    if pick < 0.97:
        return rng.randint(1, 40), rng.randint(7, 33)
    if pick < 0.998:
        return rng.randint(60, 600), rng.randint(1, 4)
    return near(rng, (2_047,)), rng.choice((1, 2, 32))


def image_length(rng, most):
    if rng.random() < 0.003:
        return near(rng, (65_535,), most=65_536)
    if rng.random() < 0.05:
        return 0
    return rng.choice((1, rng.randint(0, most), rng.randint(0, most),
                       *around(most)))


def command(rng):
    return rng.choice(LOGICAL) if rng.random() < 0.97 else rng.randint(0, 255)


def address(rng, length):
    if rng.random() < 0.1:
        return near(rng, (U32 - length, U32 + 1 - length), most=U32)
    return number(rng, U32)


def damaged(rng, state, off):
    state = list(state)
    if rng.random() < off:
        place = rng.randrange(3)
        state[place] = max(0, state[place] + rng.choice((-12, -1, 1, 12)))
    return state
