"""Ports, topology, delays."""

from itertools import product

from ..request import line
from .tools import U32, asked, around, number

ALONE = ("entry", "last", "topology", "total", "display")
ACTIVES = tuple(product((0, 1), repeat=4))


def record(actives, times, links=(0, 0, 0, 0)):
    numbers = []
    for place in zip(actives, times, links):
        numbers += place
    return numbers


def small():
    for actives in ACTIVES:
        for times in product((0, 1, 2), repeat=4):
            yield from delays(record(actives, times))
    yield from linkings()
    yield from sums()
    yield from totals_from()


def delays(ports):
    for kind in ALONE[:4]:
        yield line(kind, *ports)
    for port in range(4):
        yield line("timeto", *ports, port)
        yield line("between", *ports, port)


def linkings():
    orders = ((7, 7, 7, 7), (1, 2, 3, 4), (4, 3, 2, 1), (2, 1, 2, 1),
              (3, 4, 1, 2))
    for actives in ACTIVES:
        yield line("display", *record(actives, (0, 0, 0, 0)))
        for links in product((0, 5), repeat=4):
            for times in orders:
                yield line("assign", *record(actives, times, links), 6)
        for links in product((0, 1, 65_535), repeat=4):
            for link in (0, 1, 65_535):
                yield line("linked", *record(actives, (0,) * 4, links), link)
        for port in (4, 5, 255):
            for kind in ("timeto", "between"):
                yield line(kind, *record(actives, (1, 2, 3, 4)), port)
        yield line("assign", *record(actives, (1, 2, 3, 4)), 0)
        yield line("times", *record(actives, (1, 2, 3, 4), (9, 8, 7, 6)),
                   0, U32, 1, 2**31)


def sums():
    """The intermediate sum around 2 to the 32."""
    edges = around(0, 2**31, U32, most=U32)
    for first, second in product(edges, repeat=2):
        ports = record((1, 1, 1, 1), (first, U32, second, U32))
        yield line("between", *ports, 2)
        yield line("between", *ports, 1)
    for times in product((0, U32), repeat=4):
        yield from delays(record((1, 1, 1, 1), times))


def totals_from():
    """From each port, active or not, and from numbers that no port has; times
    on both sides of the wrap."""
    for actives in ACTIVES:
        for times in product((0, 1), repeat=4):
            for port in range(4):
                yield line("totalfrom", *record(actives, times), port)
        for port in (*range(6), 255):
            for times in ((1, 2, 3, 4), (U32 - 1, U32, 0, 1)):
                yield line("totalfrom", *record(actives, times), port)
    for times in product((0, 2**31, U32 - 1, U32), repeat=4):
        for port in range(4):
            yield line("totalfrom", *record((1, 1, 1, 1), times), port)


def some(rng):
    """A record is linked up, call by call, and asked."""
    actives = rng.choice(ACTIVES)
    ports = record(actives, times(rng), links(rng))
    for kind in rng.sample(ALONE, 2):
        yield line(kind, *ports)
    for kind in ("timeto", "between", "totalfrom"):
        port = number(rng, 255) if rng.random() < 0.1 else rng.randrange(4)
        yield line(kind, *ports, port)
    for _ in range(rng.randint(1, 5)):
        if rng.random() < 0.15:
            request, after = asked("times", *ports, *times(rng))
        else:
            link = number(rng) if rng.random() < 0.2 else rng.randint(1, 4)
            request, after = asked("assign", *ports, link)
        yield request
        ports = after[0]
    wanted = rng.choice((ports[2], ports[5], ports[8], ports[11], number(rng)))
    yield line("linked", *ports, wanted)


def times(rng):
    pick = rng.random()
    if pick < 0.3:
        return [rng.randint(0, 3) for _ in range(4)]
    if pick < 0.6:
        return sorted(rng.randint(0, 5000) for _ in range(4))
    if pick < 0.7:
        # A frame's way, with the clock turning over somewhere on it.
        first = 2**32 - rng.randint(0, 5000)
        return [(first + later) % 2**32
                for later in sorted(rng.randint(0, 5000) for _ in range(4))]
    return [number(rng, U32) for _ in range(4)]


def links(rng):
    if rng.random() < 0.5:
        return (0, 0, 0, 0)
    return [rng.choice((0, 0, rng.randint(1, 4), number(rng)))
            for _ in range(4)]
