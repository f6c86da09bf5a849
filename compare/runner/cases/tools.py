"""What the topics share."""

from independent.requests import answer

from ..request import afterwards, line

U8 = 0xFF
U16 = 0xFFFF
U32 = 0xFFFF_FFFF
CHUNKS = (4, 8)


def ramp(length, start=1):
    """Bytes that tell their place; none of the first is zero."""
    return bytes((start + place) % 251 + 1 for place in range(length))


def around(*numbers, most=U16):
    """Each number and its neighbours, so far as they have the width."""
    near = {number + step for number in numbers for step in (-1, 0, 1)}
    return sorted(number for number in near if 0 <= number <= most)


def near(rng, numbers, most=U16):
    return rng.choice(around(*numbers, most=most))


def number(rng, most=U16):
    """Small, at an edge, or anything."""
    pick = rng.random()
    if pick < 0.5:
        return rng.randint(0, min(20, most))
    if pick < 0.75:
        return rng.choice(around(0, most // 2 + 1, most, most=most))
    return rng.randint(0, most)


def asked(kind, *words):
    """A request line, and what its answer leaves behind."""
    request = line(kind, *words)
    return request, afterwards(answer(request))


def said(request):
    return answer(request)
