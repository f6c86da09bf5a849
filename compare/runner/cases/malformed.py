"""Lines that can't be read, and lines that only just can."""

from ..request import WORDS, line
from . import (
    frames, ports, ranges, received, setup, sii, spread, strings,
)

OTHERS = (ranges, sii, strings, ports, frames, spread, setup, received)
PAIRS_LIMIT = 262_144
LINE_LIMIT = 1_179_648

WRONG = (b"", b"-", b"--", b"+1", b"-1", b"1x", b"0x1", b"1.0", b"1_0", b"2",
         b"3", b"5", b"04", b"08", b"0", b"00000000000000000000001", b"255",
         b"256", b"65535", b"65536", b"4294967295", b"4294967296",
         b"99999999999999999999999999", b"18446744073709551617", b"a", b"abc",
         b"ab", b"AB", b"aB", b"a b", b"0g", b"\x00", b"\xff\xff", b"1\t",
         b"1\r", b"\xd9\xa1")

# A readable value for each word.
EASY = {"image": b"0102030405060708", "chunk": b"8", "data": b"6162",
        "buffer": b"eeee", "room": b"a5a5", "area": b"00" * 14,
        "areas": b"00" * 14, "size": b"14",
        "handles": b"1 0 12 0 0", "frame": b"0c10" + b"00" * 12,
        "number": b"50", "index": b"1", "command": b"12"}


def easy(kind):
    words = [EASY.get(name, b"0") for name in WORDS[kind]]
    return b" ".join([kind.encode(), *words])


def small():
    for kind in WORDS:
        good = easy(kind)
        yield good
        yield from shapes(good)
        words = good.split(b" ")
        for place in range(1, len(words)):
            # The twelve numbers of a port record are three, four times.
            if kind in ("last", "topology", "total", "display") and place > 3:
                continue
            for wrong in WRONG:
                yield b" ".join(words[:place] + [wrong] + words[place + 1:])
    yield from bare()
    yield from long_words()


def shapes(good):
    words = good.split(b" ")
    yield good + b" "
    yield b" " + good
    yield good + b"\r"
    yield good + b" 0"
    yield good + b" -"
    yield good.replace(b" ", b"  ", 1)
    yield good.replace(b" ", b"\t", 1)
    yield good.upper()
    yield good.capitalize()
    yield words[0]
    yield words[0] + b" "
    yield words[0] + b"x " + b" ".join(words[1:])
    for count in range(2, len(words)):
        yield b" ".join(words[:count])


def bare():
    for text in (b"", b" ", b"  ", b"-", b"0", b"\x00", b"\xff", b"\t",
                 b"gives", b"refuses 14", b"crc\x00-", b"# crc -", b"cr"):
        yield text


def long_words():
    """As long as a line can be, and one pair more."""
    for pairs in (PAIRS_LIMIT, PAIRS_LIMIT + 1):
        yield b"crc " + b"00" * pairs
        yield b"alias " + b"00" * pairs + b" 4"
        yield b"frame 0010" + b"00" * (pairs - 2)
    for length in (LINE_LIMIT, LINE_LIMIT + 1):
        yield b"new " + b"7 1".rjust(length - 4, b"0")
    yield b"new " + b"0" * 3_000 + b"7 1"
    yield b"x" * 100_000


def some(rng):
    topic = rng.choice(OTHERS)
    for request in topic.some(rng):
        # Long lines are dear, and a small change to one says no more.
        if len(request) < 4_000:
            yield changed(rng, request)


def changed(rng, request):
    pick = rng.randrange(6)
    words = request.split(b" ")
    place = rng.randrange(len(words))
    if pick == 0:
        words[place] = rng.choice(WRONG)
    elif pick == 1:
        del words[place]
    elif pick == 2:
        words.insert(place, rng.choice(WRONG))
    elif pick == 3:
        words[place] = words[place][:-1]
    elif pick == 4:
        words[place] = b"0" + words[place]
    else:
        return one_byte(rng, request)
    return b" ".join(words)


def one_byte(rng, request):
    place = rng.randrange(len(request) + 1)
    byte = rng.choice(b"0 -aA\r\t\x00\xff9")
    return request[:place] + bytes([byte]) + request[place + 1:]
