"""Reading the words of a line, printing an answer.

All on bytes: a line may hold anything. A word that can't be read raises
Unreadable, and the whole line is then answered by a bare `refuses 14`.
"""

from binascii import unhexlify

from . import amended
from .refusal import ABSENT, Refusal

UNREADABLE = "refuses 14"
HEX_DIGITS = b"0123456789abcdef"


class Unreadable(Exception):
    pass


# --- Reading ---


def _number(limit):
    digits = len(str(limit))

    def parse(word):
        # isdigit() of bytes is true of 0 to 9 alone, and false of no digits.
        if not word.isdigit():
            raise Unreadable
        if len(word) > digits:
            # "leading zeros allowed"; int() refuses very long words.
            word = word.lstrip(b"0") or b"0"
            if len(word) > digits:
                raise Unreadable
        value = int(word)
        if value > limit:
            raise Unreadable
        return value

    return parse


u8 = _number(0xFF)
u16 = _number(0xFFFF)
u32 = _number(0xFFFF_FFFF)
active = _number(1)


def position(word):
    """A range's position or end."""
    return (u32 if amended.in_force("E7") else u16)(word)


def bytes_limit():
    """Twice an image."""
    return 262_144 if amended.in_force("E7") else 131_072


def chunk(word):
    """4 or 8. No answer depends on it, so nobody looks at it afterwards."""
    value = u16(word)
    if value not in (4, 8):
        raise Unreadable
    return value


def data(word):
    """Lower-case hex pairs, `-` for none."""
    if word == b"-":
        return bytearray()
    if not word or len(word) % 2 or len(word) > 2 * bytes_limit():
        raise Unreadable
    # unhexlify would take upper case too.
    if word.translate(None, HEX_DIGITS):
        raise Unreadable
    return bytearray(unhexlify(word))


class Listed:
    """"A list is its count, then its items": rows of words of these kinds."""

    LIMIT = 2_000

    def __init__(self, *kinds):
        self.kinds = kinds

    def take(self, words):
        count = _one(words, u16)
        if count > self.LIMIT:
            raise Unreadable
        return [tuple([_one(words, kind) for kind in self.kinds])
                for _ in range(count)]


def values(words, kinds):
    """What the words stand for, each by its kind. None is left over."""
    left = iter(words)
    taken = [kind.take(left) if isinstance(kind, Listed) else _one(left, kind)
             for kind in kinds]
    if next(left, None) is not None:
        raise Unreadable
    return taken


def _one(words, kind):
    word = next(words, None)
    if word is None:
        raise Unreadable
    return kind(word)


# --- Printing ---


def said(call, *arguments):
    """`gives`, `absent` or `refuses` with the values of a call.

    A call gives one number, a row of numbers, or absent. `nothing` and
    `counted` wrap those that give something else.
    """
    try:
        values = call(*arguments)
    except Refusal as refusal:
        return _row("refuses", (refusal.number,) + refusal.values)
    if values is ABSENT:
        return "absent"
    if isinstance(values, int):
        return f"gives {values:d}"
    return _row("gives", values)


def nothing(call):
    """A call that answers, but without values."""

    def without_values(*arguments):
        call(*arguments)
        return ()

    return without_values


def counted(call):
    """A list of records: the count, then each record's numbers."""

    def flat(*arguments):
        records = call(*arguments)
        values = [len(records)]
        for record in records:
            values.extend(record)
        return values

    return flat


def record(*numbers):
    return _row(" @", numbers)


def lent(slice_):
    return " | " + (slice_.hex() or "-")


def _row(word, numbers):
    return " ".join([word, *map(str, numbers)])
