"""The EEPROM range: a record of a position and an end beside the image."""

from . import amended
from .refusal import (
    ADDRESS, BAD_ARGUMENT, NOT_WRITABLE, OVERRUN, Refusal, refuse_unless,
)



def image_limit():
    return 131_072 if amended.in_force("E7") else 65_536


def highest():
    """"a range may end at 131,072 at most", and stand there."""
    return 131_072 if amended.in_force("E7") else 65_535


class Range:
    """Byte position and end. The position may be odd or past the end."""

    __slots__ = ("pos", "end")

    def __init__(self, pos, end):
        self.pos = pos
        self.end = end

    def left(self):
        """"end less position, never below 0"."""
        return max(0, self.end - self.pos)


def check_image(image):
    """"An image has 0 to 131,072 bytes." """
    refuse_unless(len(image) <= image_limit(), BAD_ARGUMENT)


def check_record(at):
    """"An odd end handed in is 14", and so is a position or an end above
    131,072."""
    refuse_unless(at.end % 2 == 0, BAD_ARGUMENT)
    refuse_unless(max(at.pos, at.end) <= highest(), BAD_ARGUMENT)


def stored(image, start, count):
    """"Bytes past it read as 0xFF." """
    return bytes(image[start:start + count]).ljust(count, b"\xff")


def word_at(image, word):
    return int.from_bytes(stored(image, 2 * word, 2), "little")


def new(word, words):
    """"byte position 2w, end 2w + 2n"; an end above 131,072 is refused (1)."""
    end = 2 * word + 2 * words
    refuse_unless(end <= highest(), ADDRESS)
    return Range(2 * word, end)


def start_at(word, byte_length):
    """"takes a byte length and halves it, dropping an odd byte." """
    return new(word, byte_length // 2)


def read(image, at, buffer):
    """Fills as many bytes as there are; the rest of the buffer stays."""
    check_image(image)
    check_record(at)
    count = min(len(buffer), at.left())
    buffer[:count] = stored(image, at.pos, count)
    at.pos += count
    return count


def read_exact(image, at, buffer):
    """Refused (2), it "fills what there is and stands at the end"."""
    count = read(image, at, buffer)
    refuse_unless(count == len(buffer), OVERRUN)


def skip_ahead_bytes(at, skip):
    """"refused (2) if position plus skip is at or past the end"."""
    check_record(at)
    refuse_unless(at.pos + skip < at.end, OVERRUN)
    at.pos += skip


def read_byte(image, at):
    """"refuses with 2 at or past the end, position unchanged; this is tested
    before refusal 1", which is that of position 131,072."""
    check_image(image)
    check_record(at)
    if amended.in_force("E4"):
        # Before it the byte read "isn't stopped by the end".
        refuse_unless(at.pos < at.end, OVERRUN)
    refuse_unless(at.pos < highest(), ADDRESS)
    byte = stored(image, at.pos, 1)[0]
    at.pos += 1
    return byte


def write(image, at, data):
    """"writes words while the position is before the end and bytes remain"."""
    check_image(image)
    check_record(at)
    written = 0
    while at.pos < at.end and written < len(data):
        # "An odd last byte is padded with 0 and the padding counted."
        word = bytes(data[written:written + 2]).ljust(2, b"\x00")
        # "whose next position would pass that bound [..] refuses 1, tested
        # before 7, earlier words kept". Below 131,071 it never would, so
        # before E7 this was not met.
        refuse_unless(at.pos + 2 <= highest(), ADDRESS)
        _write_word(image, at.pos, word)
        at.pos += 2
        written += 2
    return written


def _write_word(image, position, word):
    # "At an odd position the word that contains it is written."
    start = position - position % 2
    if start + 2 > len(image):
        raise Refusal(NOT_WRITABLE)
    image[start:start + 2] = word
