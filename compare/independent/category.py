"""Finding a category."""

from . import eeprom
from .refusal import ABSENT, ADDRESS, BAD_ARGUMENT, refuse_unless

STRINGS = 10
GENERAL = 30
FMMU = 40
SYNC_MANAGERS = 41
EXTENDED_FMMU = 42
TX_PDO = 50
RX_PDO = 51
CLOCK = 60

# "Numbers that may be sought."
SOUGHT = frozenset((STRINGS, GENERAL, FMMU, SYNC_MANAGERS, EXTENDED_FMMU,
                    TX_PDO, RX_PDO, CLOCK))

FIRST_WORD = 0x0040
HEADER_WORDS = 2
EMPTY_LIMIT = 32
END_TYPE = 0xFFFF
# A search moves by 16-bit words, however long the image.
LAST_WORD = 65_535


def category(image, number):
    """The category's range, or absent."""
    return _search(image, number, [])


def inside(image, number):
    """Whether every byte that the search looked at, and the category that it
    found, lie in the image. Refusals are the search's own."""
    ends = []
    found = _search(image, number, ends)
    if found is not ABSENT:
        ends.append(found.end)
    return int(max(ends) <= len(image))


def _search(image, number, ends):
    """The steps stand in the rule's order. `ends` takes where each header that
    is looked at ends: of the mark only the type is looked at."""
    eeprom.check_image(image)
    refuse_unless(number in SOUGHT, BAD_ARGUMENT)
    word = FIRST_WORD
    empty = 0
    while True:
        kind = eeprom.word_at(image, word)
        length = eeprom.word_at(image, word + 1)
        ends.append(2 * word + (2 if kind == END_TYPE else 2 * HEADER_WORDS))
        # "move on 2 words (past 65,535: absent)"
        word += HEADER_WORDS
        if word > LAST_WORD:
            return ABSENT
        # "count a zero length, and at the 32nd answer absent, even if that
        # one matches"
        if length == 0:
            empty += 1
            if empty == EMPTY_LIMIT:
                return ABSENT
        # "a match gives the range", and one that ends too high is refused (1)
        if kind == number:
            return eeprom.new(word, length)
        # "type 0xFFFF gives absent"
        if kind == END_TYPE:
            return ABSENT
        # "else move on by the length, and past 65,535 refuse (1)"
        word += length
        refuse_unless(word <= LAST_WORD, ADDRESS)
