"""Strings, device name, description."""

from . import amended, category, eeprom, sii
from .refusal import (
    ABSENT, BAD_ARGUMENT, STRING_TOO_LONG, Refusal, refuse_unless,
)

ROOM_LIMIT = 255
ORDER = 2
NAME = 3


def check_room(room):
    """"compare with the room (0 to 255)"; over that it is 14, before absent."""
    refuse_unless(len(room) <= ROOM_LIMIT, BAD_ARGUMENT)


def string(image, index, room):
    """Puts string number `index` into the room and gives its length."""
    eeprom.check_image(image)
    check_room(room)
    if index == 0:
        return ABSENT
    at = category.category(image, category.STRINGS)
    if at is ABSENT:
        return ABSENT
    if index > _highest(eeprom.read_byte(image, at)):
        return ABSENT
    for _ in range(index - 1):
        eeprom.skip_ahead_bytes(at, eeprom.read_byte(image, at))
    length = eeprom.read_byte(image, at)
    if length > len(room):
        raise Refusal(STRING_TOO_LONG, len(room), length)
    # Read aside: "A refused string leaves its lent room alone".
    raw = bytearray(length)
    eeprom.read_exact(image, at, raw)
    result = _cleaned(raw)
    room[:len(result)] = result
    return len(result)


def _highest(count):
    """The highest index that is looked for."""
    if amended.in_force("E1"):
        # "an index greater than the count is absent"
        return count
    # "compares the index less 1 with the count"
    return count + 1


def _cleaned(raw):
    """"Zeros are dropped, bytes from 0x80 become `?`." """
    return bytes(byte if byte < 0x80 else 0x3F for byte in raw if byte != 0)


def device_name(image, room):
    """"order index at byte 2 of General, absent without General"."""
    eeprom.check_image(image)
    check_room(room)
    general = sii.find_general(image)
    if general is ABSENT:
        return ABSENT
    return string(image, general[ORDER], room)


def description(image, room):
    """"name index at byte 3, refusal 3 without it"."""
    eeprom.check_image(image)
    check_room(room)
    return string(image, sii.general(image)[NAME], room)
