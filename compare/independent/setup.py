"""What sets a device up: PDI, bootstrap mailbox, version, checksum, clocks.

The rules place the checksum alone, where they set the alias. The other
places follow ETG1000.6 and ETG2010, the order of the answers the desk's line
protocol.
"""

import struct

from . import category, eeprom
from .crc import crc
from .refusal import ABSENT, CAPACITY, refuse_unless

PDI_BYTE = 2 * 0x00
CHECKSUM_BYTE = 2 * 0x07
BOOTSTRAP_BYTE = 2 * 0x14
VERSION_WORD = 0x3F

# Words 0 to 6 are summed; the sum is the low byte of word 7.
SUMMED_BYTES = 2 * 7

# Three times of 32 bits; sync 1 factor, assign-activate and sync 0 factor of
# 16; two string indices of 8; four reserved bytes, which are ignored. The
# factors are signed in the SII; the desk gives them "as 16 bits unsigned".
CLOCK = struct.Struct("<3I3HBB4x")
CLOCK_LIMIT = 8


def pdi(image):
    """Control, configuration, sync impulse length, configuration 2."""
    eeprom.check_image(image)
    return struct.unpack("<4H", eeprom.stored(image, PDI_BYTE, 8))


def bootstrap_mailbox(image):
    """Receive offset and size, send offset and size."""
    eeprom.check_image(image)
    return struct.unpack("<4H", eeprom.stored(image, BOOTSTRAP_BYTE, 8))


def version(image):
    eeprom.check_image(image)
    return eeprom.word_at(image, VERSION_WORD)


def checksum(image):
    """Stored and computed. They may differ: that is an answer."""
    eeprom.check_image(image)
    stored = eeprom.stored(image, CHECKSUM_BYTE, 1)[0]
    return stored, crc(eeprom.stored(image, 0, SUMMED_BYTES))


def clocks(image):
    """The records of the category; "No category: empty list". """
    at = category.category(image, category.CLOCK)
    found = []
    if at is ABSENT:
        return found
    # "a partial last record ends the list"
    while at.left() >= CLOCK.size:
        refuse_unless(len(found) < CLOCK_LIMIT, CAPACITY)
        record = bytearray(CLOCK.size)
        eeprom.read_exact(image, at, record)
        found.append(CLOCK.unpack(record))
    return found
