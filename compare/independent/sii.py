"""What is read out: alias, identity, mailbox, size, General, the lists.

The places of the fields follow ETG1000.6 and ETG2010, so far as the rules
and docs/DECISIONS.md don't give them.
"""

import struct

from . import category, eeprom
from .crc import crc
from .refusal import (
    ABSENT, CAPACITY, DECODE, NO_CATEGORY, NOT_WRITABLE, refuse_unless,
)

ALIAS_WORD = 4
IDENTITY_BYTE = 2 * 0x08
MAILBOX_BYTE = 2 * 0x18
SIZE_WORD = 0x3E

# "needs a 16-byte image"; the checksum covers 14 of them.
CONFIGURATION_BYTES = 16
SUMMED_BYTES = 14

# Undefined bits of the flag sets (Decision 8).
MAILBOX_UNDEFINED = 0xC0
COE_UNDEFINED = 0xC0
FLAGS_UNDEFINED = 0xE0
ENABLE_UNDEFINED = 0xF0

# Values with a name. Any other becomes 0, the default (Decision 8).
PORT_STATUSES = frozenset((0, 1, 2, 3, 4))
OPERATION_MODES = frozenset((0, 2))
DIRECTIONS = frozenset((0, 1))
SYNC_MANAGER_TYPES = frozenset((0, 1, 2, 3, 4))
# This one has no default: any other is refused (5).
FMMU_USAGES = {0: 0, 1: 1, 2: 2, 3: 3, 0xFF: 0}

GENERAL_BYTES = 18
# Where ETG2010 has them; the record above has them two bytes earlier.
PHYSICAL_PORTS_BYTE = 16
PHYSICAL_ADDRESS_BYTE = 18
SYNC_MANAGER_BYTES = 8
EXTENDED_FMMU_BYTES = 3
PDO_BYTES = 8
ENTRY_BYTES = 8

SYNC_MANAGER_LIMIT = 8
FMMU_LIMIT = 16
EXTENDED_FMMU_LIMIT = 16
PDO_LIMIT = 64


def alias(image):
    """"bytes 8 and 9"."""
    eeprom.check_image(image)
    return eeprom.word_at(image, ALIAS_WORD)


def set_alias(image, value):
    eeprom.check_image(image)
    refuse_unless(len(image) >= CONFIGURATION_BYTES, NOT_WRITABLE)
    image[8:10] = value.to_bytes(2, "little")
    # "byte 14 the CRC of the first 14 bytes after that change, byte 15 zero"
    image[14] = crc(image[:SUMMED_BYTES])
    image[15] = 0


def size(image):
    """"(word 0x3E + 1) times 128, in full"."""
    eeprom.check_image(image)
    return (eeprom.word_at(image, SIZE_WORD) + 1) * 128


def identity(image):
    """Vendor, product, revision, serial."""
    eeprom.check_image(image)
    return struct.unpack("<4I", eeprom.stored(image, IDENTITY_BYTE, 16))


def mailbox(image):
    """Receive offset and size, send offset and size, protocols' low byte."""
    eeprom.check_image(image)
    record = eeprom.stored(image, MAILBOX_BYTE, 10)
    # The protocols' high byte is ignored.
    fields = struct.unpack("<4HBx", record)
    return fields[:4] + (_flags(fields[4], MAILBOX_UNDEFINED),)


def has_mailbox(image):
    """The Rust's own test: a size to send, or protocols and a size to receive."""
    _, receive_size, _, send_size, protocols = mailbox(image)
    return int(send_size > 0 or protocols > 0 and receive_size > 0)


def _flags(value, undefined):
    refuse_unless(value & undefined == 0, DECODE)
    return value


def _listed(value, listed):
    return value if value in listed else 0


# --- General ---


def find_general(image):
    """General's fields, or absent where there is no such category."""
    at = category.category(image, category.GENERAL)
    if at is ABSENT:
        return ABSENT
    record = bytearray(GENERAL_BYTES)
    eeprom.read_exact(image, at, record)
    return _decode_general(record)


def general(image):
    """"General is needed and not found" is refusal 3."""
    fields = find_general(image)
    refuse_unless(fields is not ABSENT, NO_CATEGORY)
    return fields


def _decode_general(record):
    group, picture, order, name = record[0:4]
    coe = _flags(record[5], COE_UNDEFINED)
    foe = int(record[6] != 0)
    eoe = int(record[7] != 0)
    flags = _flags(record[11], FLAGS_UNDEFINED)
    current, ports, physical = struct.unpack("<3H", record[12:18])
    return ((group, picture, order, name, coe, foe, eoe, flags, current)
            + _statuses(ports) + (physical,))


def _statuses(ports):
    """Four bits a port, port 0 lowest."""
    return tuple(_listed(ports >> shift & 0xF, PORT_STATUSES)
                 for shift in (0, 4, 8, 12))


def _word_of_general(image, byte):
    """The 16 bits at a byte of General. Nothing else of it is decoded."""
    at = category.category(image, category.GENERAL)
    refuse_unless(at is not ABSENT, NO_CATEGORY)
    record = bytearray(byte + 2)
    eeprom.read_exact(image, at, record)
    return int.from_bytes(record[byte:], "little")


def physical_ports(image):
    """The kinds of ports 0 to 3, by ETG2010's places."""
    return _statuses(_word_of_general(image, PHYSICAL_PORTS_BYTE))


def physical_memory_address(image):
    return _word_of_general(image, PHYSICAL_ADDRESS_BYTE)


# --- Lists ---


def _next_record(image, at, length):
    """One whole record, or absent: "a partial last record ends the list"."""
    if at.left() < length:
        return ABSENT
    record = bytearray(length)
    eeprom.read_exact(image, at, record)
    return record


def _list(image, number, length, limit, decode):
    """All records of a category; "No category: empty list". """
    at = category.category(image, number)
    found = []
    if at is ABSENT:
        return found
    while True:
        record = _next_record(image, at, length)
        if record is ABSENT:
            return found
        # "a record's decoding (5) [...] is tested before the limit (6)"
        fields = decode(record, image, at)
        refuse_unless(len(found) < limit, CAPACITY)
        found.append(fields)


def sync_managers(image):
    return _list(image, category.SYNC_MANAGERS, SYNC_MANAGER_BYTES,
                 SYNC_MANAGER_LIMIT, _decode_sync_manager)


def _decode_sync_manager(record, _image, _at):
    # Byte 5, the status register, is ignored.
    start, length, control, enable, usage = struct.unpack("<HHBxBB", record)
    return (
        start,
        length,
        _listed(control & 0x3, OPERATION_MODES),
        _listed(control >> 2 & 0x3, DIRECTIONS),
        control >> 4 & 1,
        control >> 5 & 1,
        control >> 6 & 1,
        _flags(enable, ENABLE_UNDEFINED),
        _listed(usage, SYNC_MANAGER_TYPES),
    )


# By mode and direction: process data that is read or written, a mailbox
# likewise. Direction 0 is read by the master.
INFERRED = {(0, 0): 4, (0, 1): 3, (2, 0): 2, (2, 1): 1}


def usages(image):
    """What each sync manager is for: its stored type, or where that is
    unknown (0) the one that mode and direction tell."""
    return [(manager[8] or INFERRED[manager[2:4]],)
            for manager in sync_managers(image)]


def fmmus(image):
    """"the first 16 bytes at most; the rest ignored". """
    at = category.category(image, category.FMMU)
    if at is ABSENT:
        return []
    usages = bytearray(min(FMMU_LIMIT, at.left()))
    eeprom.read_exact(image, at, usages)
    return [_decode_usage(usage) for usage in usages]


def _decode_usage(usage):
    refuse_unless(usage in FMMU_USAGES, DECODE)
    return (FMMU_USAGES[usage],)


def extended_fmmus(image):
    return _list(image, category.EXTENDED_FMMU, EXTENDED_FMMU_BYTES,
                 EXTENDED_FMMU_LIMIT, _decode_extended_fmmu)


def _decode_extended_fmmu(record, _image, _at):
    # The sync manager lies between two bytes that aren't looked at.
    return (record[1],)


def pdos(image, number):
    """TxPDO (50) or RxPDO (51)."""
    return _list(image, number, PDO_BYTES, PDO_LIMIT, _decode_pdo)


def _decode_pdo(record, image, at):
    index, entries, sync_manager = struct.unpack("<HBB", record[:4])
    bits = 0
    for _ in range(entries):
        entry = _next_record(image, at, ENTRY_BYTES)
        # "or a PDO entry missing" is 5, not the end of the list.
        refuse_unless(entry is not ABSENT, DECODE)
        bits += entry[5]
    return (index, entries, sync_manager, bits)
