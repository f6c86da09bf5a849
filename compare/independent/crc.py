"""CRC-8: polynomial 0x07, start 0xFF, no reflection, no final xor."""

POLYNOMIAL = 0x07
START = 0xFF


def _after_eight_shifts(value):
    for _ in range(8):
        top = value & 0x80
        value = (value << 1) & 0xFF
        if top:
            value ^= POLYNOMIAL
    return value


# Shifting is linear, so one table of 256 replaces eight shifts a byte.
_TABLE = bytes(_after_eight_shifts(value) for value in range(256))


def crc(data):
    value = START
    for byte in data:
        value = _TABLE[value ^ byte]
    return value
