"""Frames: the builder and the reader."""

import struct

from .refusal import ABSENT, BAD_ARGUMENT, BAD_FRAME, TOO_LONG, refuse_unless

AREA_LIMIT = 2_047
DATA_LIMIT = 65_535
COMMAND_LIMIT = 14

# "12 bytes over the payload": 10 before it and 2 after it.
PDU_HEADER = 10
OVERHEAD = 12

LENGTH_BITS = 0x07FF
CIRCULATING = 0x4000
MORE_FOLLOWS = 0x8000

FRAME_HEADER = 2
FRAME_TYPE = 1


class State:
    """Used bytes, PDU count, and where the last PDU starts."""

    __slots__ = ("used", "count", "last")

    def __init__(self, used, count, last):
        self.used = used
        self.count = count
        self.last = last


class Counter:
    """"After index 255 comes index 0, and that is no error." """

    __slots__ = ("index",)

    def __init__(self, index):
        self.index = index

    def take(self):
        taken = self.index
        self.index = (taken + 1) % 256
        return taken


def check_area_size(size):
    """"An area has 0 to 2,047 bytes." """
    refuse_unless(size <= AREA_LIMIT, BAD_ARGUMENT)


def check_state(size, state):
    """"Used bytes lie between 12 times the PDU count and the area's size, and
    are 0 when the count is 0"; the last header lies in the used bytes."""
    if state.count == 0:
        fits = state.used == 0
    else:
        fits = (OVERHEAD * state.count <= state.used <= size
                and state.last + PDU_HEADER <= state.used)
    refuse_unless(fits, BAD_ARGUMENT)


def check_push(size, state, command, length):
    check_area_size(size)
    check_state(size, state)
    refuse_unless(command <= COMMAND_LIMIT, BAD_ARGUMENT)
    refuse_unless(length <= DATA_LIMIT, BAD_ARGUMENT)


def open_area(area):
    """"opening zeroes it"."""
    check_area_size(len(area))
    area[:] = bytes(len(area))
    return State(0, 0, 0)


def can_push_pdu_payload(size, state, length):
    check_push(size, state, 0, length)
    return _has_space(size, state, length)


def _has_space(size, state, length):
    return length + OVERHEAD <= size - state.used


def push_pdu(area, state, counter, command, address, data, override):
    """Gives the PDU's place and whole size."""
    return push_handle(area, state, counter, command, address, data,
                       override)[:2]


def push_handle(area, state, counter, command, address, data, override):
    """Gives the PDU's place, whole size, index and command: what is kept to
    know the PDU again when it comes back."""
    # "takes the larger of data length and override"
    length = max(len(data), override)
    check_push(len(area), state, command, length)
    # "`push_pdu` (8) uses up an index", so it is taken first.
    index = counter.take()
    refuse_unless(_has_space(len(area), state, length), TOO_LONG)
    place = state.used
    header = struct.pack("<BBIHH", command, index, address, length, 0)
    area[place:place + PDU_HEADER] = header
    # "missing payload bytes and the PDU's last two aren't written"
    payload = place + PDU_HEADER
    area[payload:payload + len(data)] = data
    if state.count > 0:
        # "A push sets more-follows in the PDU before": bit 15, nothing else.
        area[state.last + 7] |= MORE_FOLLOWS >> 8
    state.used = place + OVERHEAD + length
    state.count += 1
    state.last = place
    return place, OVERHEAD + length, index, command


def push_pdu_slice_rest(area, state, counter, command, address, data):
    """Gives the bytes taken, the PDU's place and whole size."""
    check_push(len(area), state, command, len(data))
    taken = min(len(data), room(len(area), state))
    # "on empty input or room [...] of 0 is absent and takes no index"
    if taken == 0:
        return ABSENT
    place, whole = push_pdu(
        area, state, counter, command, address, data[:taken], 0)
    return taken, place, whole


def room(size, state):
    """"free less 12, never below 0"."""
    return max(0, size - state.used - OVERHEAD)


def frame_header(used):
    """"used + 0x1000, little-endian"."""
    check_area_size(used)
    return (used + 0x1000).to_bytes(2, "little")


def read_frame(frame):
    """Each PDU's fields and payload place, in order."""
    return list(pdus(frame))


def pdus(frame):
    """The same one by one, up to the first fault."""
    # "It demands two header bytes, type 1 (bit 11 isn't looked at)"
    refuse_unless(len(frame) >= FRAME_HEADER, BAD_FRAME)
    header = int.from_bytes(frame[:FRAME_HEADER], "little")
    refuse_unless(header >> 12 == FRAME_TYPE, BAD_FRAME)
    # "length within the bytes given"; bytes past it are ignored.
    end = FRAME_HEADER + (header & LENGTH_BITS)
    refuse_unless(end <= len(frame), BAD_FRAME)
    place = FRAME_HEADER
    while place < end:
        pdu, place = _read_pdu(frame, place, end)
        # "more-follows on all but the last, ending at the length"
        refuse_unless(pdu[5] == int(place < end), BAD_FRAME)
        yield pdu


def _read_pdu(frame, place, end):
    """A PDU's fields and where it ends. "PDUs inside it" (the length)."""
    refuse_unless(place + OVERHEAD <= end, BAD_FRAME)
    command, index, address, flags, irq = struct.unpack_from(
        "<BBIHH", frame, place)
    length = flags & LENGTH_BITS
    payload = place + PDU_HEADER
    behind = payload + length
    refuse_unless(behind + 2 <= end, BAD_FRAME)
    working_counter = int.from_bytes(frame[behind:behind + 2], "little")
    fields = (command, index, address, length,
              int(flags & CIRCULATING != 0), int(flags & MORE_FOLLOWS != 0),
              irq, payload, working_counter)
    return fields, behind + 2
