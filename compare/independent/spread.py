"""Spreading an image over areas.

Two ways that know nothing of each other: `permitted` asks whether any
permitted cutting exists, `_push_in_order` follows the stated rule.
"""

from functools import lru_cache

from . import frames
from .refusal import ADDRESS, BAD_ARGUMENT, NO_ROOM, refuse_unless

AREA_COUNT_LIMIT = 32
IMAGE_LIMIT = 65_535
COMMANDS = (10, 11, 12)
ADDRESS_END = 2 ** 32


def spread(size, areas, first, counter, command, address, image):
    """The state of each area up to the last one; its number is their count.

    `areas` is the row of areas as one slice, `first` the first area's state.
    """
    _check(size, areas, first, command, image)
    # "address + image length above 2 to the 32 is refused (1), then 13"
    refuse_unless(address + len(image) <= ADDRESS_END, ADDRESS)
    # "an empty image gives 0 and changes nothing"
    if not image:
        return []
    frees = [size - first.used] + [size] * (len(areas) // size - 1)
    refuse_unless(permitted(frees, len(image)), NO_ROOM)
    return _push_in_order(size, areas, first, counter, command, address, image)


def _check(size, areas, first, command, image):
    refuse_unless(1 <= size <= frames.AREA_LIMIT, BAD_ARGUMENT)
    refuse_unless(len(areas) % size == 0, BAD_ARGUMENT)
    refuse_unless(1 <= len(areas) // size <= AREA_COUNT_LIMIT, BAD_ARGUMENT)
    refuse_unless(command in COMMANDS, BAD_ARGUMENT)
    refuse_unless(len(image) <= IMAGE_LIMIT, BAD_ARGUMENT)
    frames.check_state(size, first)


# --- Whether a permitted cutting exists ---
#
# Pieces stand in image order and area numbers never fall, so each area holds
# a run of neighbouring pieces, perhaps none. A cutting exists exactly when
# the image's length is a sum of one total for each area. Sets of totals are
# kept as lists of spans (lowest, highest).


def permitted(frees, length):
    """Whether areas with these free bytes can take `length` bytes."""
    reachable = [(0, 0)]
    for free in frees:
        reachable = _sums(reachable, _totals(free))
    return any(low <= length <= high for low, high in reachable)


@lru_cache(maxsize=None)
def _totals(free):
    """The byte counts that one area can hold.

    k pieces of at least 1 byte, 12 added to each, hold k to free - 12k bytes.
    """
    spans = [(0, 0)]
    pieces = 1
    while pieces <= free - frames.OVERHEAD * pieces:
        spans.append((pieces, free - frames.OVERHEAD * pieces))
        pieces += 1
    return _merged(spans)


def _sums(some, others):
    return _merged([(a + c, b + d) for a, b in some for c, d in others])


def _merged(spans):
    """The same set with touching spans made one."""
    result = []
    for low, high in sorted(spans):
        if result and low <= result[-1][1] + 1:
            result[-1] = (result[-1][0], max(high, result[-1][1]))
        else:
            result.append((low, high))
    return result


# --- The rule as stated ---


def _push_in_order(size, areas, first, counter, command, address, image):
    states = []
    offset = 0
    while offset < len(image):
        start = size * len(states)
        area = areas[start:start + size]
        # "each after the first opened"
        state = frames.open_area(area) if states else first
        # "one with more than 12 bytes free gets one push"
        if size - state.used > frames.OVERHEAD:
            # "A piece at offset o carries address + o"
            taken, _, _ = frames.push_pdu_slice_rest(
                area, state, counter, command, address + offset,
                image[offset:])
            offset += taken
        areas[start:start + size] = area
        states.append(state)
    return states
