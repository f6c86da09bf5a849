"""Frames that came back, read with the handles that pushing gave."""

from .frames import OVERHEAD, pdus
from .refusal import (
    WRONG_COMMAND, WRONG_FRAME, WRONG_INDEX, WRONG_LENGTH, Refusal,
    refuse_unless,
)


def received(handles, frame):
    """Of each PDU the payload's place and length, and the working counter.
    "the first fault in frame order is named"."""
    coming = pdus(frame)
    given = []
    while True:
        place = len(given)
        pdu = _next(coming, place)
        # "A PDU without a handle, or the reverse, is a frame fault", "a
        # spare handle's [place is] the PDU count".
        refuse_unless((pdu is None) == (place == len(handles)), WRONG_FRAME,
                      place)
        if pdu is None:
            return given
        given.append(_known_again(pdu, handles[place], place))


def _next(coming, place):
    """The next PDU, None behind the last. "a frame header's [place] is 0"."""
    try:
        return next(coming, None)
    except Refusal:
        raise Refusal(WRONG_FRAME, place) from None


def _known_again(pdu, handle, place):
    """"within a PDU frame, command, index, length". The handle's start is not
    compared, nor are address, circulating bit and IRQ."""
    command, index, _, length, _, _, _, payload, working_counter = pdu
    _, size, sent_index, sent_command = handle
    refuse_unless(command == sent_command, WRONG_COMMAND, place)
    refuse_unless(index == sent_index, WRONG_INDEX, place)
    refuse_unless(length + OVERHEAD == size, WRONG_LENGTH, place)
    return payload, length, working_counter
