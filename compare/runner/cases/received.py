"""Frames that came back, with the handles that their pushes gave."""

from itertools import product

from ..request import line, parsed
from . import frames
from .frames import OVERHEAD, framed, pdu
from .tools import U8, U16, U32, around, near, number, ramp

HEADER = 2
PDU_HEADER = 10
LIST_LIMIT = 2_000


def small():
    yield from lengths_and_sizes()
    yield from faults_of_two()
    yield from other_words()
    yield from headers()
    yield from damages()
    yield from counts()


def handle(start, data, index, command):
    return (start, OVERHEAD + len(data), index, command)


def lengths_and_sizes():
    """Up to two PDUs with up to two bytes, and up to three handles."""
    sizes = [rows for count in range(4)
             for rows in product((11, 12, 13, 14), repeat=count)]
    for count in range(3):
        for lengths in product(range(3), repeat=count):
            body = b"".join(
                pdu(4, 7, 0, ramp(length), place < count - 1, counter=place)
                for place, length in enumerate(lengths))
            for rows in sizes:
                handles = [(12 * place, size, 7, 4)
                           for place, size in enumerate(rows)]
                yield line("received", handles, framed(body))


def faults_of_two():
    """Two PDUs: command, index and length of each right or wrong, the frame
    right or with a fault in each place, a handle missing or spare."""
    data = (ramp(1), ramp(2))
    bodies = [pdu(5, 1, 2, data[0], more, counter=3)
              + pdu(12, 2, 0, data[1], again, counter=4)
              for more in (True, False) for again in (False, True)]
    whole = [framed(body) for body in bodies]
    whole += [whole[0] + b"\x05", whole[0][:-1],
              framed(bodies[0] + b"\x00"), framed(bodies[0][:-1]),
              framed(bodies[0], 0x20)]
    for wrong in product((0, 1), repeat=6):
        first = (0, 13 + wrong[0], 1 + wrong[1], 5 + wrong[2])
        second = (13, 14 + wrong[3], 2 + wrong[4], 12 + wrong[5])
        for frame in whole:
            for handles in ([first], [first, second],
                            [first, second, (27, 12, 3, 1)]):
                yield line("received", handles, frame)


def other_words():
    """One word of a handle at its edges. The start is not compared."""
    frame = framed(pdu(10, 9, U32, ramp(3), True, counter=U16)
                   + pdu(0, 9, 0, b"", False))
    for place, at in product(range(2), range(4)):
        most = (U16, U16, U8, U8)[at]
        handles = [[0, 15, 9, 10], [15, 12, 9, 0]]
        right = handles[place][at]
        for word in around(0, right, right + 256, right + 2_048, most,
                           most=most):
            handles[place][at] = word
            yield line("received", handles, frame)


def headers():
    """Every second byte of the header, and lengths on both sides."""
    body = pdu(1, 2, 3, ramp(2), False)
    handles = [handle(0, ramp(2), 2, 1)]
    for first in (0, 13, 14, 15):
        for second in range(256):
            yield line("received", handles, bytes([first, second]) + body)
    for count in range(3):
        for length in range(4):
            yield line("received", handles * count, bytes(length))
        for second in (0x10, 0x18, 0x11, 0x00, 0x20):
            yield line("received", handles * count, bytes([0, second]))
            yield line("received", handles * count,
                       bytes([0, second]) + body)


def damages():
    one = framed(pdu(7, 1, 0x0130_0000, ramp(2), False, counter=1))
    two = framed(pdu(4, 2, 5, b"", True, counter=2)
                 + pdu(12, 3, U32, ramp(3), False, 0x4000, 1, 3))
    for frame, handles in (
            (one, [(0, 14, 1, 7)]),
            (two, [(0, 12, 2, 4), (12, 15, 3, 12)])):
        for bad in frames.every_damage(frame):
            yield line("received", handles, bad)


def counts():
    """As many PDUs as a frame can have, a long one, and long lists."""
    for count in (168, 169, 170, 171):
        body = b"".join(pdu(4, place, place, b"", place < count - 1,
                            counter=place) for place in range(count))
        frame = framed(body[:2_047])
        for more in (-1, 0, 1, 2):
            handles = [handle(12 * place, b"", place, 4)
                       for place in range(count + more)]
            yield line("received", handles, frame)
    for length in around(2_035):
        body = pdu(12, 1, 2, ramp(length), False, counter=U16)[:2_047]
        yield line("received", [handle(0, ramp(length), 1, 12)], framed(body))
        yield line("received", [handle(0, ramp(length), 1, 12)],
                   framed(body)[:-1])
    one = framed(pdu(4, 0, 0, b"", False))
    for count in (255, 256, 257, *around(LIST_LIMIT)):
        handles = [(0, 12, 0, 4)] * count
        yield line("received", handles, one)
        yield line("received", handles, b"\x00\x10")
        yield line("received", handles[1:], one).replace(
            b" %d " % (count - 1), b" %d " % count, 1)


# --- Random ---


def some(rng):
    """A frame is built by pushes, changed on its way, and read with their
    handles; then with a fault in either."""
    for handles, frame in (built(rng), foreign(rng)):
        frame = returned(rng, frame, handles)
        yield line("received", handles, frame)
        yield line("received", handles, frame + rng.randbytes(near(rng, (1,))))
        yield line("received", mistaken(rng, handles), frame)
        yield line("received", handles, frames.damaged(rng, frame))
        yield line("received", mistaken(rng, handles),
                   rewritten(rng, frame, handles))


def built(rng):
    """Pushes of all kinds, refused ones too; after 255 of these an index
    comes again."""
    size = frames.area_size(rng)
    area, state = bytes(size), (0, 0, 0)
    index = rng.choice((0, 254, 255, rng.randint(0, 255)))
    handles = []
    for _ in range(rng.choice((1, 2, 3, 4, 6, 9))):
        request, (record, slices) = frames.pushed(rng, area, state, index)
        if record[1] > state[1]:
            handles.append((state[0], record[0] - state[0], index,
                            parsed(request).command))
        *state, index = record
        area = slices[0]
        if handles and rng.random() < 0.15:
            index = handles[-1][2]
    return handles, framed(area[:state[0]])


def foreign(rng):
    """Any PDUs, and handles for them."""
    count = rng.choice((0, 1, 1, 2, 3, 5))
    body, handles = b"", []
    for place in range(count):
        data = rng.randbytes(rng.choice((0, 1, 2, 4, 30)))
        command, index = rng.randint(0, 255), rng.choice((3, number(rng, U8)))
        handles.append(handle(len(body), data, index, command))
        body += pdu(command, index, number(rng, U32), data, place < count - 1)
    return handles, framed(body, rng.choice((0x10, 0x10, 0x18)))


def returned(rng, frame, handles):
    """Payloads and counters changed; sometimes addresses, flag bits 11 to 14
    and IRQ, which are not compared."""
    frame = bytearray(frame)
    free = rng.random() < 0.4
    for start, size, _, _ in handles:
        start += HEADER
        if rng.random() < 0.9:
            payload = size - PDU_HEADER
            frame[start + PDU_HEADER:start + size] = rng.randbytes(payload)
        if free:
            frame[start + 2:start + 6] = rng.randbytes(4)
            frame[start + 7] ^= rng.choice((0, 0x08, 0x40, 0x78))
            frame[start + 8:start + 10] = rng.randbytes(2)
    return bytes(frame)


def mistaken(rng, handles):
    """A handle lost, one too many, two exchanged, or a number wrong."""
    handles = [list(row) for row in handles]
    for _ in range(rng.choice((0, 1, 1, 2))):
        pick = rng.randrange(6)
        place = rng.randrange(len(handles)) if handles else 0
        if not handles or pick == 0:
            handles.insert(place, [0, rng.choice((12, 14)), number(rng, U8),
                                   rng.choice(frames.COMMANDS)])
        elif pick == 1:
            del handles[place]
        elif pick == 2:
            other = rng.randrange(len(handles))
            handles[place], handles[other] = handles[other], handles[place]
        else:
            at = rng.randrange(4)
            most = (U16, U16, U8, U8)[at]
            step = rng.choice((-12, -1, 1, 12, 2_048))
            handles[place][at] = max(0, min(most, handles[place][at] + step))
    return handles


def rewritten(rng, frame, handles):
    """One field of a PDU's header is another, or a byte has moved from one
    PDU to the next."""
    frame = bytearray(frame)
    if not handles:
        return frame
    place = rng.randrange(len(handles))
    start = HEADER + handles[place][0]
    pick = rng.randrange(5)
    if pick < 2:
        frame[start + pick] = (frame[start + pick] + rng.choice((1, 255))) % 256
    elif pick == 2:
        frame[start + 7] ^= 0x80
    elif pick == 3 or place + 1 == len(handles):
        frame[start + 6] = (frame[start + 6] + rng.choice((1, 255, 12))) % 256
    else:
        # The next one's header moves on by a byte.
        behind = HEADER + handles[place + 1][0]
        if frame[start + 6] < 255 and frame[behind + 6] > 0:
            frame[start + 6] += 1
            frame[behind + 6] -= 1
            moved = frame.pop(behind + PDU_HEADER)
            frame.insert(behind, moved)
    return bytes(frame)
