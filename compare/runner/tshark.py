"""`compare/tshark`: tshark's EtherCAT dissector reads the frames that were
built, and must see what our reader sees, and the lengths and working counters
that `received` gives for handles made of what tshark saw."""

import argparse
import os
import random
import shutil
import struct
import subprocess
import sys
import tempfile

from . import cases, programs
from .cases.tools import U32, asked
from .request import afterwards, line, parsed, values

ETHERNET = b"\xff" * 6 + b"\x10" * 6 + b"\x88\xa4"
ETHERNET_LEAST = 60
OVERHEAD = 12
LOGICAL = (10, 11, 12)

# One value a PDU, but for the first two and for the addresses: a logical one
# is `lad`, any other `adp` and `ado`.
FIELDS = ("ecatf.length", "ecatf.type", "ecat.cmd", "ecat.idx", "ecat.lad",
          "ecat.adp", "ecat.ado", "ecat.subframe.length",
          "ecat.subframe.circulating", "ecat.subframe.more", "ecat.int",
          "ecat.cnt")


def main(words=None):
    wanted = arguments(words)
    if not shutil.which("tshark"):
        print("tshark is not installed: skipped")
        return 0
    there, _ = programs.found(wanted.programs)
    if not there:
        print("there is no program to ask: skipped")
        return 0
    faults = 0
    for program in there:
        faults += compared(program, wanted.count, wanted.seed)
    return 1 if faults else 0


def arguments(words):
    parser = argparse.ArgumentParser(
        prog="compare/tshark", description="Has tshark read the frames that "
        "pushes and spreads build.")
    parser.add_argument("count", nargs="?", type=int, default=4_000,
                        metavar="N", help="about how many requests (4000)")
    parser.add_argument("seed", nargs="?", default="1", metavar="SEED")
    # The oracle has no frame reader to compare with.
    parser.add_argument("--programs", default=["desk", "independent"],
                        type=lambda text: text.split(","))
    return parser.parse_args(words)


def compared(program, count, seed):
    """How many frames tshark reads otherwise than this program does."""
    frames = built(program, count, seed)
    readings = program.ask([line("frame", frame) for frame in frames])
    dissections = dissected(frames)
    returns = program.ask([line("received", *handles(theirs), frame)
                           for frame, theirs in zip(frames, dissections)])
    faults = pdus = counters = 0
    for frame, reading, back, theirs in zip(frames, readings, returns,
                                            dissections):
        ours = as_tshark_says(frame, reading)
        if ours:
            pdus += len(ours[1])
            counters += sum(pdu[-1] != 0 for pdu in ours[1])
        if ours != theirs or given_back(back) != came_back(theirs):
            faults += 1
            if faults <= 5:
                print(f"frame {frame.hex()}\n  {program.name}: {reading}\n"
                      f"  {program.name}, received: {back}\n"
                      f"  tshark: {theirs}")
    print(f"{program.name}: {len(frames)} frames with {pdus} PDUs, "
          f"{counters} working counters other than 0; tshark reads {faults} "
          "frames otherwise")
    return faults


# --- The frames ---


def built(program, count, seed):
    """Header and used bytes of each area that a push or a spread leaves."""
    rng = random.Random(f"{seed} tshark")
    lines = []
    while len(lines) < count:
        lines += pushes(rng)
        lines += cases.spread.some(rng, off=0)
    found = {}
    for request, answer in zip(lines, program.ask(lines)):
        for area, used in left_behind(request, answer):
            # Before the first push there is nothing to read.
            if used:
                found[area[:used]] = True
    headers = program.ask([line("header", len(body)) for body in found])
    return [afterwards(header)[1][0] + body
            for header, body in zip(headers, found)]


def pushes(rng):
    """An area is filled, push by push."""
    size = rng.choice((28, 60, 100, 300, rng.randint(12, 1_486)))
    # Bytes that no push writes show up as working counters.
    area = rng.randbytes(size) if rng.random() < 0.3 else bytes(size)
    state, index = (0, 0, 0), rng.randint(0, 255)
    for _ in range(rng.randint(1, 20)):
        data = rng.randbytes(rng.choice((0, 1, 2, 4, rng.randint(0, 40))))
        kind = rng.choice(("push", "push", "rest"))
        override = [rng.choice((0, 0, 8))] if kind == "push" else []
        request, (record, slices) = asked(
            kind, area, *state, index, rng.randint(0, 14),
            rng.randint(0, U32), data, *override)
        yield request
        *state, index = record
        area = slices[0]


def left_behind(request, answer):
    """(area, used bytes) of each area that the answer gives."""
    given = values(answer)
    if given is None:
        return []
    record, (slice_,) = afterwards(answer)
    taken = parsed(request)
    if taken.kind != "spread":
        return [(slice_, record[0])]
    size, used = taken.size, given[1::3]
    return [(slice_[place * size:(place + 1) * size], used[place])
            for place in range(given[0])]


# --- Reading ---


def as_tshark_says(frame, reading):
    """Our reading: length and type, then each PDU's fields."""
    given = values(reading)
    if given is None:
        return None
    rows = [given[start:start + 9] for start in range(1, len(given), 9)]
    # The payload's place is no field of tshark's.
    pdus = [tuple(row[:7] + row[8:]) for row in rows]
    return (len(frame) - 2, 1), pdus


def handles(theirs):
    """How many PDUs tshark saw, and a handle for each."""
    words, start = [len(theirs[1])], 0
    for command, index, _, length, *_ in theirs[1]:
        words += [start, length + OVERHEAD, index, command]
        start += length + OVERHEAD
    return words


def came_back(theirs):
    """Length and working counter of each PDU that tshark saw."""
    return [(pdu[3], pdu[-1]) for pdu in theirs[1]]


def given_back(answer):
    """The same of an answer to `received`."""
    given = values(answer)
    if given is None:
        return None
    return list(zip(given[2::3], given[3::3]))


def dissected(frames):
    """The same of tshark, for each frame."""
    with tempfile.TemporaryDirectory() as folder:
        path = os.path.join(folder, "frames.pcap")
        write_capture(path, frames)
        words = ["tshark", "-r", path, "-T", "fields", "-E", "occurrence=a"]
        for field in FIELDS:
            words += ["-e", field]
        told = subprocess.run(words, stdout=subprocess.PIPE,
                              stderr=subprocess.DEVNULL, text=True, check=True)
    return [as_rows(text) for text in told.stdout.splitlines()]


def write_capture(path, frames):
    with open(path, "wb") as file:
        file.write(struct.pack("<IHHiIII", 0xA1B2C3D4, 2, 4, 0, 0, 65_535, 1))
        for frame in frames:
            packet = (ETHERNET + frame).ljust(ETHERNET_LEAST, b"\x00")
            size = len(packet)
            file.write(struct.pack("<IIII", 0, 0, size, size) + packet)


def as_rows(text):
    columns = [[int(number, 0) for number in column.split(",") if number]
               for column in text.split("\t")]
    (length, kind, commands, indices, logical, positions, offsets, lengths,
     circulating, more, irqs, counters) = columns
    logical, pairs = iter(logical), iter(zip(positions, offsets))
    addresses = [next(logical) if command in LOGICAL else joined(next(pairs))
                 for command in commands]
    return ((length[0], kind[0]),
            list(zip(commands, indices, addresses, lengths, circulating, more,
                     irqs, counters)))


def joined(pair):
    position, offset = pair
    return position + (offset << 16)


if __name__ == "__main__":
    sys.exit(main())
