"""The loop: lines in, answers out."""

import os

from .requests import answer

READ_SIZE = 1 << 20


def pieces(source):
    """What is at hand, until there is no more."""
    while True:
        piece = os.read(source, READ_SIZE)
        if not piece:
            return
        yield piece


def line_batches(those):
    """The lines that each piece completes, without their line ends."""
    begun = []
    for piece in those:
        begun.append(piece)
        # Joined only at a line end, so that a very long line stays cheap.
        if b"\n" not in piece:
            continue
        lines = b"".join(begun).split(b"\n")
        begun = [lines.pop()]
        yield lines
    # "A last line without a line end counts, unless it is empty."
    last = b"".join(begun)
    if last:
        yield [last]


def write_all(sink, text):
    left = memoryview(text)
    while left:
        left = left[os.write(sink, left):]


def main(source=0, sink=1):
    for lines in line_batches(pieces(source)):
        answers = "".join([answer(line) + "\n" for line in lines])
        write_all(sink, answers.encode("ascii"))
