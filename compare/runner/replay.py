"""`compare/replay`: the sample that `rt ci` replays through the desk.

The answers are the oracle's where it has one that is no listed difference,
else the independent program's. The desk is never asked.
"""

import argparse
import os
import random
import sys

from . import bench, cases, listed, programs
from .compare import verdict
from .request import answer_class, kind_of

SEED = "replay"
MADE = 60_000
LINE_MOST = 1_500
BYTES_MOST = 1_700_000
GIVES_A_TURN = 4

# Long lines are dear. These show that an image can be as long as it may.
LONG = (b"alias " + b"5a" * 131_072 + b" 8",
        b"alias " + b"5a" * 131_073 + b" 8")

# It has no line end: a last line counts without one.
LAST = b"crc 313233343536373839"


def main(words=None):
    folder = arguments(words).folder
    there, missing = programs.found(("oracle", "independent"))
    if missing:
        print("\n".join(missing), "a replay needs both", sep="\n")
        return 1
    requests, answers, whose = sample(*there)
    os.makedirs(folder, exist_ok=True)
    write(folder, "stdin", b"\n".join(requests))
    write(folder, "stdout", b"".join(answer.encode() + b"\n"
                                     for answer in answers))
    for name, count in sorted(whose.items()):
        print(f"{count} answers of the {name}")
    return 0


def arguments(words):
    parser = argparse.ArgumentParser(
        prog="compare/replay", description="Writes stdin and stdout of the "
        "desk's replay into a folder.")
    parser.add_argument(
        "folder", nargs="?", metavar="DIR",
        default=os.path.join(programs.ROOT, "target", "replay"))
    return parser.parse_args(words)


def sample(oracle, independent):
    """Requests, the recorded answer to each, and how many are whose."""
    chosen = Chosen()
    for lines in (must_have(), generated()):
        for request, rust, ours in asked(oracle, independent, lines):
            chosen.offer(request, rust, ours)
        chosen.take_turns()
    for request, rust, ours in asked(oracle, independent, [LAST]):
        chosen.keep(request, rust, ours)
    return chosen.requests, chosen.answers, chosen.whose


def asked(oracle, independent, lines):
    return zip(lines, oracle.ask(lines), independent.ask(lines))


def must_have():
    """The bench, the listed differences, two long images."""
    lines = [request for request, _ in bench.cases()]
    lines += [request for _, request in listed.examples()
              if len(request) < 20_000]
    return lines + list(LONG)


def generated():
    """Lines of every kind, no long ones, in an order that is no order."""
    lines = [request for request in cases.requests(MADE, SEED)
             if len(request) <= LINE_MOST]
    random.Random(SEED).shuffle(lines)
    return lines


class Chosen:
    """Takes turns among the kinds of request and answer, until it is full."""

    def __init__(self):
        self.requests, self.answers = [], []
        self.whose = {}
        self.bytes = 0
        self.seen = {LAST}
        self.groups = {}

    def offer(self, request, rust, ours):
        entry = verdict(request, rust, ours) if rust != ours else None
        if rust != ours and entry is None:
            raise SystemExit("an unlisted difference; compare/run shows it: "
                             + request.decode("latin-1"))
        group = (kind_of(request), answer_class(ours), entry)
        self.groups.setdefault(group, []).append((request, rust, ours))

    def take_turns(self):
        """Some of each group, then the next of each. Answers with values say
        most, so there are more of those."""
        turns = self.groups
        self.groups = {}
        while turns and self.bytes < BYTES_MOST:
            for (_, said, _), group in turns.items():
                for _ in range(GIVES_A_TURN if said == "gives" else 1):
                    if group:
                        self.keep(*group.pop(0))
            turns = {key: group for key, group in turns.items() if group}

    def keep(self, request, rust, ours):
        if request in self.seen and request != LAST:
            return
        self.seen.add(request)
        self.requests.append(request)
        # Where the two differ, an entry says why ours is the rules'.
        name = "oracle" if rust == ours else "independent program"
        self.answers.append(rust if rust == ours else ours)
        self.whose[name] = self.whose.get(name, 0) + 1
        self.bytes += len(request) + len(ours) + 2


def write(folder, name, text):
    with open(os.path.join(folder, name), "wb") as file:
        file.write(text)
    print(f"{name}: {text.count(10)} line ends, {len(text)} bytes")


if __name__ == "__main__":
    sys.exit(main())
