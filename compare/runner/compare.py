"""`compare/run`: ask all programs, compare line by line."""

import argparse
import os
import shutil
import sys
import time
from collections import Counter

from . import bench, cases, differences, listed, programs, shrink
from .request import answer_class, kind_of, parsed
from .tally import Tally
from .tried import Tried

BATCH_LINES = 20_000
BATCH_BYTES = 8_000_000
SHOWN_GROUPS = 12
SHOWN_CHARACTERS = 2_000

# A last line without a line end counts, unless it is empty.
ENDINGS = (b"", b"\n", b"\n\n", b"crc -", b"crc -\n", b"crc -\n\n",
           b"crc -\ncrc 00", b"x", b"new 1 1\n ")


def main(words=None):
    asked = arguments(words)
    # A desk that is tried is not asked: `rt try` only holds it to answers.
    there, missing = programs.found(
        [name for name in asked.programs
         if not (asked.tries and name == "desk")])
    for sentence in missing:
        print(sentence)
    if not there:
        print("there is no program to ask")
        return 1
    print("asked:", ", ".join(program.name for program in there))
    if len(there) == 1:
        print("only one program is there: nothing but the bench is compared")
    comparison = Comparison(there, asked.save)
    if asked.tries:
        comparison.tried = tried_desk(comparison.programs)
    comparison.bench()
    comparison.endings()
    comparison.examples()
    comparison.random(asked.count, asked.seed)
    return comparison.report()


def tried_desk(there):
    if not shutil.which("rt"):
        print("desk is not tried: there is no `rt` on the PATH")
    elif "independent" not in there:
        print("desk is not tried: the independent program isn't asked")
    else:
        return Tried()
    return None


def arguments(words):
    parser = argparse.ArgumentParser(
        prog="compare/run", description="Compares the programs that answer "
        "the desk's lines. Status 1 on any difference that docs/DIFFERENCES.md "
        "doesn't list.")
    parser.add_argument("count", nargs="?", type=int, default=20_000,
                        metavar="N", help="about how many requests (20000)")
    parser.add_argument("seed", nargs="?", default="1", metavar="SEED",
                        help="what the requests follow from (1)")
    parser.add_argument("--programs", default=list(programs.NAMES),
                        type=lambda text: text.split(","),
                        help="of desk,oracle,independent; those not there "
                        "are left out")
    parser.add_argument("--try", dest="tries", action="store_true",
                        help="hold the desk to the independent program's "
                        "answers by `rt try`, which needs no proof")
    parser.add_argument("--save", metavar="DIR",
                        help="write requests, answers and differences there")
    asked = parser.parse_args(words)
    unknown = set(asked.programs) - set(programs.NAMES)
    if unknown:
        parser.error("unknown: " + ", ".join(sorted(unknown)))
    return asked


class Comparison:
    def __init__(self, there, save=None):
        self.programs = {program.name: program for program in there}
        # Who speaks for the rules against the oracle.
        self.whose = next((name for name in ("desk", "independent")
                           if name in self.programs), None)
        self.tally = Tally()
        self.filed = Counter()
        self.faults = []
        self.groups = {}
        self.notes = []
        self.files = Files(save, self.programs)
        self.tried = None
        self.began = time.monotonic()

    # --- What is asked ---

    def bench(self):
        """The cases of bench.txt, against every program."""
        found = bench.cases()
        lines = [request for request, _ in found]
        answers = self.ask(lines)
        for name, theirs in answers.items():
            for (request, right), said in zip(found, theirs):
                if said != right and not self.excused(name, request, said,
                                                      right):
                    self.faults.append(f"bench: {name} answers {said}\n"
                                       f"  not {right}\n  to {cut(request)}")
        self.notes.append(f"bench: {len(found)} cases")
        self.try_desk(lines, [right for _, right in found])

    def excused(self, name, request, said, right):
        """The oracle may be silent, or differ where an entry says so."""
        if name != "oracle":
            return False
        return verdict(request, said, right) is not None

    def endings(self):
        """The text's end, which no single line shows."""
        for text in ENDINGS:
            said = {name: program.said(text)
                    for name, program in self.programs.items()}
            if len(set(said.values())) > 1:
                self.faults.append(f"the text {text!r} is answered {said}")

    def examples(self):
        """Every entry's example shows its difference, and every rule has one."""
        if not {"oracle", self.whose} <= set(self.programs):
            return
        found = list(listed.examples())
        answers = self.ask([request for _, request in found])
        for place, (entry, request) in enumerate(found):
            oracle = answers["oracle"][place]
            ours = answers[self.whose][place]
            if oracle == ours or differences.entry_of(
                    parsed(request), oracle, ours) != entry:
                self.faults.append(f"{entry}'s example doesn't show it: "
                                   f"{cut(request)}\n  oracle: {cut(oracle)}"
                                   f"\n  {self.whose}: {cut(ours)}")
        without = set(differences.RULES) - {entry for entry, _ in found}
        if without:
            self.faults.append(f"{listed.DOCUMENT} has no example for "
                               + ", ".join(sorted(without)))

    def random(self, count, seed):
        small, requests, ours = [], [], []
        for lines in batches(cases.requests(count, seed, small)):
            answers = self.ask(lines)
            self.compare(lines, answers)
            self.files.write(lines, answers)
            if self.tried:
                requests += lines
                ours += answers["independent"]
        self.try_desk(requests, ours)
        if count:
            self.notes.append(f"seed {seed}; small cases: " + ", ".join(small))

    def try_desk(self, lines, answers):
        """Where it is asked for: the desk gives these answers."""
        if not self.tried or not lines:
            return
        for request, said in self.tried.faults(lines, answers):
            self.faults.append("desk, tried: "
                               + (cut(request) if request else "no request")
                               + "\n" + cut(said))

    def ask(self, lines):
        return {name: program.ask(lines)
                for name, program in self.programs.items()}

    # --- What is compared ---

    def compare(self, lines, answers):
        first = answers[self.whose or "oracle"]
        oracle = answers.get("oracle")
        for place, request in enumerate(lines):
            self.tally.count(request, first[place],
                             oracle[place] if oracle else None)
        for left, right in self.pairs():
            for request, a, b in zip(lines, answers[left], answers[right]):
                if a != b and programs.NOT_ASKED not in (a, b):
                    self.differ(left, right, request, a, b)

    def pairs(self):
        if {"desk", "independent"} <= set(self.programs):
            yield "desk", "independent"
        if "oracle" in self.programs and self.whose:
            yield "oracle", self.whose

    def differ(self, left, right, request, a, b):
        entry = verdict(request, a, b) if left == "oracle" else None
        if entry is not None:
            self.filed[entry] += 1
            self.files.difference(entry, request, a, b)
            return
        group = (left, right, kind_of(request), answer_class(a),
                 answer_class(b))
        shortest = self.groups.setdefault(group, [0, request])
        shortest[0] += 1
        if len(request) < len(shortest[1]):
            shortest[1] = request
        self.files.difference("unlisted", request, a, b)

    # --- What is said ---

    def report(self):
        if self.tally.classes:
            for text in self.tally.lines(self.whose or "oracle"):
                print(text)
        self.say_filed()
        for note in self.notes:
            print(note)
        if self.tried:
            print(f"desk: {self.tried.asked} requests, held to the independent "
                  f"program's answers in {self.tried.runs} runs by `rt try`")
        for fault in self.faults:
            print("FAULT", fault)
        self.say_groups()
        asked = sum(sum(kind.values()) for kind in self.tally.classes.values())
        unlisted = sum(times for times, _ in self.groups.values())
        print(f"{asked} requests in {time.monotonic() - self.began:.0f} s, "
              f"{len(self.faults)} faults, {unlisted} unlisted differences")
        return 1 if self.faults or unlisted else 0

    def say_filed(self):
        if "oracle" not in self.programs or not self.whose:
            return
        entries = [*differences.RULES, SILENT]
        print("differences by entry:", ", ".join(
            f"{entry} {self.filed[entry]}" for entry in entries))

    def say_groups(self):
        """Of each kind of unlisted difference the smallest request."""
        groups = sorted(self.groups.items(), key=lambda item: len(item[1][1]))
        for number, (group, (times, request)) in enumerate(groups):
            if number == SHOWN_GROUPS:
                print(f".. and {len(groups) - number} more kinds")
                return
            left, right, kind, *_ = group
            request = shrink.shrunk(request, self.same_group(group))
            a, b = (self.programs[name].ask([request])[0]
                    for name in (left, right))
            print(f"UNLISTED {kind}, {times} times. The smallest found:\n"
                  f"  {cut(request)}\n  {left}: {cut(a)}\n  {right}: {cut(b)}")

    def same_group(self, group):
        left, right, *_ = group

        def shows(lines):
            both = zip(lines, self.programs[left].ask(lines),
                       self.programs[right].ask(lines))
            return [a != b and (left != "oracle"
                                or verdict(request, a, b) is None)
                    and group[2:] == (kind_of(request), answer_class(a),
                                      answer_class(b))
                    for request, a, b in both]

        return shows


SILENT = "no answer of the Rust"


def verdict(request, oracle, ours):
    """Where a difference from the oracle is listed, or None."""
    taken = parsed(request)
    if oracle == "none" and differences.silent(taken):
        return SILENT
    return differences.entry_of(taken, oracle, ours)


def batches(lines):
    batch, size = [], 0
    for request in lines:
        batch.append(request)
        size += len(request)
        if len(batch) >= BATCH_LINES or size >= BATCH_BYTES:
            yield batch
            batch, size = [], 0
    if batch:
        yield batch


def cut(text):
    """Long runs of a pair in short; what is still long by its ends."""
    if isinstance(text, bytes):
        text = text.decode("latin-1").encode("unicode_escape").decode()
    text = bench.short(text)
    if len(text) <= SHOWN_CHARACTERS:
        return text
    half = SHOWN_CHARACTERS // 2
    return (f"{text[:half]}..({len(text) - 2 * half} characters).."
            f"{text[-half:]}")


class Files:
    """Requests, answers and differences, where `--save` asks for them."""

    def __init__(self, folder, names):
        self.open = {}
        if folder:
            os.makedirs(folder, exist_ok=True)
            for name in ("requests", "differences", *names):
                path = os.path.join(folder, name + ".txt")
                self.open[name] = open(path, "wb")

    def write(self, lines, answers):
        if self.open:
            self.open["requests"].writelines(line + b"\n" for line in lines)
            for name, theirs in answers.items():
                self.open[name].writelines(
                    answer.encode("latin-1") + b"\n" for answer in theirs)

    def difference(self, entry, request, a, b):
        if self.open:
            self.open["differences"].write(
                b"\n".join((entry.encode(), request, a.encode("latin-1"),
                            b.encode("latin-1"))) + b"\n\n")


if __name__ == "__main__":
    sys.exit(main())
