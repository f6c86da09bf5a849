"""`compare/changed`: the answers that a request changed, and whether its words
allow each."""

import argparse
import sys
import time
from collections import Counter

from independent import amended

from . import cases, programs
from .allowed import CLASSES
from .compare import batches, cut
from .request import answer_class, kind_of, parsed

SHOWN = 5
EXAMPLE_MOST = 160
TEXTS = ("string", "name", "desc")


def main(words=None):
    asked = arguments(words)
    try:
        change = Change(asked)
    except programs.Missing as why:
        print(f"compare/changed: {why}", file=sys.stderr)
        return 2
    topics = cases.often(*change.class_.topics)
    for lines in batches(cases.requests(asked.count, asked.seed,
                                        topics=topics)):
        change.ask(lines)
    return change.report()


def arguments(words):
    parser = argparse.ArgumentParser(
        prog="compare/changed", description="Lists the answers that a request "
        "changed. Status 1 where one changed that the request's words do not "
        "allow to, where none changed, or where a desk answers otherwise than "
        "the independent program.")
    parser.add_argument("request", choices=amended.NAMES, metavar="REQUEST",
                        help="one of " + ", ".join(amended.NAMES))
    parser.add_argument("count", nargs="?", type=int, default=100_000,
                        metavar="N", help="about how many requests (100000)")
    parser.add_argument("seed", nargs="?", default="1", metavar="SEED",
                        help="what the requests follow from (1)")
    parser.add_argument("--old", metavar="DESK",
                        help="a desk that was built before the request")
    parser.add_argument("--new", metavar="DESK",
                        help="one built with it (where --old is given, "
                        "that of compare/program)")
    parser.add_argument("--without", metavar="REQUEST", action="append",
                        default=[], choices=amended.NAMES,
                        help="switched off on both sides, as for desks that "
                        "were built before it")
    return parser.parse_args(words)


class Side:
    """The rules before or after, and the desk that was built to them."""

    def __init__(self, name, switched_off, desk):
        self.name = name
        self.rules = programs.before(switched_off)
        self.desk = programs.desk_at(desk) if desk else None
        self.differ = []

    def ask(self, lines):
        answers = self.rules.ask(lines)
        if self.desk:
            for request, ours, theirs in zip(lines, answers,
                                             self.desk.ask(lines)):
                if ours != theirs:
                    self.differ.append((request, ours, theirs))
        return answers

    def report(self):
        if not self.desk:
            return
        print(f"the {self.name} desk: {len(self.differ)} answers are not the "
              "independent program's")
        for request, ours, theirs in self.differ[:SHOWN]:
            print(f"  {cut(request)}\n    independent: {cut(ours)}\n"
                  f"    desk: {cut(theirs)}")


class Change:
    def __init__(self, asked):
        self.name = asked.request
        self.class_ = CLASSES[self.name]
        self.old = Side("old", [*asked.without, self.name], asked.old)
        self.new = Side("new", asked.without, asked.new
                        or (programs.built("desk") if asked.old else None))
        self.asked = 0
        self.inside = Counter()
        self.changed = Counter()
        self.shortest = {}
        self.outside = []
        self.began = time.monotonic()

    def ask(self, lines):
        for request, old, new in zip(lines, self.old.ask(lines),
                                     self.new.ask(lines)):
            self.asked += 1
            allowed = self.allows(request)
            self.inside[kind_of(request)] += allowed
            if old == new:
                continue
            self.count(request, old, new)
            if not allowed:
                self.outside.append((request, old, new))

    def allows(self, request):
        taken = parsed(request)
        if taken is None:
            return False
        taken.line = request
        return bool(self.class_.holds(taken))

    def count(self, request, old, new):
        kind = kind_of(request)
        change = (kind, f"{shape(kind, old)} -> {shape(kind, new)}")
        self.changed[change] += 1
        shortest = self.shortest.setdefault(change, request)
        if len(request) < len(shortest):
            self.shortest[change] = request

    # --- What is said ---

    def report(self):
        for kind in sorted(set(self.inside) | {kind for kind, _ in
                                               self.changed}):
            self.say_kind(kind)
        for side in (self.old, self.new):
            side.report()
        for request, old, new in self.outside[:SHOWN]:
            print(f"NOT ALLOWED {cut(request)}\n  before: {cut(old)}\n"
                  f"  now: {cut(new)}")
        changed = sum(self.changed.values())
        differ = len(self.old.differ) + len(self.new.differ)
        print(f"{self.name}: {self.asked} requests in "
              f"{time.monotonic() - self.began:.0f} s, "
              f"{sum(self.inside.values())} may change, {changed} answers "
              f"changed, {len(self.outside)} of them not allowed")
        return 1 if self.outside or differ or not changed else 0

    def say_kind(self, kind):
        rows = sorted((change, times) for (its, change), times
                      in self.changed.items() if its == kind)
        if not rows and not self.inside[kind]:
            return
        print(f"{kind}: {self.inside[kind]} may change, "
              f"{sum(times for _, times in rows)} changed")
        for change, times in rows:
            print(f"  {change}: {times}")
            example = cut(self.shortest[kind, change])
            if len(example) <= EXAMPLE_MOST:
                print(f"    {example}")


def shape(kind, answer):
    """An answer's class; of an empty text, that it is one."""
    if kind in TEXTS and answer.startswith("gives 0 "):
        return "gives 0"
    return answer_class(answer)


if __name__ == "__main__":
    sys.exit(main())
