"""What was asked and answered, in numbers."""

from collections import Counter

from .request import answer_class, kind_of

# Their first value is a count, and 0 of them is a shallow answer.
COUNTED = ("sms", "usages", "fmmus", "fmmuex", "pdos", "frame",
           "received", "spread")


class Tally:
    def __init__(self):
        self.classes = {}
        self.empty = Counter()
        self.oracle = {}

    def count(self, request, ours, oracle=None):
        kind = kind_of(request)
        self.classes.setdefault(kind, Counter())[answer_class(ours)] += 1
        if kind in COUNTED and ours.split(" ", 2)[:2] == ["gives", "0"]:
            self.empty[kind] += 1
        if oracle in ("panics", "none"):
            self.oracle.setdefault(kind, Counter())[oracle] += 1

    def lines(self, whose):
        """A table: a row for each kind of request."""
        yield (f"{'request':10}{'asked':>8}{'gives':>8}{'absent':>8}"
               f"{'panics':>8}{'none':>8}  refused (gives, absent and "
               f"refusals: the {whose}'s; panics and none: the oracle's)")
        for kind, classes in self.classes.items():
            yield self.row(kind, classes).rstrip()

    def row(self, kind, classes):
        rust = self.oracle.get(kind, Counter())
        refusals = sorted((int(name.split()[1]), count)
                          for name, count in classes.items()
                          if name.startswith("refuses"))
        text = " ".join(f"{number}:{count}" for number, count in refusals)
        if self.empty[kind]:
            text += f"  (of the gives {self.empty[kind]} give 0)"
        return (f"{kind:10}{sum(classes.values()):8}{classes['gives']:8}"
                f"{classes['absent']:8}{rust['panics']:8}{rust['none']:8}  "
                + text)
