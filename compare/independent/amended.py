"""Which amendments of the rules are in force.

A request (RULES, requests) may amend a rule. The rule as amended answers; the
one before it is kept behind the request's name, so that a run can list the
answers that changed (`compare/changed`):

    python3 compare/independent --before E1

answers by the rules as they were before E1, with all other amendments in
force. A word that a request added can't be read before it. `--before` may be
given more than once. The code asks here, by name.
"""

from contextlib import contextmanager

# In the order in which they landed.
NAMES = ("E1", "E4", "E10", "E6", "E7", "E9")

_switched_off = set()


class NoAmendment(Exception):
    """A name that amends no answer, or words that are not `--before NAME`."""


def in_force(name):
    assert name in NAMES
    return name not in _switched_off


def switch_off(name):
    if name not in NAMES:
        raise NoAmendment(f"{name} amends no answer; these do: "
                          + ", ".join(NAMES))
    _switched_off.add(name)


def take_words(words):
    """The words of a command line: pairs `--before NAME`."""
    words = list(words)
    while words:
        if words[0] != "--before" or len(words) == 1:
            raise NoAmendment("the words are pairs: --before NAME")
        switch_off(words[1])
        del words[:2]


@contextmanager
def before(*names):
    """For a while these are not in force."""
    were = set(_switched_off)
    try:
        for name in names:
            switch_off(name)
        yield
    finally:
        _switched_off.clear()
        _switched_off.update(were)
