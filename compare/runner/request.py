"""Request and answer lines: put together, and taken apart."""

from itertools import chain
from types import SimpleNamespace

from independent.lines import Unreadable, values as values_of
from independent.requests import TABLE

PORTS = tuple(f"{field}{place}" for place in range(4)
              for field in ("active", "time", "link"))
STATE = ("used", "count", "last")
IMAGE = ("image", "chunk")

# The names of a request's words, in DESK.md's order. A list has one name: its
# count and its items.
WORDS = {
    "crc": ("data",),
    "new": ("word", "words"),
    "startat": ("word", "byte_length"),
    "skip": ("pos", "end", "skip"),
    "byte": IMAGE + ("pos", "end"),
    "read": IMAGE + ("pos", "end", "buffer"),
    "exact": IMAGE + ("pos", "end", "buffer"),
    "write": ("image", "pos", "end", "data"),
    "category": IMAGE + ("number",),
    "inside": IMAGE + ("number",),
    "alias": IMAGE,
    "size": IMAGE,
    "setalias": ("image", "alias"),
    "identity": IMAGE,
    "mailbox": IMAGE,
    "hasmail": IMAGE,
    "general": IMAGE,
    "physport": IMAGE,
    "physaddr": IMAGE,
    "sms": IMAGE,
    "usages": IMAGE,
    "fmmus": IMAGE,
    "fmmuex": IMAGE,
    "pdos": IMAGE + ("number",),
    "pdi": IMAGE,
    "bootmail": IMAGE,
    "version": IMAGE,
    "checksum": IMAGE,
    "clocks": IMAGE,
    "string": IMAGE + ("index", "room"),
    "name": IMAGE + ("room",),
    "desc": IMAGE + ("room",),
    "entry": PORTS,
    "last": PORTS,
    "topology": PORTS,
    "total": PORTS,
    "totalfrom": PORTS + ("port",),
    "timeto": PORTS + ("port",),
    "between": PORTS + ("port",),
    "linked": PORTS + ("link",),
    "assign": PORTS + ("link",),
    "times": PORTS + ("t0", "t3", "t1", "t2"),
    "display": PORTS,
    "open": ("area",),
    "push": ("area",) + STATE + ("index", "command", "address", "data",
                                 "override"),
    "handle": ("area",) + STATE + ("index", "command", "address", "data",
                                   "override"),
    "rest": ("area",) + STATE + ("index", "command", "address", "data"),
    "canpush": ("size",) + STATE + ("length",),
    "header": ("used",),
    "frame": ("frame",),
    "received": ("handles", "frame"),
    "spread": ("size", "areas") + STATE + ("index", "command", "address",
                                           "image"),
}

OTHER = "(other)"


def line(kind, *words):
    """A request line from numbers, bytes and lists of rows of numbers."""
    return " ".join([kind, *map(shown, words)]).encode()


def shown(word):
    if isinstance(word, (bytes, bytearray)):
        return word.hex() or "-"
    if isinstance(word, (list, tuple)):
        return " ".join(map(str, [len(word), *chain(*word)]))
    return str(word)


def kind_of(request):
    """A line's first word, if it is one of the requests."""
    word = request.split(b" ", 1)[0]
    return word.decode() if word in TABLE else OTHER


def parsed(request):
    """The line's values by name, or None where it can't be read."""
    words = request.split(b" ")
    kind = kind_of(request)
    if kind == OTHER:
        return None
    readers, _ = TABLE[words[0]]
    try:
        taken = values_of(words[1:], readers)
    except Unreadable:
        return None
    return SimpleNamespace(kind=kind, **dict(zip(WORDS[kind], taken)))


def answer_class(answer):
    """`gives`, `absent`, `refuses N`, `panics`, `none`, .."""
    words = answer.split(" ", 2)
    return " ".join(words[:2]) if words[0] == "refuses" else words[0]


def afterwards(answer):
    """The record's numbers and the lent slices behind an answer."""
    said, *slices = answer.split(" | ")
    _, at, numbers = said.partition("@")
    record = [int(number) for number in numbers.split()] if at else []
    return record, [unhexed(text) for text in slices]


def values(answer):
    """The values of a `gives`, or None."""
    if not answer.startswith("gives"):
        return None
    said = answer.split(" | ")[0].split("@")[0]
    return [int(number) for number in said.split()[1:]]


def unhexed(text):
    return b"" if text == "-" else bytes.fromhex(text)


def refused(request, number):
    """The answer of a refusal that changes nothing."""
    return f"refuses {number}" + unchanged(request)


def unchanged(request):
    """Record and slices behind an answer, as the request has them."""
    names, slices = LENT.get(request.kind, ((), ()))
    text = ""
    if names:
        text = " @ " + " ".join(str(getattr(request, name)) for name in names)
    if request.kind == "open":
        text = " @ 0 0 0"
    if request.kind == "header":
        return " | 0000"
    return text + "".join(
        " | " + shown(getattr(request, name)) for name in slices)


_RANGE = ("pos", "end")
_COUNTED = STATE + ("index",)

# What each call is lent: the record's words, the slices.
LENT = {
    "skip": (_RANGE, ()),
    "byte": (_RANGE, ()),
    "read": (_RANGE, ("buffer",)),
    "exact": (_RANGE, ("buffer",)),
    "write": (_RANGE, ("image",)),
    "setalias": ((), ("image",)),
    "string": ((), ("room",)),
    "name": ((), ("room",)),
    "desc": ((), ("room",)),
    "assign": (PORTS, ()),
    "open": ((), ("area",)),
    "push": (_COUNTED, ("area",)),
    "handle": (_COUNTED, ("area",)),
    "rest": (_COUNTED, ("area",)),
    "spread": (("index",), ("areas",)),
}
