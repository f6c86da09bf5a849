"""Which answers a request may change: a class of request lines for each.

Each is written from the request's own words. It looks at the line and the
image in it, at no answer. A line outside it must be answered as before; a
line in it may be answered as before too. `request` has the line's words by
name, and the line itself.
"""

from .cases import ports, ranges, received, sii, strings
from .looked import (
    active_links, empty_strings, ends_high, entry_place, string_count,
    string_index,
)

CLASSES = {}


class Class:
    def __init__(self, topics, holds):
        self.topics = topics
        self.holds = holds


def may_change(name, *topics):
    """Enters a class, with the topics of the cases that are in it often."""

    def enter(holds):
        CLASSES[name] = Class(topics, holds)
        return holds

    return enter


@may_change("E1", strings)
def _one_past_the_count(request):
    """A string's index, the device name's and the description's too, that is
    exactly the count and 1."""
    count = string_count(request)
    return count is not None and string_index(request) == count + 1


@may_change("E4", ranges, strings)
def _byte_at_or_past_the_end(request):
    """A byte read there; and of the calls above it only a string that is
    sought in a category of length 0."""
    if request.kind == "byte":
        return request.pos >= request.end
    return empty_strings(request)


@may_change("E10", ports)
def _entry_linked_or_ports_dropped(request):
    """Assigning where the entry is the only active port without a link, which
    was taken; or where a place before the entry's is inactive, so that with
    the entry ports behind it were dropped."""
    entry = entry_place(request) if request.kind == "assign" else None
    if entry is None:
        return False
    links = active_links(request)
    open_ = [place for place in range(4) if links[place] == 0]
    return open_ == [entry] or None in links[:entry]


@may_change("E6", ports)
def _delays_from_a_named_port(request):
    """The word that was added, and no other."""
    return request.kind == "totalfrom"


# Before E7: an image's bytes, a range's end, a word of bytes, a line.
IMAGE_WAS = 65_536
END_WAS = 65_535
BYTES_WERE = 131_072
LINE_WAS = 600_000


@may_change("E7", ranges, sii, strings)
def _beyond_the_old_bounds(request):
    """A larger image; a range that ends, a record that stands or ends, or a
    category that ends past the old bound, with all that is read from it; and
    what did not fit into a line."""
    if request.kind == "new":
        return 2 * (request.word + request.words) > END_WAS
    if request.kind == "startat":
        return 2 * (request.word + request.byte_length // 2) > END_WAS
    if hasattr(request, "pos") and max(request.pos, request.end) > END_WAS:
        return True
    if (hasattr(request, "image") and request.kind != "spread"
            and len(request.image) > IMAGE_WAS):
        return True
    return (ends_high(request) or len(request.line) > LINE_WAS
            or any(isinstance(value, bytearray) and len(value) > BYTES_WERE
                   for value in vars(request).values()))


@may_change("E9", received)
def _what_came_back(request):
    """The word that was added, and no other."""
    return request.kind == "received"
