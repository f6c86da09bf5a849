"""Ports and delays."""

from . import amended
from .refusal import (
    ABSENT, BAD_ARGUMENT, BAD_PORT, NO_PORT, SUM, refuse_unless,
)

# "Places 0, 1, 2, 3 hold ports 0, 3, 1, 2."
PORT_AT = (0, 3, 1, 2)
PLACE_OF = (0, 2, 3, 1)

SUM_LIMIT = 4_294_967_295
TIMES = 2 ** 32


class Ports:
    """Three lists by place; link 0 is none."""

    __slots__ = ("active", "time", "link")

    def __init__(self, active, time, link):
        self.active = active
        self.time = time
        self.link = link

    def active_places(self):
        return [place for place in range(4) if self.active[place]]


def _place_of(port):
    refuse_unless(port <= 3, BAD_PORT)
    return PLACE_OF[port]


def _entry_place(ports):
    """"active with smallest receive time, first on ties"."""
    places = ports.active_places()
    refuse_unless(places, NO_PORT)
    # min() keeps the first of equals.
    return min(places, key=lambda place: ports.time[place])


def entry_port(ports):
    return PORT_AT[_entry_place(ports)]


def last_port(ports):
    """"the active one at the highest place, else absent"."""
    places = ports.active_places()
    return PORT_AT[places[-1]] if places else ABSENT


def topology(ports):
    """1 to 4: line end, passthrough, fork, cross."""
    count = len(ports.active_places())
    refuse_unless(count > 0, NO_PORT)
    return count


def _largest_less_smallest(times):
    """"absent if 0 or none is active"."""
    if not times:
        return ABSENT
    return max(times) - min(times) or ABSENT


def total(ports):
    return _largest_less_smallest(
        [ports.time[place] for place in ports.active_places()])


def total_from(ports, port):
    """"elapsed time is the port's time minus the entry's, wrapping at 2 to
    the 32, and the total is the largest elapsed time among active ports,
    absent if 0"."""
    entry = _place_of(port)
    refuse_unless(ports.active[entry], NO_PORT)
    return max((ports.time[place] - ports.time[entry]) % TIMES
               for place in ports.active_places()) or ABSENT


def time_to_port(ports, port):
    """"the same over active ports from the entry's place to that place"."""
    place = _place_of(port)
    entry = _entry_place(ports)
    return _largest_less_smallest(
        [ports.time[at] for at in ports.active_places()
         if entry <= at <= place])


def intermediate(ports, port):
    """Each pair counts "later less earlier, never below 0"."""
    place = _place_of(port)
    result = 0
    for first in range(place):
        if ports.active[first] and ports.active[first + 1]:
            result += max(0, ports.time[first + 1] - ports.time[first])
    refuse_unless(result <= SUM_LIMIT, SUM)
    return result


def _check_link(link):
    """"Links are 1 to 65,535 (0: refusal 14)." """
    refuse_unless(link != 0, BAD_ARGUMENT)


def port_linked_to(ports, link):
    """"the first active one with that link, else absent"."""
    _check_link(link)
    for place in ports.active_places():
        if ports.link[place] == link:
            return PORT_AT[place]
    return ABSENT


def assign(ports, link):
    """Active ports, in the order in which they are looked at: "take the first
    [unlinked], else absent"."""
    _check_link(link)
    for place in _looked_at(ports, _entry_place(ports)):
        if ports.link[place] == 0:
            ports.link[place] = link
            return PORT_AT[place]
    return ABSENT


def _looked_at(ports, entry):
    if amended.in_force("E10"):
        # "from the entry's place go on in port order, over all four places
        # and round, over active [..] ports other than the entry"
        round_ = [(entry + step) % 4 for step in (1, 2, 3)]
        return [place for place in round_ if ports.active[place]]
    # "from the list of active ports, repeated, drop (entry's place + 1), look
    # at 4"
    places = ports.active_places()
    return [places[look % len(places)]
            for look in range(entry + 1, entry + 5)]


def set_times(ports, times):
    """Takes the times in place order."""
    ports.time[:] = times


def display(ports):
    """`ports [ open closed open closed ]`: a word a place, in place order."""
    words = ["open" if active else "closed" for active in ports.active]
    return ("ports [ " + " ".join(words) + " ]").encode()
