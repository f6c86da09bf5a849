"""A rule for each entry of docs/DIFFERENCES.md, and where the Rust is silent.

A rule looks at the request and at both answers. It holds for the requests
that its entry names and for the answers that the entry gives, no others.
`ours` is the answer of the desk or of the independent program.
"""

from types import SimpleNamespace

from .looked import (
    END_ABOVE, HIGHEST, IMAGE_LIMIT, MOVE_PASSES, PORT_AT, active_links,
    active_times, by_handles_alone, empty_strings, ends_high, entry_place,
    frame_body, pdu_at, rises_before, searches, skip_passes, string_count,
    string_index, word_at,
)
from .request import refused, shown, unchanged

PUSHES = ("push", "handle", "rest")

RULES = {}

AREA_LIMIT = 2_047
ROOM_LIMIT = 255
DATA_LIMIT = 65_535
SUM_LIMIT = 4_294_967_295


def rule(entry):
    def enter(holds):
        RULES[entry] = holds
        return holds

    return enter


def entry_of(request, oracle, ours):
    """The entry that this difference falls under, or None."""
    if request is None:
        return None
    for entry, holds in RULES.items():
        if holds(request, oracle, ours):
            return entry
    return None


# --- The Rust panics ---


def panics_where_we_refuse(request, oracle, ours, number):
    return oracle == "panics" and ours == refused(request, number)


@rule("D1")
def _range_end(request, oracle, ours):
    if request.kind == "new":
        end = 2 * request.word + 2 * request.words
    elif request.kind == "startat":
        end = 2 * request.word + 2 * (request.byte_length // 2)
    else:
        return False
    if end <= HIGHEST or oracle != "panics":
        return False
    if end <= IMAGE_LIMIT:
        return ours == f"gives {2 * request.word} {end}"
    return ours == refused(request, 1)


@rule("D2")
def _skip_sum(request, oracle, ours):
    if request.kind == "skip":
        passes = request.end % 2 == 0 and request.pos + request.skip > HIGHEST
    else:
        passes = skip_passes(request)
    return passes and panics_where_we_refuse(request, oracle, ours, 2)


@rule("D4")
def _search_passes(request, oracle, ours):
    return (MOVE_PASSES in searches(request)
            and panics_where_we_refuse(request, oracle, ours, 1))


@rule("D5")
def _match_ends_above(request, oracle, ours):
    if END_ABOVE in searches(request):
        return panics_where_we_refuse(request, oracle, ours, 1)
    # What we read from one that ends lower, the Rust can't be asked.
    return oracle == "panics" and ends_high(request)


@rule("D6")
def _size_overflows(request, oracle, ours):
    if request.kind != "size" or len(request.image) > IMAGE_LIMIT:
        return False
    full = (word_at(request.image, 0x3E) + 1) * 128
    return full > HIGHEST and oracle == "panics" and ours == f"gives {full}"


@rule("D7")
def _no_port_active(request, oracle, ours):
    return (request.kind in ("entry", "topology", "timeto", "assign")
            and active_times(request) == [None] * 4
            and panics_where_we_refuse(request, oracle, ours, 9))


@rule("D8")
def _bad_port(request, oracle, ours):
    return (request.kind in ("timeto", "between") and request.port > 3
            and panics_where_we_refuse(request, oracle, ours, 10))


@rule("D9")
def _sum_of_delays(request, oracle, ours):
    return (request.kind == "between" and request.port <= 3
            and rises_before(request) > SUM_LIMIT
            and panics_where_we_refuse(request, oracle, ours, 11))


@rule("D10")
def _header_length(request, oracle, ours):
    return (request.kind == "header" and request.used > AREA_LIMIT
            and panics_where_we_refuse(request, oracle, ours, 14))


# --- The Rust answers otherwise ---


@rule("D11")
def _alias_half_written(request, oracle, ours):
    if request.kind != "setalias" or not 10 <= len(request.image) <= 15:
        return False
    image = bytearray(request.image)
    image[8:10] = request.alias.to_bytes(2, "little")
    return (ours == refused(request, 7)
            and oracle == "refuses 7 | " + shown(image))


@rule("D12")
def _flags_repacked(request, oracle, ours):
    if request.kind not in PUSHES or request.count == 0:
        return False
    said, _, text = ours.rpartition(" | ")
    if not said.startswith("gives"):
        return False
    # Bits 11 to 13 of the flags are bits 3 to 5 of their second byte.
    high = request.last + 7
    area = bytearray.fromhex(text)
    if area[high] & 0x38 == 0:
        return False
    area[high] &= ~0x38
    return oracle == said + " | " + shown(area)


@rule("D13")
def _linked_to_device_0(request, oracle, ours):
    return (request.kind == "linked" and request.link == 0
            and oracle == "absent" and ours == refused(request, 14))


# --- Bounds that the Rust doesn't set ---


@rule("D14")
def _area_too_large(request, oracle, ours):
    if request.kind == "open" or request.kind in PUSHES:
        size = len(request.area)
    elif request.kind == "canpush":
        size = request.size
    else:
        return False
    return size > AREA_LIMIT and ours == refused(request, 14)


@rule("D15")
def _image_too_large(request, oracle, ours):
    return (hasattr(request, "image") and request.kind != "spread"
            and len(request.image) > IMAGE_LIMIT
            and ours == refused(request, 14))


@rule("D16")
def _room_too_large(request, oracle, ours):
    return (request.kind in ("string", "name", "desc")
            and len(request.room) > ROOM_LIMIT
            and ours == refused(request, 14))


@rule("D17")
def _data_too_large(request, oracle, ours):
    if request.kind not in PUSHES or len(request.data) <= DATA_LIMIT:
        return False
    if ours != refused(request, 14):
        return False
    if request.kind == "rest":
        # As for any other length: what has room is pushed.
        return oracle.startswith("gives ") or oracle == "absent" + unchanged(
            request)
    # Refused for want of space, which takes the index.
    after = SimpleNamespace(**vars(request))
    after.index = (request.index + 1) % 256
    return oracle == refused(after, 8)


@rule("D18")
def _other_categories(request, oracle, ours):
    return (request.kind == "category"
            and request.number in RUST_CATEGORIES - OUR_CATEGORIES
            and ours == refused(request, 14))


# --- Rules that a request amended ---


@rule("D19")
def _one_past_the_count(request, oracle, ours):
    count = string_count(request)
    return (count is not None and string_index(request) == count + 1
            and ours == "absent" + unchanged(request)
            and answered_string(request, oracle))


def answered_string(request, oracle):
    """Whatever is found behind the last string, but not absent."""
    return (oracle.startswith("gives ") or oracle == "panics"
            or oracle == refused(request, 2)
            or oracle.startswith("refuses 4 ")
            and oracle.endswith(unchanged(request)))


@rule("D21")
def _entry_linked_or_ports_dropped(request, oracle, ours):
    entry = entry_place(request) if request.kind == "assign" else None
    if entry is None or request.link == 0:
        return False
    # The Rust: the active places over and over, less the entry's place and one.
    places = [place for place, link in enumerate(active_links(request))
              if link is not None]
    theirs = [places[look % len(places)] for look in range(entry + 1,
                                                           entry + 5)]
    way = [(entry + step) % 4 for step in (1, 2, 3)]
    return (oracle == linked_to_first(request, theirs)
            and ours == linked_to_first(request, way))


def linked_to_first(request, places):
    """The answer that links the first open one of these places."""
    links = active_links(request)
    for place in places:
        if links[place] == 0:
            after = SimpleNamespace(**vars(request))
            setattr(after, f"link{place}", request.link)
            return f"gives {PORT_AT[place]}" + unchanged(after)
    return "absent" + unchanged(request)


# --- Frames that came back ---


def refused_at(request, oracle, ours, number):
    """The place of this refusal of ours, where the Rust goes by the handles
    alone; else None."""
    if request.kind != "received":
        return None
    body = frame_body(request.frame)
    words = ours.split(" ")
    if (body is None or words[:2] != ["refuses", str(number)]
            or oracle != by_handles_alone(request.handles, body)):
        return None
    return int(words[2])


@rule("D22")
def _does_not_end_rightly(request, oracle, ours):
    place = refused_at(request, oracle, ours, 19)
    if place is None:
        return False
    pdu = pdu_at(frame_body(request.frame), place)
    return pdu is not None and not pdu.ends_rightly()


@rule("D23")
def _pdu_without_a_handle(request, oracle, ours):
    place = refused_at(request, oracle, ours, 19)
    if place is None or place != len(request.handles):
        return False
    pdu = pdu_at(frame_body(request.frame), place)
    return pdu is not None and pdu.ends_rightly()


@rule("D24")
def _length_not_the_handles(request, oracle, ours):
    place = refused_at(request, oracle, ours, 22)
    if place is None:
        return False
    size = request.handles[place][1]
    return pdu_at(frame_body(request.frame), place).length + 12 != size


# --- Where the Rust has no answer ---

OUR_CATEGORIES = {10, 30, 40, 41, 42, 50, 51, 60}
RUST_CATEGORIES = OUR_CATEGORIES | {0, 1, 20, 43, 65_535}
RUST_COMMANDS = {0, 1, 2, 4, 5, 7, 8, 10, 11, 12, 14}


def silent(request):
    """Whether the oracle may answer `none`, by compare/oracle/README.md."""
    if request is None:
        return False
    kind = request.kind
    if kind in ("frame", "spread", "pdi", "bootmail", "version", "checksum",
                "clocks", "inside", "physport", "physaddr", "totalfrom"):
        return True
    if kind == "received":
        # It passes over an empty frame.
        return frame_body(request.frame) == b""
    if kind == "byte" and request.pos >= request.end:
        # D20: the Rust reads on, and is not asked.
        return True
    if kind in ("string", "name", "desc"):
        return empty_strings(request)
    if kind in ("skip", "byte", "read", "exact", "write"):
        return request.end % 2 == 1 or max(request.pos, request.end) > HIGHEST
    if kind == "category":
        return request.number not in RUST_CATEGORIES
    if kind == "assign":
        return request.link == 0
    if kind == "canpush":
        return not reached_by_pushes(request, request.size)
    if kind in PUSHES:
        return (request.command not in RUST_COMMANDS
                or request.command == 0 and request.address != 0
                or not reached_by_pushes(request, len(request.area)))
    return False


def reached_by_pushes(state, size):
    """Every PDU has at least 12 bytes, and the last starts where the one
    before ends."""
    if state.count == 0:
        return state.used == 0
    if state.count == 1 and state.last != 0:
        return False
    return (12 * (state.count - 1) <= state.last
            and state.last + 12 <= state.used <= size)
