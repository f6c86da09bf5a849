"""What a request's image, ports and frame hold, so far as a rule of
differences.py or a class of allowed.py looks at it. Written apart from the
three programs."""

# The Rust counts words and bytes in 16 bits; we count words so, and bytes up
# to the end of the largest image.
HIGHEST = 65_535
IMAGE_LIMIT = 131_072


def byte_at(image, place):
    return image[place] if place < len(image) else 0xFF


def word_at(image, word):
    return byte_at(image, 2 * word) + 256 * byte_at(image, 2 * word + 1)


def active_times(request):
    """By place: the time of an active port, else None."""
    return [getattr(request, f"time{place}")
            if getattr(request, f"active{place}") else None
            for place in range(4)]


PORT_AT = (0, 3, 1, 2)


def active_links(request):
    """By place: the link of an active port (0 for none), else None."""
    return [getattr(request, f"link{place}")
            if getattr(request, f"active{place}") else None
            for place in range(4)]


def entry_place(request):
    """The active place with the smallest time, the first of equals; None
    where no port is active."""
    active = [(time, place) for place, time in enumerate(active_times(request))
              if time is not None]
    return min(active)[1] if active else None


def rises_before(request):
    """The intermediate sum: neighbours up to the port's place."""
    place = (0, 2, 3, 1)[request.port]
    times = active_times(request)[:place + 1]
    return sum(max(0, later - earlier)
               for earlier, later in zip(times, times[1:])
               if earlier is not None and later is not None)


MOVE_PASSES = "a move passes 65,535"
END_ABOVE = "the range ends above 131,072"
ABSENT = "absent"

SOUGHT = {"general": (30,), "physport": (30,), "physaddr": (30,),
          "sms": (41,), "usages": (41,), "fmmus": (40,), "fmmuex": (42,),
          "clocks": (60,), "string": (10,), "name": (30, 10),
          "desc": (30, 10)}


def searches(request):
    """How the category searches of this request come out."""
    if request.kind in ("category", "inside", "pdos"):
        sought = (request.number,)
    else:
        sought = SOUGHT.get(request.kind, ())
    if not sought or len(request.image) > IMAGE_LIMIT:
        return ()
    return [search(request.image, number) for number in sought]


def ends_high(request):
    """Whether one of them finds a category that ends past the Rust's 16
    bits."""
    return any(isinstance(found, tuple) and found[1] > HIGHEST
               for found in searches(request))


def search(image, number):
    """(position, end) of the category, or one of the three names above."""
    word = 0x40
    empty = 0
    while True:
        kind, length = word_at(image, word), word_at(image, word + 1)
        word += 2
        empty += length == 0
        if word > HIGHEST or empty == 32:
            return ABSENT
        if kind == number:
            end = 2 * (word + length)
            return (2 * word, end) if end <= IMAGE_LIMIT else END_ABOVE
        if kind == 0xFFFF:
            return ABSENT
        word += length
        if word > HIGHEST:
            return MOVE_PASSES


INDEX_AT = {"name": 2, "desc": 3}


def strings_at(request):
    """(position, end) of the strings that this request looks into, or None."""
    if request.kind not in ("string", "name", "desc"):
        return None
    found = search(request.image, 10)
    if string_index(request) in (None, 0) or not isinstance(found, tuple):
        return None
    return found


def string_count(request):
    """The count of those strings, or None."""
    found = strings_at(request)
    return byte_at(request.image, found[0]) if found else None


def empty_strings(request):
    """Whether those strings are a category of length 0."""
    found = strings_at(request)
    return found is not None and found[0] == found[1]


def skip_passes(request):
    """Whether a skip of that search passes 65,535."""
    found = strings_at(request)
    if found is None or found[1] > HIGHEST:
        return False
    # The count, then index - 1 lengths to skip.
    position, end = found[0] + 1, found[1]
    for _ in range(string_index(request) - 1):
        position += 1 + byte_at(request.image, position)
        if position > HIGHEST:
            return True
        if position >= end:
            return False
    return False


def string_index(request):
    if request.kind == "string":
        return request.index
    general = search(request.image, 30)
    if not isinstance(general, tuple):
        return None
    return byte_at(request.image, general[0] + INDEX_AT[request.kind])


def frame_body(frame):
    """The bytes of a frame's PDUs; None where its header is at fault."""
    if len(frame) < 2 or frame[1] >> 4 != 1:
        return None
    end = 2 + frame[0] + 256 * (frame[1] & 7)
    return frame[2:end] if end <= len(frame) else None


class Pdu:
    """The one that opens these bytes, the rest of a frame."""

    def __init__(self, rest):
        self.whole = len(rest) >= 10
        if self.whole:
            self.command, self.index = rest[0], rest[1]
            self.length = rest[6] + 256 * (rest[7] & 7)
            self.more = rest[7] >> 7
        self.fits = self.whole and 12 + self.length <= len(rest)
        if self.fits:
            behind = 10 + self.length
            self.counter = rest[behind] + 256 * rest[behind + 1]
            self.last = behind + 2 == len(rest)

    def ends_rightly(self):
        return self.fits and self.last != self.more


def pdu_at(body, place):
    """The PDU at a place, where all before it fit; None behind the last."""
    start = payload_at(body, place) - 12
    return Pdu(body[start:]) if start < len(body) else None


def payload_at(body, place):
    """Where in the frame its payload lies."""
    start = 0
    for _ in range(place):
        start += 12 + Pdu(body[start:]).length
    return start + 12


def by_handles_alone(handles, body):
    """The Rust's answer: it asks for the PDU of each handle, and tests
    command, index, and whether the PDU fits, in this order."""
    text = f"gives {len(handles)}"
    for place, (_, _, index, command) in enumerate(handles):
        pdu = pdu_at(body, place)
        number = fault_of(pdu, index, command)
        if number:
            return f"refuses {number} {place}"
        text += f" {payload_at(body, place)} {pdu.length} {pdu.counter}"
    return text


def fault_of(pdu, index, command):
    if pdu is None or not pdu.whole:
        return 19
    if pdu.command != command:
        return 20
    if pdu.index != index:
        return 21
    return 0 if pdu.fits else 19
