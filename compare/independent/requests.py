"""The table of requests: for each, the kinds of its words and its answer."""

from . import (
    amended, category, crc, eeprom, frames, ports, received, setup, sii, spread,
    strings,
)
from .lines import (
    UNREADABLE, Listed, Unreadable, active, chunk, counted, data, lent,
    nothing, position, record, said, u8, u16, u32, values,
)
from .refusal import ABSENT

RANGE = (position, position)
PORTS = (active, u32, u16) * 4
STATE = (u16, u16, u16)
COUNTED_STATE = STATE + (u8,)
IMAGE = (data, chunk)
HANDLES = Listed(u16, u16, u8, u8)


def line_limit():
    return 1_179_648 if amended.in_force("E7") else 600_000


TABLE = {}

# Words that a request added: before it they are unknown.
ADDED_BY = {b"totalfrom": "E6", b"received": "E9"}


def request(word, *kinds):
    """Enters a function into the table. It gets the values of the words."""

    def enter(function):
        TABLE[word] = (kinds, function)
        return function

    return enter


def answer(line):
    """The answer to one line, without its line end."""
    if len(line) > line_limit():
        return UNREADABLE
    words = line.split(b" ")
    if words[0] in ADDED_BY and not amended.in_force(ADDED_BY[words[0]]):
        return UNREADABLE
    try:
        kinds, function = TABLE[words[0]]
        taken = values(words[1:], kinds)
    except (KeyError, Unreadable):
        return UNREADABLE
    return function(*taken)


# --- Checksum and EEPROM range ---


@request(b"crc", data)
def _crc(summed):
    return said(crc.crc, summed)


def _pos_end(call):
    """A call that answers a range, or absent."""

    def numbers(*arguments):
        at = call(*arguments)
        return ABSENT if at is ABSENT else (at.pos, at.end)

    return numbers


@request(b"new", u16, u16)
def _new(word, words):
    return said(_pos_end(eeprom.new), word, words)


@request(b"startat", u16, u16)
def _start_at(word, byte_length):
    return said(_pos_end(eeprom.start_at), word, byte_length)


@request(b"skip", *RANGE, u16)
def _skip(pos, end, count):
    at = eeprom.Range(pos, end)
    text = said(nothing(eeprom.skip_ahead_bytes), at, count)
    return text + record(at.pos, at.end)


@request(b"byte", *IMAGE, *RANGE)
def _byte(image, _chunk, pos, end):
    at = eeprom.Range(pos, end)
    return said(eeprom.read_byte, image, at) + record(at.pos, at.end)


@request(b"read", *IMAGE, *RANGE, data)
def _read(image, _chunk, pos, end, buffer):
    at = eeprom.Range(pos, end)
    text = said(eeprom.read, image, at, buffer)
    return text + record(at.pos, at.end) + lent(buffer)


@request(b"exact", *IMAGE, *RANGE, data)
def _exact(image, _chunk, pos, end, buffer):
    at = eeprom.Range(pos, end)
    text = said(nothing(eeprom.read_exact), image, at, buffer)
    return text + record(at.pos, at.end) + lent(buffer)


@request(b"write", data, *RANGE, data)
def _write(image, pos, end, written):
    at = eeprom.Range(pos, end)
    text = said(eeprom.write, image, at, written)
    return text + record(at.pos, at.end) + lent(image)


@request(b"category", *IMAGE, u16)
def _category(image, _chunk, number):
    return said(_pos_end(category.category), image, number)


@request(b"inside", *IMAGE, u16)
def _inside(image, _chunk, number):
    return said(category.inside, image, number)


# --- Read-outs ---


@request(b"alias", *IMAGE)
def _alias(image, _chunk):
    return said(sii.alias, image)


@request(b"size", *IMAGE)
def _size(image, _chunk):
    return said(sii.size, image)


@request(b"setalias", data, u16)
def _set_alias(image, alias):
    return said(nothing(sii.set_alias), image, alias) + lent(image)


@request(b"identity", *IMAGE)
def _identity(image, _chunk):
    return said(sii.identity, image)


@request(b"mailbox", *IMAGE)
def _mailbox(image, _chunk):
    return said(sii.mailbox, image)


@request(b"hasmail", *IMAGE)
def _has_mailbox(image, _chunk):
    return said(sii.has_mailbox, image)


@request(b"general", *IMAGE)
def _general(image, _chunk):
    return said(sii.general, image)


@request(b"physport", *IMAGE)
def _physical_ports(image, _chunk):
    return said(sii.physical_ports, image)


@request(b"physaddr", *IMAGE)
def _physical_memory_address(image, _chunk):
    return said(sii.physical_memory_address, image)


@request(b"sms", *IMAGE)
def _sync_managers(image, _chunk):
    return said(counted(sii.sync_managers), image)


@request(b"usages", *IMAGE)
def _usages(image, _chunk):
    return said(counted(sii.usages), image)


@request(b"fmmus", *IMAGE)
def _fmmus(image, _chunk):
    return said(counted(sii.fmmus), image)


@request(b"fmmuex", *IMAGE)
def _extended_fmmus(image, _chunk):
    return said(counted(sii.extended_fmmus), image)


@request(b"pdos", *IMAGE, u16)
def _pdos(image, _chunk, number):
    # Other categories are no PDOs; read or unread, the answer is 14.
    if number not in (category.TX_PDO, category.RX_PDO):
        return UNREADABLE
    return said(counted(sii.pdos), image, number)


@request(b"pdi", *IMAGE)
def _pdi(image, _chunk):
    return said(setup.pdi, image)


@request(b"bootmail", *IMAGE)
def _bootstrap_mailbox(image, _chunk):
    return said(setup.bootstrap_mailbox, image)


@request(b"version", *IMAGE)
def _version(image, _chunk):
    return said(setup.version, image)


@request(b"checksum", *IMAGE)
def _checksum(image, _chunk):
    return said(setup.checksum, image)


@request(b"clocks", *IMAGE)
def _clocks(image, _chunk):
    return said(counted(setup.clocks), image)


@request(b"string", *IMAGE, u8, data)
def _string(image, _chunk, index, room):
    return said(strings.string, image, index, room) + lent(room)


@request(b"name", *IMAGE, data)
def _name(image, _chunk, room):
    return said(strings.device_name, image, room) + lent(room)


@request(b"desc", *IMAGE, data)
def _description(image, _chunk, room):
    return said(strings.description, image, room) + lent(room)


# --- Ports ---


def _ports(numbers):
    return ports.Ports(list(numbers[0:12:3]), list(numbers[1:12:3]),
                       list(numbers[2:12:3]))


def _ports_record(those):
    numbers = []
    for place in range(4):
        numbers += (those.active[place], those.time[place], those.link[place])
    return record(*numbers)


@request(b"entry", *PORTS)
def _entry(*numbers):
    return said(ports.entry_port, _ports(numbers))


@request(b"last", *PORTS)
def _last(*numbers):
    return said(ports.last_port, _ports(numbers))


@request(b"topology", *PORTS)
def _topology(*numbers):
    return said(ports.topology, _ports(numbers))


@request(b"total", *PORTS)
def _total(*numbers):
    return said(ports.total, _ports(numbers))


@request(b"totalfrom", *PORTS, u8)
def _total_from(*numbers):
    return said(ports.total_from, _ports(numbers), numbers[12])


@request(b"timeto", *PORTS, u8)
def _time_to(*numbers):
    return said(ports.time_to_port, _ports(numbers), numbers[12])


@request(b"between", *PORTS, u8)
def _between(*numbers):
    return said(ports.intermediate, _ports(numbers), numbers[12])


@request(b"linked", *PORTS, u16)
def _linked(*numbers):
    return said(ports.port_linked_to, _ports(numbers), numbers[12])


@request(b"assign", *PORTS, u16)
def _assign(*numbers):
    those = _ports(numbers)
    return said(ports.assign, those, numbers[12]) + _ports_record(those)


@request(b"times", *PORTS, u32, u32, u32, u32)
def _times(*numbers):
    those = _ports(numbers)
    text = said(nothing(ports.set_times), those, numbers[12:16])
    return text + _ports_record(those)


@request(b"display", *PORTS)
def _display(*numbers):
    return "gives" + lent(ports.display(_ports(numbers)))


# --- Frames ---


def _state_record(state, counter):
    return record(state.used, state.count, state.last, counter.index)


@request(b"open", data)
def _open(area):
    # The new state is always 0 0 0, also after a refusal.
    text = said(nothing(frames.open_area), area)
    return text + record(0, 0, 0) + lent(area)


def _pushing(call):
    """The answer of a push, then the state and the area as it leaves them."""

    def push(area, used, count, last, index, *pushed):
        state = frames.State(used, count, last)
        counter = frames.Counter(index)
        text = said(call, area, state, counter, *pushed)
        return text + _state_record(state, counter) + lent(area)

    return push


PUSH = (data,) + COUNTED_STATE + (u8, u32, data)

request(b"push", *PUSH, u16)(_pushing(frames.push_pdu))
request(b"handle", *PUSH, u16)(_pushing(frames.push_handle))
request(b"rest", *PUSH)(_pushing(frames.push_pdu_slice_rest))



@request(b"canpush", u16, *STATE, u16)
def _can_push(size, used, count, last, length):
    state = frames.State(used, count, last)
    return said(frames.can_push_pdu_payload, size, state, length)


@request(b"header", u16)
def _header(used):
    header = bytearray(2)

    def fill():
        header[:] = frames.frame_header(used)

    return said(nothing(fill)) + lent(header)


@request(b"frame", data)
def _frame(frame):
    return said(counted(frames.read_frame), frame)


@request(b"received", HANDLES, data)
def _received(handles, frame):
    return said(counted(received.received), handles, frame)


@request(b"spread", u16, data, *COUNTED_STATE, u8, u32, data)
def _spread(size, areas, used, count, last, index, command, address, image):
    first = frames.State(used, count, last)
    counter = frames.Counter(index)

    def states(*arguments):
        return [(state.used, state.count, state.last)
                for state in spread.spread(*arguments)]

    text = said(counted(states), size, areas, first, counter, command,
                address, image)
    return text + record(counter.index) + lent(areas)
