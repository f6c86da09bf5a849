"""What the program `morel` prints, from docs/MOREL.md and the read-outs here.

`run(words, folder)` gives all that it writes for these arguments when it
stands in this folder, and its status; `alias` changes the file there.

A line is a text and its status: 0 answered, 1 refused, wrong or cut, 2 a file
or words that can't be used.
"""

import os
import re

from . import amended, category, eeprom, frames, setup, sii, spread, strings
from .refusal import ABSENT, BAD_ARGUMENT, Refusal, refuse_unless

COLUMN = 28

FRAME_FILE_LIMIT = 2_049
NAME_LIMIT = 4_096
COMMAND_NAME_LIMIT = 8
NUMBER_WORD_LIMIT = 32
STATUS_WORD = b"--status"

ANSWERED, WRONG, UNUSABLE = range(3)

# What stands behind a line that rests on bytes past the image's end.
CUT = " (cut)"

# The fixed area, in bytes (ETG2010 Table 2): where it ends, and where what is
# read of it ends.
FIXED_END = 128
SIZE_END = 126
VERSION_END = 128
CHECKSUM_END = 15
ALIAS_END = 10
PDI_END = 8
IDENTITY_END = 32
BOOTSTRAP_END = 48
MAILBOX_END = 57

REFUSALS = {
    1: "Address", 2: "Overrun", 3: "NoCategory", 4: "StringTooLong",
    5: "Decode", 6: "Capacity", 7: "NotWritable", 8: "TooLong", 9: "NoPort",
    10: "BadPort", 11: "Sum", 12: "BadFrame", 13: "NoRoom", 14: "BadArgument",
}

MODES = {0: "Normal", 2: "Mailbox"}
DIRECTIONS = {0: "MasterRead", 1: "MasterWrite"}
USAGES = {0: "Unknown", 1: "MailboxWrite", 2: "MailboxRead",
          3: "ProcessDataWrite", 4: "ProcessDataRead"}
FMMU_USAGES = {0: "Unused", 1: "Outputs", 2: "Inputs", 3: "SyncManagerStatus"}
PORTS = {0: "Unused", 1: "Mii", 2: "Reserved", 3: "Ebus", 4: "FastHotConnect"}
COMMANDS = dict(enumerate(
    "NOP APRD APWR APRW FPRD FPWR FPRW BRD BWR BRW LRD LWR LRW ARMW FRMW"
    .split()))

# The names of flags, from bit 0 on.
PROTOCOLS = "AoE EoE CoE FoE SoE VoE".split()
COE_DETAILS = ("sdo sdo-info pdo-assign pdo-config startup-upload "
               "complete-access").split()
GENERAL_FLAGS = ("enable-safe-op enable-not-lrw mailbox-dll ident-al-status "
                 "ident-phy-m").split()
ENABLES = "enable is-fixed is-virtual op-only".split()

USAGE = """\
usage: morel COMMAND [then COMMAND ..]
  sii FILE                 print what an EEPROM image holds
  frame FILE               print a frame's PDUs
  alias FILE N [force]     write the alias N and the checksum into an EEPROM image; `force`: even if its checksum is wrong
  spread SIZE AREAS FILE   cut a process image over AREAS frames of SIZE bytes
Numbers are decimal, or hex after 0x. Commands joined by the word `then` run one after the other; one that fails stops no other.
""".splitlines()


# --- Lines ---


class Line(str):
    """A line's text, with its status."""

    def __new__(cls, text, status=ANSWERED):
        made = super().__new__(cls, text)
        made.status = status
        return made


def line(label, text, status=ANSWERED):
    return Line(label.ljust(COLUMN) + text, status)


def marked(lines, cut):
    """The lines, with the mark where they are cut."""
    return [Line(text + CUT, WRONG) for text in lines] if cut else lines


def hexed(digits):
    return lambda value: f"0x{value:0{digits}x}"


hex8, hex16, hex32 = hexed(2), hexed(4), hexed(8)


def named(names):
    return lambda value: f"{value} {names.get(value, 'undefined')}"


def flagged(names):
    def text(value):
        return " ".join([hex8(value)] + [
            name for bit, name in enumerate(names) if value >> bit & 1])
    return text


def yes(value):
    return "yes" if value else "no"


def signed(value):
    return str(value - 65_536 if value >= 32_768 else value)


def plain(text):
    return "".join(chr(byte) if 0x20 <= byte <= 0x7E and byte != 0x5C
                   else f"\\x{byte:02x}" for byte in text)


def refused(label, refusal):
    return [line(label,
                 f"refused {refusal.number} {REFUSALS[refusal.number]}",
                 WRONG)]


def one(label, say, call, *arguments):
    """One line: what a call gives, or its refusal."""
    try:
        return [line(label, say(call(*arguments)))]
    except Refusal as refusal:
        return refused(label, refusal)


def fields(label, kinds, call, *arguments):
    """A line for each field of a record, or one for its refusal."""
    try:
        record = call(*arguments)
    except Refusal as refusal:
        return refused(label, refusal)
    return rows("", kinds, record)


def rows(head, kinds, record):
    assert len(kinds) == len(record)
    return [line(head + name, say(value))
            for (name, say), value in zip(kinds, record)]


def listed(label, item, kinds, call, *arguments):
    """A list's count, then a line for each field of each record."""
    try:
        records = call(*arguments)
    except Refusal as refusal:
        return refused(label, refusal)
    lines = [line(label, str(len(records)))]
    for place, record in enumerate(records):
        lines += rows(f"{item} {place} ", kinds, record)
    return lines


# --- An image ---

MAILBOX = (
    ("mailbox receive offset", hex16), ("mailbox receive size", str),
    ("mailbox send offset", hex16), ("mailbox send size", str),
    ("mailbox protocols", flagged(PROTOCOLS)),
)
BOOTSTRAP = tuple((name.replace("mailbox", "bootstrap"), say)
                  for name, say in MAILBOX[:4])
PDI = (
    ("pdi control", hex16), ("pdi configuration", hex16),
    ("sync impulse length", str), ("pdi configuration 2", hex16),
)
IDENTITY = tuple((name, hex32)
                 for name in ("vendor", "product", "revision", "serial"))
GENERAL = (
    ("general group string", str), ("general image string", str),
    ("general order string", str), ("general name string", str),
    ("general coe details", flagged(COE_DETAILS)),
    ("general foe", yes), ("general eoe", yes),
    ("general flags", flagged(GENERAL_FLAGS)),
    ("general ebus current", signed),
    ("general port 0", named(PORTS)), ("general port 1", named(PORTS)),
    ("general port 2", named(PORTS)), ("general port 3", named(PORTS)),
    ("general physical address", hex16),
)
PHYSICAL_PORTS = tuple((f"physical port {place}", named(PORTS))
                       for place in range(4))
SYNC_MANAGER = (
    ("start", hex16), ("bytes", str), ("mode", named(MODES)),
    ("direction", named(DIRECTIONS)), ("ecat event", yes), ("dls event", yes),
    ("watchdog", yes), ("enable", flagged(ENABLES)), ("usage", named(USAGES)),
)
PDO = (("index", hex16), ("entries", str), ("sync manager", str),
       ("bits", str))
CLOCK = (
    ("cycle time", str), ("shift time 0", str), ("shift time 1", str),
    ("sync1 factor", signed), ("activate", hex16), ("sync0 factor", signed),
    ("name", str), ("description", str),
)


# --- What is cut ---


def whole(image):
    """How many bytes the image should have: by its size word, if it has it."""
    return sii.size(image) if len(image) >= SIZE_END else FIXED_END


def cut_line(image):
    missing = whole(image) - len(image)
    if missing <= 0:
        return []
    return [Line(f"image cut: {missing} of {whole(image)} bytes are missing "
                 "and read as 0xff")]


def category_cut(image, number):
    """Whether the category, or where there is none what was looked at to know
    it, lies not whole in the image."""
    try:
        return not category.inside(image, number)
    except Refusal:
        # A length may have been read past the end.
        return len(image) < whole(image)


def names_cut(image):
    """Whether General or the strings are cut."""
    if (category_cut(image, category.GENERAL)
            or category_cut(image, category.STRINGS)):
        return True
    if amended.in_force("E4"):
        return False
    # Before it the count and the length of a string in an empty category were
    # read behind that, and so perhaps past the image's end.
    try:
        at = category.category(image, category.STRINGS)
    except Refusal:
        return False
    return at is not ABSENT and not at.left() and len(image) < at.end + 2


# --- The lines of an image ---


def checksum_lines(image):
    stored, computed = setup.checksum(image)
    right = stored == computed
    return [line("checksum", "right" if right else "wrong",
                 ANSWERED if right else WRONG),
            line("checksum stored", hex8(stored)),
            line("checksum computed", hex8(computed))]


def string_line(label, call, *arguments):
    room = bytearray(255)

    def say(length):
        return "absent" if length is ABSENT else plain(room[:length])

    return one(label, say, call, *arguments, room)


def string_lines(image):
    try:
        at = category.category(image, category.STRINGS)
    except Refusal as refusal:
        return refused("strings", refusal)
    if at is ABSENT:
        return [line("strings", "absent")]
    # An empty category has no first byte, and no string.
    count = eeprom.stored(image, at.pos, 1)[0] if at.left() else 0
    lines = [line("strings", str(count))]
    for index in range(1, count + 1):
        lines += string_line(f"string {index}", strings.string, image, index)
    return lines


def fixed_lines(image):
    parts = (
        (SIZE_END, one("sii bytes", str, sii.size, image)),
        (VERSION_END, one("sii version", str, setup.version, image)),
        (CHECKSUM_END, checksum_lines(image)),
        (ALIAS_END, one("alias", str, sii.alias, image)),
        (PDI_END, fields("pdi control", PDI, setup.pdi, image)),
        (IDENTITY_END, fields("identity", IDENTITY, sii.identity, image)),
        (BOOTSTRAP_END,
         fields("bootstrap", BOOTSTRAP, setup.bootstrap_mailbox, image)),
        (MAILBOX_END, fields("mailbox", MAILBOX, sii.mailbox, image)),
    )
    return [text for end, lines in parts
            for text in marked(lines, len(image) < end)]


def physical_lines(image):
    return (fields("physical ports", PHYSICAL_PORTS, sii.physical_ports, image)
            + one("physical memory address", hex16,
                  sii.physical_memory_address, image))


def category_lines(image):
    parts = (
        (category_cut(image, category.GENERAL),
         fields("general", GENERAL, sii.general, image)
         + physical_lines(image)),
        (names_cut(image),
         string_line("device name", strings.device_name, image)),
        (names_cut(image),
         string_line("device description", strings.description, image)),
        (category_cut(image, category.STRINGS), string_lines(image)),
        (category_cut(image, category.SYNC_MANAGERS),
         listed("sync managers", "sync manager", SYNC_MANAGER,
                sii.sync_managers, image)),
        (category_cut(image, category.FMMU),
         listed("fmmus", "fmmu", (("usage", named(FMMU_USAGES)),),
                sii.fmmus, image)),
        (category_cut(image, category.EXTENDED_FMMU),
         listed("extended fmmus", "fmmu", (("sync manager", str),),
                sii.extended_fmmus, image)),
        (category_cut(image, category.TX_PDO),
         listed("tx pdos", "tx pdo", PDO, sii.pdos, image, category.TX_PDO)),
        (category_cut(image, category.RX_PDO),
         listed("rx pdos", "rx pdo", PDO, sii.pdos, image, category.RX_PDO)),
        (category_cut(image, category.CLOCK),
         listed("clock modes", "clock mode", CLOCK, setup.clocks, image)),
    )
    return [text for cut, lines in parts for text in marked(lines, cut)]


def sii_lines(image):
    return cut_line(image) + fixed_lines(image) + category_lines(image)


# --- Frames ---


def frame_lines(frame):
    kinds = (
        ("command", named(COMMANDS)), ("index", str), ("address", hex32),
        ("bytes", str), ("circulating", yes), ("more follows", yes),
        ("irq", hex16), ("working counter", str),
        ("payload", lambda text: text.hex() or "-"),
    )

    def pdus():
        return [pdu[:7] + (pdu[8], frame[pdu[7]:pdu[7] + pdu[3]])
                for pdu in frames.read_frame(frame)]

    return listed("pdus", "pdu", kinds, pdus)


def spread_lines(image, size, areas):
    lines = [line("area bytes", str(size)), line("areas", str(areas)),
             line("pdu command", "11 LWR"), line("pdu address", hex32(0))]
    try:
        # A row that is too long to be made is out of bounds.
        refuse_unless(size <= frames.AREA_LIMIT
                      and areas <= spread.AREA_COUNT_LIMIT, BAD_ARGUMENT)
        row = bytearray(size * areas)
        states = spread.spread(size, row, frames.State(0, 0, 0),
                               frames.Counter(0), 11, 0, image)
    except Refusal as refusal:
        return lines + refused("last area", refusal)
    lines.append(line("last area", str(len(states))))
    for place, state in enumerate(states):
        area = row[size * place:size * place + state.used]
        whole = frames.frame_header(state.used) + area
        [pdu] = frames.read_frame(whole)
        label = f"area {place + 1} "
        lines += [line(label + "pdu index", str(pdu[1])),
                  line(label + "image from", str(pdu[2])),
                  line(label + "image bytes", str(pdu[3])),
                  line(label + "frame", whole.hex())]
    return lines


# --- Commands ---


def error(text):
    return [line("error", text, UNUSABLE)]


def usage():
    return error("no such command, or not its words") + USAGE


def on_file(command, path, folder, limit, lines):
    """The first lines of a command, then those of its file's bytes."""
    # A name that is longer than its room counts as none.
    if len(path) > NAME_LIMIT:
        path = b""
    begun = [line("command", command), line("file", plain(path))]
    try:
        with open(os.path.join(os.fsencode(folder), path) if path else b"",
                  "rb") as file:
            content = bytearray(file.read())
    except OSError:
        return begun + error("the file cannot be read")
    if len(content) > limit:
        return (begun + error("the file is too large")
                + [line("bytes at most", str(limit))])
    return begun + [line("file bytes", str(len(content)))] + lines(content)


def sii_command(folder, path):
    return on_file("sii", path, folder, eeprom.image_limit(), sii_lines)


def frame_command(folder, path):
    return on_file("frame", path, folder, FRAME_FILE_LIMIT, frame_lines)


def number(word):
    """At most 32 bits, in at most 32 characters, decimal or hex behind `0x`;
    else nothing."""
    if len(word) > NUMBER_WORD_LIMIT:
        return None
    if re.fullmatch(rb"[0-9]+", word):
        value = int(word)
    elif re.fullmatch(rb"0x[0-9A-Fa-f]+", word):
        value = int(word, 16)
    else:
        return None
    return value if value < 2 ** 32 else None


def alias_command(folder, path, word, *further):
    value = number(word)

    def lines(image):
        if value is None or value > 65_535:
            return error("N is no number from 0 to 65535")
        before = bytes(image)
        stored, computed = setup.checksum(image)
        try:
            sii.set_alias(image, value)
        except Refusal as refusal:
            return refused("alias", refusal)
        said = [line("checksum before",
                     "right" if stored == computed else "wrong")]
        if stored != computed and not further:
            return said + [line(
                "alias", "not written: the checksum is wrong; add the word "
                "force to write it anyway", WRONG)]
        try:
            with open(os.path.join(os.fsencode(folder), path), "r+b") as file:
                file.write(image)
        except OSError:
            return said + error("the file cannot be written")
        for place, (old, new) in enumerate(zip(before, image)):
            if old != new:
                said += [line(f"byte {place} before", hex8(old)),
                         line(f"byte {place} after", hex8(new))]
        return said + [line("alias written", str(value))]

    return on_file("alias", path, folder, eeprom.image_limit(), lines)


def spread_command(folder, size, areas, path):
    def lines(image):
        for name, word in (("SIZE", size), ("AREAS", areas)):
            if number(word) is None:
                return error(f"{name} is no number of 32 bits")
        return spread_lines(image, number(size), number(areas))

    return on_file("spread", path, folder, eeprom.image_limit(), lines)


COMMAND_TABLE = {
    (b"sii", 1): sii_command,
    (b"frame", 1): frame_command,
    (b"alias", 2): alias_command,
    (b"spread", 3): spread_command,
}


def chosen(command):
    """What does this command, if it is one."""
    name, words = b"".join(command[:1]), command[1:]
    if name == b"alias" and words[2:] == [b"force"]:
        return alias_command
    return COMMAND_TABLE.get((name, len(words)))


def chained(words):
    """The commands between the words `then`."""
    commands = [[]]
    for word in words:
        if word == b"then":
            commands.append([])
        else:
            commands[-1].append(word)
    return commands


def run(words, folder):
    """All that `morel` writes for these words (bytes), and its status."""
    if words[:1] == [STATUS_WORD]:
        words = words[1:]
    texts, status = [], ANSWERED
    for command in chained(words):
        call = chosen(command)
        lines = call(folder, *command[1:]) if call else usage()
        texts.append("".join(text + "\n" for text in lines))
        status = max([status] + [getattr(text, "status", ANSWERED)
                                 for text in lines])
    # An empty line between two commands.
    return "\n".join(texts).encode("ascii"), status
