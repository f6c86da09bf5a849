"""Tests. Expected values are worked out by hand from the documents.

Run with `python3 compare/independent/tests.py`.
"""

import os
import random
import subprocess
import sys
import unittest
from functools import lru_cache
from itertools import product

HERE = os.path.dirname(os.path.abspath(__file__))
sys.path.insert(0, os.path.dirname(HERE))

from independent import amended, desk, requests, spread  # noqa: E402
from independent.crc import crc  # noqa: E402


def ask(line):
    """The answer to a line of text or bytes."""
    return requests.answer(line.encode() if isinstance(line, str) else line)


def hexed(data):
    return bytes(data).hex() or "-"


def packed(text):
    """Bytes written with spaces, without them."""
    return text.replace(" ", "").lower()


def header(number, words):
    return number.to_bytes(2, "little") + words.to_bytes(2, "little")


def image(*categories):
    """128 zero bytes, then categories of (number, body); the end reads 0xFF."""
    result = bytes(128)
    for number, body in categories:
        assert len(body) % 2 == 0
        result += header(number, len(body) // 2) + body
    return result.hex()


def ports(*places):
    """A port record from (active, time, link) or None, by place."""
    words = []
    for place in places:
        words += place or (0, 0, 0)
    return " ".join(map(str, words))


NO_PORTS = ports(None, None, None, None)
ALL_FOUR = ports((1, 100, 0), (1, 200, 0), (1, 300, 0), (1, 400, 0))
THREE = ports((1, 10, 0), (1, 30, 0), None, (1, 90, 0))

BENCH_STRINGS = bytes.fromhex("020341 00b5 0142 00".replace(" ", ""))
GENERAL = bytes.fromhex(
    "01 02 03 04 99 3f 02 00 ff ff ff 1f 38 ff 31 f4 34 12".replace(" ", ""))


class Case(unittest.TestCase):
    def says(self, line, answer):
        self.assertEqual(ask(line), answer, line[:200])

    def starts(self, line, beginning):
        answer = ask(line)
        self.assertTrue(
            (answer + " ").startswith(beginning + " "), (line[:200], answer[:200]))


class Bench(Case):
    """RULES, bench."""

    def test_crc(self):
        self.says("crc " + "00" * 14, "gives 48")
        self.says("crc " + b"123456789".hex(), "gives 251")

    def test_31_empty_headers_then_empty_strings(self):
        line = "category {} 4 10"
        empty = [(0, b"")]
        self.says(line.format(image(*empty * 31, (10, b""))), "absent")

    def test_30_empty_headers_then_empty_strings(self):
        # 31 headers of 4 bytes from byte 128: the range stands at 252.
        line = "category {} 8 10"
        empty = [(0, b"")]
        self.says(line.format(image(*empty * 30, (10, b""))), "gives 252 252")

    def test_strings(self):
        line = "string " + image((10, BENCH_STRINGS)) + " 4 {} eeeeeeee"
        self.says(line.format(1), "gives 2 | 413feeee")
        self.says(line.format(2), "gives 1 | 42eeeeee")
        self.says(line.format(3), "absent | eeeeeeee")
        self.says(line.format(4), "absent | eeeeeeee")

    def test_all_four_active(self):
        self.says("total " + ALL_FOUR, "gives 300")
        self.says("between " + ALL_FOUR + " 1", "gives 200")

    def test_three_active(self):
        self.says("between " + THREE + " 2", "gives 20")
        self.says("timeto " + THREE + " 2", "gives 80")

    def test_links_with_equal_times(self):
        before = "1 5 0 1 5 0 0 0 0 0 0 0"
        once = "1 5 0 1 5 7 0 0 0 0 0 0"
        self.says(f"assign {before} 7", f"gives 3 @ {once}")
        self.says(f"assign {once} 8", f"absent @ {once}")

    def test_two_pdus(self):
        # Address 00 00 30 01 on the wire is 0x01300000, low byte first.
        area = "00" * 28
        one = packed("07 00 00 00 30 01 02 00 00 00 00 00 00 00") + "00" * 14
        self.says(f"push {area} 0 0 0 0 7 19922944 0000 0",
                  f"gives 0 14 @ 14 1 0 1 | {one}")
        # 01 10 20 01 is 0x01201001.
        two = packed("07 00 00 00 30 01 02 80 00 00 00 00 00 00"
                     "05 01 01 10 20 01 02 00 00 00 08 00 00 00")
        self.says(f"push {one} 14 1 0 1 5 18878465 0800 0",
                  f"gives 14 14 @ 28 2 14 2 | {two}")
        self.says("header 28", "gives | 1c10")
        self.says(f"push {two} 28 2 14 2 7 0 - 0",
                  f"refuses 8 @ 28 2 14 3 | {two}")
        self.says(f"frame 1c10{two}",
                  "gives 2 7 0 19922944 2 0 1 0 12 0 5 1 18878465 2 0 0 0 26 0")

    def test_spreading(self):
        areas = "00" * 200
        line = "spread 100 " + areas + " 0 0 0 0 12 0 {}"
        self.starts(line.format("ab" * 88), "gives 1 100 1 0 @ 1 |")
        self.starts(line.format("ab" * 89), "gives 2 100 1 0 13 1 0 @ 2 |")
        self.starts(line.format("ab" * 176), "gives 2 100 1 0 100 1 0 @ 2 |")
        self.says(line.format("ab" * 177), "refuses 13 @ 0 | " + areas)

    def test_spreading_with_90_used(self):
        first = "11" * 100
        piece = packed("0c 00 00 00 00 00 01 00 00 00 ab 00 00") + "00" * 87
        self.says(f"spread 100 {first}{'22' * 100} 90 1 0 0 12 0 ab",
                  f"gives 2 90 1 0 13 1 0 @ 1 | {first}{piece}")


class Crc(Case):
    def test_start(self):
        self.says("crc -", "gives 255")

    def test_one_byte(self):
        # 0xFF ^ 0xFF is 0, and 0 shifted stays 0.
        self.says("crc ff", "gives 0")
        # 0xFF ^ 0xFE is 1; seven shifts make 0x80, the eighth the polynomial.
        self.says("crc fe", "gives 7")

    def test_as_polynomial_division(self):
        # The remainder of the message times x^8, the start xored onto the
        # first byte.
        chance = random.Random(1)
        for length in range(1, 40):
            data = chance.randbytes(length)
            number = int.from_bytes(bytes([data[0] ^ 0xFF]) + data[1:], "big")
            number <<= 8
            for bit in range(8 * length + 7, 7, -1):
                if number >> bit & 1:
                    number ^= 0x107 << (bit - 8)
            self.assertEqual(crc(data), number)


class Range(Case):
    def test_new(self):
        self.says("new 3 4", "gives 6 14")
        self.says("new 32767 0", "gives 65534 65534")
        self.says("new 0 32767", "gives 0 65534")
        self.says("new 32768 0", "gives 65536 65536")
        self.says("new 1 32767", "gives 2 65536")
        self.says("new 65535 1", "gives 131070 131072")
        self.says("new 1 65535", "gives 2 131072")
        self.says("new 65535 2", "refuses 1")
        self.says("new 2 65535", "refuses 1")
        self.says("new 65535 65535", "refuses 1")

    def test_start_at_halves(self):
        self.says("startat 3 9", "gives 6 14")
        self.says("startat 0 65535", "gives 0 65534")
        self.says("startat 1 65534", "gives 2 65536")
        self.says("startat 65535 3", "gives 131070 131072")
        self.says("startat 65535 4", "refuses 1")
        self.says("startat 0 1", "gives 0 0")

    def test_skip(self):
        self.says("skip 0 8 7", "gives @ 7 8")
        self.says("skip 0 8 8", "refuses 2 @ 0 8")
        self.says("skip 8 8 0", "refuses 2 @ 8 8")
        self.says("skip 9 8 0", "refuses 2 @ 9 8")
        self.says("skip 7 8 0", "gives @ 7 8")

    def test_skip_adds_in_full(self):
        self.says("skip 65535 65534 65535", "refuses 2 @ 65535 65534")
        self.says("skip 65537 131072 65534", "gives @ 131071 131072")
        self.says("skip 65537 131072 65535", "refuses 2 @ 65537 131072")
        self.says("skip 131072 131072 0", "refuses 2 @ 131072 131072")

    def test_byte_stops_at_the_end(self):
        self.says("byte 0a0b0c 4 0 2", "gives 10 @ 1 2")
        self.says("byte 0a0b0c 4 1 2", "gives 11 @ 2 2")
        self.says("byte 0a0b0c 4 2 2", "refuses 2 @ 2 2")
        self.says("byte 0a0b0c 4 3 2", "refuses 2 @ 3 2")
        self.says("byte 0a0b0c 4 0 0", "refuses 2 @ 0 0")
        # The end decides, not the image's.
        self.says("byte 0a0b0c 4 3 4", "gives 255 @ 4 4")

    def test_byte_near_the_top_of_a_full_image(self):
        full = "07" * 65_536
        self.says(f"byte {full} 8 65533 65534", "gives 7 @ 65534 65534")
        self.says(f"byte {full} 8 65534 65534", "refuses 2 @ 65534 65534")
        full = "07" * 131_072
        self.says(f"byte {full} 8 65536 131072", "gives 7 @ 65537 131072")
        self.says(f"byte {full} 8 131071 131072", "gives 7 @ 131072 131072")
        # 2 is tested before 1, so 1 is not met.
        self.says(f"byte {full} 8 131072 131072", "refuses 2 @ 131072 131072")
        self.says(f"byte {full} 8 131072 0", "refuses 2 @ 131072 0")

    def test_read(self):
        self.says("read 0a0b0c0d 4 1 4 eeee", "gives 2 @ 3 4 | 0b0c")
        self.says("read 0a0b0c0d 4 1 4 eeeeeeeeee",
                  "gives 3 @ 4 4 | 0b0c0deeee")
        self.says("read 0a0b 4 1 6 eeeeeeeeee", "gives 5 @ 6 6 | 0bffffffff")
        self.says("read 0a0b 4 7 6 eeee", "gives 0 @ 7 6 | eeee")
        self.says("read - 8 0 0 -", "gives 0 @ 0 0 | -")
        self.says("read - 8 131071 131072 eeee",
                  "gives 1 @ 131072 131072 | ffee")

    def test_exact(self):
        self.says("exact 0a0b0c0d 4 1 4 eeeeee", "gives @ 4 4 | 0b0c0d")
        self.says("exact 0a0b0c0d 4 1 4 eeeeeeee",
                  "refuses 2 @ 4 4 | 0b0c0dee")
        self.says("exact 0a0b0c0d 4 5 4 eeee", "refuses 2 @ 5 4 | eeee")
        self.says("exact 0a0b0c0d 4 4 4 ee", "refuses 2 @ 4 4 | ee")

    def test_exact_read_of_nothing(self):
        self.says("exact - 4 9 4 -", "gives @ 9 4 | -")

    def test_odd_end(self):
        self.says("skip 0 3 0", "refuses 14 @ 0 3")
        self.says("byte 0a 4 0 3", "refuses 14 @ 0 3")
        self.says("byte 0a 4 65535 3", "refuses 14 @ 65535 3")
        self.says("read 0a 4 0 3 ee", "refuses 14 @ 0 3 | ee")
        self.says("exact 0a 4 0 3 -", "refuses 14 @ 0 3 | -")
        self.says("write 0a 0 3 -", "refuses 14 @ 0 3 | 0a")

    def test_record_out_of_bounds(self):
        # A position or an end above 131,072, even where nothing is read.
        for record in ("131073 0", "0 131074", "4294967295 4294967294"):
            for line, rest in (("skip {} 0", ""), ("byte 0a 4 {}", ""),
                               ("read 0a 4 {} ee", " | ee"),
                               ("exact 0a 4 {} -", " | -"),
                               ("write 0a {} -", " | 0a")):
                self.says(line.format(record), f"refuses 14 @ {record}{rest}")

    def test_image_too_large(self):
        large = "00" * 131_073
        for line, rest in (
                ("byte {} 4 0 2", " @ 0 2"),
                ("read {} 4 0 2 ee", " @ 0 2 | ee"),
                ("exact {} 4 0 2 -", " @ 0 2 | -"),
                ("write {} 0 2 -", " @ 0 2 | " + large),
                ("category {} 4 10", ""), ("alias {} 4", ""),
                ("size {} 4", ""), ("setalias {} 1", " | " + large),
                ("identity {} 4", ""), ("mailbox {} 4", ""),
                ("general {} 4", ""), ("sms {} 4", ""), ("fmmus {} 4", ""),
                ("fmmuex {} 4", ""), ("pdos {} 4 50", ""),
                ("string {} 4 0 ee", " | ee"), ("name {} 4 ee", " | ee"),
                ("desc {} 4 ee", " | ee")):
            self.says(line.format(large), "refuses 14" + rest)

    def test_write(self):
        self.says("write 0000000000000000 2 8 616263",
                  "gives 4 @ 6 8 | 0000616263000000")
        self.says("write 0000000000000000 4 6 61626364",
                  "gives 2 @ 6 6 | 0000000061620000")
        self.says("write 0000 2 2 6162", "gives 0 @ 2 2 | 0000")
        self.says("write 0000 0 2 -", "gives 0 @ 0 2 | 0000")

    def test_write_pads_an_odd_last_byte(self):
        self.says("write eeee 0 2 61", "gives 2 @ 2 2 | 6100")

    def test_write_at_an_odd_position(self):
        # Decision 4.
        self.says("write 0000000000000000 3 4 6162",
                  "gives 2 @ 5 4 | 0000616200000000")

    def test_write_past_the_image(self):
        self.says("write 00000000 0 8 616263646566",
                  "refuses 7 @ 4 8 | 61626364")
        self.says("write 000000 2 8 6162", "refuses 7 @ 2 8 | 000000")
        self.says("write - 0 2 61", "refuses 7 @ 0 2 | -")

    def test_write_at_the_top(self):
        full = "ee" * 131_072
        self.says(f"write {full} 131068 131072 61626364",
                  "gives 4 @ 131072 131072 | " + full[:-8] + "61626364")
        # The next position would be 131,073: 1, before 7 and after no data.
        for some in (full, "0a", "-"):
            self.says(f"write {some} 131071 131072 61",
                      f"refuses 1 @ 131071 131072 | {some}")
            self.says(f"write {some} 131071 131072 -",
                      f"gives 0 @ 131071 131072 | {some}")
        self.says("write 0a 131070 131072 61",
                  "refuses 7 @ 131070 131072 | 0a")
        # The word before is kept: an odd position stands for its own word.
        self.says(f"write {full} 131069 131072 61626364",
                  "refuses 1 @ 131071 131072 | " + full[:-8] + "6162eeee")
        # Where the first word is refused with 7, the second is not met.
        self.says("write 0a 131069 131072 61626364",
                  "refuses 7 @ 131069 131072 | 0a")


class Category(Case):
    def test_found(self):
        two = image((30, b"\x01" * 4), (10, b"\x02" * 6))
        self.says(f"category {two} 4 30", "gives 132 136")
        self.says(f"category {two} 4 10", "gives 140 146")
        self.says(f"category {two} 4 60", "absent")

    def test_numbers_that_may_be_sought(self):
        for number in (10, 30, 40, 41, 42, 50, 51, 60):
            self.says(f"category {image((number, b''))} 8 {number}",
                      "gives 132 132")
        for number in (0, 1, 9, 11, 20, 43, 52, 61, 65535):
            self.says(f"category {image((number, b''))} 8 {number}",
                      "refuses 14")

    def test_header_cut_by_the_end(self):
        # Decision 5.
        self.says(f"category {'00' * 129} 4 10", "refuses 1")
        self.says(f"category {'00' * 128} 4 10", "absent")
        self.says("category - 4 10", "absent")

    def test_end_type(self):
        self.says(f"category {image((0xFFFF, b''), (10, b''))} 4 10", "absent")

    def test_32nd_empty_header_comes_before_the_end_type(self):
        # Both are absent; one empty header more, and the search still ends.
        empty = [(0, b"")]
        self.says(f"category {image(*empty * 31, (0xFFFF, b''))} 4 10",
                  "absent")
        self.says(f"category {image(*empty * 40, (10, b'  '))} 4 10", "absent")

    def test_only_empty_headers_count(self):
        both = [(0, b""), (1, b"  ")]
        # 31 pairs: 4 and 6 bytes each, so the strings stand at 128 + 310 + 4.
        self.says(f"category {image(*both * 31, (10, b'  '))} 4 10",
                  "gives 442 444")

    def test_length_past_the_top(self):
        start = bytes(128).hex()
        # The header ends at word 0x42: 0x42 + 0xFFBD is 65,535.
        self.says(f"category {start}{header(1, 0xFFBE).hex()} 4 10",
                  "refuses 1")
        self.says(f"category {start}{header(1, 0xFFBD).hex()} 4 10", "absent")

    def test_inside(self):
        # Headers at 128 and 136, bodies at 132 and 140, the mark at 146.
        two = image((30, b"\x01" * 4), (10, b"\x02" * 6))
        marked = two + "ffff"
        for number in (10, 30, 60):
            self.says(f"inside {marked} 4 {number}", "gives 1")
        # A mark that is read past the end, or half of it, is no mark.
        for cut in (two, two + "ff"):
            self.says(f"inside {cut} 8 60", "gives 0")
            self.says(f"inside {cut} 8 10", "gives 1")
        # The body's last byte is missing, and then the header's.
        self.says(f"inside {two[:-2]} 4 10", "gives 0")
        self.says(f"inside {two[:2 * 136]} 4 30", "gives 1")
        self.says(f"inside {two[:2 * 135]} 4 30", "gives 0")
        # The length's high byte reads 0xFF: the range ends at 130,696. Where
        # both do, it would end past its limit.
        self.says(f"inside {two[:2 * 131]} 4 30", "gives 0")
        self.says(f"inside {two[:2 * 130]} 4 30", "refuses 1")
        self.says(f"inside {two[:2 * 131]} 4 10", "gives 0")
        self.says("inside - 4 10", "gives 0")

    def test_inside_at_the_32nd_empty_header(self):
        empty = image(*[(0, b"")] * 32)
        self.says(f"inside {empty} 4 10", "gives 1")
        # Without its last byte the header leads on, to a mark that is not there.
        self.says(f"inside {empty[:-2]} 4 10", "gives 0")

    def test_inside_refuses_as_the_search(self):
        self.says(f"inside {'00' * 129} 4 10", "refuses 1")
        self.says("inside - 4 11", "refuses 14")
        self.says(f"inside {'00' * 131_073} 4 10", "refuses 14")
        start = bytes(128).hex()
        self.says(f"inside {start}{header(10, 65470).hex()} 4 10", "gives 0")
        self.says(f"inside {start}{header(10, 65471).hex()} 4 10", "refuses 1")

    def test_range_past_the_top(self):
        start = bytes(128).hex()
        # 132 + 2 times 65,470 is 131,072.
        self.says(f"category {start}{header(10, 65470).hex()} 4 10",
                  "gives 132 131072")
        self.says(f"category {start}{header(10, 65471).hex()} 4 10",
                  "refuses 1")

    @staticmethod
    def led_to(word, *parts):
        """An image of 131,072 bytes; at a word of it stand these bytes, led
        to by a category of number 1."""
        start = bytes(128) + header(1, word - 0x42)
        whole = start.ljust(2 * word, b"\0") + b"".join(parts)
        return whole.ljust(131_072, b"\0").hex()

    def test_last_words(self):
        # Behind a header at word 65,533 the body stands at word 65,535.
        some = self.led_to(65_533, header(10, 1), b"\1\0")
        self.says(f"category {some} 4 10", "gives 131070 131072")
        self.says(f"inside {some} 4 10", "gives 1")
        self.says(f"category {self.led_to(65_533, header(10, 2))} 4 10",
                  "refuses 1")
        some = self.led_to(65_533, header(10, 0))
        self.says(f"category {some} 4 10", "gives 131070 131070")
        # At words 65,534 and 65,535 nothing is found: past them is absent.
        some = self.led_to(65_534, header(10, 0))
        self.says(f"category {some} 4 10", "absent")
        self.says(f"category {some} 4 1", "refuses 14")
        # A category that ends there is found, but not passed.
        some = self.led_to(65_532, header(10, 2), b"\1\2\3\4")
        self.says(f"category {some} 4 10", "gives 131068 131072")
        self.says(f"category {some} 4 30", "refuses 1")


class ReadOuts(Case):
    def test_alias(self):
        self.says("alias 00000000000000003412 4", "gives 4660")
        self.says("alias 000000000000000034 4", "gives 65332")
        self.says("alias - 8", "gives 65535")

    def test_set_alias(self):
        # Alias 0 on zeros: the bench's 0x30.
        self.says("setalias " + "00" * 14 + "eeee77 0",
                  "gives | " + "00" * 14 + "300077")

    def test_set_alias_sums_after_the_change(self):
        before = bytes(range(16))
        after = bytearray(before)
        after[8:10] = b"\x34\x12"
        after[14] = crc(after[:14])
        after[15] = 0
        self.says(f"setalias {before.hex()} 4660", "gives | " + after.hex())

    def test_set_alias_on_a_short_image(self):
        # Decision 6.
        self.says("setalias " + "00" * 15 + " 1", "refuses 7 | " + "00" * 15)
        self.says("setalias - 1", "refuses 7 | -")

    def test_size(self):
        self.says("size " + "00" * 124 + "0f00 4", "gives 2048")
        self.says("size - 4", "gives 8388608")

    def test_identity(self):
        fields = "01000000 02000000 00000080 ffffffff".replace(" ", "")
        self.says("identity " + "00" * 16 + fields + " 4",
                  "gives 1 2 2147483648 4294967295")
        self.says("identity - 4", "gives" + " 4294967295" * 4)

    def test_mailbox(self):
        line = "mailbox " + "00" * 48 + "{} 4"
        self.says(line.format("0010800080108000 3f ff".replace(" ", "")),
                  "gives 4096 128 4224 128 63")
        self.says(line.format("00108000801080004000"), "refuses 5")
        self.says(line.format("00108000801080008000"), "refuses 5")

    def test_has_mailbox(self):
        # Receive size at byte 50, send size at 54, protocols at 56.
        for receive, send, protocols, there in (
                (0, 0, 0, 0), (1, 0, 0, 0), (0, 0, 1, 0), (1, 0, 1, 1),
                (0, 1, 0, 1), (1, 1, 4, 1)):
            some = bytearray(58)
            some[50], some[54], some[56] = receive, send, protocols
            self.says(f"hasmail {hexed(some)} 4", f"gives {there}")
        self.says(f"hasmail {'00' * 56} 4", "refuses 5")

    def test_mailbox_of_a_short_image(self):
        # Decision 8.
        self.says("mailbox " + "00" * 56 + " 4", "refuses 5")
        self.says("mailbox " + "00" * 57 + " 4", "gives 0 0 0 0 0")


class General(Case):
    def with_byte(self, place, value):
        record = bytearray(GENERAL)
        record[place] = value
        return image((30, bytes(record)))

    def test_fields(self):
        # Port 3 holds 15, which has no name and becomes 0.
        self.says(f"general {image((30, GENERAL))} 4",
                  "gives 1 2 3 4 63 1 0 31 65336 1 3 4 0 4660")

    def test_the_places_of_the_standard(self):
        # Bytes 16 and 17: port 0 holds 4, 1 holds 3, 2 holds 2, 3 holds 15.
        whole = GENERAL[:16] + bytes.fromhex("34f23412") + bytes(12)
        self.says(f"physport {image((30, whole))} 4", "gives 4 3 2 0")
        self.says(f"physaddr {image((30, whole))} 8", "gives 4660")
        # Undefined flag bits are no matter of theirs.
        flags = whole[:11] + b"\xff" + whole[12:]
        self.says(f"physaddr {image((30, flags))} 4", "gives 4660")
        for words, ports, address in ((8, "refuses 2", "refuses 2"),
                                      (9, "gives 4 3 2 0", "refuses 2"),
                                      (10, "gives 4 3 2 0", "gives 4660")):
            cut = image((30, whole[:2 * words]))
            self.says(f"physport {cut} 4", ports)
            self.says(f"physaddr {cut} 4", address)
        for kind in ("physport", "physaddr"):
            self.says(f"{kind} - 4", "refuses 3")
            self.says(f"{kind} {'00' * 129} 4", "refuses 1")
            self.says(f"{kind} {'00' * 131_073} 4", "refuses 14")

    def test_longer_category(self):
        self.says(f"general {image((30, GENERAL + b'  '))} 4",
                  "gives 1 2 3 4 63 1 0 31 65336 1 3 4 0 4660")

    def test_not_found(self):
        self.says("general - 4", "refuses 3")

    def test_short(self):
        self.says(f"general {image((30, GENERAL[:16]))} 4", "refuses 2")

    def test_address(self):
        self.says(f"general {'00' * 129} 4", "refuses 1")

    def test_undefined_flags(self):
        for place, value in ((5, 0x40), (5, 0x80), (11, 0x20), (11, 0x80)):
            self.says(f"general {self.with_byte(place, value)} 4", "refuses 5")

    def test_ignored_bytes(self):
        for place in (4, 8, 9, 10):
            self.says(f"general {self.with_byte(place, 0x55)} 4",
                      "gives 1 2 3 4 63 1 0 31 65336 1 3 4 0 4660")

    def test_decoded_past_the_image(self):
        # The category's range goes past the image: 0xFF has undefined bits.
        cut = image((30, GENERAL))[:-14]
        self.says(f"general {cut} 4", "refuses 5")


class Lists(Case):
    MANAGER = bytes.fromhex("0010800026ff0101")

    def test_no_category(self):
        for line in ("sms - 4", "fmmus - 4", "fmmuex - 4", "pdos - 4 50",
                     "pdos - 4 51"):
            self.says(line, "gives 0")

    def test_address(self):
        for word in ("sms {} 4", "fmmus {} 4", "fmmuex {} 4", "pdos {} 4 50"):
            self.says(word.format("00" * 129), "refuses 1")

    def test_sync_managers(self):
        # Control 0x26: mailbox, write, DLS event. Control 0xD9: mode 1 and
        # direction 2 have no name, ECAT event, watchdog, bit 7 ignored.
        other = bytes.fromhex("00000000d9000f05")
        self.says(f"sms {image((41, self.MANAGER + other))} 4",
                  "gives 2 4096 128 2 1 0 1 0 1 1 0 0 0 0 1 0 1 15 0")

    def test_usages(self):
        # Byte 4 holds mode (0, 2) and direction (0, 1), byte 7 the usage.
        for control, stored, told in ((0x00, 0, 4), (0x04, 0, 3), (0x02, 0, 2),
                                      (0x06, 0, 1), (0x00, 1, 1), (0x06, 4, 4),
                                      (0x06, 9, 1)):
            manager = bytes([0, 0, 0, 0, control, 0, 0, stored])
            self.says(f"usages {image((41, manager))} 4", f"gives 1 {told}")
        self.says("usages - 4", "gives 0")

    def test_partial_record_ends_the_list(self):
        self.says(f"sms {image((41, self.MANAGER + self.MANAGER[:6]))} 4",
                  "gives 1 4096 128 2 1 0 1 0 1 1")

    def test_sync_manager_limit(self):
        one = " 4096 128 2 1 0 1 0 1 1"
        self.says(f"sms {image((41, self.MANAGER * 8))} 4", "gives 8" + one * 8)
        self.says(f"sms {image((41, self.MANAGER * 9))} 4", "refuses 6")
        # A partial ninth is no ninth.
        self.says(f"sms {image((41, self.MANAGER * 8 + b'      '))} 4",
                  "gives 8" + one * 8)

    def test_decoding_before_the_limit(self):
        # Decision 11: the 9th with a bad enable is 5.
        bad = bytes.fromhex("0010800026ff1101")
        self.says(f"sms {image((41, self.MANAGER * 8 + bad))} 4", "refuses 5")
        self.says(f"sms {image((41, bad))} 4", "refuses 5")

    def test_fmmus(self):
        self.says(f"fmmus {image((40, bytes.fromhex('010203ff')))} 4",
                  "gives 4 1 2 3 0")
        self.says(f"fmmus {image((40, bytes.fromhex('0004')))} 4", "refuses 5")

    def test_fmmus_after_the_sixteenth(self):
        body = b"\x01" * 16 + b"\x77\x77"
        self.says(f"fmmus {image((40, body))} 4", "gives 16" + " 1" * 16)
        body = b"\x01" * 15 + b"\x77"
        self.says(f"fmmus {image((40, body))} 4", "refuses 5")

    def test_extended_fmmus(self):
        self.says(f"fmmuex {image((42, bytes.fromhex('aa05bbcc')))} 4",
                  "gives 1 5")
        three = b"\x00\x07\x00"
        self.says(f"fmmuex {image((42, three * 16))} 4", "gives 16" + " 7" * 16)
        self.says(f"fmmuex {image((42, three * 17 + b' '))} 4", "refuses 6")

    PDO = bytes.fromhex("001a020300000000")
    EMPTY_PDO = bytes.fromhex("001a000300000000")
    ENTRY = bytes.fromhex("0060010005080000")

    def test_pdos(self):
        body = self.PDO + self.ENTRY * 2 + self.EMPTY_PDO
        for number in (50, 51):
            self.says(f"pdos {image((number, body))} 4 {number}",
                      "gives 2 6656 2 3 16 6656 0 3 0")
        self.says(f"pdos {image((50, body))} 4 51", "gives 0")

    def test_pdo_with_255_long_entries(self):
        body = (bytes.fromhex("0016ff0200000000")
                + bytes.fromhex("0000000000ff0000") * 255)
        self.says(f"pdos {image((51, body))} 4 51", "gives 1 5632 255 2 65025")

    def test_partial_pdo_header_ends_the_list(self):
        self.says(f"pdos {image((50, self.EMPTY_PDO + self.PDO[:6]))} 4 50",
                  "gives 1 6656 0 3 0")

    def test_missing_entry(self):
        self.says(f"pdos {image((50, self.PDO + self.ENTRY))} 4 50",
                  "refuses 5")
        self.says(f"pdos {image((50, self.PDO + self.ENTRY + b'    '))} 4 50",
                  "refuses 5")

    def test_pdo_limit(self):
        one = " 6656 0 3 0"
        self.says(f"pdos {image((50, self.EMPTY_PDO * 64))} 4 50",
                  "gives 64" + one * 64)
        self.says(f"pdos {image((50, self.EMPTY_PDO * 65))} 4 50", "refuses 6")
        self.says(f"pdos {image((50, self.EMPTY_PDO * 64 + self.PDO))} 4 50",
                  "refuses 5")

    def test_no_pdo_category(self):
        self.says("pdos - 4 52", "refuses 14")
        self.says("pdos - 4 10", "refuses 14")


class Setup(Case):
    # Each byte holds its own place, so a word w holds (2w + 1) * 256 + 2w.
    PLACES = bytes(range(128)).hex()
    WORDS = ("pdi {} 4", "bootmail {} 4", "version {} 4", "checksum {} 4",
             "clocks {} 4")

    def test_image_too_large(self):
        for word in self.WORDS:
            self.says(word.format("00" * 131_073), "refuses 14")
            self.starts(word.format("00" * 128 + "ff" * 130_944), "gives")

    def test_too_large_before_the_category(self):
        # The category alone would be refused with 1.
        large = "00" * 129 + "ff" * 130_944
        self.says(f"clocks {large} 4", "refuses 14")
        self.says(f"clocks {large[:-2]} 4", "refuses 1")

    def test_no_answer_depends_on_the_chunk(self):
        some = self.PLACES + header(60, 13).hex() + self.CLOCK.hex() + "3c"
        for word in self.WORDS:
            self.assertEqual(ask(word.format(some)),
                             ask(word.format(some)[:-1] + "8"))

    def test_empty_image(self):
        # All bytes read 0xFF. Of 14 such the CRC is, byte by byte, 00 f3 24
        # 0f de e7 48 0c d7 d8 f5 36 71 a3.
        self.says("pdi - 4", "gives 65535 65535 65535 65535")
        self.says("bootmail - 4", "gives 65535 65535 65535 65535")
        self.says("version - 4", "gives 65535")
        self.says("checksum - 4", "gives 255 163")
        self.says("clocks - 4", "gives 0")

    def test_pdi(self):
        self.says(f"pdi {self.PLACES} 4", "gives 256 770 1284 1798")
        self.says("pdi 050e03440a000080 4", "gives 3589 17411 10 32768")

    def test_pdi_of_a_short_image(self):
        self.says("pdi 01 4", "gives 65281 65535 65535 65535")
        self.says("pdi 0102030405 4", "gives 513 1027 65285 65535")
        self.says("pdi 01020304050607 4", "gives 513 1027 1541 65287")

    def test_bootstrap_mailbox(self):
        # Bytes 40 to 47: 41 * 256 + 40 and so on.
        self.says(f"bootmail {self.PLACES} 4",
                  "gives 10536 11050 11564 12078")
        # It is no part of the mailbox behind it.
        both = "00" * 40 + packed("00 10 f4 01 f4 13 f4 01 00 18 80 00 80 18"
                                  "80 00 0c 00")
        self.says(f"bootmail {both} 4", "gives 4096 500 5108 500")
        self.says(f"mailbox {both} 4", "gives 6144 128 6272 128 12")

    def test_bootstrap_mailbox_of_a_short_image(self):
        line = "bootmail " + "00" * 40 + "{} 4"
        self.says("bootmail " + "00" * 40 + " 4", "gives" + " 65535" * 4)
        self.says(line.format("01"), "gives 65281 65535 65535 65535")
        self.says(line.format("0102030405"), "gives 513 1027 65285 65535")
        self.says(line.format("01020304050607"), "gives 513 1027 1541 65287")

    def test_version(self):
        self.says(f"version {self.PLACES} 4", "gives 32638")
        self.says("version " + "00" * 126 + "0100 4", "gives 1")
        # Neither the size before it nor the category after it.
        self.says("version " + "ff" * 126 + "0000ff 4", "gives 0")

    def test_version_of_a_short_image(self):
        self.says("version " + "00" * 126 + " 4", "gives 65535")
        self.says("version " + "00" * 126 + "01 4", "gives 65281")

    def test_checksum(self):
        # The bench's 0x30 of 14 zero bytes.
        self.says("checksum " + "00" * 14 + "3000 4", "gives 48 48")
        # A wrong one is given like a right one, the high byte not at all.
        self.says("checksum " + "00" * 14 + "31ff 4", "gives 49 48")
        self.says("checksum " + "00" * 14 + "a488 4", "gives 164 48")

    def test_checksum_covers_bytes_0_to_13(self):
        self.says("checksum " + "00" * 14 + "30" + "ee" * 200 + " 4",
                  "gives 48 48")
        for place in range(14):
            changed = bytearray(15)
            changed[14] = 48
            changed[place] = 1
            self.assertNotEqual(ask(f"checksum {changed.hex()} 4"),
                                "gives 48 48")

    def test_checksum_by_division(self):
        # Words 0 to 6 "as unsigned number", the start xored onto byte 0.
        number = int.from_bytes(b"\xff" + bytes(range(1, 14)), "big") << 8
        for bit in range(119, 7, -1):
            if number >> bit & 1:
                number ^= 0x107 << (bit - 8)
        self.says(f"checksum {self.PLACES} 4", f"gives 14 {number}")

    def test_checksum_of_a_short_image(self):
        # The byte past 14 zeros reads 0xFF.
        self.says("checksum " + "00" * 14 + " 4", "gives 255 48")
        # Byte 13 too: 0xFF alone, from start 0, has 0xF3; 0x30 ^ 0xF3.
        self.says("checksum " + "00" * 13 + " 4", "gives 255 195")
        # One bit from the empty image's 0xA3: fourteen times eight shifts take
        # 1 over 07 15 6b 16 62 29 df 13 79 68 1f 5d 94 to e5; 0xA3 ^ 0xE5.
        self.says("checksum fe 4", "gives 255 70")

    def test_checksum_after_setting_the_alias(self):
        # Alias 1 sets byte 8; six times eight shifts take 1 over 07, 15, 6b,
        # 16, 62 to 29, and 0x30 ^ 0x29 is 0x19.
        after = "00" * 8 + "01" + "00" * 5 + "1900"
        self.says("setalias " + "00" * 14 + "eeee 1", f"gives | {after}")
        self.says(f"checksum {after} 4", "gives 25 25")
        self.says("checksum " + "00" * 16 + " 4", "gives 0 48")

    def test_checksum_after_setting_any_alias(self):
        chance = random.Random(6)
        for length in range(16, 60):
            before = chance.randbytes(length)
            answer = ask(f"setalias {before.hex()} {chance.randrange(65536)}")
            after = bytes.fromhex(answer.split(" | ")[1])
            self.says(f"checksum {after.hex()} 8",
                      f"gives {after[14]} {after[14]}")
            # One bit of what is summed, and they differ.
            place = chance.randrange(14)
            wrong = bytearray(after)
            wrong[place] ^= 1 << chance.randrange(8)
            stored, computed = ask(f"checksum {wrong.hex()} 8").split(" ")[1:]
            self.assertEqual(stored, str(after[14]))
            self.assertNotEqual(stored, computed)

    # A byte holds its place plus 1, so the first time is 0x04030201, which is
    # 67,305,985, and the last factor 0x1211, which is 4,625.
    CLOCK = bytes(range(1, 25))
    CLOCK_SAYS = " 67305985 134678021 202050057 3597 4111 4625 19 20"
    # A record that lies past the image.
    CLOCK_FF = " 4294967295" * 3 + " 65535" * 3 + " 255 255"

    def test_clocks(self):
        # 1 ms, 10 us, -1 ns as 32 bits; factors -1 and 1; 0x0700 between.
        other = bytes.fromhex(packed(
            "40 42 0f 00 10 27 00 00 ff ff ff ff ff ff 00 07 01 00 05 06"
            "00 00 00 00"))
        self.says(f"clocks {image((60, self.CLOCK + other))} 4",
                  "gives 2" + self.CLOCK_SAYS
                  + " 1000000 10000 4294967295 65535 1792 1 5 6")

    def test_clocks_reserved_bytes(self):
        for place in (20, 21, 22, 23):
            record = bytearray(self.CLOCK)
            record[place] ^= 0xFF
            self.says(f"clocks {image((60, bytes(record)))} 4",
                      "gives 1" + self.CLOCK_SAYS)

    def test_clocks_of_no_category(self):
        self.says(f"clocks {image((30, GENERAL))} 4", "gives 0")
        self.says(f"clocks {image((0xFFFF, b''), (60, self.CLOCK))} 4",
                  "gives 0")
        self.says(f"clocks {image((60, b''))} 4", "gives 0")
        # The 32nd empty header is absent, though it matches.
        empty = [(0, b"")]
        self.says(f"clocks {image(*empty * 31, (60, b''))} 4", "gives 0")

    def test_clocks_of_the_first_category(self):
        two = image((30, GENERAL), (60, self.CLOCK), (60, self.CLOCK * 9))
        self.says(f"clocks {two} 4", "gives 1" + self.CLOCK_SAYS)

    def test_clocks_refused_by_the_category(self):
        self.says(f"clocks {'00' * 129} 4", "refuses 1")
        start = bytes(128).hex()
        # Cut after the type: the length reads 0xFFFF.
        self.says(f"clocks {start}3c00 4", "refuses 1")
        self.says(f"clocks {start}{header(60, 65471).hex()} 4", "refuses 1")
        # One word less ends at 131,072: 5,455 records, all 0xFF.
        self.says(f"clocks {start}{header(60, 65470).hex()} 4", "refuses 6")

    def test_clocks_partial_record_ends_the_list(self):
        for length in range(2, 24, 2):
            body = self.CLOCK + self.CLOCK[:length]
            # What comes after the category is no part of the record.
            self.says(f"clocks {image((60, body), (1, self.CLOCK))} 4",
                      "gives 1" + self.CLOCK_SAYS)
            self.says(f"clocks {image((60, body[24:]))} 4", "gives 0")

    def test_clocks_limit(self):
        eight = "gives 8" + self.CLOCK_SAYS * 8
        self.says(f"clocks {image((60, self.CLOCK * 8))} 4", eight)
        self.says(f"clocks {image((60, self.CLOCK * 9))} 4", "refuses 6")
        self.says(f"clocks {image((60, self.CLOCK * 20))} 4", "refuses 6")
        # A partial ninth is no ninth.
        for length in (2, 22):
            body = self.CLOCK * 8 + self.CLOCK[:length]
            self.says(f"clocks {image((60, body))} 4", eight)

    def test_clocks_past_the_image(self):
        whole = image((60, self.CLOCK))
        # The image ends behind the header, in shift time 1, before the
        # description, and in the reserved bytes.
        self.says(f"clocks {whole[:2 * 132]} 4", "gives 1" + self.CLOCK_FF)
        self.says(f"clocks {whole[:2 * 142]} 4",
                  # 0xFFFF0A09
                  "gives 1 67305985 134678021 4294904329"
                  " 65535 65535 65535 255 255")
        self.says(f"clocks {whole[:2 * 151]} 4",
                  "gives 1 67305985 134678021 202050057 3597 4111 4625 19 255")
        self.says(f"clocks {whole[:2 * 153]} 4", "gives 1" + self.CLOCK_SAYS)

    def test_clocks_limit_past_the_image(self):
        # The category's length decides, not the image's.
        start = bytes(128).hex()
        line = "clocks " + start + "{} 4"
        self.says(line.format(header(60, 96).hex()),
                  "gives 8" + self.CLOCK_FF * 8)
        self.says(line.format(header(60, 107).hex()),
                  "gives 8" + self.CLOCK_FF * 8)
        self.says(line.format(header(60, 108).hex()), "refuses 6")


class Strings(Case):
    def test_index_0(self):
        self.says("string - 4 0 ee", "absent | ee")
        # Before the category's own refusal.
        self.says(f"string {'00' * 129} 4 0 ee", "absent | ee")
        self.says(f"string {'00' * 129} 4 1 ee", "refuses 1 | ee")

    def test_no_category(self):
        self.says("string - 4 1 ee", "absent | ee")

    def test_room(self):
        # Decision 10.
        large = "ee" * 256
        self.says(f"string - 4 0 {large}", f"refuses 14 | {large}")
        self.says(f"name - 4 {large}", f"refuses 14 | {large}")
        self.says(f"desc - 4 {large}", f"refuses 14 | {large}")
        self.says(f"string - 4 0 {large[2:]}", f"absent | {large[2:]}")

    def test_too_long(self):
        # Room and stored length, counted before zeros are dropped.
        self.says(f"string {image((10, BENCH_STRINGS))} 4 1 eeee",
                  "refuses 4 2 3 | eeee")

    def test_too_long_before_overrun(self):
        # Count 1, length 9, but only two bytes are left.
        body = bytes.fromhex("01094142")
        self.says(f"string {image((10, body))} 4 1 eeee",
                  "refuses 4 2 9 | eeee")
        self.says(f"string {image((10, body))} 4 1 {'ee' * 9}",
                  "refuses 2 | " + "ee" * 9)

    def test_fits_exactly(self):
        self.says(f"string {image((10, bytes.fromhex('01024142')))} 4 1 eeee",
                  "gives 2 | 4142")

    def test_empty_room(self):
        self.says(f"string {image((10, bytes.fromhex('0100')))} 4 1 -",
                  "gives 0 | -")

    def test_skip_onto_the_end(self):
        # Count 2; string 1 ends with the category; string 2 can't be reached.
        body = bytes.fromhex("02024142")
        self.says(f"string {image((10, body))} 4 2 eeee", "refuses 2 | eeee")

    def test_index_above_the_count(self):
        # Of no strings the first is absent, whatever follows the count.
        self.says(f"string {image((10, bytes.fromhex('00014142')))} 4 1 eeee",
                  "absent | eeee")
        # The last that there can be.
        full = bytes([255]) + b"\x01A" * 255 + b"\x01"
        self.says(f"string {image((10, full))} 4 255 eeee", "gives 1 | 41ee")
        less = bytes([254]) + full[1:]
        self.says(f"string {image((10, less))} 4 254 eeee", "gives 1 | 41ee")
        self.says(f"string {image((10, less))} 4 255 eeee", "absent | eeee")

    def test_empty_category(self):
        # It has no count. The bytes after it are not looked at: the next
        # header, of type 1, is no count 1 and length 0.
        for after in (1, 0x0201, 0):
            empty = image((10, b""), (after, b""))
            for index in (1, 2, 255):
                self.says(f"string {empty} 4 {index} eeee", "refuses 2 | eeee")
            self.says(f"string {empty} 4 0 eeee", "absent | eeee")
        # The room's bound comes first.
        self.says(f"string {empty} 4 1 {'ee' * 256}",
                  "refuses 14 | " + "ee" * 256)

    def test_name_in_an_empty_category(self):
        both = image((10, b""), (30, GENERAL))
        self.says(f"name {both} 4 eeee", "refuses 2 | eeee")
        self.says(f"desc {both} 4 eeee", "refuses 2 | eeee")
        # Indices 0 are absent before the strings are sought.
        none = image((10, b""), (30, bytes(18)))
        self.says(f"name {none} 4 eeee", "absent | eeee")
        self.says(f"desc {none} 4 eeee", "absent | eeee")

    # Strings at bytes 65,534 to 65,534, the last two of the image.
    AT_THE_TOP = (bytes(128) + header(1, 32767 - 0x42 - 2)
                  + bytes(65_530 - 132) + header(10, 0) + b"\5\0").hex()

    def test_empty_category_at_the_top(self):
        self.assertEqual(len(self.AT_THE_TOP), 2 * 65_536)
        self.says(f"category {self.AT_THE_TOP} 4 10", "gives 65534 65534")
        for index in (1, 7):
            self.says(f"string {self.AT_THE_TOP} 4 {index} ee",
                      "refuses 2 | ee")

    def test_strings_at_the_end_of_the_largest_image(self):
        # Bytes 131,066 to 131,071: count 2, `A`, `B`, which ends it.
        some = Category.led_to(65_531, header(10, 3),
                               bytes.fromhex("020141014200"))
        self.says(f"category {some} 4 10", "gives 131066 131072")
        self.says(f"string {some} 4 1 eeee", "gives 1 | 41ee")
        self.says(f"string {some} 4 2 eeee", "gives 1 | 42ee")
        self.says(f"string {some} 4 3 eeee", "absent | eeee")
        some = Category.led_to(65_531, header(10, 3),
                               bytes.fromhex("020141024243"))
        self.says(f"string {some} 4 2 eeee", "gives 2 | 4243")
        # A string that the end cuts, and a skip onto the end.
        some = Category.led_to(65_531, header(10, 3),
                               bytes.fromhex("030141034243"))
        self.says(f"string {some} 4 2 eeeeee", "refuses 2 | eeeeee")
        self.says(f"string {some} 4 3 eeeeee", "refuses 2 | eeeeee")

    def test_characters(self):
        body = bytes.fromhex("01 06 00 7f 80 ff 00 01".replace(" ", ""))
        self.says(f"string {image((10, body))} 4 1 {'ee' * 8}",
                  "gives 4 | 7f3f3f01eeeeeeee")

    def both(self, general=GENERAL):
        # General's order index is 3, its name index 4.
        body = bytes.fromhex("04 01 41 01 42 01 43 01 44 00".replace(" ", ""))
        return image((10, body), (30, general))

    def test_name_and_description(self):
        self.says(f"name {self.both()} 4 eeee", "gives 1 | 43ee")
        self.says(f"desc {self.both()} 4 eeee", "gives 1 | 44ee")

    def test_name_and_description_above_the_count(self):
        # Order index 3, name index 4.
        for count, name, desc in ((4, "gives 1 | 43ee", "gives 1 | 44ee"),
                                  (3, "gives 1 | 43ee", "absent | eeee"),
                                  (2, "absent | eeee", "absent | eeee")):
            body = bytes([count]) + bytes.fromhex("014101420143014400")
            some = image((10, body), (30, GENERAL))
            self.says(f"name {some} 4 eeee", name)
            self.says(f"desc {some} 4 eeee", desc)

    def test_without_general(self):
        self.says("name - 4 eeee", "absent | eeee")
        self.says("desc - 4 eeee", "refuses 3 | eeee")

    def test_general_is_needed_whole(self):
        # Decision 9: whatever the index.
        self.says(f"name {self.both(bytes(16))} 4 ee", "refuses 2 | ee")
        self.says(f"desc {self.both(bytes(16))} 4 ee", "refuses 2 | ee")
        bad = bytes(5) + b"\x40" + bytes(12)
        self.says(f"name {self.both(bad)} 4 ee", "refuses 5 | ee")
        self.says(f"desc {self.both(bad)} 4 ee", "refuses 5 | ee")
        self.says(f"name {self.both(bytes(18))} 4 ee", "absent | ee")
        self.says(f"desc {self.both(bytes(18))} 4 ee", "absent | ee")

    def test_name_of_a_bad_image(self):
        self.says(f"name {'00' * 129} 4 ee", "refuses 1 | ee")


class Ports(Case):
    def test_entry(self):
        self.says("entry " + ALL_FOUR, "gives 0")
        self.says("entry " + ports((1, 5, 0), (1, 4, 0), (1, 4, 0), None),
                  "gives 3")
        self.says("entry " + ports((0, 1, 0), (1, 9, 0), (1, 8, 0), (1, 7, 0)),
                  "gives 2")
        self.says("entry " + NO_PORTS, "refuses 9")

    def test_last(self):
        self.says("last " + ALL_FOUR, "gives 2")
        self.says("last " + ports((1, 9, 0), (1, 8, 0), None, None), "gives 3")
        self.says("last " + NO_PORTS, "absent")

    def test_topology(self):
        self.says("topology " + ALL_FOUR, "gives 4")
        self.says("topology " + THREE, "gives 3")
        self.says("topology " + ports(None, (1, 0, 0), None, (1, 0, 0)),
                  "gives 2")
        self.says("topology " + ports(None, (1, 0, 0), None, None), "gives 1")
        self.says("topology " + NO_PORTS, "refuses 9")

    def test_total(self):
        self.says("total " + NO_PORTS, "absent")
        self.says("total " + ports((1, 5, 0), None, None, (1, 5, 0)), "absent")
        self.says("total " + ports((1, 0, 0), (1, 4294967295, 0), None, None),
                  "gives 4294967295")
        self.says("total " + ports((1, 9, 0), (0, 1, 0), (1, 4, 0), None),
                  "gives 5")

    # Times that pass the wrap: 0, 5, 10 and 16 after the first.
    WRAPPED = ports((1, 4294967290, 0), (1, 4294967295, 0), (1, 4, 0),
                    (1, 10, 0))

    def test_total_from(self):
        # Places 0 to 3 hold ports 0, 3, 1, 2.
        for port, largest in ((0, 16),
                              # From 4,294,967,295 it is 4,294,967,291 to
                              # 4,294,967,290, the other way round.
                              (3, 4294967291),
                              (1, 4294967291), (2, 4294967290)):
            self.says(f"totalfrom {self.WRAPPED} {port}", f"gives {largest}")
        self.says(f"total {self.WRAPPED}", "gives 4294967291")
        self.says(f"totalfrom {ALL_FOUR} 0", "gives 300")
        # 100 less 200 is 4,294,967,196.
        self.says(f"totalfrom {ALL_FOUR} 3", "gives 4294967196")

    def test_total_from_absent(self):
        same = ports((1, 7, 0), (0, 8, 0), (1, 7, 0), None)
        self.says(f"totalfrom {same} 0", "absent")
        self.says(f"totalfrom {same} 1", "absent")
        self.says("totalfrom " + ports(None, None, None, (1, 7, 0)) + " 2",
                  "absent")

    def test_total_from_refused(self):
        # 10 comes before 9, which is the named port's.
        self.says(f"totalfrom {NO_PORTS} 4", "refuses 10")
        self.says(f"totalfrom {NO_PORTS} 255", "refuses 10")
        self.says(f"totalfrom {ALL_FOUR} 4", "refuses 10")
        for port in range(4):
            self.says(f"totalfrom {NO_PORTS} {port}", "refuses 9")
        self.says(f"totalfrom {THREE} 1", "refuses 9")
        self.says(f"totalfrom {THREE} 3", "gives 4294967276")

    def test_total_from_looks_at_active_ports_alone(self):
        some = ports((1, 5, 0), (0, 900, 0), (1, 8, 0), (0, 1, 0))
        self.says(f"totalfrom {some} 0", "gives 3")
        self.says(f"totalfrom {some} 1", "gives 4294967293")

    def test_total_from_the_smallest_is_the_total(self):
        edges = (0, 1, 2 ** 31, 2 ** 32 - 1)
        agreed = 0
        for bits in range(16):
            for times in product(edges, repeat=4):
                places = [(bits >> at & 1, times[at], 0) for at in range(4)]
                active = [time for on, time, _ in places if on]
                for place, port in enumerate((0, 3, 1, 2)):
                    on, time, _ = places[place]
                    if on and time == min(active):
                        agreed += 1
                        self.assertEqual(
                            ask(f"totalfrom {ports(*places)} {port}"),
                            ask(f"total {ports(*places)}"))
        self.assertGreater(agreed, 4000)

    def test_time_to(self):
        self.says(f"timeto {ALL_FOUR} 0", "absent")
        self.says(f"timeto {ALL_FOUR} 3", "gives 100")
        self.says(f"timeto {ALL_FOUR} 1", "gives 200")
        self.says(f"timeto {ALL_FOUR} 2", "gives 300")

    def test_time_to_takes_the_largest_on_the_way(self):
        self.says("timeto " + ports((1, 1, 0), (1, 9, 0), (1, 4, 0), None)
                  + " 1", "gives 8")

    def test_time_to_a_port_before_the_entry(self):
        # Decision 13.
        late = ports((1, 9, 0), (1, 2, 0), (1, 4, 0), None)
        self.says(f"timeto {late} 0", "absent")
        self.says(f"timeto {late} 1", "gives 2")
        # Port 2 isn't active and needn't be.
        self.says(f"timeto {late} 2", "gives 2")

    def test_bad_port_before_no_port(self):
        self.says(f"timeto {NO_PORTS} 4", "refuses 10")
        self.says(f"timeto {NO_PORTS} 3", "refuses 9")
        self.says(f"between {NO_PORTS} 255", "refuses 10")

    def test_between(self):
        self.says(f"between {NO_PORTS} 3", "gives 0")
        self.says(f"between {ALL_FOUR} 0", "gives 0")
        self.says(f"between {ALL_FOUR} 3", "gives 100")
        self.says(f"between {ALL_FOUR} 2", "gives 300")

    def test_between_never_below_0(self):
        self.says("between "
                  + ports((1, 9, 0), (1, 2, 0), (1, 4, 0), (1, 3, 0)) + " 2",
                  "gives 2")

    def test_between_sum(self):
        most = (1, 4294967295, 0)
        self.says(f"between {ports((1, 0, 0), most, (1, 0, 0), most)} 2",
                  "refuses 11")
        self.says(f"between {ports((1, 0, 0), most, (1, 0, 0), most)} 1",
                  "gives 4294967295")
        self.says("between " + ports((1, 0, 0), (1, 4294967294, 0), (1, 0, 0),
                                     (1, 1, 0)) + " 2", "gives 4294967295")

    def test_linked(self):
        some = ports((0, 0, 7), (1, 0, 8), (1, 0, 7), (1, 0, 7))
        self.says(f"linked {some} 7", "gives 1")
        self.says(f"linked {some} 8", "gives 3")
        self.says(f"linked {some} 9", "absent")
        # Decision 12.
        self.says(f"linked {some} 0", "refuses 14")
        self.says(f"linked {NO_PORTS} 7", "absent")

    def test_assign_link_0(self):
        self.says(f"assign {NO_PORTS} 0", f"refuses 14 @ {NO_PORTS}")
        self.says(f"assign {NO_PORTS} 1", f"refuses 9 @ {NO_PORTS}")

    def test_assign_passes_the_entry(self):
        # Active places 1 and 3, times 1 and 2: the entry is place 1.
        self.says("assign " + ports(None, (1, 1, 0), None, (1, 2, 0)) + " 5",
                  "gives 2 @ 0 0 0 1 1 0 0 0 0 1 2 5")
        alone = ports(None, None, (1, 7, 0), None)
        self.says(f"assign {alone} 5", f"absent @ {alone}")

    def test_assign_all_four(self):
        # The entry is place 0, so place 1 comes first, then 2, 3.
        self.says(f"assign {ALL_FOUR} 5",
                  "gives 3 @ 1 100 0 1 200 5 1 300 0 1 400 0")
        linked = ports((1, 100, 0), (1, 200, 5), (1, 300, 5), (1, 400, 5))
        self.says(f"assign {linked} 6", f"absent @ {linked}")

    def test_assign_goes_round(self):
        # The entry is place 2: then 3, and from the front 0 and 1, which hold
        # ports 2, 0 and 3.
        rounds = ((0, 0, 0, 0), (0, 0, 0, 1), (2, 0, 0, 1), (2, 3, 0, 1))
        times = (8, 8, 1, 8)
        for link, port in ((1, 2), (2, 0), (3, 3)):
            before, after = (
                ports(*[(1, time, to) for time, to in zip(times, links)])
                for links in rounds[link - 1:link + 1])
            self.says(f"assign {before} {link}", f"gives {port} @ {after}")
        self.says(f"assign {after} 4", f"absent @ {after}")

    def test_assign_keeps_entry_and_links(self):
        # The first unlinked on the way is set, the entry and all that is
        # linked stay.
        for bits in range(1, 16):
            for linked in range(16):
                for entry in range(4):
                    if bits >> entry & 1:
                        self.assigned(bits, linked, entry)

    def assigned(self, bits, linked, entry):
        places = [[bits >> at & 1, 1 if at == entry else 2,
                   9 * (linked >> at & 1)] for at in range(4)]
        way = [at % 4 for at in range(entry + 1, entry + 4)]
        free = [at for at in way if places[at][0] and not places[at][2]]
        line = f"assign {ports(*map(tuple, places))} 5"
        said = "absent"
        if free:
            places[free[0]][2] = 5
            said = f"gives {(0, 3, 1, 2)[free[0]]}"
        self.says(line, f"{said} @ {ports(*map(tuple, places))}")

    def test_times(self):
        self.says("times " + ports((1, 0, 7), None, None, (1, 0, 0))
                  + " 1 2 3 4294967295",
                  "gives @ 1 1 7 0 2 0 0 3 0 1 4294967295 0")

    def test_display(self):
        # Ports 0 and 1 are at places 0 and 2.
        text = b"ports [ open closed open closed ]".hex()
        self.says("display " + ports((1, 0, 0), None, (1, 0, 0), None),
                  "gives | " + text)
        text = b"ports [ closed closed closed closed ]".hex()
        self.says("display " + NO_PORTS, "gives | " + text)


class Builder(Case):
    def test_open(self):
        self.says("open 0a0b0c", "gives @ 0 0 0 | 000000")
        self.says("open -", "gives @ 0 0 0 | -")
        self.says("open " + "ee" * 2047, "gives @ 0 0 0 | " + "00" * 2047)
        self.says("open " + "ee" * 2048, "refuses 14 @ 0 0 0 | " + "ee" * 2048)

    def test_handle(self):
        # As `push`, and the index and the command that the PDU went out with.
        area = "00" * 16
        self.says(f"handle {area} 0 0 0 255 5 1 61 2",
                  "gives 0 14 255 5 @ 14 1 0 0 | 05ff0100000002000000"
                  "61" + "00" * 5)
        self.says(f"handle {area} 0 0 0 7 5 1 - 5",
                  f"refuses 8 @ 0 0 0 8 | {area}")
        self.says(f"handle {area} 0 0 0 7 15 1 - 0",
                  f"refuses 14 @ 0 0 0 7 | {area}")

    def test_push_leaves_what_is_missing(self):
        # Data of 1, override 3: two payload bytes and the last two stay.
        after = packed("00 09 04 03 02 01 03 00 00 00 ab") + "ee" * 9
        self.says(f"push {'ee' * 20} 0 0 77 9 0 16909060 ab 3",
                  f"gives 0 15 @ 15 1 0 10 | {after}")

    def test_override_below_the_data(self):
        after = packed("00 00 00 00 00 00 02 00 00 00 ab cd 00 00")
        self.says(f"push {'00' * 14} 0 0 0 0 0 0 abcd 1",
                  f"gives 0 14 @ 14 1 0 1 | {after}")

    def test_index_wraps(self):
        after = packed("0e ff 00 00 00 00 00 00 00 00 00 00")
        self.says(f"push {'00' * 12} 0 0 0 255 14 0 - 0",
                  f"gives 0 12 @ 12 1 0 0 | {after}")
        self.says("push - 0 0 0 255 0 0 - 0", "refuses 8 @ 0 0 0 0 | -")

    def test_too_long(self):
        area = "ee" * 13
        self.says(f"push {area} 0 0 5 1 0 0 abcd 0",
                  f"refuses 8 @ 0 0 5 2 | {area}")
        self.says(f"push {area} 0 0 5 1 0 0 - 65535",
                  f"refuses 8 @ 0 0 5 2 | {area}")

    def test_14_takes_no_index(self):
        # Decision 16.
        area = "ee" * 20
        self.says(f"push {area} 0 0 0 1 15 0 - 0",
                  f"refuses 14 @ 0 0 0 1 | {area}")
        self.says(f"rest {area} 0 0 0 1 15 0 -",
                  f"refuses 14 @ 0 0 0 1 | {area}")
        large = "ab" * 65_536
        self.says(f"push {area} 0 0 0 1 0 0 {large} 0",
                  f"refuses 14 @ 0 0 0 1 | {area}")
        self.says(f"push {area} 0 0 0 1 0 0 {large[2:]} 0",
                  f"refuses 8 @ 0 0 0 2 | {area}")
        self.says(f"rest {area} 0 0 0 1 0 0 {large}",
                  f"refuses 14 @ 0 0 0 1 | {area}")
        self.says(f"push {'ee' * 2048} 0 0 0 1 0 0 - 0",
                  f"refuses 14 @ 0 0 0 1 | {'ee' * 2048}")

    def test_states(self):
        for size, used, count, last, answer in (
                (30, 0, 0, 99, "gives 1"),
                (30, 1, 0, 0, "refuses 14"),
                (30, 12, 1, 0, "gives 1"),
                (30, 11, 1, 0, "refuses 14"),
                (30, 31, 1, 0, "refuses 14"),
                (30, 30, 1, 0, "gives 0"),
                (30, 23, 2, 0, "refuses 14"),
                (30, 24, 2, 14, "gives 0"),
                (30, 24, 2, 15, "refuses 14"),
                (30, 0, 1, 0, "refuses 14"),
                (2047, 0, 0, 0, "gives 1"),
                (2048, 0, 0, 0, "refuses 14"),
                (0, 0, 0, 0, "gives 0")):
            self.says(f"canpush {size} {used} {count} {last} 0", answer)

    def test_can_push(self):
        self.says("canpush 100 0 0 0 88", "gives 1")
        self.says("canpush 100 0 0 0 89", "gives 0")
        self.says("canpush 100 12 1 0 76", "gives 1")
        self.says("canpush 100 12 1 0 77", "gives 0")
        self.says("canpush 100 0 0 0 65535", "gives 0")

    def test_more_follows_is_one_bit(self):
        # Decision 17: bits 11 to 13 of a handed-in area stay.
        before = packed("00 00 00 00 00 00 00 38 00 00 00 00") + "00" * 12
        after = (packed("00 00 00 00 00 00 00 b8 00 00 00 00")
                 + packed("01 05 00 00 00 00 00 00 00 00 00 00"))
        self.says(f"push {before} 12 1 0 5 1 0 - 0",
                  f"gives 12 12 @ 24 2 12 6 | {after}")

    def test_rest(self):
        after = packed("0c 03 02 00 00 00 02 00 00 00 ab cd 00 00")
        self.says(f"rest {'00' * 14} 0 0 0 3 12 2 abcdef",
                  f"gives 2 0 14 @ 14 1 0 4 | {after}")
        after = packed("0c 03 02 00 00 00 01 00 00 00 ab 00 00 00")
        self.says(f"rest {'00' * 14} 0 0 0 3 12 2 ab",
                  f"gives 1 0 13 @ 13 1 0 4 | {after}")

    def test_rest_absent(self):
        area = "ee" * 12
        self.says(f"rest {area} 0 0 9 3 12 2 ab", f"absent @ 0 0 9 3 | {area}")
        self.says(f"rest {area}ee 0 0 9 3 12 2 -",
                  f"absent @ 0 0 9 3 | {area}ee")
        self.says("rest - 0 0 0 3 12 2 ab", "absent @ 0 0 0 3 | -")
        # Free less 12 would be below 0.
        self.says(f"rest {area} 12 1 0 3 12 2 ab",
                  f"absent @ 12 1 0 3 | {area}")

    def test_header(self):
        self.says("header 0", "gives | 0010")
        self.says("header 2047", "gives | ff17")
        self.says("header 2048", "refuses 14 | 0000")


class Reader(Case):
    EMPTY = "000000000000000000000000"

    def test_no_pdus(self):
        self.says("frame 0010", "gives 0")
        self.says("frame 0010ee", "gives 0")

    def test_header(self):
        self.says("frame -", "refuses 12")
        self.says("frame 00", "refuses 12")
        self.says("frame 0020", "refuses 12")
        self.says("frame 0000", "refuses 12")
        # Bit 11 isn't looked at.
        self.says("frame 0018", "gives 0")

    def test_length_within_the_bytes(self):
        self.says("frame 0c10" + self.EMPTY[2:], "refuses 12")
        self.says("frame 0c10" + self.EMPTY, "gives 1 0 0 0 0 0 0 0 12 0")
        self.says("frame 0c10" + self.EMPTY + "ff", "gives 1 0 0 0 0 0 0 0 12 0")

    def test_fields(self):
        # Command 0xFF and flag bits 11 to 13 aren't refused. Flags 0x7801:
        # length 1, circulating.
        self.says("frame 0d10" + packed("ff 07 04 03 02 01 01 78 34 12 ab cd ab"),
                  "gives 1 255 7 16909060 1 1 0 4660 12 43981")

    def test_pdu_inside(self):
        for length in range(1, 12):
            self.says(f"frame {length:02x}10" + self.EMPTY, "refuses 12")
        # Length 1 in the PDU, but only 12 bytes.
        self.says("frame 0c10" + packed("00 00 00 00 00 00 01 00 00 00 00 00"),
                  "refuses 12")

    def test_more_follows(self):
        more = packed("00 00 00 00 00 00 00 80 00 00 00 00")
        self.says("frame 0c10" + more, "refuses 12")
        self.says("frame 1810" + more + self.EMPTY,
                  "gives 2 0 0 0 0 0 1 0 12 0 0 0 0 0 0 0 0 24 0")
        self.says("frame 1810" + self.EMPTY + self.EMPTY, "refuses 12")
        self.says("frame 0d10" + self.EMPTY + "00", "refuses 12")
        self.says("frame 0d10" + more + "00", "refuses 12")

    def test_reads_what_was_built(self):
        area, state, expected = "00" * 200, "0 0 0 250", []
        place = 2
        for number, data in enumerate(("", "ab", "cd" * 90, "0102")):
            answer = ask(f"push {area} {state} {number} {number * 1000} "
                         f"{data or '-'} 0")
            said, rest = answer.split(" @ ")
            state, area = rest.split(" | ")
            length = len(data) // 2
            self.assertEqual(said, f"gives {place - 2} {length + 12}")
            expected += [number, (250 + number) % 256, number * 1000, length,
                         0, int(number < 3), 0, place + 10, 0]
            place += length + 12
        used = int(state.split()[0])
        head = ask(f"header {used}").split(" | ")[1]
        self.says(f"frame {head}{area}",
                  " ".join(map(str, ["gives", 4] + expected)))


class Received(Case):
    # The two PDUs of the bench, as the two pushes gave their handles: start,
    # whole size, index, command.
    FIRST = packed("07 00 00 00 30 01 02 80 00 00 00 00 00 00")
    SECOND = packed("05 01 01 10 20 01 02 00 00 00 08 00 00 00")
    FRAME = "1c10" + FIRST + SECOND
    HANDLES = "2 0 14 0 7 14 14 1 5"

    def changed(self, place, bytes_):
        """The frame with other bytes at a place."""
        at = 2 * place
        return self.FRAME[:at] + bytes_ + self.FRAME[at + len(bytes_):]

    def gets(self, frame, answer):
        self.says(f"received {self.HANDLES} {frame}", answer)

    def test_as_it_went_out(self):
        # The header has 2 bytes, a PDU 10 before its payload.
        self.gets(self.FRAME, "gives 2 12 2 0 26 2 0")

    def test_payloads_and_counters(self):
        # PDUs at 2 and 16: payloads at 12 and 26, counters at 14 and 28.
        self.gets("1c10" + packed("07 00 00 00 30 01 02 80 00 00 ab cd 03 00")
                  + packed("05 01 01 10 20 01 02 00 00 00 ff ff fe ff"),
                  "gives 2 12 2 3 26 2 65534")

    def test_not_compared(self):
        # Addresses, flag bits 11 to 14 with the circulating bit, IRQ, the
        # frame header's bit 11, and a handle's start.
        self.says("received 2 999 14 0 7 0 14 1 5 1c18"
                  + packed("07 00 ff ff 31 01 02 f8 34 12 00 00 01 00")
                  + packed("05 01 02 10 20 01 02 78 ff ff 08 00 02 00"),
                  "gives 2 12 2 1 26 2 2")

    def test_no_pdus(self):
        self.says("received 0 0010", "gives 0")
        self.says("received 0 0018", "gives 0")
        self.says("received 0 0010ffff", "gives 0")

    def test_header(self):
        for frame in ("-", "1c", "0000", "1c00" + self.FRAME[4:],
                      "1c20" + self.FRAME[4:], "1d10" + self.FRAME[4:],
                      "ff17" + self.FRAME[4:], self.FRAME[:-2]):
            self.gets(frame, "refuses 19 0")
            self.says(f"received 0 {frame}", "refuses 19 0")

    def test_bytes_past_the_length(self):
        self.gets(self.FRAME + "07", "gives 2 12 2 0 26 2 0")
        self.gets(self.FRAME + self.FIRST * 9, "gives 2 12 2 0 26 2 0")
        self.says(f"received 0 0010{self.FIRST}", "gives 0")

    def test_does_not_end_rightly(self):
        # More-follows: gone from the first, set in the last.
        self.gets(self.changed(9, "00"), "refuses 19 0")
        self.gets(self.changed(23, "80"), "refuses 19 1")
        # The first is 15 bytes beyond the frame, or ends with it and says
        # more; the second has a byte too many, or one too few.
        self.gets(self.changed(8, "1f"), "refuses 19 0")
        self.gets(self.changed(8, "10"), "refuses 19 0")
        self.gets(self.changed(22, "03"), "refuses 19 1")
        self.gets(self.changed(22, "01"), "refuses 19 1")
        # 11 bytes are left for the second; 1; 11 for the first.
        for length, place in (("19", 1), ("0f", 1), ("0b", 0), ("01", 0)):
            self.gets(length + self.FRAME[2:], f"refuses 19 {place}")

    def test_without_a_handle(self):
        for handles, place in (("0", 0), ("1 0 14 0 7", 1)):
            self.says(f"received {handles} {self.FRAME}",
                      f"refuses 19 {place}")
        # As the frame is read no further, what lies behind it does not count.
        self.says(f"received 0 {self.changed(23, '80')}", "refuses 19 0")

    def test_spare_handle(self):
        for spare in ("0 0 0 0", "28 14 2 7", "28 14 2 7 42 14 3 7"):
            count = 2 + len(spare.split()) // 4
            self.says(f"received {count} 0 14 0 7 14 14 1 5 {spare} "
                      + self.FRAME, "refuses 19 2")
        self.says("received 1 0 14 0 7 0010", "refuses 19 0")
        self.says("received 2 0 14 0 7 14 14 1 5 0e10"
                  + self.FIRST.replace("0280", "0200"), "refuses 19 1")

    def test_command(self):
        self.gets(self.changed(2, "08"), "refuses 20 0")
        self.gets(self.changed(16, "04"), "refuses 20 1")

    def test_index(self):
        self.gets(self.changed(3, "01"), "refuses 21 0")
        self.gets(self.changed(17, "00"), "refuses 21 1")

    def test_length(self):
        # A payload byte more in the first and one less in the second, so that
        # the frame is as long as before.
        moved = ("1c10" + packed("07 00 00 00 30 01 03 80 00 00 00 00 00 00 00")
                 + packed("05 01 01 10 20 01 01 00 00 00 08 00 00"))
        self.gets(moved, "refuses 22 0")
        self.says(f"received 2 0 15 0 7 14 14 1 5 {moved}", "refuses 22 1")
        self.says(f"received 2 0 15 0 7 14 13 1 5 {moved}",
                  "gives 2 12 3 0 27 1 0")
        # A handle's size is the whole PDU's.
        for size in (0, 2, 13, 15, 2062, 65535):
            self.says(f"received 2 0 {size} 0 7 14 14 1 5 {self.FRAME}",
                      "refuses 22 0")

    def test_order_within_a_pdu(self):
        # The second: all four; then its end is right; then its command; then
        # its index.
        self.says(f"received 2 0 14 0 7 14 15 2 6 {self.changed(23, '80')}",
                  "refuses 19 1")
        for handle, number in (("14 15 2 6", 20), ("14 15 2 5", 21),
                               ("14 15 1 5", 22), ("14 14 2 6", 20)):
            self.says(f"received 2 0 14 0 7 {handle} {self.FRAME}",
                      f"refuses {number} 1")

    def test_first_in_frame_order(self):
        # The first's length before the second's end, command and missing
        # handle, and before a spare one.
        self.says(f"received 2 0 15 0 7 14 14 1 5 {self.changed(23, '80')}",
                  "refuses 22 0")
        self.says(f"received 2 0 15 0 7 14 14 1 6 {self.FRAME}",
                  "refuses 22 0")
        self.says(f"received 1 0 15 0 7 {self.FRAME}", "refuses 22 0")
        self.says(f"received 3 0 14 0 7 14 14 1 6 0 0 0 0 {self.FRAME}",
                  "refuses 20 1")
        # The header before all.
        self.says("received 3 0 14 0 9 14 14 1 6 0 0 0 0 " + self.FRAME[:-2],
                  "refuses 19 0")

    def test_index_that_repeats(self):
        # 256 pushes on, with refused ones between, comes the same index.
        more = packed("0c 05 00 00 00 00 01 80 00 00 aa 01 00")
        last = packed("0c 05 00 00 00 00 01 00 00 00 bb 02 00")
        self.says(f"received 2 0 13 5 12 13 13 5 12 1a10{more}{last}",
                  "gives 2 12 1 1 25 1 2")
        # The place decides: of two with one index, lengths 1 and 0.
        empty = packed("0c 05 00 00 00 00 00 00 00 00 02 00")
        self.says(f"received 2 0 13 5 12 13 12 5 12 1910{more}{empty}",
                  "gives 2 12 1 1 25 0 2")
        self.says(f"received 2 13 12 5 12 0 13 5 12 1910{more}{empty}",
                  "refuses 22 0")

    def test_any_command(self):
        self.says("received 1 0 12 255 255 0c10"
                  + packed("ff ff 00 00 00 00 00 00 00 00 00 00"),
                  "gives 1 12 0 0")

    def test_full_frames(self):
        # 170 PDUs of 12 bytes are 2,040; a length of 2,035 fills 2,047.
        more = packed("00 00 00 00 00 00 00 80 00 00 00 00")
        frame = "f817" + more * 169 + "00" * 12
        handles = "0 12 0 0 "
        given = "".join(f" {12 * k} 0 0" for k in range(1, 171))
        self.says("received 170 " + handles * 170 + frame,
                  "gives 170" + given)
        self.says("received 169 " + handles * 169 + frame, "refuses 19 169")
        self.says("received 171 " + handles * 171 + frame, "refuses 19 170")
        self.says("received 2000 " + handles * 2000 + frame, "refuses 19 170")
        self.says("received 1 0 2047 0 0 ff17" + packed(
            "00 00 00 00 00 00 f3 07 00 00") + "ab" * 2035 + "0100",
            "gives 1 12 2035 1")

    def test_lines(self):
        handles = "0 12 0 0 "
        for line in ("received 2001 " + handles * 2001 + "0010",
                     "received 65536 0010", "received 1 0010",
                     "received 0 0 12 0 0 0010", "received 1 0 12 0 0010",
                     "received 1 0 12 0 0 0 0010", "received 0010", "received",
                     "received 0", "received 0 001", "received 0 0010 0010",
                     "received 1 65536 12 0 0 0010",
                     "received 1 0 65536 0 0 0010",
                     "received 1 0 12 256 0 0010",
                     "received 1 0 12 0 256 0010", "received - 0010"):
            self.says(line, "refuses 14")
        self.says("received 000 0010", "gives 0")
        self.says("received 1 65535 65535 255 255 0010", "refuses 19 0")

    def test_what_was_built(self):
        """Pushes, some refused; then payloads and counters are changed."""
        chance = random.Random(9)
        for _ in range(200):
            area, state = "00" * chance.randrange(12, 120), "0 0 0 254"
            handles, expected = [], []
            for _ in range(chance.randrange(1, 9)):
                data = chance.randbytes(chance.randrange(30)).hex() or "-"
                said, after = ask(f"handle {area} {state} "
                                  f"{chance.randrange(15)} 77 {data} "
                                  f"{chance.choice((0, 9))}").split(" @ ")
                state, area = after.split(" | ")
                if said != "refuses 8":
                    handles.append(said.split()[1:])
            used = int(state.split()[0])
            frame = bytearray.fromhex(f"{used:02x}10{area}")
            for place, size, _, _ in handles:
                start, end = int(place) + 12, int(place) + int(size)
                frame[start:end + 2] = chance.randbytes(end + 2 - start)
                expected += [start, end - start,
                             int.from_bytes(frame[end:end + 2], "little")]
            words = [word for handle in handles for word in handle]
            self.says(" ".join(["received", str(len(handles)), *words,
                                frame.hex()]),
                      " ".join(map(str, ["gives", len(handles), *expected])))


class Spreading(Case):
    def test_bytes(self):
        # Two areas of 14 take 2 bytes each. The last area is opened, the
        # first is not: its working counter stays.
        one = packed("0a ff 00 01 00 00 02 00 00 00 aa bb ee ee")
        two = packed("0a 00 02 01 00 00 01 00 00 00 cc 00 00 00")
        past = "ee" * 14
        self.says(f"spread 14 {'ee' * 42} 0 0 0 255 10 256 aabbcc",
                  f"gives 2 14 1 0 13 1 0 @ 1 | {one}{two}{past}")

    def test_first_area_with_pdus(self):
        before = "00" * 25
        after = (packed("00 00 00 00 00 00 00 80 00 00 00 00")
                 + packed("0b 04 00 00 00 00 01 00 00 00 aa 00 00"))
        self.says(f"spread 25 {before} 12 1 0 4 11 0 aa",
                  f"gives 1 25 2 12 @ 5 | {after}")

    def test_empty_image(self):
        self.says("spread 5 eeeeeeeeee 0 0 9 7 12 4294967295 -",
                  "gives 0 @ 7 | eeeeeeeeee")

    def test_address(self):
        area = "00" * 16
        after = packed("0c 00 fe ff ff ff 02 00 00 00 aa bb 00 00 00 00")
        self.says(f"spread 16 {area} 0 0 0 0 12 4294967294 aabb",
                  f"gives 1 14 1 0 @ 1 | {after}")
        self.says(f"spread 16 {area} 0 0 0 0 12 4294967295 aabb",
                  f"refuses 1 @ 0 | {area}")

    def test_address_before_room(self):
        self.says("spread 1 ee 0 0 0 0 12 4294967295 aabb",
                  "refuses 1 @ 0 | ee")
        self.says("spread 1 ee 0 0 0 0 12 4294967294 aabb",
                  "refuses 13 @ 0 | ee")

    def test_bad_arguments(self):
        for line in ("spread 0 eeee 0 0 0 3 12 0 aa",
                     "spread 0 - 0 0 0 3 12 0 aa",
                     "spread 2 - 0 0 0 3 12 0 aa",
                     "spread 3 eeee 0 0 0 3 12 0 aa",
                     "spread 2 eeee 0 0 0 3 9 0 aa",
                     "spread 2 eeee 0 0 0 3 13 0 -",
                     "spread 2 eeee 1 0 0 3 12 0 -",
                     "spread 2 eeee 3 0 0 3 12 0 -",
                     "spread 2 " + "ee" * 66 + " 0 0 0 3 12 0 -",
                     "spread 2048 " + "ee" * 2048 + " 0 0 0 3 12 0 aa",
                     "spread 2 eeee 0 0 0 3 12 0 " + "ab" * 65_536,
                     # 14 before the address rule.
                     "spread 2 eeee 0 0 0 3 9 4294967295 aabb"):
            areas = line.split(" ")[2]
            self.says(line, f"refuses 14 @ 3 | {areas}")

    def test_bounds_themselves(self):
        self.starts("spread 1 " + "ee" * 32 + " 0 0 0 3 12 0 -", "gives 0 @ 3")
        # 32 areas of 2,047 take 2,035 each: 65,120 in all.
        areas = "00" * 2047 * 32
        self.starts(f"spread 2047 {areas} 0 0 0 0 12 0 " + "ab" * 65_120,
                    "gives 32" + " 2047 1 0" * 32 + " @ 32 |")
        self.starts(f"spread 2047 {areas} 0 0 0 0 12 0 " + "ab" * 65_121,
                    "refuses 13 @ 0 |")
        self.starts(f"spread 2047 {areas} 0 0 0 0 12 0 " + "ab" * 65_535,
                    "refuses 13 @ 0 |")

    def test_skipped_first_area(self):
        # Decision 19: 12 bytes free, so its state comes back.
        first = "11" * 24
        piece = packed("0c 08 00 00 00 00 01 00 00 00 aa 00 00") + "00" * 11
        self.says(f"spread 24 {first}{'22' * 24} 12 1 2 8 12 0 aa",
                  f"gives 2 12 1 2 13 1 0 @ 9 | {first}{piece}")

    def test_search_against_all_cuttings(self):
        for free in range(0, 41):
            for size in (free, 11, 12, 13, 14, 27, 40):
                for count in (1, 2, 3):
                    frees = (free,) + (size,) * (count - 1)
                    for length in range(0, 95):
                        self.assertEqual(spread.permitted(frees, length),
                                         exhaustive(frees, length),
                                         (frees, length))

    def test_rule_against_search(self):
        # The image is used up exactly when a permitted cutting exists, and
        # the pieces read back are the image.
        chance = random.Random(3)
        for _ in range(300):
            size = chance.randrange(1, 60)
            count = chance.randrange(1, 6)
            length = chance.randrange(0, 40 * count)
            self.check_read_back(size, count, chance.randbytes(length))

    def check_read_back(self, size, count, image_bytes):
        areas = "ee" * size * count
        answer = ask(f"spread {size} {areas} 0 0 0 9 10 1000 "
                     f"{hexed(image_bytes)}")
        if not exhaustive((size,) * count, len(image_bytes)):
            self.assertEqual(answer, f"refuses 13 @ 9 | {areas}")
            return
        said, rest = answer.split(" @ ")
        index, after = rest.split(" | ")
        numbers = list(map(int, said.split(" ")[1:]))
        last = numbers[0]
        self.assertEqual(len(numbers), 1 + 3 * last)
        self.assertEqual(int(index), 9 + last)
        offset = 0
        for area in range(last):
            used, pdus, start = numbers[1 + 3 * area:4 + 3 * area]
            self.assertEqual((pdus, start), (1, 0))
            begin = area * size
            frame = ((used + 0x1000).to_bytes(2, "little")
                     + bytes.fromhex(after)[begin:begin + size])
            fields = list(map(int, ask("frame " + frame.hex()).split()[1:]))
            self.assertEqual(fields[:4],
                             [1, 10, 9 + area, 1000 + offset])
            piece = fields[4]
            self.assertEqual(frame[fields[8]:fields[8] + piece],
                             image_bytes[offset:offset + piece])
            offset += piece
        self.assertEqual(offset, len(image_bytes))
        self.assertEqual(after[2 * size * last:], areas[2 * size * last:])


@lru_cache(maxsize=None)
def exhaustive(frees, length):
    """Tries every piece and every area: the definition, word for word."""
    if length == 0:
        return True
    if not frees:
        return False
    # The next area takes the next piece, or this one does.
    if exhaustive(frees[1:], length):
        return True
    return any(
        exhaustive((frees[0] - 12 - piece,) + frees[1:], length - piece)
        for piece in range(1, length + 1) if piece + 12 <= frees[0])


class Amended(Case):
    """The rules before a request, by its switch; now as in the tests above."""

    def before(self, name, line, then, now):
        with amended.before(name):
            self.says(line, then)
        self.says(line, now)

    def test_string_one_past_the_count(self):
        # The index less 1 was compared with the count, so 3 of 2 was looked
        # for; the byte behind the second string is its length, 0.
        bench = "string " + image((10, BENCH_STRINGS)) + " 4 {} eeeeeeee"
        self.before("E1", bench.format(2), *["gives 1 | 42eeeeee"] * 2)
        self.before("E1", bench.format(3), "gives 0 | eeeeeeee",
                    "absent | eeeeeeee")
        self.before("E1", bench.format(4), *["absent | eeeeeeee"] * 2)
        # No strings, then a length of 1 and its byte; a length of 9, which
        # the room has not; and a skip onto the end.
        for body, index, then in (("00014142", 1, "gives 1 | 41ee"),
                                  ("00094142", 1, "refuses 4 2 9 | eeee"),
                                  ("01024142", 2, "refuses 2 | eeee")):
            self.before("E1", f"string {image((10, bytes.fromhex(body)))} 4 "
                        f"{index} eeee", then, "absent | eeee")

    def test_name_one_past_the_count(self):
        # Order index 3 and name index 4, of two and of three strings.
        for word, count, text in (("name", 2, "43"), ("desc", 3, "44")):
            body = bytes([count]) + bytes.fromhex("014101420143014400")
            some = image((10, body), (30, GENERAL))
            self.before("E1", f"{word} {some} 4 eeee", f"gives 1 | {text}ee",
                        "absent | eeee")

    def test_byte_past_the_end(self):
        # It went by its position alone, and was refused at the highest.
        for pos, then in ((1, "gives 11 @ 2 2"), (2, "gives 12 @ 3 2"),
                          (3, "gives 255 @ 4 2"),
                          (65535, "gives 255 @ 65536 2"),
                          (131071, "gives 255 @ 131072 2"),
                          (131072, "refuses 1 @ 131072 2")):
            now = then if pos < 2 else f"refuses 2 @ {pos} 2"
            self.before("E4", f"byte 0a0b0c 4 {pos} 2", then, now)
        for line in ("byte 0a 4 65535 3", f"byte {'00' * 131_073} 4 2 2"):
            same = "refuses 14 @ " + " ".join(line.split(" ")[3:])
            self.before("E4", line, same, same)

    def test_string_in_an_empty_category(self):
        # The next header was looked at: type 1, so count 1 and length 0.
        line = "string {} 4 {} eeee"
        for after, index, then in (
                (1, 1, "gives 0 | eeee"), (1, 2, "absent | eeee"),
                # Type 0x0201: length 2, and nothing may be read.
                (0x0201, 1, "refuses 2 | eeee"),
                (0x0301, 1, "refuses 4 2 3 | eeee")):
            empty = image((10, b""), (after, b""))
            self.before("E4", line.format(empty, index), then,
                        "refuses 2 | eeee")
        # The count stood at 65,534, and the length, 0, at 65,535.
        line = "string " + Strings.AT_THE_TOP + " 4 {} ee"
        self.before("E4", line.format(1), "gives 0 | ee", "refuses 2 | ee")
        self.before("E4", line.format(7), "absent | ee", "refuses 2 | ee")
        # Before images of up to 131,072 bytes no byte was read there.
        with amended.before("E4", "E7"):
            self.says(line.format(1), "refuses 1 | ee")
            self.says("byte 0a0b0c 4 65534 2", "gives 255 @ 65535 2")
            self.says("byte 0a0b0c 4 65535 2", "refuses 1 @ 65535 2")

    def test_before_both(self):
        # Count 0 behind an empty category, and a length of 0.
        line = f"string {image((10, b''), (0, b''))} 4 1 eeee"
        self.before("E1", line, *["refuses 2 | eeee"] * 2)
        self.before("E4", line, "absent | eeee", "refuses 2 | eeee")
        with amended.before("E1", "E4"):
            self.says(line, "gives 0 | eeee")

    def test_link_to_the_entry(self):
        # The list of active ports was taken over and over; of two with equal
        # times the entry came last.
        once = "1 5 0 1 5 7 0 0 0 0 0 0"
        self.before("E10", f"assign {once} 8",
                    "gives 0 @ 1 5 8 1 5 7 0 0 0 0 0 0", f"absent @ {once}")
        full = "1 5 8 1 5 7 0 0 0 0 0 0"
        self.before("E10", f"assign {full} 9", *[f"absent @ {full}"] * 2)
        linked = ports((1, 100, 0), (1, 200, 5), (1, 300, 5), (1, 400, 5))
        self.before("E10", f"assign {linked} 6",
                    "gives 0 @ 1 100 6 1 200 5 1 300 5 1 400 5",
                    f"absent @ {linked}")

    def test_link_behind_an_inactive_place(self):
        # As many were dropped as the entry's place and one more, though the
        # list has only active ports. The entry is place 1: two of the list 1,
        # 3 are dropped, and 1 comes round; of 1, 2, 3 it is 3 that is left.
        self.before("E10",
                    "assign " + ports(None, (1, 1, 0), None, (1, 2, 0)) + " 5",
                    "gives 3 @ 0 0 0 1 1 5 0 0 0 1 2 0",
                    "gives 2 @ 0 0 0 1 1 0 0 0 0 1 2 5")
        self.before("E10", "assign "
                    + ports(None, (1, 1, 0), (1, 2, 0), (1, 2, 0)) + " 5",
                    "gives 2 @ 0 0 0 1 1 0 1 2 0 1 2 5",
                    "gives 1 @ 0 0 0 1 1 0 1 2 5 1 2 0")

    def test_word_that_was_added(self):
        self.before("E6", f"totalfrom {ALL_FOUR} 0", "refuses 14", "gives 300")
        self.before("E6", f"totalfrom {ALL_FOUR} 4", "refuses 14",
                    "refuses 10")
        self.before("E6", f"totalfrom {ALL_FOUR}", *["refuses 14"] * 2)
        self.before("E6", f"total {ALL_FOUR}", *["gives 300"] * 2)

        self.before("E9", "received 0 0010", "refuses 14", "gives 0")
        self.before("E9", "received 0 -", "refuses 14", "refuses 19 0")
        self.before("E9", "received 0", *["refuses 14"] * 2)
        self.before("E9", "frame 0010", *["gives 0"] * 2)

    def test_larger_images(self):
        for length, then in ((65_536, "gives 0"), (65_537, "refuses 14"),
                             (131_072, "refuses 14")):
            self.before("E7", f"alias {'00' * length} 4", then, "gives 0")
        line = f"alias {'00' * 131_073} 4"
        self.before("E7", line, *["refuses 14"] * 2)
        # A string has a room to show, which a line that can't be read has not.
        line = f"string {'00' * 131_073} 4 1 ee"
        self.before("E7", line, "refuses 14", "refuses 14 | ee")
        self.before("E7", line.replace("00", "", 1), "refuses 14 | ee",
                    "absent | ee")

    def test_larger_ranges(self):
        self.before("E7", "new 0 32767", *["gives 0 65534"] * 2)
        self.before("E7", "new 0 32768", "refuses 1", "gives 0 65536")
        self.before("E7", "startat 65535 2", "refuses 1",
                    "gives 131070 131072")
        self.before("E7", "startat 65535 4", *["refuses 1"] * 2)
        self.before("E7", "skip 65535 65534 1",
                    *["refuses 2 @ 65535 65534"] * 2)
        # Position and end had 16 bits.
        self.before("E7", "skip 65535 65536 0", "refuses 14",
                    "gives @ 65535 65536")
        self.before("E7", "skip 131073 0 0", "refuses 14",
                    "refuses 14 @ 131073 0")
        self.before("E7", "write 0a 131071 131072 61", "refuses 14",
                    "refuses 1 @ 131071 131072 | 0a")

    def test_larger_categories(self):
        # 132 + 2 times 32,701 is 65,534.
        start = bytes(128).hex()
        for words, then, now in (
                (32701, "gives 132 65534", "gives 132 65534"),
                (32702, "refuses 1", "gives 132 65536"),
                (65470, "refuses 1", "gives 132 131072"),
                (65471, "refuses 1", "refuses 1")):
            line = f"category {start}{header(10, words).hex()} 4 10"
            self.before("E7", line, then, now)
        # All that is read from one: past the image a count of 255 and a
        # string of 255 bytes; General with undefined bits; clocks.
        self.before("E7", f"string {start}{header(10, 32702).hex()} 4 1 ee",
                    "refuses 1 | ee", "refuses 4 1 255 | ee")
        self.before("E7", f"general {start}{header(30, 32702).hex()} 4",
                    "refuses 1", "refuses 5")
        self.before("E7", f"clocks {start}{header(60, 32702).hex()} 4",
                    "refuses 1", "refuses 6")
        # The search moves by 16-bit words, before and now.
        for words, said in ((65469, "absent"), (65470, "refuses 1")):
            line = f"category {start}{header(1, words).hex()} 4 10"
            self.before("E7", line, said, said)

    def test_longer_lines(self):
        self.before("E7", "crc " + "00" * 131_073, "refuses 14",
                    f"gives {crc(bytes(131_073))}")
        zeros = "0" * (600_000 - len("new  4"))
        self.before("E7", f"new {zeros} 4", *["gives 0 8"] * 2)
        self.before("E7", f"new {zeros}0 4", "refuses 14", "gives 0 8")

    def test_names(self):
        for name in ("E3", "E99", "", "e1"):
            self.assertRaises(amended.NoAmendment, amended.switch_off, name)
        for words in (["--before"], ["E1"], ["--before", "E3"],
                      ["--before", "E1", "E1"], ["--after", "E1"]):
            with amended.before():
                self.assertRaises(amended.NoAmendment, amended.take_words,
                                  words)
        for name in amended.NAMES:
            self.assertTrue(amended.in_force(name))
            with amended.before(name):
                self.assertFalse(amended.in_force(name))

    def test_program(self):
        line = f"string {image((10, BENCH_STRINGS))} 4 3 ee".encode()
        for words, said in (([], b"absent | ee\n"),
                            (["--before", "E1"], b"gives 0 | ee\n")):
            done = subprocess.run([sys.executable, HERE, *words], input=line,
                                  stdout=subprocess.PIPE, check=True)
            self.assertEqual(done.stdout, said)
        done = subprocess.run([sys.executable, HERE, "--before", "E3"],
                              input=line, stdout=subprocess.PIPE,
                              stderr=subprocess.PIPE, check=False)
        self.assertEqual((done.returncode, done.stdout), (2, b""))
        self.assertIn(b"E3 amends no answer", done.stderr)


class Refusals(Case):
    def test_each_number(self):
        for number, line in (
                (1, "new 65535 2"),
                (2, "skip 0 0 0"),
                (3, "general - 4"),
                (4, f"string {image((10, bytes.fromhex('01014100')))} 4 1 -"),
                (5, "mailbox - 4"),
                (6, f"sms {image((41, bytes(72)))} 4"),
                (7, "setalias - 0"),
                (8, "push - 0 0 0 0 0 0 - 0"),
                (9, f"entry {NO_PORTS}"),
                (10, f"timeto {ALL_FOUR} 4"),
                (11, "between 1 0 0 1 4294967295 0 1 0 0 1 1 0 2"),
                (12, "frame -"),
                (13, "spread 1 00 0 0 0 0 10 0 00"),
                (14, "category - 4 0"),
                (19, "received 0 -"),
                (20, "received 1 0 12 0 1 0c10" + "00" * 12),
                (21, "received 1 0 12 1 0 0c10" + "00" * 12),
                (22, "received 1 0 13 0 0 0c10" + "00" * 12)):
            self.starts(line, f"refuses {number}")


class Lines(Case):
    def unreadable(self, *lines):
        for line in lines:
            self.says(line, "refuses 14")

    def test_words(self):
        self.unreadable("", " ", "nothing", "CRC -", "crc", "crc  -", "crc - ",
                        " crc -", "crc - -", "crc\t-", "crc -\r", "-", "14")

    def test_not_text(self):
        self.unreadable(b"\xff\xfe", b"crc \xc3\xa9", b"new 1 \xd9\xa1",
                        b"crc \x00", b"\x00", b"crc\x00 -")

    def test_hex(self):
        self.unreadable("crc 0", "crc 000", "crc AB", "crc 0x", "crc 0g",
                        "crc --", "crc -00", "crc 0 0", "crc 00,")
        self.says("crc ff", "gives 0")

    def test_hex_limit(self):
        self.starts("crc " + "00" * 262_144, "gives")
        self.unreadable("crc " + "00" * 262_145)

    def test_numbers(self):
        self.unreadable("new 65536 0", "new -1 0", "new +1 0", "new 1.0 0",
                        "new 0x1 0", "new 1_0 0", "new  0", "new a 0",
                        "new 99999999999999999999 0")
        self.says("new 00003 4", "gives 6 14")
        self.says("new " + "0" * 5000 + "3 4", "gives 6 14")
        self.says("new " + "0" * 5000 + " 4", "gives 0 8")
        self.unreadable("new " + "0" * 5000 + "65536 4", "new " + "1" * 5000
                        + " 4")

    def test_widths(self):
        self.unreadable("skip 4294967296 0 0", "skip 0 4294967296 0",
                        "skip 0 2 65536", "byte 0a 4 0 4294967296",
                        "new 0 65536", "startat 0 65536")
        self.unreadable(f"timeto {ALL_FOUR} 256", f"totalfrom {ALL_FOUR} 256",
                        f"linked {ALL_FOUR} 65536",
                        "string - 4 256 -", "push - 0 0 0 256 0 0 - 0",
                        "push - 0 0 0 0 256 0 - 0",
                        "push - 0 0 0 0 0 4294967296 - 0",
                        "push - 0 0 0 0 0 0 - 65536", "header 65536",
                        "entry 1 4294967296 0 0 0 0 0 0 0 0 0 0",
                        f"times {ALL_FOUR} 0 0 4294967296 0",
                        "canpush 0 0 0 0 65536", "setalias - 65536")
        self.says(f"timeto {ALL_FOUR} 255", "refuses 10")

    def test_chunk(self):
        self.unreadable("alias - 0", "alias - 5", "alias - 16", "alias - -",
                        "byte 00 2 0 2", "string - 7 0 ee")
        self.says("alias - 08", "gives 65535")

    def test_no_answer_depends_on_the_chunk(self):
        chance = random.Random(4)
        body = chance.randbytes(30)
        some = image((10, BENCH_STRINGS), (30, GENERAL), (41, body))
        for line in ("byte {} {} 7 8", "read {} {} 3 140 " + "00" * 40,
                     "exact {} {} 131 150 " + "00" * 9, "category {} {} 41",
                     "alias {} {}", "size {} {}", "identity {} {}",
                     "mailbox {} {}", "general {} {}", "sms {} {}",
                     "string {} {} 1 eeeeee", "name {} {} eeeeee"):
            self.assertEqual(ask(line.format(some, 4)),
                             ask(line.format(some, 8)))

    def test_active(self):
        self.unreadable("entry 2 0 0 0 0 0 0 0 0 0 0 0")

    def test_too_few_and_too_many(self):
        good = ("crc 00", "new 1 2", "startat 1 2", "skip 0 2 1",
                "byte 00 4 0 2", "read 00 4 0 2 00", "exact 00 4 0 2 00",
                "write 00 0 2 00", "category 00 4 10", "inside 00 4 10",
                "alias 00 4",
                "size 00 4", "setalias 00 1", "identity 00 4",
                f"mailbox {'00' * 58} 4", f"hasmail {'00' * 58} 4",
                "general 00 4", "physport 00 4", "physaddr 00 4",
                "sms 00 4", "usages 00 4", "fmmus 00 4", "fmmuex 00 4",
                "pdos 00 4 50", "pdi 00 4", "bootmail 00 4", "version 00 4",
                "checksum 00 4", "clocks 00 4",
                "string 00 4 1 00", "name 00 4 00",
                "desc 00 4 00", f"entry {ALL_FOUR}", f"last {ALL_FOUR}",
                f"topology {ALL_FOUR}", f"total {ALL_FOUR}",
                f"totalfrom {ALL_FOUR} 1",
                f"timeto {ALL_FOUR} 1", f"between {ALL_FOUR} 1",
                f"linked {ALL_FOUR} 1", f"assign {ALL_FOUR} 1",
                f"times {ALL_FOUR} 1 2 3 4", f"display {ALL_FOUR}", "open 00",
                "push 00 0 0 0 0 0 0 00 0", "handle 00 0 0 0 0 0 0 00 0",
                "rest 00 0 0 0 0 0 0 00",
                "canpush 1 0 0 0 1", "header 1", "frame 0010",
                "received 1 0 12 0 0 0c10" + "00" * 12,
                "spread 1 00 0 0 0 0 10 0 -")
        self.assertEqual({line.split(" ")[0] for line in good},
                         {word.decode() for word in requests.TABLE})
        for line in good:
            self.assertNotEqual(ask(line), "refuses 14")
            self.unreadable(line + " 0", line.rsplit(" ", 1)[0])

    def test_the_longest_line(self):
        zeros = "0" * (1_179_648 - len("new  4"))
        self.says(f"new {zeros} 4", "gives 0 8")
        self.says(f"new {zeros}0 4", "refuses 14")

    def test_any_line_is_answered(self):
        chance = random.Random(5)
        good = [f"assign {ALL_FOUR} 1", "push " + "00" * 30
                + " 12 1 0 0 10 77 0102 0", "frame 0c10" + "00" * 12,
                f"received {Received.HANDLES} {Received.FRAME}",
                f"string {image((10, BENCH_STRINGS))} 4 2 0000",
                f"general {image((30, GENERAL))} 8",
                "spread 20 " + "00" * 40 + " 0 0 0 0 10 0 010203"]
        for _ in range(3000):
            line = bytearray(chance.choice(good).encode())
            for _ in range(chance.randrange(1, 4)):
                line[chance.randrange(len(line))] = chance.randrange(256)
            first = ask(bytes(line)).split(" ")[0]
            self.assertIn(first, ("gives", "absent", "refuses"))


class Loop(Case):
    def lines(self, *pieces):
        return [line for batch in desk.line_batches(pieces) for line in batch]

    def test_lines(self):
        self.assertEqual(self.lines(), [])
        self.assertEqual(self.lines(b"a"), [b"a"])
        self.assertEqual(self.lines(b"a\n"), [b"a"])
        self.assertEqual(self.lines(b"\n"), [b""])
        self.assertEqual(self.lines(b"a\n\nb"), [b"a", b"", b"b"])
        self.assertEqual(self.lines(b"a", b"b", b"c\nd", b"\ne"),
                         [b"abc", b"d", b"e"])

    def test_program(self):
        asked = (b"crc 313233343536373839\n\n\xff\xfe\nnew 1 1\r\n"
                 b"read 0a 4 0 2 eeee\nheader 28")
        done = subprocess.run([sys.executable, HERE], input=asked,
                              stdout=subprocess.PIPE, check=True)
        self.assertEqual(done.stdout,
                         b"gives 251\nrefuses 14\nrefuses 14\nrefuses 14\n"
                         b"gives 2 @ 2 2 | 0aff\ngives | 1c10\n")


if __name__ == "__main__":
    unittest.main()
