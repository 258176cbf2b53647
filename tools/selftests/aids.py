"""Checks tools/record and tools/show against hand-computed bytes. Needs nothing else."""
import hashlib
import io
import os
import struct
import subprocess
import sys
import tempfile
import unittest
import zlib

from formats import output, picture, record_text
from formats.record import RecordFault

TOOLS = os.path.dirname(os.path.dirname(os.path.abspath(__file__)))
EXAMPLES = os.path.join(TOOLS, "..", "examples")

HEAD = "51475231 01 08000000 06000000 01000000 00200000 00100000 5a000000 00000000 01 0000ff00 03 726564"
EMPTY_DESK = bytes.fromhex(HEAD + "09 0a")
VERSION = "07000100"
CREATE = "82000000 01000000 18000000 02000000 02000000 02000000 02000000 00000000 00000000"
MAP = "84000000 01000000 08000000 00000000 00000000"
FIRST_WINDOW = bytes.fromhex(HEAD + "02 00 3c000000" + VERSION + CREATE + MAP + "09 0a")

# Each message with window 1 (of the text) and its bytes behind the header's window.
MESSAGES = (
    ("create 1 x=-1 y=2 width=3 height=4 parent=5 override=6", "82", "18 ffffffff 02 03 04 05 06"),
    ("destroy 1", "83", "00"),
    ("map 1 transient_for=2 override=1", "84", "08 02 01"),
    ("unmap 1", "85", "00"),
    ("configure 1 x=1 y=-2 width=3 height=4 override=1", "86", "14 01 feffffff 03 04 01"),
    ("shmimage 1 x=1 y=2 width=3 height=4", "88", "10 01 02 03 04"),
    ("dock 1", "8f", "00"),
    (
        "window_hints 1 flags=1 min_width=2 min_height=3 max_width=4 max_height=5"
        " width_inc=6 height_inc=7 base_width=8 base_height=9",
        "90",
        "24 01 02 03 04 05 06 07 08 09",
    ),
    ("window_flags 1 set=1 unset=4", "91", "08 01 04"),
    ("window_dump 1 type=0 width=64 height=16 bpp=32 refs=7..9,3", "93", "20 00 40 10 20 07 08 09 03"),
    ("cursor 1 cursor=258", "94", "04 02010000"),
    ("message 200 1 body=01000000", "c8", "04 01"),
)

# Each later item of the record but Bytes, and its bytes.
ITEMS = (
    ("closed 0", "03 00"),
    (
        "store 0 delay=1 page=2 offset=8 words=00112233,00aabbcc",
        "04 00 0100 02000000 08000000 08000000 33221100 ccbbaa00",
    ),
    ("key down 38 state=5", "05 01 26 0500"),
    ("key up 38 state=0", "05 00 26 0000"),
    ("move -1 3 state=0", "06 ffffffff 03000000 0000"),
    ("press down 1 state=8191", "07 01 01 ff1f"),
    ("press up 15 state=0", "07 00 0f 0000"),
    ("command close", "08 01 00000000 00000000"),
    ("command next", "08 02 00000000 00000000"),
    ("command restore", "08 03 00000000 00000000"),
    ("command move_to x=-2 y=7", "08 04 feffffff 07000000"),
    ("command size_to width=0 height=5", "08 05 00000000 05000000"),
    ("snap", "09"),
    ("lost 0", "0b 00"),
)

# What the user does, wrong: cut within its fields, or with a field out of its range.
WRONG_EVENTS = (
    ("05 01 26 00", "short"),
    ("05 02 26 0000", "range"),
    ("05 01 26 0020", "range"),
    ("06 00000000 00000000 00", "short"),
    ("06 00000000 00000000 ffff", "range"),
    ("07 01 00 0000", "range"),
    ("07 00 10 0000", "range"),
    ("07 01 01 0020", "range"),
    ("08 04 00000000 000000", "short"),
    ("08 00 00000000 00000000", "range"),
    ("08 06 00000000 00000000", "range"),
    ("08 02 01000000 00000000", "range"),
    ("08 03 00000000 01000000", "range"),
)

# A plane of 12 by 6 pixels and the guest red, up to what the second version has behind the guests.
PLANE = "51475232 01 0c000000 06000000 01000000 00200000 00100000 5a000000 00000000 01 0000ff00 03 726564"
PLANE_TEXT = "config width=12 height=6 border=1\nguest red ff0000\n"
LEFT, RIGHT = "00000000 00000000 05000000 06000000", "07000000 00000000 05000000 06000000"
WHOLE = "00000000 00000000 0c000000 06000000"
TWO_OUTPUTS = bytes.fromhex(PLANE + "02" + LEFT + RIGHT + "0a")
PLANE_AS_OUTPUT = bytes.fromhex(PLANE + "01" + WHOLE + "0a")


def third(text):
    """A record of the third version from the digits of one of the second."""
    return bytes.fromhex("51475233" + text[8:] + "0a")


# The same plane with the guests red and green in the third version, up to the clipboard.
PAIR_PLANE = PLANE[:-22] + " 02 0000ff00 03 726564 00ff0000 05 677265656e 01" + WHOLE
PAIR_TEXT = PLANE_TEXT + "guest green 00ff00\n"
PLAIN_CLIPBOARD = third(PLANE + "01" + WHOLE + "01 00")

# Configurations that are wrong in what the later versions have, and the rule that they break.
WRONG_SETUPS = (
    (bytes.fromhex(PLANE + "00"), 17),
    (bytes.fromhex(PLANE + "09"), 17),
    (bytes.fromhex(PLANE + "01 00000000 00000000 0d000000 06000000"), 18),
    (bytes.fromhex(PLANE + "01 00000000 00000000 00000000 06000000"), 18),
    (bytes.fromhex(PLANE + "01 ffffffff 00000000 05000000 06000000"), 18),
    (bytes.fromhex(PLANE + "02" + LEFT + "04" + RIGHT[2:]), 19),
    (third(PLANE + "01" + WHOLE + "03 00"), 20),
    (third(PLANE + "01" + WHOLE + "01 01 0000"), 21),
    (third(PLANE + "01" + WHOLE + "01 01 0001"), 21),
    (third(PAIR_PLANE + "01 02 0100 0001"), 22),
    (third(PAIR_PLANE + "01 02 0001 0001"), 22),
)

DESK = "config width=8 height=6 border=1\nguest red ff0000\n"
PPM = b"P6\n8 6\n255\n"
BLACK, RED, GREY = bytes(3), b"\xff\0\0", b"\x80\x80\x80"
EMPTY_OUTPUT = (
    bytes.fromhex("03 9b000000") + PPM + bytes(144)
    + bytes.fromhex("04 0200000000000000 0000000000000000 0000000000000000 3000000000000000")
)
RING = BLACK + RED * 4 + BLACK * 3
SIDES = BLACK + RED + GREY * 2 + RED + BLACK * 3
WINDOW_PIXELS = BLACK * 8 + RING + SIDES + SIDES + RING + BLACK * 8
WINDOW_REPLIES = bytes.fromhex(
    "01 00 04000000 07000100"
    "01 00 10000000 08000000 06000000 18000000 01000000"
    "01 00 18000000 80000000 01000000 0c000000 09000000 00000000 03000000"
    "01 00 2c000000 8e000000 00000000 20000000" + "00" * 32
)
WINDOW_OUTPUT = (
    WINDOW_REPLIES + bytes.fromhex("03 9b000000") + PPM + WINDOW_PIXELS
    + bytes.fromhex("04 0300000000000000 0200000000000000 0000000000000000 3000000000000000")
)
WINDOW_LINES = """\
reply 0 version 1.7
reply 0 xconf width=8 height=6 depth=24 mem=1
reply 0 FOCUS 1 type=in mode=0 detail=3
reply 0 KEYMAP_NOTIFY 0 keys=none
picture 1: 8 by 6, sha256 *
    ........
    .RRRR...
    .R--R...
    .R--R...
    .RRRR...
    ........
    .=000000 (32) R=ff0000 (12) -=808080 (4)
summary items=3 messages=2 glances=0 painted=48
"""


def numbers(text):
    """Bytes of numbers of 32 bits: two digits are a small number, eight digits its bytes."""
    return b"".join(bytes.fromhex(part.ljust(8, "0")) for part in text.split())


def tool(name, *words, data=b""):
    return subprocess.run([sys.executable, os.path.join(TOOLS, name), *words], input=data, capture_output=True)


def shown(data):
    teller = output.Teller()
    return [line for post in output.posts_of(io.BytesIO(data)) for line in teller.lines(post)]


class Records(unittest.TestCase):
    def both_ways(self, text, data):
        self.assertEqual(record_text.record_of(text), data)
        printed = record_text.text_of(data)
        self.assertEqual(record_text.record_of(printed), data)
        return printed

    def test_empty_desk(self):
        self.assertEqual(len(EMPTY_DESK), 44)
        self.both_ways(DESK + "snap\nend\n", EMPTY_DESK)

    def test_first_window(self):
        block = "bytes red {\n version 1.7 # the newest\n create 1 x=2 y=2 width=2 height=2; map 1\n}\n"
        printed = self.both_ways(DESK + block + "snap\nend\n", FIRST_WINDOW)
        self.assertIn("    create 1 x=2 y=2 width=2 height=2 parent=0 override=0\n", printed)
        line = "bytes 0 hex " + VERSION + CREATE + MAP + "\n"
        self.both_ways(DESK + line + "snap\nend\n", FIRST_WINDOW)

    def test_messages(self):
        for text, kind, rest in MESSAGES:
            unit = numbers(kind + " 01 " + rest)
            piece = bytes.fromhex(VERSION) + unit
            data = bytes.fromhex(HEAD) + b"\2\0" + struct.pack("<I", len(piece)) + piece + b"\x0a"
            printed = self.both_ways(f"{DESK}bytes 0 version 1.7; {text}\nend\n", data)
            self.assertIn("    " + text + "\n", printed)

    def test_texts(self):
        for text, kind, body in (
            ('wmname 1 title="a \\"b\\" # \\\\ \\xff"', 141, b'a "b" # \\ \xff'.ljust(128, b"\0")),
            ('wmclass 1 class="x" name=""', 146, b"x".ljust(64, b"\0") + bytes(64)),
            ('clipboard_data 1 text="a;b"', 140, b"a;b"),
            ("clipboard_data 1 hex=00ff", 140, b"\0\xff"),
            ("clipboard_data 1 fill=61 count=65000", 140, b"a" * 65000),
        ):
            piece = bytes.fromhex(VERSION) + struct.pack("<III", kind, 1, len(body)) + body
            data = bytes.fromhex(HEAD) + b"\2\0" + struct.pack("<I", len(piece)) + piece + b"\x0a"
            printed = self.both_ways(f"{DESK}bytes 0 version 1.7; {text}\nend\n", data)
            self.assertIn("    " + text + "\n", printed)

    def test_items(self):
        for text, item in ITEMS:
            data = bytes.fromhex(HEAD + item + "0a")
            self.assertIn("\n" + text + "\n", self.both_ways(f"{DESK}{text}\nend\n", data))

    def test_cut(self):
        data = record_text.record_of(DESK + "bytes 0 cut=1 version 1.7; map 1\nend\n")
        pieces = b"".join(b"\2\0\1\0\0\0" + bytes([byte]) for byte in bytes.fromhex(VERSION + MAP))
        self.assertEqual(data, bytes.fromhex(HEAD) + pieces + b"\x0a")
        printed = record_text.text_of(data)
        self.assertIn("bytes 0 hex 07\nbytes 0 hex 00\nbytes 0 hex 01\n", printed)
        self.assertEqual(record_text.record_of(printed), data)

    def test_message_after_a_cut_one(self):
        text = f"{DESK}bytes 0 version 1.7\nbytes 0 hex {MAP[:20]}\nbytes 0 hex {MAP[20:]}\nbytes 0 map 1\nend\n"
        printed = record_text.text_of(record_text.record_of(text))
        self.assertEqual(printed.count("hex"), 2)
        self.assertIn("bytes 0 map 1 transient_for=0 override=0\n", printed)

    def test_behind_end(self):
        printed = self.both_ways(DESK + "snap\nend\nraw 00 ff\n", EMPTY_DESK + b"\0\xff")
        self.assertTrue(printed.endswith("end\nraw 00ff\n"))

    def test_examples(self):
        for name in sorted(os.listdir(EXAMPLES)):
            if not name.endswith(".txt"):
                continue
            with open(os.path.join(EXAMPLES, name)) as file:
                text = file.read()
            data = record_text.record_of(text)
            self.both_ways(text, data)
            worked = {"empty_desk.txt": EMPTY_DESK, "first_window.txt": FIRST_WINDOW}
            self.assertEqual(data, worked.get(name, data))

    def test_versions(self):
        for lines, data in (
            (PLANE_TEXT + "output 0 0 5 6\noutput 7 0 5 6\n", TWO_OUTPUTS),
            (PLANE_TEXT + "clip 2\n", third(PLANE + "01" + WHOLE + "02 00")),
            (PLANE_TEXT + "output 0 0 5 6\noutput 7 0 5 6\nclip 2\n", third(PLANE + "02" + LEFT + RIGHT + "02 00")),
            (PAIR_TEXT + "deny green red\ndeny red green\n", third(PAIR_PLANE + "01 02 0001 0100")),
        ):
            printed = self.both_ways(lines + "end\n", data)
            self.assertNotIn("version", printed)
        # what a lower version has isn't written in a higher one
        self.assertEqual(record_text.record_of(PLANE_TEXT + "output 0 0 12 6\nclip 1\nend\n")[:4], b"QGR1")

    def test_text_faults(self):
        for text, line, words in (
            ("snap\nend\n", 1, "config stands first"),
            (DESK + "snap\n", 3, "without `end`"),
            (DESK + "snap\nend\nsnap\n", 5, "behind `end`"),
            (DESK + "bytes 1 version 1.7\nend\n", 3, "guest 1"),
            (DESK + "bytes blue version 1.7\nend\n", 3, "no guest blue"),
            (DESK + "bytes 0 {\nversion 1.7\nmapp 1\n}\nend\n", 5, "is one of"),
            (DESK + "bytes 0 {\nversion 1.7\n", 4, "block of line 3"),
            (DESK + "bytes 0 create 1 x=0 y=0 width=1\nend\n", 3, "height= is missing"),
            (DESK + "bytes 0 map 1 parent=0\nend\n", 3, "no parent= here"),
            (DESK + "bytes 0\nend\n", 3, "1 to 65536"),
            (DESK + "store 0 page=8192 words=0\nend\n", 3, "8192 pages"),
            (DESK + "store 0 offset=4092 words=0*2\nend\n", 3, "4096"),
            (DESK + "press down 16\nend\n", 3, "button is 1 to 15"),
            (DESK + "key sideways 1\nend\n", 3, "sideways"),
            (DESK + "key down 256\nend\n", 3, "code is not within 0 to 255"),
            (DESK + "move 1 2 state=8192\nend\n", 3, "state is at most 8191"),
            (DESK + "move 2147483648 0\nend\n", 3, "x is not within"),
            (DESK + "move 1\nend\n", 3, "y is missing"),
            (DESK + "command move_to x=1\nend\n", 3, "x= and y="),
            (DESK + "command next x=1\nend\n", 3, "no x= here"),
            (DESK + "command next a=1\nend\n", 3, "a and b of this command are 0"),
            (DESK + "command 6\nend\n", 3, "code is 1 to 5"),
            ("config width=8 height=6 border=17\nguest a ff0000\nend\n", 3, "rule 5"),
            ("config width=8\n", 1, "height= is missing"),
            ("config width=8 height=six\n", 1, "six"),
            (DESK + 'bytes 0 wmname 1 title="a\nend\n', 3, "blank is missing"),
            (DESK + "output 0 0 9 6\nend\n", 4, "rule 18"),
            (DESK + "output 0 0 5 6\noutput 4 0 4 6\nend\n", 5, "rule 19"),
            (DESK + "output 0 0 5\nend\n", 3, "height is missing"),
            (DESK + "clip 3\nend\n", 4, "rule 20"),
            (DESK + "clip 2\nclip 2\nend\n", 4, "clip stands once"),
            (DESK + "deny red red\nend\n", 4, "rule 21"),
            (DESK + "deny red blue\nend\n", 3, "no guest blue"),
            (PAIR_TEXT + "deny 0 1\ndeny 0 1\nend\n", 6, "rule 22"),
            (DESK + "snap\nclip 2\nend\n", 4, "before the first item"),
            ("config width=8 height=6 version=3\nguest red ff0000\nend\n", 3, "version 1 has"),
        ):
            with self.assertRaises(record_text.TextFault, msg=text) as caught:
                record_text.record_of(text)
            self.assertEqual(caught.exception.line, line, text)
            self.assertIn(words, str(caught.exception))

    def test_record_faults(self):
        head = bytes.fromhex(HEAD)
        for data, offset, kind in (
            (b"", 0, "short"),
            (b"QGR", 0, "short"),
            (b"QGR4" + EMPTY_DESK[4:], 0, "magic"),
            (EMPTY_DESK[:4], 4, "short"),
            (EMPTY_DESK[:4] + b"\2", 4, "kind"),
            (EMPTY_DESK[:30], 4, "short"),
            (head, 42, "short"),
            (EMPTY_DESK[:43], 43, "short"),
            (EMPTY_DESK[:43] + b"\xff", 43, "kind"),
            (EMPTY_DESK[:43] + b"\1", 43, "kind"),
            (EMPTY_DESK[:43] + b"\2\0\1\0\0", 43, "short"),
            (EMPTY_DESK[:43] + b"\2\1\1\0\0\0", 43, "range"),
            (EMPTY_DESK[:43] + b"\2\0\0\0\0\0", 43, "range"),
            (EMPTY_DESK[:43] + b"\2\0\2\0\0\0a", 43, "short"),
            *((EMPTY_DESK[:43] + bytes.fromhex(item), 43, kind) for item, kind in WRONG_EVENTS),
            (EMPTY_DESK[:37] + b"\0", 4, "short"),
            (EMPTY_DESK[:33] + b"\x11", 4, "bad configuration, rule 1"),
            (EMPTY_DESK[:13] + b"\x11" + EMPTY_DESK[14:], 4, "bad configuration, rule 5"),
            (TWO_OUTPUTS[:42], 4, "short"),
            (TWO_OUTPUTS[:74], 4, "short"),
            (PLANE_AS_OUTPUT, 4, "range"),
            (PLAIN_CLIPBOARD, 4, "range"),
            (PLAIN_CLIPBOARD[:59], 4, "short"),
            (PLAIN_CLIPBOARD[:60], 4, "short"),
            *((data, 4, f"bad configuration, rule {rule}") for data, rule in WRONG_SETUPS),
        ):
            with self.assertRaises(RecordFault, msg=data) as caught:
                record_text.text_of(data)
            self.assertEqual((caught.exception.offset, caught.exception.kind), (offset, kind), data)
            loose = record_text.text_of(data, loose=True)
            self.assertEqual(record_text.record_of(loose, loose=True), data)


class Outputs(unittest.TestCase):
    def test_empty_desk(self):
        self.assertEqual(len(EMPTY_OUTPUT), 193)
        lines = shown(EMPTY_OUTPUT)
        self.assertEqual(lines[1:7], ["    ........"] * 6)
        self.assertEqual(lines[-1], "summary items=2 messages=0 glances=0 painted=48")

    def test_first_window(self):
        lines = shown(WINDOW_OUTPUT)
        self.assertEqual(len(lines), len(WINDOW_LINES.splitlines()))
        for line, wanted in zip(lines, WINDOW_LINES.splitlines()):
            self.assertTrue(line.startswith(wanted[:-1]) if wanted.endswith("*") else line == wanted, line)

    def test_replies(self):
        greeting = numbers("08 06 18 01")
        for reply, wanted in (
            ("7c 01 14 02 00 00 05 36", "KEYPRESS 1 type=press x=0 y=0 state=5 keycode=54"),
            ("7c 02 14 03 00 00 00 26", "KEYPRESS 2 type=release x=0 y=0 state=0 keycode=38"),
            ("7d 01 14 04 feffffff 01 00 03", "BUTTON 1 type=press x=-2 y=1 state=0 button=3"),
            ("7d 01 14 05 09 ffffffff 00010000 01", "BUTTON 1 type=release x=9 y=-1 state=256 button=1"),
            ("7e 01 10 09 01 00 00", "MOTION 1 x=9 y=1 state=0 is_hint=0"),
            ("7f 01 1c 07 00 02 00 00 03 00", "CROSSING 1 type=enter x=0 y=2 state=0 mode=0 detail=3 focus=0"),
            ("7f 01 1c 08 09 01 00 00 03 01", "CROSSING 1 type=leave x=9 y=1 state=0 mode=0 detail=3 focus=1"),
            ("80 01 0c 09 00 03", "FOCUS 1 type=in mode=0 detail=3"),
            ("80 01 0c 0a 00 03", "FOCUS 1 type=out mode=0 detail=3"),
            ("8e 00 20" + " 00" * 8, "KEYMAP_NOTIFY 0 keys=none"),
            ("8e 00 20 40" + " 00" * 7, "KEYMAP_NOTIFY 0 keys=40" + "00" * 31),
            ("86 01 14 0f 01 04 02 01", "CONFIGURE 1 x=15 y=1 width=4 height=2 override=1"),
            ("89 01 00", "CLOSE 1"),
            ("8b 01 00", "CLIPBOARD_REQ 1"),
            ("8c 01 04 61626364", 'CLIPBOARD_DATA 1 text="abcd"'),
            ("95 01 00", "WINDOW_DUMP_ACK 1"),
        ):
            data = b"".join(b"\1\2" + struct.pack("<I", len(body)) + body for body in (greeting, numbers(reply)))
            self.assertEqual(shown(data)[1], "reply 2 " + wanted)

    def test_clipboard_data(self):
        for body, wanted in (
            (b"abc", 'text="abc"'),
            (b"\0\xff", "hex=00ff"),
            (b"a" * 256000, "fill=61 count=256000"),
            (b"ab" * 33, "bytes=66 sha256=" + hashlib.sha256(b"ab" * 33).hexdigest()[:16]),
        ):
            reply = struct.pack("<III", 140, 1, len(body)) + body
            data = b"\1\0\x10\0\0\0" + numbers("08 06 18 01") + b"\1\0" + struct.pack("<I", len(reply)) + reply
            self.assertEqual(shown(data)[1], "reply 0 CLIPBOARD_DATA 1 " + wanted)

    def test_several_outputs(self):
        teller = output.Teller(0, outputs=2)
        pictures = EMPTY_OUTPUT[:160] * 3
        lines = [line for post in output.posts_of(io.BytesIO(pictures)) for line in teller.lines(post)]
        names = ["1 (snap 1, output 1)", "2 (snap 1, output 2)", "3 (snap 2, output 1)"]
        self.assertEqual([line.split(":")[0] for line in lines], ["picture " + name for name in names])

    def test_endings(self):
        for data, wanted in (
            ("02 00 01 00000200 00000000", "ended 0 cause 1 BadVersion word=131072"),
            ("02 01 02 82000000 00000000", "ended 1 cause 2 BadType type=130"),
            ("02 00 04 03000000 00000080", "ended 0 cause 4 BadRange field=3 value=2147483648"),
            ("02 00 07 01040000 00040000", "ended 0 cause 7 TooManyWindows window=1025 limit=1024"),
            ("02 00 0c 00000000 00000000", "ended 0 cause 12 StreamEnded"),
        ):
            self.assertEqual(shown(bytes.fromhex(data)), [wanted])

    def test_faults(self):
        for data, offset, words in (
            (b"\5", 0, "no kind"),
            (EMPTY_OUTPUT[:4], 0, "within the numbers of a picture"),
            (EMPTY_OUTPUT[:159], 0, "within the bytes of a picture"),
            (bytes.fromhex("01 00 ffffffff") + VERSION.encode(), 0, "within the bytes of a reply"),
            (EMPTY_OUTPUT[:192], 160, "within the numbers of a summary"),
            (EMPTY_OUTPUT + b"\4", 193, "within the numbers"),
            (EMPTY_OUTPUT + EMPTY_OUTPUT[160:], 193, "follows the summary"),
            (EMPTY_OUTPUT[:5] + b"P5" + EMPTY_OUTPUT[7:], 0, "doesn't begin"),
            (EMPTY_OUTPUT[:8] + b"9" + EMPTY_OUTPUT[9:], 0, "144 bytes"),
            (bytes.fromhex("01 00 0c000000 84000000 01000000 00000000"), 0, "type 132"),
            (bytes.fromhex("01 00 0c000000 80000000 01000000 00000000"), 0, "can't have 0 bytes"),
            (bytes.fromhex("01 00 0c000000 80000000 01000000 01000000"), 0, "states 1 bytes"),
        ):
            with self.assertRaises(output.OutputFault, msg=data) as caught:
                shown(data)
            self.assertEqual(caught.exception.offset, offset)
            self.assertIn(words, str(caught.exception))

    def test_png(self):
        file = picture.Picture(PPM + WINDOW_PIXELS).png()
        chunks, at = {}, 8
        while at < len(file):
            length, name = struct.unpack_from(">I4s", file, at)
            data = file[at + 8:at + 8 + length]
            self.assertEqual(struct.unpack_from(">I", file, at + 8 + length)[0], zlib.crc32(name + data))
            chunks[name] = data
            at += 12 + length
        self.assertEqual(chunks[b"IHDR"], struct.pack(">IIBBBBB", 8, 6, 8, 2, 0, 0, 0))
        rows = zlib.decompress(chunks[b"IDAT"])
        wanted = b"".join(b"\0" + WINDOW_PIXELS[at:at + 24] for at in range(0, 144, 24))
        self.assertEqual(rows, wanted)


class Programs(unittest.TestCase):
    def test_record(self):
        with tempfile.TemporaryDirectory() as folder:
            name = os.path.join(folder, "record")
            done = tool("record", "-o", name, data=(DESK + "snap\nend\n").encode())
            self.assertEqual((done.returncode, done.stderr), (0, b""))
            with open(name, "rb") as file:
                self.assertEqual(file.read(), EMPTY_DESK)
            done = tool("record", "--print", name)
            self.assertEqual((done.returncode, done.stdout[-10:]), (0, b"\nsnap\nend\n"))
        done = tool("record", data=b"snap\n")
        self.assertEqual((done.returncode, done.stdout), (1, b""))
        self.assertIn(b"line 1: config stands first", done.stderr)
        done = tool("record", "--print", data=EMPTY_DESK[:43])
        self.assertEqual((done.returncode, done.stdout), (1, b""))
        self.assertIn(b"bad record at 43: short", done.stderr)
        self.assertEqual(tool("record", "--offsets", data=b"").returncode, 2)

    def test_show(self):
        with tempfile.TemporaryDirectory() as folder:
            done = tool("show", "--save", folder, data=EMPTY_OUTPUT)
            self.assertEqual((done.returncode, done.stderr), (0, b""))
            with open(os.path.join(folder, "picture-1.ppm"), "rb") as file:
                self.assertEqual(file.read(), PPM + bytes(144))
            tool("show", "--save", folder, "--png", data=EMPTY_OUTPUT)
            with open(os.path.join(folder, "picture-1.png"), "rb") as file:
                self.assertEqual(file.read(), picture.Picture(PPM + bytes(144)).png())
        done = tool("show", data=EMPTY_OUTPUT[:160])
        self.assertEqual(done.returncode, 0)
        self.assertIn(b"no summary", done.stdout)
        done = tool("show", data=EMPTY_OUTPUT[:159])
        self.assertEqual(done.returncode, 1)
        self.assertIn(b"at 0: ", done.stderr)
        self.assertEqual(tool("show", "--png", data=b"").returncode, 2)

