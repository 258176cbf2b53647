"""Runs the built program from outside: each status that can be brought about, and what it takes of memory.

The wanted bytes are hand-computed (see aids). A status is a number and a line on standard error."""
import io
import os
import shutil
import subprocess
import tempfile
import unittest

from formats import record_text
from formats.output import PICTURE, posts_of
from formats.picture import Picture
from selftests.aids import EMPTY_DESK as USUAL_DESK, EMPTY_OUTPUT, EXAMPLES, FIRST_WINDOW, TOOLS, WINDOW_OUTPUT
from selftests.aids import PLAIN_CLIPBOARD, PLANE_AS_OUTPUT, WRONG_EVENTS, WRONG_SETUPS, shown

# Set by tools/selftest.
PROGRAM = ""

SECONDS = 60
# The empty desk with a page and a tile in place of the usual thousands, all of which a run writes to at opening.
EMPTY_DESK = USUAL_DESK[:17] + bytes.fromhex("01000000 01000000") + USUAL_DESK[25:]
# A desk whose pictures are far longer than the program's buffers: 480,000 bytes each.
WIDE_DESK = record_text.record_of("config width=400 height=400 border=1 pages=4 tiles=4\nguest red ff0000\nsnap\nsnap\nend\n")


def replay(record, *words, stdin=None, **more):
    """Runs the program over a record, with the one word `replay` where no words are named."""
    with tempfile.TemporaryFile() as file:
        file.write(record)
        file.seek(0)
        how = {"stdout": subprocess.PIPE, "stderr": subprocess.PIPE, "timeout": SECONDS, **more}
        return subprocess.run([PROGRAM, *(words or ("replay",))], stdin=file if stdin is None else stdin, **how)


def closing(number):
    """What closes a standard stream before the program begins."""
    return lambda: os.close(number)


USAGE = "usage: guid replay | guid make N"


class Statuses(unittest.TestCase):
    def ends(self, ran, number, line, written=b""):
        told = line.encode() + b"\n" if line else b""
        self.assertEqual((ran.returncode, ran.stderr), (number, told))
        self.assertEqual(ran.stdout, written)

    def test_done(self):
        self.ends(replay(USUAL_DESK), 0, "", EMPTY_OUTPUT)
        self.ends(replay(EMPTY_DESK), 0, "", EMPTY_OUTPUT)

    def test_what_stands_behind_end_is_not_looked_at(self):
        self.ends(replay(EMPTY_DESK + b"\xff\x01"), 0, "", EMPTY_OUTPUT)

    def test_usage(self):
        for words in (("play",), ("replay", "x"), ("replay", "replay"), ("",), ("replay ",), ("make",), ("make", "1000001")):
            self.ends(replay(EMPTY_DESK, *words), 2, USAGE)
        with tempfile.TemporaryFile() as file:
            file.write(EMPTY_DESK)
            file.seek(0)
            ran = subprocess.run([PROGRAM], stdin=file, capture_output=True, timeout=SECONDS)
            self.ends(ran, 2, USAGE)
            self.assertEqual(os.lseek(file.fileno(), 0, os.SEEK_CUR), 0, "input was read")

    def test_made(self):
        made = replay(b"", "make", "0")
        self.assertEqual((made.returncode, made.stderr, len(made.stdout)), (0, b"", 564))
        ran = replay(made.stdout)
        self.assertEqual((ran.returncode, ran.stderr), (0, b""))
        self.assertEqual(ran.stdout[-33:-8], b"\x04" + b"".join(n.to_bytes(8, "little") for n in (6, 12, 0)))

    def test_bad_configuration(self):
        for at, byte, rule in ((33, 0, 1), (33, 17, 1), (5, 0, 2), (9, 0, 3), (13, 17, 5), (25, 91, 8), (39, 70, 12)):
            record = bytearray(EMPTY_DESK)
            record[at] = byte
            self.ends(replay(bytes(record)), 3, f"bad configuration: rule {rule}")
        for record, rule in WRONG_SETUPS:
            self.ends(replay(record), 3, f"bad configuration: rule {rule}")

    def test_bad_record(self):
        picture = EMPTY_OUTPUT[:160]
        for record, offset, kind, written in (
            (b"", 0, "short", b""),
            (b"QGR", 0, "short", b""),
            (b"QGR4" + EMPTY_DESK[4:], 0, "magic", b""),
            (PLANE_AS_OUTPUT, 4, "range", b""),
            (PLAIN_CLIPBOARD, 4, "range", b""),
            (EMPTY_DESK[:4] + b"\2", 4, "kind", b""),
            (EMPTY_DESK[:43], 43, "short", picture),
            (EMPTY_DESK[:43] + b"\xff", 43, "kind", picture),
            (EMPTY_DESK[:43] + b"\1", 43, "kind", picture),
            (EMPTY_DESK[:43] + b"\2\1\1\0\0\0a", 43, "range", picture),
            (EMPTY_DESK[:43] + b"\2\0\2\0\0\0a", 43, "short", picture),
            *((EMPTY_DESK[:43] + bytes.fromhex(item), 43, kind, picture) for item, kind in WRONG_EVENTS),
        ):
            self.ends(replay(record), 4, f"bad record at {offset}: {kind}", written)

    def test_read_fault(self):
        folder = os.open(TOOLS, os.O_RDONLY)
        try:
            self.ends(replay(b"", stdin=folder), 5, "read fault")
        finally:
            os.close(folder)

    def test_write_fault(self):
        for record in (EMPTY_DESK, WIDE_DESK):
            with open("/dev/full", "wb") as full:
                ran = replay(record, stdout=full)
            self.assertEqual((ran.returncode, ran.stderr), (6, b"write fault\n"))
            ran = replay(record, stdout=None, preexec_fn=closing(1))
            self.assertEqual((ran.returncode, ran.stderr), (6, b"write fault\n"))

    def test_a_write_fault_outdoes_what_was_found_in_the_record(self):
        with open("/dev/full", "wb") as full:
            ran = replay(EMPTY_DESK[:43], stdout=full)
        self.assertEqual((ran.returncode, ran.stderr), (6, b"write fault\n"))

    def test_the_number_stands_where_the_line_cannot_be_written(self):
        for record, words, number in (
            (EMPTY_DESK, ("play",), 2),
            (EMPTY_DESK[:13] + b"\x11" + EMPTY_DESK[14:], ("replay",), 3),
            (EMPTY_DESK[:43], ("replay",), 4),
        ):
            with open("/dev/full", "wb") as full:
                self.assertEqual(replay(record, *words, stderr=full).returncode, number)
            self.assertEqual(replay(record, *words, stderr=None, preexec_fn=closing(2)).returncode, number)


def sample(name):
    """The text of an example."""
    with open(os.path.join(EXAMPLES, name), encoding="utf-8") as file:
        return file.read()


# Each kind of what the user does, on the desk of contents.txt.
EVENTS = (
    "move 160 110", "press down 1", "move 30 30 state=256", "press up 1 state=256", "key down 38", "key up 38",
    "command next", "command move_to x=60 y=40", "command size_to width=40 height=30", "command restore", "command close",
)

# What the guests of user_input.txt are told, and the counts.
USER_INPUT_LINES = """\
reply 0 version 1.7
reply 0 xconf width=320 height=200 depth=24 mem=250
reply 0 WINDOW_DUMP_ACK 1
reply 0 FOCUS 1 type=in mode=0 detail=3
reply 0 KEYMAP_NOTIFY 0 keys=none
reply 0 WINDOW_DUMP_ACK 2
reply 1 version 1.7
reply 1 xconf width=320 height=200 depth=24 mem=250
reply 1 WINDOW_DUMP_ACK 1
reply 0 CROSSING 1 type=enter x=40 y=44 state=0 mode=0 detail=3 focus=1
reply 0 BUTTON 1 type=press x=40 y=44 state=0 button=1
reply 0 MOTION 1 x=110 y=64 state=256 is_hint=0
reply 0 BUTTON 1 type=release x=110 y=64 state=256 button=1
reply 0 KEYPRESS 1 type=press x=0 y=0 state=0 keycode=38
reply 0 KEYPRESS 1 type=release x=0 y=0 state=0 keycode=38
picture 1: 320 by 200, sha256 *
reply 0 FOCUS 1 type=out mode=0 detail=3
reply 0 FOCUS 2 type=in mode=0 detail=3
reply 0 KEYMAP_NOTIFY 0 keys=none
reply 0 FOCUS 2 type=out mode=0 detail=3
reply 1 FOCUS 1 type=in mode=0 detail=3
reply 1 KEYMAP_NOTIFY 0 keys=none
reply 0 CROSSING 1 type=leave x=110 y=64 state=0 mode=0 detail=3 focus=0
reply 1 CROSSING 1 type=enter x=26 y=24 state=0 mode=0 detail=3 focus=1
reply 1 CONFIGURE 1 x=160 y=80 width=128 height=96 override=0
reply 1 CROSSING 1 type=leave x=-30 y=0 state=0 mode=0 detail=3 focus=1
reply 0 CROSSING 1 type=enter x=110 y=64 state=0 mode=0 detail=3 focus=0
picture 2: 320 by 200, sha256 *
summary items=46 messages=13 glances=27648 painted=*
"""

# Pixels of its pictures: the number of the picture, the place, and the colour.
USER_INPUT_PIXELS = (
    (1, 147, 111, "eeeeec"),  # the letter's last pixel lies above untrusted's window
    (1, 149, 113, "3465a4"),  # so does its ring
    (1, 150, 113, "e1b687"),
    (1, 104, 151, "cfbbb8"),
    (1, 60, 128, "202830"),  # the small window is hidden
    (2, 60, 128, "729fcf"),
    (2, 59, 128, "3465a4"),
    (2, 147, 111, "eeeeec"),
    (2, 150, 113, "202830"),  # untrusted's window has gone from here
    (2, 160, 80, "ef2929"),
    (2, 159, 79, "cc0000"),
)


# What is told of two_outputs.txt: a picture of each output.
TWO_OUTPUTS_LINES = """\
reply 0 version 1.7
reply 0 xconf width=12 height=6 depth=24 mem=1
reply 0 FOCUS 1 type=in mode=0 detail=3
reply 0 KEYMAP_NOTIFY 0 keys=none
picture 1: 5 by 6, sha256 *
    .....
    .RRRR
    .R---
    .R---
    .RRRR
    .....
    .=000000 (14) R=ff0000 (10) -=808080 (6)
picture 2: 5 by 6, sha256 *
    .....
    RRRR.
    ---R.
    ---R.
    RRRR.
    .....
    .=000000 (14) R=ff0000 (10) -=808080 (6)
summary items=4 messages=2 glances=0 painted=*
"""

# What is told of clipboard.txt: red is asked, and its three letters are pasted into green's window, once.
CLIPBOARD_LINES = """\
reply 0 version 1.7
reply 0 xconf width=16 height=8 depth=24 mem=1
reply 0 FOCUS 1 type=in mode=0 detail=3
reply 0 KEYMAP_NOTIFY 0 keys=none
reply 1 version 1.7
reply 1 xconf width=16 height=8 depth=24 mem=1
reply 0 CLIPBOARD_REQ 1
reply 0 FOCUS 1 type=out mode=0 detail=3
reply 1 FOCUS 1 type=in mode=0 detail=3
reply 1 KEYMAP_NOTIFY 0 keys=none
reply 1 CLIPBOARD_DATA 1 text="abc"
picture 1: 16 by 8, sha256 *
    ................
    .RRRRR..GGGGG...
    .R---R..G---G...
    .R---R..G---G...
    .R---R..G---G...
    .RRRRR..GGGGG...
    ................
    ................
    .=000000 (78) -=808080 (18) R=ff0000 (16) G=00ff00 (16)
summary items=12 messages=5 glances=0 painted=*
"""


class Samples(unittest.TestCase):
    """Whole outputs, worked by hand."""

    def tells(self, name, wanted):
        """Replays an example, and compares what it tells. A * stands for the rest of a line."""
        ran = replay(record_text.record_of(sample(name)))
        self.assertEqual((ran.returncode, ran.stderr), (0, b""))
        lines = shown(ran.stdout)
        self.assertEqual(len(lines), len(wanted.splitlines()))
        for line, told in zip(lines, wanted.splitlines()):
            self.assertTrue(line.startswith(told[:-1]) if told.endswith("*") else line == told, line)
        return ran.stdout

    def test_first_window(self):
        self.assertEqual(replay(FIRST_WINDOW).stdout, WINDOW_OUTPUT)

    def test_user_input(self):
        written = self.tells("user_input.txt", USER_INPUT_LINES)
        pictures = [Picture(post.data).rows() for post in posts_of(io.BytesIO(written)) if post.kind == PICTURE]
        for number, x, y, colour in USER_INPUT_PIXELS:
            self.assertEqual(pictures[number - 1][y][3 * x:3 * x + 3].hex(), colour, (number, x, y))

    def test_two_outputs(self):
        self.tells("two_outputs.txt", TWO_OUTPUTS_LINES)

    def test_clipboard(self):
        self.tells("clipboard.txt", CLIPBOARD_LINES)


class Memory(unittest.TestCase):
    """How often the program asks for memory, and what it does where it gets none."""

    @classmethod
    def setUpClass(cls):
        cls.folder = tempfile.mkdtemp()
        cls.counter = os.path.join(cls.folder, "alloc.so")
        source = os.path.join(TOOLS, "alloc.c")
        subprocess.run(["cc", "-shared", "-fPIC", "-O1", "-o", cls.counter, source, "-ldl"], check=True)

    @classmethod
    def tearDownClass(cls):
        shutil.rmtree(cls.folder)

    def counted(self, record):
        ran = replay(record, env={"LD_PRELOAD": self.counter, "SHOW": "1"})
        self.assertEqual(ran.returncode, 0)
        last = ran.stderr.decode().splitlines()[-1].split()
        self.assertEqual(last[0], "allocations")
        return int(last[1])

    def test_no_step_takes_memory(self):
        text = sample("contents.txt").splitlines()
        end = max(at for at, line in enumerate(text) if line.strip() == "end")
        short = [*text[: min(at for at, line in enumerate(text) if line.startswith("guest ")) + 1], "end"]
        longer = [*text[:end], *["snap"] * 50, "end"]
        used = [*text[:end], *EVENTS * 50, "end"]
        counts = {self.counted(record_text.record_of("\n".join(it) + "\n")) for it in (short, text, longer, used)}
        self.assertEqual(len(counts), 1, counts)

    def test_each_allocation_refused_once(self):
        desk = "config width=8 height=6 border=1 pages=1 tiles=1\nguest red ff0000\n"
        record = record_text.record_of(desk + "bytes 0 version 1.7; create 1 x=2 y=2 width=2 height=2; map 1\nsnap\nend\n")
        whole = replay(record).stdout
        for number in range(1, self.counted(record) + 1):
            ran = replay(record, env={"LD_PRELOAD": self.counter, "FAIL_AT": str(number)})
            if (ran.returncode, ran.stderr, ran.stdout) != (0, b"", whole):
                self.assertEqual((ran.returncode, ran.stderr, ran.stdout), (7, b"out of memory\n", b""), number)
