"""The text form of a record, both ways."""
import re
import struct

from . import record
from .lines import (
    MARK, Wrong, bytes_of, colour_of, hex_of, keyed_words, number_of, only_keys, plain_words, quoted, told, tokens_of,
)
from .messages import AGENT_BY_KIND, AGENT_BY_NAME, show_version, spell_header, spell_version
from .record import COMMANDS, SETUP_FIELDS, SETUP_USUAL, Guest, Item, Output, Pair, Reader, RecordFault, Setup

COMMAND_FIELDS = {4: ("x", "y"), 5: ("width", "height")}
U32 = 2**32 - 1
LINES = "config guest output clip deny bytes closed lost store key move press command snap end raw"
ELEMENTS = "version message hex " + " ".join(AGENT_BY_NAME)


class TextFault(Exception):
    """What is wrong with a text, and in which line."""

    def __init__(self, line, sentence):
        super().__init__(sentence)
        self.line = line


# ---- text to bytes


def record_of(text, loose=False):
    """The record that a text spells."""
    return TextReader(loose).read(text)


class Piece:
    """The bytes of a `bytes` line or block while it is read."""

    def __init__(self, guest, cut, line):
        self.guest = guest
        self.cut = cut
        self.line = line
        self.data = b""


class TextReader:
    def __init__(self, loose):
        self.loose = loose
        self.values = None
        self.guests = []
        self.version = None
        self.outputs = []
        self.revision = None
        self.denied = []
        self.setup = None
        self.block = None
        self.ended = False
        self.parts = []

    def read(self, text):
        lines = text.removesuffix("\n").split("\n")
        for number, line in enumerate(lines, 1):
            try:
                self.line(number, tokens_of(line))
            except Wrong as wrong:
                raise TextFault(number, str(wrong)) from None
        try:
            self.finish()
        except Wrong as wrong:
            raise TextFault(len(lines), str(wrong)) from None
        return b"".join(self.parts)

    def finish(self):
        if self.block:
            raise Wrong(f"the block of line {self.block.line} isn't closed")
        if self.values and not self.setup:
            self.begin_items()
        if not self.ended and not self.loose:
            raise Wrong("the text ends without `end`")

    def line(self, number, tokens):
        if self.block:
            self.block_line(tokens)
        elif tokens:
            self.first_word(number, tokens[0], tokens[1:])

    def first_word(self, number, word, rest):
        if word.key is not None or word.value not in LINES.split():
            raise Wrong(f"a line begins with one of {LINES}")
        name = word.value
        if name in ("config", "guest", "output", "clip", "deny", "raw"):
            getattr(self, name)(rest)
        else:
            self.begin_items()
            if self.ended and not self.loose:
                raise Wrong("nothing but raw stands behind `end`")
            if name == "bytes":
                self.bytes_line(number, rest)
            else:
                self.put(getattr(self, "item_" + name)(rest))

    # -- the configuration

    def config(self, tokens):
        if self.values is not None or self.parts:
            raise Wrong("config stands once, and first")
        _, values = plain_words(tokens, ())
        only_keys(values, SETUP_FIELDS + ("version",))
        if "version" in values:
            self.version = number_of(values.pop("version"), "version", 1, 3)
        self.values = dict(SETUP_USUAL)
        for field, value in values.items():
            read = colour_of(value, field) if field == "background" else number_of(value, field, 0, U32)
            self.values[field] = read
        for field in SETUP_FIELDS:
            if field not in self.values:
                raise Wrong(f"{field}= is missing")

    def in_setup(self, name):
        if self.values is None or self.setup:
            raise Wrong(f"{name} lines stand behind config and before the first item")

    def guest(self, tokens):
        self.in_setup("guest")
        (name, colour), values = plain_words(tokens, ("the name", "the colour"))
        only_keys(values, ())
        if len(bytes_of(name)) > 255 or len(self.guests) == 255:
            raise Wrong("there is room for 255 guests with names of 255 bytes")
        self.guests.append(Guest(bytes_of(name), colour_of(colour, "the colour")))

    def output(self, tokens):
        self.in_setup("output")
        (x, y, w, h), values = plain_words(tokens, ("x", "y", "the width", "the height"))
        only_keys(values, ())
        if len(self.outputs) == 255:
            raise Wrong("there is room for 255 outputs")
        corner = signed_of(x, "x"), signed_of(y, "y")
        self.outputs.append(Output(*corner, number_of(w, "the width", 0, U32), number_of(h, "the height", 0, U32)))

    def clip(self, tokens):
        self.in_setup("clip")
        (revision,), values = plain_words(tokens, ("the revision",))
        only_keys(values, ())
        if self.revision is not None:
            raise Wrong("clip stands once")
        self.revision = number_of(revision, "the revision", 0, 255)

    def deny(self, tokens):
        self.in_setup("deny")
        (source, target), values = plain_words(tokens, ("the guest that a paste comes from", "the one that it goes to"))
        only_keys(values, ())
        if len(self.denied) == 255:
            raise Wrong("there is room for 255 pairs")
        self.denied.append(Pair(self.guest_number(source), self.guest_number(target)))

    def whole_setup(self):
        """The configuration of all lines. Pairs are sorted; with --loose they stand as they came, and so do no outputs
        where a version is told."""
        outputs = self.outputs or ([] if self.version and self.loose else None)
        denied = self.denied if self.loose else sorted(self.denied)
        clip = 1 if self.revision is None else self.revision
        return Setup(self.values, self.guests, outputs, clip, denied)

    def begin_items(self):
        """Writes the configuration before the first item."""
        if self.setup:
            return
        if self.values is None:
            raise Wrong("config stands first")
        self.setup = self.whole_setup()
        broken = self.setup.broken_rule()
        if broken and not self.loose:
            raise Wrong(f"config breaks rule {broken[0]}: {broken[1]}")
        if self.version not in (None, self.setup.version()) and not self.loose:
            raise Wrong(f"version {self.setup.version()} has this configuration")
        self.parts.append(self.setup.spell(self.version))

    # -- items

    def put(self, item):
        fault = record.range_fault(item, self.setup)
        if fault and not self.loose:
            raise Wrong(f"it doesn't hold that {fault}")
        self.parts.append(record.spell_item(item))
        self.ended = self.ended or item.kind == record.END

    def raw(self, tokens):
        if not self.ended and not self.loose:
            raise Wrong("raw stands behind `end`, or with --loose")
        if self.values is not None:
            self.begin_items()
        self.parts.append(joined_hex(tokens))

    def guest_number(self, value):
        names = [guest.name for guest in self.guests]
        if bytes_of(value) in names and not bytes_of(value).isdigit():
            return names.index(bytes_of(value))
        if isinstance(value, str) and value.isdigit():
            return number_of(value, "guest", 0, 255)
        raise Wrong(f"there is no guest {told(value)}")

    def item_closed(self, tokens):
        return self.guest_item(record.CLOSED, tokens)

    def item_lost(self, tokens):
        return self.guest_item(record.LOST, tokens)

    def guest_item(self, kind, tokens):
        (guest,), values = plain_words(tokens, ("the guest",))
        only_keys(values, ())
        return Item(kind, {"guest": self.guest_number(guest)})

    def item_store(self, tokens):
        (guest,), values = plain_words(tokens, ("the guest",))
        only_keys(values, ("delay", "page", "offset", "words", "hex"))
        if ("words" in values) == ("hex" in values):
            raise Wrong("store has either words= or hex=")
        data = words_of(values["words"]) if "words" in values else hex_of(values["hex"], "hex")
        fields = {
            "guest": self.guest_number(guest),
            "delay": number_of(values.get("delay", "0"), "delay", 0, 65535),
            "page": number_of(values.get("page", "0"), "page", 0, U32),
            "offset": number_of(values.get("offset", "0"), "offset", 0, U32),
            "length": len(data),
        }
        return Item(record.STORE, fields, data)

    def item_key(self, tokens):
        return self.up_or_down(record.KEY, "code", tokens)

    def item_press(self, tokens):
        return self.up_or_down(record.PRESS, "button", tokens)

    def up_or_down(self, kind, what, tokens):
        (way, number), values = plain_words(tokens, ("down or up", what))
        only_keys(values, ("state",))
        fields = {"down": down_of(way), what: number_of(number, what, 0, 255), "state": state_of(values)}
        return Item(kind, fields)

    def item_move(self, tokens):
        (x, y), values = plain_words(tokens, ("x", "y"))
        only_keys(values, ("state",))
        return Item(record.MOVE, {"x": signed_of(x, "x"), "y": signed_of(y, "y"), "state": state_of(values)})

    def item_command(self, tokens):
        (name,), values = plain_words(tokens, ("the command",))
        codes = {name: code for code, name in COMMANDS.items()}
        code = codes[name] if name in codes else number_of(name, "command", 0, 255)
        first, second = COMMAND_FIELDS.get(code, ("a", "b"))
        only_keys(values, (first, second))
        if code in COMMAND_FIELDS and set(values) != {first, second}:
            raise Wrong(f"this command has {first}= and {second}=")
        a = signed_of(values.get(first, "0"), first)
        return Item(record.COMMAND, {"code": code, "a": a, "b": signed_of(values.get(second, "0"), second)})

    def item_snap(self, tokens):
        return self.bare(record.SNAP, tokens)

    def item_end(self, tokens):
        return self.bare(record.END, tokens)

    def bare(self, kind, tokens):
        _, values = plain_words(tokens, ())
        only_keys(values, ())
        return Item(kind, {})

    # -- pieces

    def bytes_line(self, number, tokens):
        if not tokens or tokens[0].key is not None:
            raise Wrong("the guest is missing")
        guest = self.guest_number(tokens[0].value)
        at, cut = 1, None
        if tokens[1:] and tokens[1].key == "cut":
            at, cut = 2, number_of(tokens[1].value, "cut", 1, U32)
        piece = Piece(guest, cut, number)
        if tokens[at:] and tokens[at] == (MARK, "{"):
            self.block = piece
            self.block_line(tokens[at + 1:])
        else:
            piece.data = elements_of(tokens[at:])
            self.put_piece(piece)

    def block_line(self, tokens):
        closes = (MARK, "}") in tokens
        if closes and tokens[-1] != (MARK, "}"):
            raise Wrong("nothing stands behind } in its line")
        self.block.data += elements_of(tokens[:-1] if closes else tokens)
        if closes:
            piece, self.block = self.block, None
            self.put_piece(piece)

    def put_piece(self, piece):
        """One item, or with cut= one for each so many bytes."""
        size = piece.cut or max(1, len(piece.data))
        for at in range(0, max(1, len(piece.data)), size):
            data = piece.data[at:at + size]
            self.put(Item(record.BYTES, {"guest": piece.guest, "length": len(data)}, data))


def elements_of(tokens):
    """The bytes of the messages between semicolons."""
    data = b""
    element = []
    for token in list(tokens) + [(MARK, ";")]:
        if token == (MARK, ";"):
            data += spell_element(element) if element else b""
            element = []
        else:
            element.append(token)
    return data


def spell_element(tokens):
    name, rest = tokens[0].value, tokens[1:]
    if tokens[0].key is not None or name not in ELEMENTS.split():
        raise Wrong(f"what a guest sends is one of {ELEMENTS}")
    if name == "hex":
        return joined_hex(rest)
    if name == "version":
        (version,), values = plain_words(rest, ("the version",))
        only_keys(values, ())
        return spell_version(version)
    if name == "message":
        (kind, window), values = plain_words(rest, ("the type", "the window"))
        only_keys(values, ("body",))
        body = hex_of(values.get("body", ""), "body")
        return spell_header(number_of(kind, "type", 0, U32), number_of(window, "window", 0, U32), body)
    message = AGENT_BY_NAME[name]
    (window,), values = plain_words(rest, ("the window",))
    return spell_header(message.kind, number_of(window, "window", 0, U32), message.spell(values))


def joined_hex(tokens):
    if keyed_words(token for token in tokens if token.key is not None):
        raise Wrong("hexadecimal digits stand alone")
    return hex_of("".join(told(token.value) for token in tokens), "hex")


def words_of(value):
    """Numbers of 32 bits as hexadecimal digits between commas; a*n is n times a."""
    data = b""
    for part in bytes_of(value).decode(errors="replace").split(","):
        found = re.fullmatch(r"([0-9A-Fa-f]{1,8})(?:\*([0-9]{1,4}))?", part)
        if not found:
            raise Wrong("words are hexadecimal numbers of up to eight digits between commas, a*n for n times a")
        data += struct.pack("<I", int(found[1], 16)) * int(found[2] or "1")
    return data


def signed_of(value, what):
    return number_of(value, what, -(2**31), 2**31 - 1)


def state_of(values):
    return number_of(values.get("state", "0"), "state", 0, 65535)


def down_of(way):
    if way in ("down", "up"):
        return int(way == "down")
    return number_of(way, "down or up", 0, 255)


# ---- bytes to text


def text_of(data, loose=False, offsets=False):
    """The lines of a record. With `loose` what can't be read is written as raw lines."""
    reader = Reader(data, loose)
    lines = []
    try:
        setup = reader.setup()
        lines.extend(setup_lines(setup, reader.version))
        item_lines(reader, setup, lines, offsets)
    except RecordFault as fault:
        if not loose:
            raise
        reader.at = fault.offset if lines else 0
        lines.append(f"# bad record at {fault.offset}: {fault}")
    lines.extend(raw_lines(data[reader.at:]))
    return "\n".join(lines) + "\n"


def item_lines(reader, setup, lines, offsets):
    """The lines of all items up to End, one after the other onto `lines`."""
    streams = [Stream() for _ in range(256)]
    kind = None
    while kind != record.END:
        item = reader.item(setup)
        kind = item.kind
        if offsets:
            lines.append(f"# at {item.offset}")
        lines.extend(lines_of_item(item, streams))


def setup_lines(setup, version):
    """The configuration of a record of this version, which is told where the lines alone would give another one."""
    words = [
        f"{field}={setup.values[field]:06x}" if field == "background" else f"{field}={setup.values[field]}"
        for field in SETUP_FIELDS
    ]
    is_told = version != setup.version() or not setup.outputs
    lines = ["config " + " ".join(words + [f"version={version}"] * is_told)]
    lines += [f"guest {name_text(guest.name)} {guest.colour:06x}" for guest in setup.guests]
    if version > 1 and (is_told or setup.outputs != [setup.plane()]):
        lines += ["output {} {} {} {}".format(*output) for output in setup.outputs]
    if setup.clip != 1:
        lines.append(f"clip {setup.clip}")
    return lines + ["deny {} {}".format(*pair) for pair in setup.denied]


def name_text(name):
    return name.decode() if re.fullmatch(rb"[A-Za-z0-9_-]+", name) else quoted(name)


def raw_lines(data):
    return ["raw " + data[at:at + 32].hex() for at in range(0, len(data), 32)]


def lines_of_item(item, streams):
    fields = item.fields
    if item.kind == record.BYTES:
        return lines_of_piece(fields["guest"], streams[fields["guest"]].take(item.data), item.data)
    if item.kind == record.STORE:
        numbers = " ".join(f"{field}={fields[field]}" for field in ("delay", "page", "offset"))
        return [f"store {fields['guest']} {numbers} {store_text(item.data)}"]
    if item.kind == record.MOVE:
        return [f"move {fields['x']} {fields['y']} state={fields['state']}"]
    if item.kind in (record.KEY, record.PRESS):
        way = {0: "up", 1: "down"}.get(fields["down"], fields["down"])
        number = fields["code"] if item.kind == record.KEY else fields["button"]
        return [f"{record.LAYOUTS[item.kind].name} {way} {number} state={fields['state']}"]
    if item.kind == record.COMMAND:
        return [command_text(fields)]
    return [" ".join([record.LAYOUTS[item.kind].name] + [str(value) for value in fields.values()])]


def store_text(data):
    if not data or len(data) % 4:
        return "hex=" + data.hex()
    return "words=" + ",".join(f"{word:08x}" for word in struct.unpack(f"<{len(data) // 4}I", data))


def command_text(fields):
    code = fields["code"]
    words = ["command", str(COMMANDS.get(code, code))]
    if code in COMMAND_FIELDS or fields["a"] or fields["b"]:
        first, second = COMMAND_FIELDS.get(code, ("a", "b"))
        words += [f"{first}={fields['a']}", f"{second}={fields['b']}"]
    return " ".join(words)


def lines_of_piece(guest, units, data):
    """A line for one message, a block for several, and hexadecimal digits where the cut isn't at messages."""
    texts = [unit_text(unit) for unit in units] if units else hex_texts(data)
    if len(texts) == 1:
        return [f"bytes {guest} {texts[0]}"]
    return [f"bytes {guest} {{"] + ["    " + text for text in texts] + ["}"]


def hex_texts(data):
    return ["hex " + data[at:at + 32].hex() for at in range(0, max(1, len(data)), 32)]


def unit_text(unit):
    """A version word (four bytes) or a whole message as text."""
    if len(unit) == 4:
        return "version " + show_version(unit)
    kind, window, _ = struct.unpack("<III", unit[:12])
    message = AGENT_BY_KIND.get(kind)
    shown = message.show(unit[12:]) if message else None
    if shown is None:
        return f"message {kind} {window} body={unit[12:].hex()}"
    return f"{message.name} {window} {shown}".rstrip()


class Stream:
    """Follows one guest's bytes and cuts those pieces that begin and end between two messages."""

    def __init__(self):
        self.greeted = False
        self.held = b""
        self.left = 0

    def take(self, piece):
        """The units of the piece, or None where it isn't cut exactly at messages."""
        clean = not self.held and not self.left
        data = self.held + piece
        at = min(self.left, len(data))
        self.left -= at
        units = []
        size = self.unit_size(data, at)
        while size and at + size <= len(data):
            units.append(data[at:at + size])
            self.greeted = True
            at += size
            size = self.unit_size(data, at)
        self.left += max(0, at + size - len(data)) if size else 0
        self.held = b"" if self.left else data[at:]
        return units if clean and not self.held and not self.left else None

    def unit_size(self, data, at):
        """The size of the unit at this place, or 0 where it can't be told yet."""
        if not self.greeted:
            return 4 if len(data) - at >= 4 else 0
        if len(data) - at < 12:
            return 0
        return 12 + struct.unpack_from("<I", data, at + 8)[0]
