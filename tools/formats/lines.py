"""Words, numbers and quoted texts of a line."""
import re
from collections import namedtuple

# One word of a line. `key` is None for a plain word, else what stands before `=`. `value` is a str,
# or bytes where it was quoted. A mark is one of `;`, `{` and `}` and has the key `MARK`.
Token = namedtuple("Token", "key value")
MARK = object()

WORD = re.compile(
    r'\s*(?:(?P<end>#.*|$)|(?P<mark>[;{}])|(?:(?P<key>[A-Za-z_]+)=)?'
    r'(?:"(?P<quoted>(?:[^"\\]|\\.)*)"|(?P<plain>[^\s;{}"#]+)|(?P<empty>(?<==))))'
)
AFTER = re.compile(r"[\s;{}#]|$")
ESCAPE = re.compile(r"\\(x[0-9A-Fa-f]{2}|.?)", re.DOTALL)


class Wrong(Exception):
    """A sentence that says what is wrong, without the place."""


def tokens_of(line):
    """The words and marks of a line; a comment is left out."""
    tokens = []
    at = 0
    while True:
        found = WORD.match(line, at)
        if not found:
            raise Wrong("this is no word: " + line[at:].strip())
        if found["end"] is not None:
            return tokens
        at = found.end()
        if found["mark"]:
            tokens.append(Token(MARK, found["mark"]))
            continue
        if not AFTER.match(line, at):
            raise Wrong("a blank is missing before: " + line[at:].strip())
        if found["quoted"] is not None:
            tokens.append(Token(found["key"], unquoted(found["quoted"])))
        else:
            tokens.append(Token(found["key"], found["plain"] or ""))


def unquoted(text):
    """The bytes of what stands between two quotes."""
    parts = []
    at = 0
    for found in ESCAPE.finditer(text):
        parts.append(text[at:found.start()].encode())
        parts.append(escaped(found[1]))
        at = found.end()
    return b"".join(parts) + text[at:].encode()


def escaped(name):
    if name in ('"', "\\"):
        return name.encode()
    if name.startswith("x") and len(name) == 3:
        return bytes([int(name[1:], 16)])
    raise Wrong(f"\\{name} is no escape: they are \\\\, \\\" and \\xNN")


def quoted(data):
    """Bytes as a quoted text: what isn't printable ASCII is escaped."""
    parts = []
    for byte in data:
        if byte in b'"\\':
            parts.append("\\" + chr(byte))
        elif 32 <= byte <= 126:
            parts.append(chr(byte))
        else:
            parts.append(f"\\x{byte:02x}")
    return '"' + "".join(parts) + '"'


def bytes_of(value):
    """The bytes of a quoted or plain word."""
    return value if isinstance(value, bytes) else value.encode()


def number_of(value, what, least, most):
    """A decimal number, or a hexadecimal one that begins with 0x."""
    if not isinstance(value, str) or not re.fullmatch(r"-?(0x[0-9A-Fa-f]+|[0-9]+)", value):
        raise Wrong(f"{what} is no number: {told(value)}")
    number = int(value, 16) if "x" in value else int(value)
    if not least <= number <= most:
        raise Wrong(f"{what} is not within {least} to {most}: {value}")
    return number


def hex_of(value, what):
    """The bytes of hexadecimal digits."""
    if not isinstance(value, str) or not re.fullmatch(r"(?:[0-9A-Fa-f]{2})*", value):
        raise Wrong(f"{what} isn't pairs of hexadecimal digits: {told(value)}")
    return bytes.fromhex(value)


def colour_of(value, what):
    """A colour of six hexadecimal digits; up to eight are read, so that a wrong one can be written."""
    if not isinstance(value, str) or not re.fullmatch(r"[0-9A-Fa-f]{6,8}", value):
        raise Wrong(f"{what} isn't six hexadecimal digits: {told(value)}")
    return int(value, 16)


def told(value):
    return quoted(value) if isinstance(value, bytes) else value


def plain_words(tokens, names):
    """The values of plain words, exactly as many as there are names, and the keyed words behind them."""
    plain = [token.value for token in tokens if token.key is None]
    if len(plain) < len(names):
        raise Wrong(f"{names[len(plain)]} is missing")
    if len(plain) > len(names):
        raise Wrong(f"this is one word too many: {told(plain[len(names)])}")
    return plain, keyed_words(token for token in tokens if token.key is not None)


def keyed_words(tokens):
    values = {}
    for token in tokens:
        if token.key is MARK:
            raise Wrong(f"{token.value} has no place here")
        if token.key in values:
            raise Wrong(f"{token.key}= stands twice")
        values[token.key] = token.value
    return values


def only_keys(values, keys):
    for key in values:
        if key not in keys:
            known = " ".join(keys) or "none"
            raise Wrong(f"there is no {key}= here; there is: {known}")
