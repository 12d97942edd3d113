"""CBOR (RFC 8949) for cose-verify, cose-key and cose-make.

cbor2 isn't used, since it takes the last of two equal keys, ignores bytes after an item, and makes objects of the tags that a sender chose.
Here each of these is refused, or is a Tag."""

import struct
from dataclasses import dataclass

LEVELS = 64
BREAK = object()
BYTES, TEXT, ARRAY, MAP, TAG, OTHER = 2, 3, 4, 5, 6, 7


class Undefined:
    def __repr__(self):
        return "undefined"


UNDEFINED = Undefined()
SIMPLE = {20: False, 21: True, 22: None, 23: UNDEFINED}
FLOATS = {2: ">e", 4: ">f", 8: ">d"}


class Refused(Exception):
    """Why a message, a key or an argument is refused, in words."""


@dataclass(frozen=True)
class Tag:
    number: int
    value: object


def decode(data):
    """The one item that these bytes are."""
    reader = Reader(data)
    value = reader.item(0)
    if reader.at != len(data):
        raise Refused(f"{len(data) - reader.at} bytes after the item")
    return value


class Reader:
    """Reads items from bytes."""

    def __init__(self, data, at=0):
        self.data, self.at = data, at

    def take(self, length):
        end = self.at + length
        if end > len(self.data):
            raise Refused("the item is cut off")
        taken, self.at = self.data[self.at:end], end
        return taken

    def head(self):
        """The major type, the argument (None for an open length or a break), and how many bytes the argument takes after the first one."""
        first = self.take(1)[0]
        major, argument = first >> 5, first & 31
        if argument < 24:
            return major, argument, 0
        if argument < 28:
            size = 1 << argument - 24
            return major, int.from_bytes(self.take(size), "big"), size
        if argument == 31 and major in (BYTES, TEXT, ARRAY, MAP, OTHER):
            return major, None, 0
        raise Refused("a head that isn't assigned")

    def skip(self):
        """Goes to the end of an item that is well-formed, however deep it is."""
        left = [1]      # how many items each open level still has; None: up to a break
        while left:
            if left[-1] == 0:
                left.pop()
                continue
            major, argument, _ = self.head()
            if left[-1] is not None:
                left[-1] -= 1
            elif (major, argument) == (OTHER, None):
                left.pop()
                continue
            if major in (BYTES, TEXT) and argument is not None:
                self.take(argument)
            elif major in (BYTES, TEXT, ARRAY):
                left.append(argument)
            elif major == MAP:
                left.append(None if argument is None else 2 * argument)
            elif major == TAG:
                left.append(1)

    def item(self, level, may_break=False):
        if level > LEVELS:
            raise Refused(f"more than {LEVELS} levels")
        major, argument, size = self.head()
        if major == 0:
            return argument
        if major == 1:
            return -1 - argument
        if major in (BYTES, TEXT):
            return self.string(major, argument)
        if major == ARRAY:
            return list(self.items(argument, level))
        if major == MAP:
            return self.entries(argument, level)
        if major == TAG:
            return Tag(argument, self.item(level + 1))
        return self.other(argument, size, may_break)

    def other(self, argument, size, may_break):
        if argument is None:
            if not may_break:
                raise Refused("a break that ends nothing")
            return BREAK
        if size in FLOATS:
            return struct.unpack(FLOATS[size], argument.to_bytes(size, "big"))[0]
        if size or argument not in SIMPLE:
            raise Refused("a simple value that isn't known")
        return SIMPLE[argument]

    def string(self, major, length):
        """A string; one of open length is put together."""
        if length is not None:
            try:
                return self.take(length) if major == BYTES else self.take(length).decode()
            except UnicodeDecodeError:
                raise Refused("a text that isn't UTF-8") from None
        pieces = []
        while True:
            piece, length, _ = self.head()
            if (piece, length) == (OTHER, None):
                return (b"" if major == BYTES else "").join(pieces)
            if piece != major or length is None:
                raise Refused("a piece of another kind in a string")
            pieces.append(self.string(major, length))

    def items(self, count, level):
        """So many items, or those up to a break."""
        while count != 0:
            value = self.item(level + 1, may_break=count is None)
            if value is BREAK:
                return
            yield value
            count = None if count is None else count - 1

    def entries(self, count, level):
        """A map of so many entries, or of those up to a break."""
        made = {}
        for key in self.items(count, level):
            if type(key) not in (int, str, bytes):
                raise Refused("a key that is neither a number, a text nor bytes")
            if key in made:
                raise Refused(f"the key {show(key)} twice in a map")
            made[key] = self.item(level + 1)
        return made


def encode(value):
    """The canonical encoding: the shortest heads, definite lengths and sorted keys; a float has 64 bits."""
    if value is None or isinstance(value, bool):
        return {None: b"\xf6", True: b"\xf5", False: b"\xf4"}[value]
    if isinstance(value, int):
        return head(0, value) if value >= 0 else head(1, -1 - value)
    if isinstance(value, float):
        return b"\xfb" + struct.pack(">d", value)
    if isinstance(value, bytes):
        return head(BYTES, len(value)) + value
    if isinstance(value, str):
        return head(TEXT, len(utf8(value))) + utf8(value)
    if isinstance(value, list):
        return head(ARRAY, len(value)) + b"".join(map(encode, value))
    if isinstance(value, dict):
        return head(MAP, len(value)) + b"".join(key + one for key, one in sorted((encode(key), encode(one)) for key, one in value.items()))
    if isinstance(value, Tag):
        return head(TAG, value.number) + encode(value.value)
    raise Refused(f"no CBOR for {show(value)}")


def utf8(text):
    """The bytes of a text."""
    try:
        return text.encode()
    except UnicodeEncodeError:
        raise Refused(f"{show(text)} isn't a text in Unicode") from None


def head(major, argument):
    if argument < 24:
        return bytes([major << 5 | argument])
    for code, size in ((24, 1), (25, 2), (26, 4), (27, 8)):
        if argument < 1 << 8 * size:
            return bytes([major << 5 | code]) + argument.to_bytes(size, "big")
    raise Refused("a number of more than 64 bits")


def show(value):
    """A value that may be a sender's, in a few characters of ASCII."""
    shown = ascii(value)
    return shown if len(shown) <= 60 else shown[:57] + ".."
