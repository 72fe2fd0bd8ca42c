"""Numbers, geometries and the values of variables as docs/FORMATS.md has them, written apart from
the program."""
import re
import struct

from source import worth

NUMBER = re.compile(r'0[xX]([0-9a-fA-F]+)|([0-9]+)')
MAC = re.compile(r'[0-9a-fA-F]{2}(:[0-9a-fA-F]{2}){5}')


def number(text):
    """What a number among the words is worth; NotNumber or TooLarge, as a text, for none."""
    found = NUMBER.fullmatch(text)
    if not found:
        return 'NotNumber'
    value = worth((found[1] or found[2]).encode(), 16 if found[1] else 10)
    return value if value < 1 << 32 else 'TooLarge'


def is_number(text):
    return isinstance(number(text), int)


def geometry_of(word):
    """(page, block, size) of a geometry, None for none. The block is 0 where there are none."""
    kind, *parts = word.split(':')
    if not all(map(is_number, parts)):
        return None
    parts = [number(part) for part in parts]
    if kind == 'ov' and len(parts) == 1 and 1 <= parts[0] <= 1 << 28:
        return 1, 0, parts[0]
    if kind == 'er' and len(parts) == 3:
        page, block, size = parts
        is_page, is_block = 16 <= page <= 16384, 0 < block <= 1 << 22
        if is_page and is_block and block % page == 0 and 0 < size <= 1 << 28:
            return (page, block, size) if size % block == 0 else None
    return None


def is_utf8(text):
    try:
        text.decode()
    except UnicodeDecodeError:
        return False
    return True


class Var:
    """A variable: its name, the names of the nodes that lead to it, its type, and its range."""

    def __init__(self, path, kind, at, size, names, default):
        self.name = b'.'.join(name.split(b'@')[0] for name in path)
        self.path, self.kind, self.at, self.size = path, kind, at, size
        self.names, self.default = names, default

    def read(self, text):
        """The bytes that a text stands for; the refusal's name, as a text, for none."""
        if self.kind == b'enum32':
            place = self.names.index(text.encode()) if text.encode() in self.names else None
            return 'NoSuchName' if place is None else struct.pack('<I', place)
        if self.kind == b'mac':
            return bytes.fromhex(text.replace(':', '')) if MAC.fullmatch(text) else 'NotMac'
        if self.kind == b'string':
            value = text.encode()
            if b'\0' in value:
                return 'HasZeroByte'
            return value.ljust(self.size, b'\0') if len(value) <= self.size else 'TooLong'
        value = number(text)
        if isinstance(value, int) and value >> 8 * self.size:
            value = 'TooLarge'
        return value if isinstance(value, str) else struct.pack('<I', value)[:self.size]

    def text(self, value):
        """As it is printed."""
        if self.kind == b'mac':
            return b':'.join(b'%02x' % byte for byte in value)
        if self.kind == b'string':
            return value.split(b'\0')[0]
        number_of_it = int.from_bytes(value, 'little')
        if self.kind == b'enum32' and number_of_it < len(self.names):
            return self.names[number_of_it]
        return b'%d' % number_of_it
