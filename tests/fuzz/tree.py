"""Devicetrees as docs/FORMATS.md has them, and their blobs, written apart from the program."""
import struct

MAGIC = b'\xd0\x0d\xfe\xed'
DEEPEST = 32


class Refused(Exception):
    """A refusal: the words after `BadTree` or `BadLayout`, or any of these where the documents
    leave more than one open."""

    def __init__(self, *lines):
        super().__init__(*lines)
        self.lines = lines


class Unsure(Exception):
    """The documents don't say it, or finding out takes too long."""


class Node:
    """`props` are pairs of a name and a value, `nodes` the nodes in it."""

    def __init__(self, name, parent=None):
        self.name, self.parent, self.props, self.nodes = name, parent, [], []
        self.by_name, self.first = {}, {}

    def prop(self, name):
        """The value of the first property of the name, None for none."""
        return self.first[name][1] if name in self.first else None

    def append(self, name, value):
        prop = [name, value]
        self.props.append(prop)
        self.first.setdefault(name, prop)

    def set(self, name, value):
        if name in self.first:
            self.first[name][1] = value
        else:
            self.append(name, value)

    def add(self, node):
        self.nodes.append(node)
        self.by_name.setdefault(node.name, node)

    def preorder(self):
        found = [self]
        while found:
            node = found.pop()
            yield node
            found.extend(reversed(node.nodes))

    def path(self):
        names, node = [], self
        while node.parent is not None:
            names.append(node.name)
            node = node.parent
        return b'/' + b'/'.join(reversed(names))

    def phandle(self):
        value = self.prop(b'phandle')
        is_one = isinstance(value, bytes) and len(value) == 4
        return value if is_one and value not in (b'\0' * 4, b'\xff' * 4) else None


def is_named(name):
    return bool(name) and all(0x21 <= b <= 0x7e for b in name)


def read_blob(blob):
    """The tree of a blob, by the checks in their order."""
    if len(blob) < 40 or blob[:4] != MAGIC:
        raise Refused('NotBlob')
    header = struct.unpack('>10I', blob[:40])
    _, total, at, strings_at, reserve_at, version, compatible, _, strings_len, length = header
    if version < 17 or compatible > 17:
        raise Refused('Version')
    if total < 40 or total > len(blob):
        raise Refused('OutOfBounds Total')
    if at % 4 or at + length > total:
        raise Refused('OutOfBounds Struct')
    if strings_at + strings_len > total:
        raise Refused('OutOfBounds Strings')
    while True:
        if reserve_at % 8 or reserve_at + 16 > total:
            raise Refused('OutOfBounds Reserve')
        if blob[reserve_at:reserve_at + 16] == b'\0' * 16:
            break
        reserve_at += 16
    return Blob(blob, at, at + length, blob[strings_at:strings_at + strings_len]).read()


class Blob:
    """Reads the structure block of a blob."""

    def __init__(self, blob, at, end, strings):
        self.blob, self.at, self.begun, self.end, self.strings = blob, at, at, end, strings
        self.root = self.node = None
        self.depth = 0

    def refuse(self, kind):
        raise Refused(f'{kind} {self.begun}')

    def take(self, length):
        """The next bytes, and the filling after them."""
        start, self.at = self.at, self.at + (length + 3) // 4 * 4
        if self.at > self.end:
            self.refuse('BadToken')
        return self.blob[start:start + length]

    def word(self):
        return struct.unpack('>I', self.take(4))[0]

    def read(self):
        while True:
            self.begun = self.at
            word = self.word()
            if word == 1 and (self.root is None or self.depth):
                self.begin()
            elif word == 2 and self.depth:
                self.node, self.depth = self.node.parent, self.depth - 1
            elif word == 3 and self.depth:
                self.property()
            elif word == 9 and self.root is not None and not self.depth:
                return self.root
            elif word != 4:
                self.refuse('BadToken')

    def begin(self):
        zero = self.blob.find(b'\0', self.at, self.end)
        if zero < 0:
            self.refuse('BadToken')
        name = self.take(zero + 1 - self.at)[:-1]
        if self.root is not None and not is_named(name):
            self.refuse('BadName')
        if self.depth == DEEPEST:
            self.refuse('TooDeep')
        node, self.depth = Node(b'' if self.root is None else name, self.node), self.depth + 1
        if self.root is None:
            self.root = node
        else:
            self.node.add(node)
        self.node = node

    def property(self):
        length, name_at = self.word(), self.word()
        value = self.take(length)
        zero = self.strings.find(b'\0', name_at) if name_at < len(self.strings) else -1
        if zero < 0 or not is_named(self.strings[name_at:zero]):
            self.refuse('BadName')
        self.node.append(self.strings[name_at:zero], value)


def padded(text):
    return text + b'\0' * (-len(text) % 4)


def write_blob(root):
    """The blob of a tree."""
    places, strings = {}, bytearray()

    def tokens(node):
        out = [b'\0\0\0\1', padded(node.name + b'\0')]
        for name, value in node.props:
            if name not in places:
                places[name] = len(strings)
                strings.extend(name + b'\0')
            out += [struct.pack('>III', 3, len(value), places[name]), padded(value)]
        return b''.join(out + [tokens(child) for child in node.nodes]) + b'\0\0\0\2'

    body = tokens(root) + b'\0\0\0\x09'
    sizes = 56, 56 + len(body), 40, 17, 16, 0, len(strings), len(body)
    header = MAGIC + struct.pack('>9I', 56 + len(body) + len(strings), *sizes)
    return header + b'\0' * 16 + body + bytes(strings)
