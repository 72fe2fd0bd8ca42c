"""From a devicetree to a layout as docs/FORMATS.md has it, and the records of its copies, written
apart from the program."""
import hashlib
import hmac
import struct
import zlib

from tree import Node, Refused, Unsure, write_blob
from values import Var, is_utf8

SIZES = {b'uint8': 1, b'uint32': 4, b'enum32': 4, b'mac': 6}
STORAGES = (b'circular', b'noncircular', b'direct')
STRIDE_HEADER = 0x2354fdf3
LOG_WORD = 0x14fa2d02


def refuse(*words):
    raise Refused(' '.join(words))


def strings_of(value):
    """The strings of a list of them, None where it is none."""
    return value[:-1].split(b'\0') if value and value.endswith(b'\0') else None


def string_of(value):
    found = strings_of(value) or []
    return found[0] if len(found) == 1 else None


def cells_of(value):
    """The cells of a value, none where it is missing or has another length."""
    if value is None or len(value) % 4:
        return []
    return list(struct.unpack(f'>{len(value) // 4}I', value))


def cell_of(value):
    cells = cells_of(value)
    return cells[0] if len(cells) == 1 else None


def node_at(root, path):
    """The node of a path of full names, None for none."""
    node = root
    for name in path.split(b'/')[1:] if path != b'/' else []:
        found = [child for child in node.nodes if child.name == name]
        if len(found) > 1:
            raise Unsure('two nodes of one path')
        if not found:
            return None
        node = found[0]
    return node


def region_of(node):
    """The offset and the size that a node's `reg` says, None for none."""
    cells = cells_of(node.prop(b'reg'))
    if len(cells) == 4 and cells[0] == cells[2] == 0:
        cells = cells[1::2]
    return cells if len(cells) == 2 else None


def counts(node):
    return b'barebox,state' in (strings_of(node.prop(b'compatible')) or [])


def variable(node, path):
    kind = string_of(node.prop(b'type'))
    if kind not in SIZES and kind != b'string':
        refuse('BadType')
    if node.prop(b'reg') is None:
        refuse('Missing reg')
    reg = cells_of(node.prop(b'reg'))
    if len(reg) != 2 or sum(reg) > 0xffffffff:
        refuse('BadReg')
    at, size = reg
    if size != SIZES[kind] if kind in SIZES else not 1 <= size <= 1024:
        refuse('BadReg')
    names = None
    if kind == b'enum32':
        if node.prop(b'names') is None:
            refuse('Missing names')
        names = strings_of(node.prop(b'names'))
        if names is None or not all(map(is_utf8, names)):
            refuse('BadProp names')
    given = node.prop(b'default')
    default = b'\0' * size if given is None else default_of(kind, size, names, given)
    if default is None:
        refuse('BadProp default')
    return Var(path, kind, at, size, names, default)


def default_of(kind, size, names, given):
    if kind == b'mac':
        return given if len(given) == 6 else None
    if kind == b'string':
        text = string_of(given)
        return text.ljust(size, b'\0') if text is not None and len(text) <= size else None
    cell = cell_of(given)
    if cell is None or cell >= {b'uint8': 256, b'enum32': len(names or [])}.get(kind, 1 << 32):
        return None
    return struct.pack('<I', cell)[:size]


class Layout:
    """The layout of a tree: `name`, `vars`, `area` (the area's length), `at` and `size` of the
    partition, `unit` (the stride or the block), `copies`, and `storage` (stride, log or block)."""

    def __init__(self, tree, wanted, geometry):
        self.geometry, self.length = geometry, None
        self.find_state(tree, wanted)
        self.take_properties()
        self.vars = list(self.variables(self.state, []))
        self.measure()
        self.find_partition(tree)
        self.place()

    def find_state(self, tree, wanted):
        name = b'state' if wanted is None else wanted
        aliases = node_at(tree, b'/aliases')
        alias = string_of(aliases.prop(name)) if aliases else None
        if alias is not None and is_utf8(alias) and alias.startswith(b'/'):
            node = node_at(tree, alias)
            if node and counts(node):
                self.state, self.name = node, name
                return
        for node in filter(counts, tree.preorder()):
            if wanted in (None, node.name.split(b'@')[0]):
                self.state, self.name = node, node.name.split(b'@')[0]
                return
        refuse('NoState')

    def take_properties(self):
        prop = self.state.prop
        self.magic = cell_of(prop(b'magic'))
        if self.magic is None:
            refuse('Missing magic' if prop(b'magic') is None else 'BadProp magic')
        self.type = string_of(prop(b'backend-type'))
        if self.type not in (b'raw', b'dtb'):
            refuse('BadProp' if prop(b'backend-type') is not None else 'Missing', 'backend-type')
        algo, storage, stride = map(prop, (b'algo', b'backend-storage-type', b'backend-stridesize'))
        self.keyed = algo is not None
        if self.keyed and (string_of(algo) != b'hmac(sha256)' or self.type == b'dtb'):
            refuse('BadProp algo')
        self.kind = string_of(storage)
        if storage is not None and self.kind not in STORAGES:
            refuse('BadProp backend-storage-type')
        self.stride = cell_of(stride)
        if stride is not None and not self.stride:
            refuse('BadProp backend-stridesize')

    def variables(self, node, path):
        for child in node.nodes:
            if child.prop(b'type') is None:
                yield from self.variables(child, path + [child.name])
            else:
                yield variable(child, path + [child.name])

    def measure(self):
        if len({var.name for var in self.vars}) < len(self.vars):
            refuse('NameTwice')
        self.area = 0
        for var in sorted(self.vars, key=lambda var: var.at):
            if var.at < self.area:
                refuse('Overlap')
            self.area = var.at + var.size
        if self.area > 65535:
            refuse('AreaTooLong')

    def find_partition(self, tree):
        backend = self.state.prop(b'backend')
        if backend is None:
            refuse('Missing backend')
        if len(backend) == 4:
            found = [node for node in tree.preorder() if node.phandle() == backend]
            if len(found) > 1:
                raise Unsure('two nodes of one phandle')
        else:
            path = string_of(backend)
            if not path or not path.startswith(b'/'):
                refuse('BadProp backend')
            found = [node_at(tree, path)]
        region = region_of(found[0]) if found and found[0] else None
        if region is None:
            refuse('NoBackend')
        self.at, self.size = region

    def place(self):
        page, block, size = self.geometry
        if block and (self.at % block or self.size % block):
            refuse('Unaligned')
        if self.at + self.size > size:
            refuse('OutOfDevice')
        self.storage, self.unit = 'stride', self.stride or self.size // 3
        room = 8 + self.record_length()
        if block:
            self.unit = block
            self.storage = 'block' if self.kind in STORAGES[1:] else 'log'
        if self.storage == 'log':
            room = (room + page - 1) // page * page
        self.copies = min(3, self.size // self.unit) if self.unit else 0
        if self.copies < 2 or room > self.unit:
            refuse('TooSmall')

    def record_length(self):
        if self.type == b'raw':
            return 16 + self.area + (32 if self.keyed else 0)
        if self.length is None:
            self.length = len(self.record(b'\0' * self.area, None))
        return self.length

    def defaults(self):
        area = bytearray(self.area)
        for var in self.vars:
            area[var.at:var.at + var.size] = var.default
        return bytes(area)

    def record(self, area, key):
        if self.type == b'dtb':
            return self.dtb_record(area)
        return raw_record(self.magic, area, key if self.keyed else None)

    def dtb_record(self, area):
        root = Node(b'')
        root.append(b'bb,crc32', b'\0' * 4)
        state = Node(self.state.name, root)
        state.append(b'compatible', b'barebox,state\0')
        state.append(b'magic', struct.pack('>I', self.magic))
        root.add(state)
        leads = []
        for var in self.vars:
            same = 0
            while same < min(len(leads), len(var.path) - 1) and leads[same].name == var.path[same]:
                same += 1
            leads = leads[:same]
            for name in var.path[same:]:
                leads.append(Node(name, leads[-1] if leads else state))
                leads[-1].parent.add(leads[-1])
            value = area[var.at:var.at + var.size]
            if var.kind not in (b'mac', b'string'):
                value = struct.pack('>I', int.from_bytes(value, 'little'))
            leads.pop().append(b'value', value)
        blob = write_blob(root)
        return blob[:76] + struct.pack('>I', zlib.crc32(blob)) + blob[80:]

    def region(self, copy):
        return self.at + copy * self.unit, self.at + (copy + 1) * self.unit

    def image(self, record):
        """What a write of a copy puts at its place."""
        page = self.geometry[0]
        if self.storage == 'log':
            length = (len(record) + 8 + page - 1) // page * page
            return record.ljust(length - 8, b'\xff') + struct.pack('<II', LOG_WORD, length)
        image = struct.pack('<II', STRIDE_HEADER, len(record)) + record
        return image if self.storage == 'stride' else image + b'\xff' * (-len(image) % page)


def code(key, text):
    return hmac.new(key, text, hashlib.sha256).digest()


def raw_record(magic, area, key=None):
    header = struct.pack('<IHHI', magic, 0, len(area), zlib.crc32(area))
    record = header + struct.pack('<I', zlib.crc32(header)) + area
    return record if key is None else record + code(key, record)
