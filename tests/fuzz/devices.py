"""Devices that copies stand on, most of them torn, decayed or of another content."""
import struct

from layout import STRIDE_HEADER, raw_record


def blank(dice, size):
    return dice.pick([b'\0', b'\xff', b'\xa5']) * size


def device(dice, layout, key):
    """A device with the records of up to two tables in its copies, or of another content; None for
    none."""
    size, how = layout.geometry[2], dice.below(16)
    if how == 0:
        return None
    if how == 1:
        return blank(dice, size)
    if how == 2 and size < 100000:
        return dice.bytes(size)
    fill = b'\xff' if layout.geometry[1] else dice.pick([b'\xff', b'\xff', b'\0'])
    there = bytearray(fill * size)
    key = key if layout.keyed else None
    old, new = [layout.image(layout.record(area(dice, layout), key)) for _ in range(2)]
    for copy in range(layout.copies):
        start, end = layout.region(copy)
        images = dice.pick([[old]] * 3 + [[new]] * 3 + [[], [old, new], [new, old], [old] * 3])
        content = b''.join(images if layout.storage == 'log' else images[-1:])[:end - start]
        there[start:start + len(content)] = content
        if content and dice.once_in(6):
            tear(dice, layout, there, start, start + len(content))
    return bytes(there)


def area(dice, layout):
    """An area: the defaults, and some other values; where records are raw also one of another
    length, up to eight bytes more."""
    found = bytearray(layout.defaults())
    for var in layout.vars:
        if var.kind == b'uint32' and dice.once_in(3):
            value = dice.pick([0, 1, 2, 3, dice.below(256), dice.below(1 << 32)])
            found[var.at:var.at + 4] = struct.pack('<I', value)
        elif dice.once_in(4):
            found[var.at:var.at + var.size] = dice.bytes(var.size)
    if layout.type == b'raw' and dice.once_in(3):
        length = min(dice.below(len(found) + 9), 65535)
        found = (found + dice.bytes(9))[:length]
    return bytes(found)


def tear(dice, layout, there, start, end):
    """A write that stopped at any byte, or what decayed of a record."""
    at, how = dice.among(start, end - 1), dice.below(4)
    if how == 0:
        there[at:end] = blank(dice, end - at)
    elif how == 1:
        there[at] ^= 1 << dice.below(8)
    elif how == 2:
        place = end - 4 if layout.storage == 'log' else start + 4
        near = struct.unpack('<I', there[place:place + 4])[0] + dice.among(-9, 9)
        length = dice.pick([near, near, 0, 1, layout.unit, layout.unit + 1, 0x7fffffff, 0xffffffff])
        there[place:place + 4] = struct.pack('<I', length & 0xffffffff)
    else:
        there[start:start + 8] = b'\0' * 8


def strides(dice, magic, passed, stride, size):
    """The device of `raw`, with this area in most of its copies."""
    out = b''
    for _ in range(3):
        record = raw_record(magic, dice.pick([passed, passed, dice.bytes(len(passed))]))
        image = struct.pack('<II', STRIDE_HEADER, len(record)) + record
        out += dice.pick([image, image, b'']).ljust(stride, dice.pick([b'\xff', b'\0']))
    return out.ljust(size, b'\xff')


def hurt_device(dice, there):
    """A device with one more damage: another length, or a piece that is random, blank or moved."""
    size, how = len(there), dice.below(8)
    if how == 0:
        return there[:dice.below(size + 1)]
    if how == 1:
        return there + blank(dice, dice.length())
    begun = [at for at in (0, 0x20000, 0x30000, 0x40000) if there[at:at + 600].strip(b'\xff')]
    at, to = [dice.pick(begun or [0]) + dice.below(600) for _ in range(2)]
    moved = there[at:at + dice.length()]
    piece = dice.pick([dice.bytes(1), blank(dice, dice.length()), moved])
    to = to if how > 4 else at
    return (there[:to] + piece + there[to + len(piece):])[:max(size, 1)]
