# What run and shapes measure over: flattened devicetrees, and devices. A node is a tuple of its
# name, its properties as pairs of a name and a value, and the nodes in it.
import struct
import zlib


def word(*numbers):
    return b''.join(struct.pack('>I', number) for number in numbers)


def string(text):
    return text.encode() + b'\0'


def filled(data):
    return data + bytes(-len(data) % 4)


# A blob of a root with these properties and nodes. `more` are tokens that stand last in the root,
# and `names` what stands in front of all in its strings block.
def blob(props, nodes, more=b'', names=b''):
    places, strings = {}, bytearray(names)
    def structure(name, props, nodes, more):
        yield word(1) + filled(string(name))
        for prop, value in props:
            if prop not in places:
                places[prop] = len(strings)
                strings.extend(string(prop))
            yield word(3, len(value), places[prop]) + filled(value)
        for node in nodes:
            yield from structure(*node, b'')
        yield more + word(2)
    block = b''.join(structure('', props, nodes, more)) + word(9)
    at = 56 + len(block)
    header = word(0xd00dfeed, at + len(strings), 56, at, 40, 17, 16, 0, len(strings), len(block))
    return header + bytes(16) + block + strings


def variable(name, at, *default):
    reg = [('reg', word(at, 4)), ('type', string('uint32'))]
    return ('%s@%x' % (name, at), reg + [('default', word(number)) for number in default], [])


# The nodes of the example board, and more of them.
def board(*more):
    partition = ('partition@20000', [('reg', word(0x20000, 0x30000)), ('phandle', word(1))], [])
    flash = ('flash@0', [('reg', word(0, 0x100000))], [('partitions', [], [partition])])
    systems = [('system%d' % n, [], [variable('remaining_attempts', 8 * n, 3), variable('priority', 8 * n + 4, 20 - 10 * n)])
               for n in range(2)]
    props = [('compatible', string('barebox,state')), ('magic', word(0x4d433230)), ('backend-type', string('raw')),
             ('backend', word(1)), ('backend-stridesize', word(0x40))]
    return [flash, ('state', props, [('bootstate', [], systems + [variable('last_chosen', 16)])]), *more]


def reg(n):
    return [('reg', word(n))]


letters = 'abcdefghijklmnopqrstuvwxyz'
short = ['n' + a + b for a in letters for b in letters]


# So many groups of 199 nodes, five in six of them with a property.
def groups(count):
    return [('g%d' % g, [], [(short[n], reg(n) if n % 6 else [], []) for n in range(199)]) for g in range(count)]


# The raw record of an area under this magic.
def record(magic, area):
    header = struct.pack('<IHHI', magic, 0, len(area), zlib.crc32(area))
    return header + struct.pack('<I', zlib.crc32(header)) + area


# Three strides that each hold a record of so many bytes under the magic 0x12345678.
def strides(stride, length):
    text = record(0x12345678, bytes(i * 7 % 251 for i in range(length)))
    front = struct.pack('<II', 0x2354fdf3, len(text))
    return (front + text).ljust(stride, b'\xff') * 3
