"""Input of one shape each, as long as asked for, whose cost may grow faster than its length. Those
of `ABOVE` and `BLOBS_ABOVE` take more than the limits allow, as docs/SHAPES.md says of them."""
import struct

BEGIN, END_NODE, PROP, NOP, END = [struct.pack('>I', token) for token in (1, 2, 3, 4, 9)]


def filled(front, piece, back, size):
    """The piece, with its place in each `%x`, as often as it fits."""
    room, place, out = size - len(front) - len(back), 0, []
    while room >= 0:
        text = piece.replace(b'%x', b'%x' % place)
        out.append(text)
        room, place = room - len(text), place + 1
    return front + b''.join(out[:-1]) + back


def of(front, piece, back):
    return lambda dice, size: filled(front, piece, back, size)


def source(front, piece, back):
    return of(b'/dts-v1/;' + front, piece, back)


def deep(dice, size):
    """Chains of 32 levels."""
    chain = (b'n%d{' % dice.below(10)) * 30 + b'};' * 30
    return filled(b'/dts-v1/;/{', b'a%x{' + chain + b'};', b'};', size)


def inside(piece):
    """Pieces in a node of a long name, which is labelled."""
    def shape(dice, size):
        name = b'n' * (size // dice.pick([2, 4, 10, 100]))
        return filled(b'/dts-v1/;/{x:' + name + b'{', piece, b'};};', size)
    return shape


def string(dice, size):
    piece = dice.pick([b'a', b'\\x41', b'\\101', b'\\"'])
    return filled(b'/dts-v1/;/{a="', piece, b'";};', size)


# The variables of a state are looked at once these properties are.
STATE = b'/{s{compatible="barebox,state";magic=<1>;backend-type="raw";'
SOURCES = [
    source(b'/{', b'n%x{};', b'};'),
    source(b'/{', b'p%x;', b'};'),
    source(b'/{', b'p;', b'};'),
    source(b'/{', b'/*%x*/', b'};'),
    source(b'/{a=<', b'1 ', b'>;};'),
    source(b'/{a=[', b'00', b'];};'),
    source(b'/{a="a"', b',"b"', b';};'),
    source(b'/{a=<', b'&x ', b'>;x:n{};};'),
    source(b'/{a=&x', b',&x', b';x:n{};};'),
    source(b'/{', b'l%x:', b'a{};};'),
    source(b'/{', b'l%x:a%x{};', b'};'),
    source(b'/{x:a{};};', b'&x{b%x{};};', b''),
    source(b'/{};', b'/{a{};};', b''),
    source(STATE, b'v%x{type="uint8";reg=<0x%x 1>;};', b'};};'),
    source(STATE, b'v%x{type="uint8";};', b'};};'),
    source(STATE + b'm{type="enum32";reg=<0 4>;names="n"', b',"n%x"', b';};};};'),
    inside(b'a%x{};'),
    string,
]
ABOVE = [deep, inside(b'l%x:a%x{};'), inside(b'a%x{b=<&x>;};')]


def blob(structure, strings=b''):
    end = 56 + len(structure)
    sizes = 16, 0, len(strings), len(structure)
    front = struct.pack('>10I', 0xd00dfeed, end + len(strings), 56, end, 40, 17, *sizes)
    return front + bytes(16) + structure + strings


def root(content, size):
    """A root with this content, as often as it fits."""
    content *= max(size - 80, 0) // len(content)
    return BEGIN + bytes(4) + content + END_NODE + END


def tails(step):
    """Properties that are called by one long string, or by its tails."""
    def shape(dice, size):
        strings = b'x' * (size // 2) + b'\0'
        places = [place * step % (size // 2) for place in range(size // 24)]
        tokens = [PROP + struct.pack('>II', 0, place) for place in places]
        return blob(root(b''.join(tokens), size), strings)
    return shape


BLOBS = [
    lambda dice, size: blob(root(NOP, size)),
    lambda dice, size: blob(root(BEGIN + b'a\0\0\0' + END_NODE, size)),
    lambda dice, size: blob(root(PROP + struct.pack('>II', 0, 0), size), b'x\0'),
]
BLOBS_ABOVE = [tails(0), tails(7919)]

KEY = b'global.bootchooser.'
SETTINGS = [
    of(KEY + b'targets=', b'a ', b'\n'),
    of(KEY + b'targets=', b't%x ', b'\n'),
    of(KEY + b'targets=system0 system1\n', KEY + b'retry=0\n', b''),
    of(KEY + b'targets=system0 system1\n', KEY + b't%x.default_attempts=1\n', b''),
    of(KEY + b'targets=system0 system1\n', b'\n', b''),
]
ENTRIES = [of(b'', line, b'linux /z\n') for line in (b'\n', b'a\n', b'initrd a\n', b'options a\n')]
KEYS = [of(b'', piece, b'') for piece in (b'4a', b' ')]
