"""Draws boards with slots, images for them, and what the slots hold before."""
import hashlib

from corpus import Board

LABELS = [b'root0'] * 40 + [b'root1', b'root', b'', b'state', 'w\u00e4'.encode()]
NO_DIGESTS = [b'', b'0' * 63, b'0' * 64, b'0' * 65, b'g' * 64]
TARGETS = [b'system0'] * 30 + [b'system1'] * 20 + [b'system', b'system00', b'', b'retry']


class Drawn:
    """A board with a slot that begins at `at` and has `size` bytes, for what is to be refused too.
    `image` is one for it, of this `length` where there is one."""

    def __init__(self, dice, board, length=None):
        kind, *parts = board.geometry.split(b':')
        page, block, end = board.layout.geometry
        self.dice, self.page, self.block, self.layout = dice, page, block, board.layout
        self.unit = block or dice.pick([1, 64, 4096])
        self.end = end
        self.more = self.unit * dice.pick([1, 1, 2, 4, 40 if self.unit < 9999 else 1])
        if length is not None:
            self.more = (length // self.unit + 1) * self.unit
        geometry = b':'.join([kind] + parts[:-1] + [b'%d' % (end + self.more)])
        self.at, self.size = self.place() if length is None else (end, self.more)
        self.board = Board(board.tree + self.nodes(), geometry, board.files)
        self.image = self.bytes(self.length() if length is None else length)

    def place(self):
        """Mostly behind what the board has, and else anywhere."""
        end, more, unit, layout = self.end, self.more, self.unit, self.layout
        if self.dice.below(5):
            return end, more
        return self.dice.pick([
            (0, layout.at), (layout.at + layout.size, unit), (end, 0), (end, more + unit),
            (end + more, unit), (end + 1, more - 1), (end, more - 1), (layout.at, unit),
            (max(0, layout.at + layout.size - unit), unit), (max(0, end - unit), unit + more),
            (0, end + more), (0, unit), (0xffffffff, 0xffffffff), (0, 0xffffffff)])

    def nodes(self):
        """The slot's node, now and then with others of its label before or after it."""
        dice = self.dice
        here = b'<%d %d>' % (self.at, self.size)
        if dice.once_in(16):
            forms = [b'<0 %d 0 %d>', b'<1 %d 0 %d>', b'<0 %d 1 %d>', b'<%d %d 0>', b'<%d>, <%d>']
            here = dice.pick(forms + [b'<%d>, "%d"']) % (self.at, self.size)
            here = here if dice.below(5) else b'<%d>' % self.at
        reg = b'' if dice.once_in(30) else b'reg = ' + here + b'; '
        nodes = [b'label = "root0"; ' + reg]
        for _ in range(dice.pick([0, 0, 0, 0, 0, 1, 2])):
            other = dice.pick([b'reg = <%d %d>; ' % (self.end, self.unit), b'reg = <0 64>; ', b''])
            label = dice.pick([b'"root0"', b'"root0"', b'"root1"', b'"root0", "a"', b'"root"', b'""'])
            nodes.insert(dice.below(2), b'label = ' + label + b'; ' + other)
        if dice.once_in(20):
            return b'\n/ { ' + nodes[0] + b'};\n'
        inner = b''.join(b'slot@%x { %s}; ' % (place, node) for place, node in enumerate(nodes))
        return b'\n/ { slots { ' + inner + b'}; };\n'

    def length(self):
        """How many bytes the image has."""
        size = min(self.size, 1 << 19)
        near = [self.page - 1, self.page, self.page + 1, self.block, self.block + 1, size - 1, size]
        return max(0, self.dice.pick([0, 1, self.dice.below(size + 1)] + 2 * near + [size + 1]))

    def bytes(self, length):
        piece = self.dice.bytes(61)
        if self.dice.once_in(5):
            piece = self.dice.pick([b'\0', b'\xff'])
        return (piece * (length // len(piece) + 1))[:length]

    def digest(self):
        """The digest of the image, or another word."""
        dice, found = self.dice, hashlib.sha256(self.image).hexdigest().encode()
        if dice.once_in(16):
            return dice.pick(NO_DIGESTS + [found[:-1], found + b'0', found[:-1] + b'x'])
        if dice.once_in(16):
            at = dice.below(64)
            return found[:at] + b'%x' % dice.below(16) + found[at + 1:]
        return found.upper() if dice.once_in(4) else found

    def words(self, command):
        """The words that an install or a comparison has besides."""
        dice = self.dice
        pieces = [[b'-p', dice.pick(LABELS)], [b'-f', b'none' if dice.once_in(30) else b'root.img']]
        if command == b'install':
            pieces += [[b'-t', dice.pick(TARGETS)], [b'--sha256', self.digest()]]
        pieces.insert(dice.below(len(pieces)), pieces.pop())
        return [word for piece in pieces for word in piece]

    def filled(self, device):
        """A device whose slot has another system, the image, or most of it."""
        dice, at = self.dice, self.at
        size = max(0, min(self.size, len(device or b'') - at))
        if not size or dice.once_in(4):
            return device
        there = dice.pick([self.bytes(size), self.image, self.image, self.image[:dice.below(size)]])
        there = there[:size]
        if there and dice.once_in(2):
            place = dice.below(len(there))
            there = there[:place] + bytes([there[place] ^ 1 << dice.below(8)]) + there[place + 1:]
        if max(at, self.layout.at) < min(at + size, self.layout.at + self.layout.size):
            return device
        return device[:at] + there + device[at + len(there):]

    def limit(self):
        """The byte from which on nothing can be written, in what an install writes of the slot or
        right after it; None for none."""
        is_behind = self.at >= self.layout.at + self.layout.size
        if not is_behind or self.dice.once_in(2):
            return None
        reach = self.size if self.block else len(self.image)
        return self.at + self.dice.pick([0, self.dice.below(reach + 1), self.dice.below(reach + 1)])
