"""Sources of devicetrees as docs/FORMATS.md has them, read token by token and apart from the
program."""
import re
import struct

from tree import DEEPEST, MAGIC, Node, Refused, read_blob

# The table of places: the tokens that may come, each with the place after it.
OUTER = {'label': 'TopLabel', '/': 'Open', '&ref': 'Open'}
PROPERTY = {'label': 'PropsLabel', 'name': 'PropName'}
NODE = {'label': 'NodesLabel', 'name': 'NodeName'}
FOLLOWS = {
    'Start': {'/dts-v1/': 'Version'},
    'Version': {';': 'Head'},
    'Head': {**OUTER, 'label': 'Head', '/memreserve/': 'Address'},
    'Address': {'number': 'Length'},
    'Length': {'number': 'ReserveEnd'},
    'ReserveEnd': {';': 'Head'},
    'Top': {**OUTER, 'end': 'End'},
    'TopLabel': OUTER,
    'Open': {'{': 'Props'},
    'Props': {**PROPERTY, '}': 'Close'},
    'PropsLabel': PROPERTY,
    'PropName': {'{': 'Props', '=': 'Value', ';': 'Props'},
    'Value': {'string': 'After', '&ref': 'After', '<': 'Cells', '[': 'Bytes'},
    'Cells': {'number': 'Cells', '&ref': 'Cells', '>': 'After'},
    'Bytes': {'byte': 'Bytes', ']': 'After'},
    'After': {',': 'Value', ';': 'Props'},
    'Close': {';': 'Nodes'},
    'TopClose': {';': 'Top'},
    'Nodes': {**NODE, '}': 'Close'},
    'NodesLabel': NODE,
    'NodeName': {'{': 'Props'},
}
NUMBERED = ('Cells', 'Address', 'Length', 'ReserveEnd')
LEFT_OUT = (b'/include/', b'/incbin/', b'/plugin/', b'/delete-node/', b'/delete-property/',
            b'/omit-if-no-ref/', b'/bits/', b'(', b"'", b'&{')
PREPROCESSOR = {b'#' + name for name in (b'include', b'define', b'undef', b'if', b'ifdef',
                                         b'ifndef', b'elif', b'else', b'endif')}
REF = re.compile(rb'[A-Za-z_][A-Za-z0-9_]*')
RUN = re.compile(rb'[A-Za-z0-9_]+')
NAME = re.compile(rb'[A-Za-z0-9,._+*#?@-]+')
NAME_IN_VALUE = re.compile(rb'[A-Za-z0-9._+*#?@-]+')
OCTAL = re.compile(rb'[0-7]{1,3}')
HEX = re.compile(rb'[0-9a-fA-F]{1,2}')
PLAIN = re.compile(rb'[^"\\]+')
NUMBER = re.compile(rb'(?:0[xX]([0-9a-fA-F]+)|0([0-7]+)|([0-9]+))(?:U|L|UL|LL|ULL)?')
ESCAPES = {ord(sign): byte for sign, byte in zip('abtnvfr', b'\a\b\t\n\v\f\r')}


def refuse(kind, at):
    raise Refused(f'{kind} {at}')


def run_from(text, at, form):
    """The run of this form that begins there, empty where there is none."""
    found = form.match(text, at)
    return found[0] if found else b''


def worth(digits, base):
    """What digits are worth, 2^300 where they are too many to count."""
    digits = digits.lstrip(b'0') or b'0'
    return int(digits, base) if len(digits) < 75 else 1 << 300


def number_of(word):
    """What a number of a source is worth, None for none."""
    found = NUMBER.fullmatch(word)
    if not found or found[3] and found[3][:1] == b'0' and found[3] != b'0':
        return None
    return next(worth(digits, base) for digits, base in zip(found.groups(), (16, 8, 10)) if digits)


class Tokens:
    """The tokens of a text, each by its place."""

    def __init__(self, text):
        self.text, self.at = text, 0

    def skip(self):
        """Passes over blanks and comments."""
        text = self.text
        while self.at < len(text):
            if text[self.at] in b' \t\r\n\f':
                self.at += 1
            elif text.startswith(b'//', self.at):
                end = text.find(b'\n', self.at)
                self.at = len(text) if end < 0 else end + 1
            elif text.startswith(b'/*', self.at):
                end = text.find(b'*/', self.at + 2)
                if end < 0:
                    refuse('BadToken', self.at)
                self.at = end + 2
            else:
                return

    def next(self, place, is_open):
        """The next token: its kind, what it holds, and where it begins."""
        self.skip()
        text, at = self.text, self.at
        if at >= len(text):
            return 'end', None, at
        if text.startswith(LEFT_OUT, at):
            refuse('LeftOut', at)
        for word in (b'/dts-v1/', b'/memreserve/'):
            if text.startswith(word, at):
                return self.taken(word.decode(), None, len(word))
        if text[at:at + 1] == b'&':
            name = run_from(text, at + 1, REF) or refuse('BadToken', at)
            return self.taken('&ref', name, 1 + len(name))
        if text[at:at + 1] == b'"':
            value, end = self.string()
            return self.taken('string', value + b'\0', end - at)
        return self.run(place, is_open) or self.sign(place)

    def taken(self, kind, held, length):
        self.at += length
        return kind, held, self.at - length

    def sign(self, place):
        sign = self.text[self.at:self.at + 1]
        if sign not in b'{}=;<>[]/' and not (sign == b',' and place in ('Value', 'After')):
            refuse('BadToken', self.at)
        return self.taken(sign.decode(), None, 1)

    def run(self, place, is_open):
        """A run of characters that is one token at its place."""
        text, at = self.text, self.at
        if place in NUMBERED:
            word = run_from(text, at, RUN)
            number = number_of(word) if word else None
            if word and number is None:
                refuse('BadToken', at)
            return self.taken('number', number, len(word)) if word else None
        if place == 'Bytes':
            digits = run_from(text, at, HEX)
            if len(digits) == 1:
                refuse('BadToken', at)
            return self.taken('byte', bytes.fromhex(digits.decode()), 2) if digits else None
        in_value = place in ('Value', 'After')
        word = run_from(text, at, NAME_IN_VALUE if in_value else NAME)
        if not in_value and REF.fullmatch(word) and text.startswith(b':', at + len(word)):
            return self.taken('label', word, len(word) + 1)
        begins = place in ('Props', 'Nodes') or not is_open
        if word in PREPROCESSOR and begins:
            refuse('LeftOut', at)
        return self.taken('name', word, len(word)) if word else None

    def string(self):
        """The bytes of the string that begins here, and where it ends."""
        text, at, out = self.text, self.at + 1, bytearray()
        while at < len(text) and text[at:at + 1] != b'"':
            plain = run_from(text, at, PLAIN)
            out += plain
            at += len(plain)
            if not plain:
                byte, at = self.escape(at + 1) if at + 1 < len(text) else (0, at + 1)
                out.append(byte)
        if at >= len(text):
            refuse('BadToken', self.at)
        return bytes(out), at + 1

    def escape(self, at):
        """The byte of the escape whose character stands there, and where it ends."""
        octal = run_from(self.text, at, OCTAL)
        if octal:
            if int(octal, 8) > 255:
                refuse('BadToken', self.at)
            return int(octal, 8), at + len(octal)
        if self.text[at:at + 1] != b'x':
            return ESCAPES.get(self.text[at], self.text[at]), at + 1
        digits = run_from(self.text, at + 1, HEX) or refuse('BadToken', self.at)
        return int(digits, 16), at + 1 + len(digits)


class Source:
    """Reads one source. `open` are the nodes with open bodies, `pending` the labels that wait for
    their node, `target` the node of a body at the outermost level."""

    def __init__(self, text):
        self.tokens, self.place = Tokens(text), 'Start'
        self.root, self.open, self.labels, self.pending = Node(b''), [], {}, []
        self.target = self.name = self.value = None

    def read(self):
        while self.place != 'End':
            kind, held, at = self.tokens.next(self.place, self.open)
            then = FOLLOWS[self.place].get(kind)
            if then is None or (kind == '&ref' and self.open and self.name == b'phandle'):
                refuse('Unexpected', at)
            self.take(kind, held, at)
            self.place = then if kind != '}' or self.open else 'TopClose'
        return resolve(self.root, self.labels, len(self.tokens.text))

    def take(self, kind, held, at):
        place = self.place
        if kind == 'label':
            self.pending.append((held, at))
        elif kind == 'name':
            self.name = held
        elif kind == '{':
            self.body(at)
        elif kind == '}':
            self.open.pop()
        elif kind == '/':
            self.target = self.root
        elif kind in ('=', '/memreserve/') or (place == 'PropName' and kind == ';'):
            self.pending, self.value = [], []
        elif kind == '&ref' and not self.open:
            self.find(held, at)
        elif kind == '&ref':
            self.value.append((place, held, at))
        elif kind == 'number':
            self.number(held, at)
        elif kind in ('string', 'byte'):
            self.value.append(held)
        if place in ('PropName', 'After') and kind == ';':
            self.open[-1].set(self.name, self.value)

    def number(self, worth_it, at):
        if worth_it >> (32 if self.place == 'Cells' else 64):
            refuse('NumberTooLarge', at)
        if self.place == 'Cells':
            self.value.append(struct.pack('>I', worth_it))

    def find(self, label, at):
        """The node of a label at the outermost level. Where there is none, and no body follows, it
        isn't said which of the two faults decides."""
        self.target = self.labels.get(label)
        if self.target is not None:
            return
        lines = [f'NoSuchLabel {at}']
        try:
            follows, _, there = self.tokens.next('Open', False)
            lines += [] if follows == '{' else [f'Unexpected {there}']
        except Refused as refusal:
            lines += refusal.lines
        raise Refused(*lines)

    def body(self, at):
        """Opens the body of the node that is due."""
        node = self.target
        if node is None:
            parent = self.open[-1]
            node = parent.by_name.get(self.name) or Node(self.name, parent)
        for label, label_at in self.pending:
            if self.labels.get(label, node) is not node:
                refuse('DuplicateLabel', label_at)
        if len(self.open) == DEEPEST:
            refuse('TooDeep', at)
        if self.target is None and node.name not in node.parent.by_name:
            node.parent.add(node)
        self.labels.update((label, node) for label, _ in self.pending)
        self.pending, self.target = [], None
        self.open.append(node)


def resolve(root, labels, length):
    """Puts phandles and paths in place of references, and joins the values."""
    nodes = list(root.preorder())
    for node in nodes:
        for prop in node.props:
            if not any(isinstance(part, tuple) for part in prop[1]):
                prop[1] = b''.join(prop[1])
    taken, least = {node.phandle() for node in nodes}, 1
    for node in nodes:
        for prop in node.props:
            if isinstance(prop[1], bytes):
                continue
            for place, part in enumerate(prop[1]):
                if not isinstance(part, tuple):
                    continue
                kind, label, at = part
                if label not in labels:
                    refuse('NoSuchLabel', at)
                target = labels[label]
                while kind == 'Cells' and target.phandle() is None:
                    if struct.pack('>I', least) not in taken:
                        target.set(b'phandle', struct.pack('>I', least))
                        taken.add(target.phandle())
                    least += 1
                prop[1][place] = target.path() + b'\0' if kind == 'Value' else target.phandle()
            prop[1] = b''.join(prop[1])
    there = [node.phandle() for node in nodes if node.phandle()]
    if len(set(there)) < len(there):
        refuse('DuplicatePhandle', length)
    return root


def read_tree(text):
    """The tree of a source or of a blob."""
    if text[:4] == MAGIC:
        return read_blob(text)
    try:
        text.decode()
    except UnicodeDecodeError as error:
        refuse('NotText', error.start)
    return Source(text).read()
