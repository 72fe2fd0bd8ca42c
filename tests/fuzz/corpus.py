"""The examples of the repository from which runs are made: those of examples/, tests/cli/cases and
integration/ab."""
import os

from layout import Layout
from source import read_tree
from tree import Refused, Unsure
from values import geometry_of
from words import BadSettings, Settings


def read(path):
    with open(path, 'rb') as file:
        return file.read()


def below(folder):
    """The files below a folder with their names from there on, in the order of their bytes."""
    for path, folders, names in os.walk(os.fsencode(folder)):
        folders.sort()
        for name in sorted(names):
            whole = os.path.join(path, name)
            if os.path.isfile(whole):
                yield os.path.relpath(whole, os.fsencode(folder)), read(whole)


def image(text):
    """The bytes that a device's text stands for, as tests/cli/run says."""
    out = bytearray()
    for line in text.decode().splitlines():
        hexa, *star = line.split('#')[0].split()[:2] or ['']
        if star and star[0].startswith('*'):
            out += bytes.fromhex(hexa) * int(star[0][1:])
        elif hexa:
            out += bytes.fromhex(hexa)
    return bytes(out)


class Case:
    """A case of tests/cli/cases: its words, files and device."""

    def __init__(self, folder, examples):
        self.name = os.path.basename(folder)
        self.words = read(f'{folder}/words').split(b'\n')
        if self.words[-1] == b'':
            self.words.pop()
        self.files = dict(examples)
        for name, text in below(f'{folder}/files') if os.path.isdir(f'{folder}/files') else []:
            self.files[name] = text
        self.before, self.after = [read_image(f'{folder}/{name}') for name in ('before', 'after')]
        self.status, self.text = int(read(f'{folder}/status')), read(f'{folder}/text')
        others = [read_if(f'{folder}/{name}') for name in ('errors', 'plan', 'output')]
        self.errors, self.plan, output = others
        self.output = output.decode().strip() if output else 'kept'
        limit = read_if(f'{folder}/limit')
        self.limit = int(limit) * 1024 if limit else None
        if os.path.exists(f'{folder}/grow'):
            name, size, *byte = read(f'{folder}/grow').split()
            byte = bytes([int(byte[0], 16)]) if byte else b'\0'
            self.files[name] = self.files.get(name, b'').ljust(int(size), byte)


def read_if(path):
    return read(path) if os.path.exists(path) else None


def read_image(path):
    return image(read(path)) if os.path.exists(path) else None


class Board:
    """A devicetree with a geometry that it has a layout for."""

    def __init__(self, tree, geometry, files):
        self.tree, self.geometry, self.files = tree, geometry, files
        self.layout = Layout(read_tree(tree), None, geometry_of(geometry.decode()))

    def boots(self):
        """Whether the settings of examples/ are bound to its variables."""
        try:
            Settings(self.files[b'set.txt']).bind(self.layout)
        except BadSettings:
            return False
        return True


class Corpus:
    def __init__(self, root):
        examples = dict(below(f'{root}/examples'))
        ab = dict(below(f'{root}/integration/ab'))
        folders = sorted(os.listdir(f'{root}/tests/cli/cases'))
        self.examples = examples
        self.cases = [Case(f'{root}/tests/cli/cases/{name}', examples) for name in folders]
        pools = {b'dts': {}, b'dtb': {}, b'txt': {}, b'conf': {}, b'hex': {}, b'script': {}}
        for files in [examples, ab] + [case.files for case in self.cases]:
            for name, text in files.items():
                kind = name.rpartition(b'.')[2].replace(b'set', b'txt')
                if kind in pools and 0 < len(text) <= 24000:
                    pools[kind][text] = None
        self.pools = {kind: list(texts) for kind, texts in pools.items()}
        words = {word for case in self.cases for word in case.words}
        self.words = sorted(word for word in words if not word.startswith(b'/'))
        self.devices = [case.before for case in self.cases if case.before]
        self.boards = list(self.find_boards(examples, ab))
        self.booting = [board for board in self.boards if board.boots()]
        self.keyed = [board for board in self.boards if board.layout.keyed]

    def find_boards(self, examples, ab):
        pairs = {(text, word): examples for text in examples.values() for word in
                 (b'ov:1048576', b'ov:327680', b'er:256:65536:1048576') if text.startswith(b'/dts')}
        for name, text in ab.items():
            if name.endswith(b'.dts'):
                pairs[text, b'ov:1048576'] = examples
        for case in self.cases:
            words = case.words
            if words[2:3] in ([b'state'], [b'boot'], [b'mark-good']) and b'-i' in words[3:-1]:
                tree = case.files.get(words[words.index(b'-i', 3) + 1], b'')
                pairs.setdefault((tree, words[1]), case.files)
        for (tree, word), files in pairs.items():
            if geometry_of(word.decode(errors='replace')) and len(tree) <= 24000:
                try:
                    yield Board(tree, word, files)
                except (Refused, Unsure):
                    pass
