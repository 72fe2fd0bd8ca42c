"""A generator with a seed, and the ways in which it damages texts, blobs and devices."""
import re
import struct

MASK = (1 << 64) - 1
NUMBERS = [b'0', b'1', b'255', b'256', b'65535', b'65536', b'2147483648', b'4294967295', b'-1',
           b'4294967296', b'18446744073709551615', b'18446744073709551616', b'9' * 39, b'007',
           b'08', b'0x', b'0xffffffff', b'0x100000000', b'0xFFFFFFFFFFFFFFFF', b'1U', b'1LLL', b'']
WORDS = [0, 1, 2, 3, 4, 7, 8, 9, 15, 16, 17, 18, 39, 40, 41, 255, 0x7fffffff, 0x80000000,
         0xfffffffc, 0xffffffff]
BYTES = [b'\0', b'\xff', b'\xfe\xff', b'\xc3', b'\xed\xa0\x80', b'\xf4\x90\x80\x80', b'\xc0\x80',
         b'\r\n', b'\n', b'"', b'\\', b'/*', b'*/', b'//', b'{', b'}', b';', b'&', b'<', b'>', b'[',
         b']', b'=', b'#', b' ', b'\t', b"'"]
# What the grammars have besides, or leave out.
DTS = b"""/include/ "a"
/bits/ 8
(1)
'a'
&{/state}
#include
#if
x:
state:
&state
&x
&state { };
/memreserve/ 0 1;
/delete-property/ a;
/delete-node/ state;
/ { };
phandle = <1>;
reg = <0 4>;
type = "uint8";
compatible = "barebox,state";
algo = "hmac(sha256)";
algo;
backend-type = "dtb";
backend-storage-type = "noncircular";
backend = "/flash@0";
backend = <&state>;
default = <5>;
names = "a", "b";
state = "/";
v@40 { type = "uint8"; reg = <0x40 1>; };"""
SETTINGS = b"""targets=system0
targets=a a
targets=
state_prefix=state
state_prefix=a..b
default_attempts=0
default_priority=0
reset_attempts=noon
reset_priorities=all-zero
retry=2
retry=1
x.boot=a
retry.boot=a
system0.boot=
system0.boot="m/"
system1.default_attempts=x
x=1
"""
ENTRIES = b"""linux
linux /b
title T
sort-key s
version 1.2~rc1
machine-id 0
initrd /i
initrd /j
options o
devicetree /d
architecture x64
efi /e
#linux /c
	linux	/e	"""
SCRIPTS = b"""if true
then
elif false; then
else
fi
for a in 1 2 ""; do
do
done
&&
||
$?
${state.bootstate.last_chosen}
${a
$a$a$a$a
"$a"
'
\\
state.bootstate.last_chosen=4294967296
state.nope=1
[ $a = 1 ]
test $a -lt 0x2
# c
"""
PHRASES = {
    b'dts': DTS.split(b'\n'),
    b'txt': [b'global.bootchooser.' + line for line in SETTINGS.split(b'\n')],
    b'conf': ENTRIES.split(b'\n'),
    b'script': SCRIPTS.split(b'\n'),
}
TOKEN = re.compile(rb'"[^"\n]*"|<[^>\n]*>|[A-Za-z0-9,._+*#?@-]+|[^\sA-Za-z0-9]', re.S)


class Dice:
    """Numbers that follow from a seed and a run's number: splitmix64."""

    def __init__(self, seed, number):
        self.state = (seed * 0x9e3779b97f4a7c15 + number * 0xd1b54a32d192ed03 + 1) & MASK

    def draw(self):
        self.state = (self.state + 0x9e3779b97f4a7c15) & MASK
        z = self.state
        z = (z ^ z >> 30) * 0xbf58476d1ce4e5b9 & MASK
        z = (z ^ z >> 27) * 0x94d049bb133111eb & MASK
        return z ^ z >> 31

    def below(self, count):
        return self.draw() % count if count > 0 else 0

    def among(self, least, most):
        return least + self.below(most - least + 1)

    def once_in(self, count):
        return self.below(count) == 0

    def pick(self, items):
        return items[self.below(len(items))]

    def bytes(self, count):
        return b''.join(struct.pack('<Q', self.draw()) for _ in range((count + 7) // 8))[:count]

    def length(self):
        """A length that is mostly small."""
        return self.among(1, 1 << self.among(0, 10))


def flip(dice, text, _):
    at = dice.below(len(text))
    return text[:at] + bytes([text[at] ^ 1 << dice.below(8)]) + text[at + 1:]


def delete(dice, text, _):
    at = dice.below(len(text))
    return text[:at] + text[at + dice.length():]


def insert(dice, text, _):
    at = dice.among(0, len(text))
    piece = dice.pick([dice.pick(BYTES), dice.pick(BYTES), dice.bytes(dice.among(1, 9))])
    return text[:at] + piece + text[at:]


def repeat(dice, text, _):
    at = dice.below(len(text))
    end = at + dice.length()
    return text[:end] + text[at:end] * dice.among(1, 3) + text[end:]


def cut(dice, text, _):
    return text[:dice.below(len(text))]


def lines(dice, text, _):
    """A line is swapped with another, doubled or left out."""
    there = text.split(b'\n')
    one, other = dice.below(len(there)), dice.below(len(there))
    how = dice.below(3)
    if how == 0:
        there[one], there[other] = there[other], there[one]
    elif how == 1:
        there.insert(other, there[one])
    else:
        del there[one]
    return b'\n'.join(there)


def numbers(dice, text, _):
    found = list(re.finditer(rb'0x[0-9a-fA-F]+|[0-9]+', text))
    if not found:
        return insert(dice, text, _)
    at = dice.pick(found)
    return text[:at.start()] + dice.pick(NUMBERS) + text[at.end():]


def splice(dice, text, pool):
    """Tokens of another text of the kind come in, in place of some or between them."""
    other = list(TOKEN.finditer(dice.pick(pool)))
    here = list(TOKEN.finditer(text))
    if not other or not here:
        return insert(dice, text, pool)
    first = dice.below(len(other))
    last = min(len(other) - 1, first + dice.below(1 << dice.among(0, 5)))
    piece = other[first].string[other[first].start():other[last].end()]
    at = dice.below(len(here))
    end = here[at].start()
    if dice.once_in(2):
        end = here[min(len(here) - 1, at + dice.below(4))].end()
    return text[:here[at].start()] + piece + text[end:]


def tokens(dice, text, _):
    """Two tokens are swapped, or one is doubled or left out."""
    there = list(TOKEN.finditer(text))
    if len(there) < 2:
        return flip(dice, text, _)
    first = dice.below(len(there) - 1)
    one, other = there[first], there[dice.among(first + 1, min(len(there) - 1, first + 8))]
    between = text[one.end():other.start()]
    rest = between + other[0]
    middle = dice.pick([other[0] + between + one[0], one[0] + b' ' + one[0] + rest, rest])
    return text[:one.start()] + middle + text[other.end():]


def phrase(kind):
    """One of the grammar's phrases comes in, at a line's beginning or between tokens."""
    form, ending = (rb'[;{]|$', b' ') if kind == b'dts' else (rb'^|\n', b'\n')

    def hurts(dice, text, _):
        ends = [found.end() for found in re.finditer(form, text)]
        if dice.once_in(4):
            ends = [found.start() for found in TOKEN.finditer(text)] or ends
        at = dice.pick(ends)
        return text[:at] + dice.pick(PHRASES[kind]) + ending + text[at:]

    return hurts


def nest(dice, text, _):
    at = dice.pick([found.end() for found in re.finditer(rb'[{;]', text)] or [0])
    deep = dice.among(1, 40)
    closed = b'};' * (deep if dice.below(3) else dice.below(deep))
    return text[:at] + b'a{' * deep + closed + text[at:]


def lengthen(dice, text, _):
    """A name becomes a long one."""
    found = [word for word in re.finditer(rb'[A-Za-z_][A-Za-z0-9_-]{1,}', text)]
    if not found:
        return repeat(dice, text, _)
    at = dice.pick(found)
    size = dice.among(30, dice.pick([300, 300, 3000, 20000]))
    return text[:at.start()] + (at[0] * (size // len(at[0]) + 1))[:size] + text[at.end():]


def put(blob, at, word):
    return blob[:at] + struct.pack('>I', word & 0xffffffff) + blob[at + 4:]


def header(dice, blob, _):
    """A word of a blob's header, off by a few or extreme."""
    at = 4 * dice.below(10)
    if len(blob) < 40:
        return flip(dice, blob, _)
    near = struct.unpack('>I', blob[at:at + 4])[0] + dice.among(-9, 9)
    return put(blob, at, dice.pick([near, near, dice.pick(WORDS), dice.below(len(blob) + 9)]))


def word(dice, blob, _):
    """A word of a blob's blocks, off by a few or extreme."""
    if len(blob) < 48:
        return flip(dice, blob, _)
    at = 40 + 4 * dice.below((len(blob) - 40) // 4)
    near = struct.unpack('>I', blob[at:at + 4])[0] + dice.among(-5, 5)
    return put(blob, at, dice.pick([near, dice.pick(WORDS)]))


def words_moved(dice, blob, _):
    """A word of a blob is left out, or comes in."""
    at = 4 * dice.below(len(blob) // 4 + 1)
    if dice.once_in(2):
        return blob[:at] + blob[at + 4:]
    return blob[:at] + struct.pack('>I', dice.pick(WORDS)) + blob[at:]


BINARY = [flip, flip, delete, insert, repeat, cut]
TEXT = BINARY + [lines, lines, numbers, numbers, splice, splice, splice, tokens, tokens]
WAYS = {
    b'dts': TEXT + [nest, lengthen] + [phrase(b'dts')] * 4,
    b'dtb': BINARY + [header] * 4 + [word] * 4 + [words_moved],
    b'txt': TEXT + [lengthen] + [phrase(b'txt')] * 4,
    b'conf': TEXT + [phrase(b'conf')] * 4,
    b'script': TEXT + [lengthen] + [phrase(b'script')] * 4,
    b'hex': BINARY,
}


def hurt(dice, text, kind, pool):
    """A text of a kind with one damage."""
    if not text:
        return dice.pick(BYTES)
    if kind == b'dts' and text[:4] == b'\xd0\x0d\xfe\xed':
        kind = b'dtb'
    return dice.pick(WAYS[kind])(dice, text, pool)
