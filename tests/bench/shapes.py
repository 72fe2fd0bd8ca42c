# shapes.py ROOT SIZE: makes shapes of input of about SIZE bytes in the folder `one`, of twice as
# many in the folder `two`, and small input of each kind in the folder `start`. ROOT is the
# repository.
#
# A shape is a folder with these files, beside those that its words name:
#   words           the words after the program's name, one a line
#   bytes           how many bytes of input there are, and how many of output beyond what is
#                   printed: what the text asks for, as the paths that its references stand for
#   dev.img.before  the device before the session, where the session changes it, and else dev.img
# The file `list` has a line for each shape: its folder, its kind, the file for `dtc`, or `-` where
# that refuses equal names, how many bytes of memory a byte may take, and what it is called.
import os
import sys

from media import blob, board, groups, strides, string, word

root, size = sys.argv[1], int(sys.argv[2])


def example(name):
    return open(root + '/examples/' + name).read()


source, keyed, settings = example('board.dts'), example('keyed.dts'), example('set.txt')
entry = 'linux /zImage\noptions root=/dev/mmcblk0p1 rw\n'
signs = 'abcdefghijklmnopqrstuvwxyzABCDEFGHIJKLMNOPQRSTUVWXYZ0123456789'
device = b'\xff' * 0x50000
on_device = ['dev.img', 'ov:%d' % len(device)]
get = ['-g', 'bootstate.last_chosen']


# The items of the numbers from 0 on, as many as fit into so many characters.
def fill(most, item):
    items, length = [], 0
    while length + len(item(len(items))) <= most:
        items.append(item(len(items)))
        length += len(items[-1])
    return ''.join(items)


# Names of 32 characters that the toolchain's tables, whose hash has a fixed seed, can't tell apart
# but by comparing them. The hash of 32 bytes is that of their last 16, two numbers of 64 bits that
# are multiplied. The first of these two is taken so that it becomes 0.
def one_hash():
    word_signs = (signs + '_').encode()
    for i in range(1 << 24):
        front = b'a%015d' % i
        first = int.from_bytes(front[:8], 'little') ^ (0x243f6a8885a308d3 + 32)
        product = first * (int.from_bytes(front[8:], 'little') ^ 0x9e3779b97f4a7c15)
        state = ((product ^ product >> 64) & (1 << 64) - 1).to_bytes(8, 'little')
        if all(sign in word_signs for sign in state):
            return (front + state).decode() + '%08x'
    sys.exit('shapes.py: there are no names of one hash')


# A shape: its kind, what it is called, its words and its files by name. `read` is how many bytes of
# input there are, without it those of the files.
def shape(kind, title, words, files, read=None, asked=0, dtc='-', memory=100, medium=device, writes=False):
    if read is None:
        read = sum(len(content) for content in files.values())
    own = {'words': '\n'.join(words) + '\n', 'bytes': '%d %d\n' % (read, asked)}
    own['dev.img.before' if writes else 'dev.img'] = medium
    return {'kind': kind, 'title': title, 'dtc': dtc, 'memory': memory, 'files': {**files, **own}}


def of_source(title, text, name=get[1], medium=device, dtc='shape.dts', **more):
    words = ['dev.img', 'ov:%d' % len(medium), 'state', '-i', 'shape.dts', '-g', name]
    return shape('source', title, words, {'shape.dts': text}, dtc=dtc, medium=medium, **more)


# Sources of n bytes: the example board, with more in its root or more bodies after it.
def sources(n):
    front, end = source.rsplit('};', 1)
    room = n - len(source) - 30
    long, longer = 'x' * (room // 3), 'x' * (room // 2)
    def inside(body):
        return front + body + '};' + end
    def group(g):
        return 'g%05x{%s};' % (g, ''.join('n%02x{reg=<0x%08x>;};' % (i, i) for i in range(31)))
    def outside(count, name):
        text = inside('x{p=%s;};l:%s{};' % (','.join(['&l'] * count), name))
        return {'text': text, 'asked': count * (len(name) + 2)}
    def inner(count, name):
        return inside('x{p=<%s>;};l:%s{};' % ('&l ' * count, name))
    yield of_source('nodes in groups of 31, the plain source', inside(fill(room, group)), memory=20)
    yield of_source('nodes of one node', inside(fill(room, lambda i: 'n%05x{};' % i)))
    yield of_source('labels in a node of a long name',
                    inside(long + '{' + fill(room - len(long), lambda i: 'l%05x:n%05x{};' % (i, i)) + '};'))
    yield of_source('labels of one node', inside(fill(room, lambda i: 'l%05x:' % i) + 'n{};'))
    yield of_source('one label of a long name, again and again',
                    inside('l:' * ((room - len(long)) // 2) + long + '{};'))
    yield of_source('labels of one hash', inside(fill(room, lambda i: equal % i + ':') + 'n{};'))
    yield of_source('nodes of one hash', inside(fill(room, lambda i: equal % i + '{};')))
    yield of_source('properties of one hash', inside('x{%s};' % fill(room, lambda i: equal % i + ';')))
    yield of_source('references outside < >, of one value', **outside(room // 3, 'y'))
    yield of_source('references outside < >, a property each',
                    inside('x{%s};l:y{};' % fill(room, lambda i: 'p%05x=&l;' % i)), asked=room // 10 * 3)
    yield of_source('references outside < > to a long name', **outside((room - len(longer)) // 3, longer))
    yield of_source('references inside < >, of one value', inner(room // 3, 'y'))
    yield of_source('references inside < > to a long name', inner((room - len(long)) // 3, long))
    yield of_source('bodies by a label', inside('l:y{};') + '&l{};' * (room // 5))
    yield of_source('bodies by the label of a long name',
                    inside('l:%s{};' % long) + '&l{};' * ((room - len(long)) // 5))
    yield of_source('bodies by a path', source + '/{y{};};' * (room // 8))
    levels = '/{' + 31 * 'a{' + 31 * '};' + '};'
    yield of_source('32 levels, closed and opened again', source + levels * (room // len(levels)))
    yield of_source('properties of one node', inside('x{%s};' % fill(room, lambda i: 'p%05x=<1>;' % i)))
    yield of_source('properties of one name', inside('x{%s};' % ('p=<1>;' * (room // 6))), dtc='-')
    yield of_source('one string of escapes', inside('x{p="%s";};' % ('\\n\\x41\\101' * (room // 10))))
    yield of_source('comments', source + '/**///\n' * (room // 7))
    yield of_source('cells of one value', inside('x{p=<%s>;};' % ('1 ' * (room // 2))))
    yield of_source('bytes of one value', inside('x{p=[%s];};' % ('00' * (room // 2))))


# Sources of n bytes: the example board with other variables.
def states(n):
    start = source.index('\tstate {')
    front = source[:source.index('bootstate', start)].replace('<0x40>', '<0x10000>')
    room = n - len(front) - 40
    stride = n // 4096 * 4 * 4096
    def state_of(variables):
        return front + variables + '};};'
    def variable(place, at):
        return 'v%05x{reg=<0x%05x 1>;type="uint8";};' % (place, at)
    # Places that don't rise, of bytes that follow one another.
    def touching(room):
        count = room // len(variable(0, 0))
        return ''.join(variable(i, i * (7919 if count % 7919 else 7927) % count) for i in range(count))
    def as_blob(text):
        text = text.replace('<0x20000 0x30000>', '<0 0x%x>' % (3 * stride))
        return text.replace('<0x10000>', '<0x%x>' % stride).replace('"raw"', '"dtb"')
    long, last = 'x' * (room // 3), 'v{reg=<0xff00 1>;type="uint8";};'
    yield of_source('variables without reg', state_of(fill(room, lambda i: 'v%05x{type="uint8";};' % i)))
    yield of_source('variables whose ranges touch', state_of(touching(room)), name='v00000')
    yield of_source('the same, of a record that is a blob', as_blob(state_of(touching(room))), name='v00000',
                    medium=b'\xff' * 3 * stride)
    equals = fill(room, lambda i: equal % i + '{reg=<%d 1>;type="uint8";};' % i)
    yield of_source('variables of one hash', state_of(equals + last), name='v')
    yield of_source('variables in a node of a long name',
                    state_of('%s{%s};' % (long, touching(room - len(long))) + last), name='v')
    names = fill(room, lambda i: '"n%05x",' % i)[:-1]
    yield of_source('names of one enum', state_of('mode{reg=<0 4>;type="enum32";names=%s;};' % names), name='mode')


def of_blob(title, *parts, dtc='shape.dtb', **more):
    words = [*on_device, 'state', '-i', 'shape.dtb', *get]
    return shape('blob', title, words, {'shape.dtb': blob([], *parts, **more)}, dtc=dtc)


# Blobs of n bytes: the example board with more nodes, or with more tokens last in its root.
def blobs(n):
    room = n - len(blob([], board()))
    names = b'x' * (room // 2) + b'\0'
    count = (room - len(names) - 12) // 12
    def properties(place):
        return word(1) + string('any') + b''.join(word(3, 0, place(i)) for i in range(count)) + word(2)
    def empty(i):
        return word(1) + string(signs[i // 62 // 62] + signs[i // 62 % 62] + signs[i % 62]) + word(2)
    group = len(blob([], board(*groups(1)))) - len(blob([], board()))
    yield of_blob('nodes in groups of 199', board(*groups(room // group)))
    yield of_blob('NOPs', board(), more=word(4) * (room // 4))
    yield of_blob('empty nodes', board(), more=b''.join(map(empty, range(room // 12))))
    yield of_blob('properties of one long name', board(), more=properties(lambda i: 0), names=names, dtc='-')
    yield of_blob('properties of tails of a long name', board(),
                  more=properties(lambda i: i * 7919 % (len(names) - 1)), names=names)


# Settings of n bytes, for the example board.
def setting_files(n):
    def of_settings(title, text):
        words = [*on_device, 'mark-good', '-i', 'board.dts', '-c', 'set.txt']
        return shape('settings', title, words, {'set.txt': text, 'board.dts': source}, read=len(text))
    room = n - len(settings)
    def name(i):
        return 't%05x ' % i
    def line(i):
        return 'global.bootchooser.t%05x.default_attempts=1' % i
    targets, retry = 'global.bootchooser.targets=', 'global.bootchooser.retry=0\n'
    count = (n - len(targets)) // len(name(0) + line(0))
    yield of_settings('lines of one key', retry * (room // len(retry)) + settings)
    yield of_settings('targets of one name', targets + 'a ' * (room // 2) + '\n')
    yield of_settings('targets of many names', targets + fill(room, name) + '\n')
    yield of_settings('targets with a line each',
                      '\n'.join([targets + ''.join(map(name, range(count))), *map(line, range(count))]))
    yield of_settings('targets of one hash', targets + fill(room, lambda i: equal % i + ' ') + '\n')
    yield of_settings('empty lines', '\n' * room + settings)


# Entries of n bytes, of which one target of the example board has one.
def entries(n):
    def of_entry(title, line):
        words = [*on_device, 'boot', '-i', 'board.dts', '-c', 'set.txt']
        text = line * ((n - 9) // len(line)) + 'linux /z\n'
        files = {'board.dts': source, 'set.txt': settings}
        for number, content in enumerate([text, entry]):
            files['loader/entries/system%d.conf' % number] = content
        return shape('entries', title, words, files, read=len(text), writes=True)
    yield of_entry('empty lines', '\n')
    yield of_entry('lines of one byte', 'a\n')
    yield of_entry('lines of initrd', 'initrd a\n')
    yield of_entry('lines of options', 'options a\n')


def keys(n):
    def of_key(title, text):
        words = [*on_device, 'state', '-i', 'keyed.dts', '-k', 'key.hex', *get]
        return shape('keys', title, words, {'keyed.dts': keyed, 'key.hex': text}, read=len(text))
    yield of_key('digits', '4a' * (n // 2))
    yield of_key('blanks', ' ' * n)


# One word of `most` bytes, or many words of n.
def words(n, most):
    def of_words(title, *words, **more):
        more = {'read': most, **more}
        return shape('words', title, [*on_device, *words], {'board.dts': source}, **more)
    board_state = ['state', '-i', 'board.dts']
    area = most // 2
    yield of_words('a value of -s', *board_state, '-s', (get[1] + '=').ljust(most, '0'))
    yield of_words('a variable of -g', *board_state, '-g', 'x' * most)
    yield of_words('a file of -i', 'state', '-i', 'x' * most)
    yield of_words('an area of raw', 'raw', '1', str(area), '-s', '4a' * area, asked=3 * (area + 24), writes=True)
    yield of_words('many words', *board_state, *(get * (n // 25)), read=n // 25 * 25)


# Folders whose files and names have n bytes.
def folders(n):
    def of_folder(title, name, text):
        each = len(name % 0 + text)
        files = {'m/' + name % i: text for i in range(n // each)}
        return shape('folders', title, [*on_device, 'menu', '--dir', 'm'], files, read=n // each * each)
    yield of_folder('entries', 'board-%05x.conf', 'title Board\n' + entry)
    yield of_folder('entries of long names', 'x' * 240 + '%05x.conf', entry)
    version = 'sort-key a\nversion ' + 400 * '1.2-'
    yield of_folder('entries of long versions', '%05x.conf', version + '\n' + entry)
    yield of_folder('files that are no entries', 'x' * 40 + '%05x', '')


# Devices of n bytes: three erased logs, and three records of which none passes; and a record of
# `area` bytes that is printed.
def devices(n, area):
    block = n // 3 // 256 * 256
    logs = source.replace('<0x20000 0x30000>', '<0 0x%x>' % (3 * block))
    words = ['dev.img', 'er:256:%d:%d' % (block, 3 * block), 'state', '-i', 'board.dts', *get]
    yield shape('devices', 'erased logs', words, {'board.dts': logs}, read=3 * block, medium=b'\xff' * 3 * block)
    def of_raw(title, medium, length, read):
        words = ['dev.img', 'ov:%d' % len(medium), 'raw', '0x12345678', str(length), '-g']
        return shape('devices', title, words, {}, read=read, medium=medium)
    yield of_raw('a record', strides(area + 24, area), area, area + 24)
    third = min(n // 3 - 24, 65535)
    torn = strides(third + 24, third)[:third + 23] + b'\xee'
    yield of_raw('records that do not pass', torn * 3, third, 3 * len(torn))


# The shapes of so many times the size, where no input of a kind is longer than it may be.
def shapes(times):
    n = size * times
    def at_most(limit):
        return min(size, limit // 2) * times
    return [*sources(n), *states(n), *blobs(n), *setting_files(n), *entries(at_most(65536)), *keys(n),
            *words(n, at_most(131071)), *folders(n), *devices(at_most(3 * 65535), at_most(65535))]


# A small session of each kind.
def starts():
    yield of_source('', source)
    yield of_blob('', board())
    for some in setting_files(500), entries(100), keys(8), words(100, 100), folders(200), devices(4096, 100):
        yield next(some)


def put(folder, files):
    for name, content in files.items():
        path = os.path.join(folder, name)
        os.makedirs(os.path.dirname(path), exist_ok=True)
        with open(path, 'wb') as out:
            out.write(content if isinstance(content, bytes) else content.encode())


equal = one_hash()
for small in starts():
    put('start/' + small['kind'], small['files'])
for folder, times in ('one', 1), ('two', 2):
    made = shapes(times)
    for number, each in enumerate(made):
        put('%s/%d' % (folder, number), each['files'])
with open('list', 'w') as out:
    for number, each in enumerate(made):
        out.write('%d %s %s %d %s\n' % (number, each['kind'], each['dtc'], each['memory'], each['title']))
