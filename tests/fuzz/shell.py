"""What a script does over a table and its targets, by docs/FORMATS.md, written apart from the
program."""
from tree import Unsure
from values import is_number, number

MOST_COMMANDS, MOST_BYTES = 10000, 4096
COMPARES = {b'-eq': int.__eq__, b'-ne': int.__ne__, b'-lt': int.__lt__, b'-le': int.__le__,
            b'-gt': int.__gt__, b'-ge': int.__ge__}


class Ends(Exception):
    """The script ends before its end, with this line or none."""

    def __init__(self, status, line=''):
        super().__init__(status, line)
        self.status, self.line = status, line


class Shell:
    """A run: what it sent (`text`), how it ended (`status`, with the line in `text`), the plans one
    of which stands then (`stands`), and the table that was saved last (`saved`). Of its first save,
    if it began one, `begun` is the table, and `front` what was sent before."""

    def __init__(self, targets, cause, plans, steps):
        self.targets, self.table, self.cause, self.plans = targets, targets.table, cause, plans
        self.values, self.last, self.count, self.booted = {}, 0, 0, False
        self.text, self.front, self.begun, self.stands = b'', b'', None, None
        self.saved = bytes(self.table.area)
        try:
            self.run(steps)
            self.status, line = 0, ''
            if self.last:
                self.status, line = 15, f'fault 15 ScriptFailed {self.last}\n'
        except Ends as ends:
            self.status, line = ends.status, ends.line
        self.text += line.encode()

    # The flow.

    def run(self, steps):
        for due, command in steps:
            if due == 'always' or (due == 'success') == (self.last == 0):
                getattr(self, 'run_' + command[0])(*command[1:])

    def run_if(self, branches, other):
        for test, body in branches:
            self.run(test)
            if self.last == 0:
                return self.run(body)
        if other is None:
            self.last = 0
            return None
        return self.run(other)

    def run_for(self, name, words, body):
        fields = self.expand(words)
        if not fields:
            self.last = 1 if fields is None else 0
            return
        for field in fields:
            self.step()
            self.put(name, field)
            self.run(body)

    def step(self):
        if self.count == MOST_COMMANDS:
            raise Ends(16, 'fault 16 StepLimit\n')
        self.count += 1

    def run_set(self, name, pieces):
        self.step()
        value = b''.join(self.piece(piece) for piece in pieces)
        too_long = len(name) + 1 + len(value) > MOST_BYTES
        self.last = int(too_long or not self.put(name, value))

    def run_call(self, words):
        self.step()
        fields = self.expand(words)
        self.last = 1 if fields is None else self.call(fields) if fields else 0

    # Variables and words.

    def own(self, name):
        """The variable of the state, None for one of the script's own."""
        front = self.table.layout.name + b'.'
        return name[len(front):] if name.startswith(front) else None

    def get(self, name):
        own = self.own(name)
        if own is None:
            return self.values.get(name, b'')
        return self.table.text(own) if own in self.table.vars else b''

    def put(self, name, value):
        """Whether it takes the value."""
        own = self.own(name)
        if own is None:
            self.values[name] = value
            return True
        if own not in self.table.vars:
            return False
        try:
            found = self.table.vars[own].read(value.decode())
        except UnicodeDecodeError:
            raise Unsure('a value that is no text') from None
        if isinstance(found, str):
            return False
        self.table.put(own, found)
        return True

    def piece(self, piece):
        kind, *rest = piece
        if kind == 'letter':
            return bytes(rest)
        if kind == 'held':
            return b''
        return self.get(rest[0]) if kind == 'value' else b'%d' % self.last

    def expand(self, words):
        """The fields of the words, None where they are too long."""
        fields = []
        for word in words:
            field, is_one = b'', False
            for piece in word.pieces:
                is_one |= piece[0] == 'held'
                text = self.piece(piece)
                if piece[0] in ('letter', 'held') or piece[2]:
                    field += text
                    continue
                first, *rest = text.replace(b'\t', b' ').replace(b'\n', b' ').split(b' ')
                field += first
                for part in rest:
                    if field or is_one:
                        fields.append(field)
                    field, is_one = part, False
            if field or is_one:
                fields.append(field)
        return fields if sum(map(len, fields)) <= MOST_BYTES else None

    # Commands.

    def call(self, fields):
        name, *words = fields
        if name == b'echo':
            line = b'' if words[:1] == [b'-n'] else b'\n'
            self.text += b' '.join(words if line else words[1:]) + line
            return 0
        if name in (b'true', b'false'):
            return int(name == b'false')
        if name == b'test':
            return self.test(words)
        if name == b'[':
            return self.test(words[:-1]) if words[-1:] == [b']'] else 2
        return self.outside(name, words)

    def test(self, words):
        if len(words) == 2 and words[0] in (b'-z', b'-n'):
            return int((words[0] == b'-z') != (words[1] == b''))
        if len(words) == 3 and words[1] in (b'=', b'!='):
            return int((words[1] == b'=') != (words[0] == words[2]))
        if len(words) != 3 or words[1] not in COMPARES:
            return 2
        both = [word.decode(errors='replace') for word in (words[0], words[2])]
        if not all(map(is_number, both)):
            return 2
        return int(not COMPARES[words[1]](*map(number, both)))

    def outside(self, name, words):
        targets = self.targets
        if (name, words) == (b'state', [b'-s']):
            return self.save()
        if (name, words) == (b'bootchooser', [b'-s']):
            return 1 if targets.mark_good()[0] else self.save()
        if (name, words) == (b'bootchooser', [b'-i']):
            for target in targets.settings.targets:
                rank, left = (targets.get(f'{target}.{what}') for what in ('priority', 'remaining_attempts'))
                self.text += f'{target} priority {rank} attempts {left}\n'.encode()
            return 0
        if (name, words) == (b'boot', [b'bootchooser']):
            return self.boot()
        return 2 if name in (b'state', b'bootchooser', b'boot') else 127

    def save(self):
        area = bytes(self.table.area)
        if area != self.saved:
            if self.begun is None:
                self.begun, self.front = area, self.text
            self.saved = area
        return 0

    def boot(self):
        before = bytes(self.table.area)
        status, text, plans = self.targets.boot(self.cause, self.plans, not self.booted)
        self.booted = True
        if status == 10:
            self.table.area[:] = before
            return 1
        self.save()
        self.text += text.split('fault')[0].encode()
        if status == 0:
            self.stands = plans
            raise Ends(0)
        return 1
