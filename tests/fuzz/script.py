"""The text of a script as docs/FORMATS.md has it, written apart from the program: its tree, or the
refusal."""
from values import is_utf8

LIMIT, DEPTH = 65536, 16
BLANKS, LF = b' \t\r', 10
ENDS = BLANKS + b'\n;&|()<>`'
NAME = b'abcdefghijklmnopqrstuvwxyzABCDEFGHIJKLMNOPQRSTUVWXYZ0123456789_.'
KEYWORDS = (b'if', b'then', b'elif', b'else', b'fi', b'for', b'do', b'done')


class BadScript(Exception):
    """What stands after the status in the fault line."""


class Word:
    """A word: its pieces, where it begins, and its own fault, which counts where a word may stand.
    A piece is a letter, `held` for a quoted part, or the value of a variable or of the status, and
    whether it is quoted."""

    def __init__(self, at):
        self.at, self.pieces, self.fault = at, [], None

    def add(self, text):
        self.pieces += [('letter', byte) for byte in text]

    def plain(self):
        """The word's letters, None where it has quotes or an expansion."""
        if any(kind != 'letter' for kind, *_ in self.pieces):
            return None
        return bytes(letter for _, letter in self.pieces)

    def name_set(self):
        """The name that it sets, and what follows the `=`; None where it sets none."""
        front = []
        for kind, *rest in self.pieces:
            if kind != 'letter':
                break
            front.append(rest[0])
        name, sign, _ = bytes(front).partition(b'=')
        if not sign or not name or name.strip(NAME):
            return None
        return name, self.pieces[len(name) + 1:]


class Reader:
    """Reads a script. `steps` are pairs of when a step is run and its command. A command is a tuple
    of its kind, `call`, `set`, `if` or `for`, and what it has."""

    def __init__(self, text):
        if len(text) > LIMIT:
            raise BadScript('TooLong')
        if not is_utf8(text):
            raise BadScript('NotText')
        self.text, self.at, self.opened = text, 0, []
        self.kind = self.begin = self.word = None
        self.next()
        self.steps = self.script()
        if self.kind != 'end':
            self.misplaced()

    # Tokens: `kind` is word, end, or the text of an operator; an unknown character is `none`.

    def next(self):
        text = self.text
        self.pass_blanks()
        self.begin, self.word, rest = self.at, None, text[self.at:self.at + 2]
        if not rest or rest == b'\\':
            self.kind = 'end'
            self.begin = len(text)
        elif rest in (b'&&', b'||'):
            self.kind = rest.decode()
            self.at += 2
        elif rest[:1] in (b';', b'\n'):
            self.kind = rest[:1].decode()
            self.at += 1
        elif rest[0] in ENDS:
            self.kind = 'none'
        else:
            self.kind, self.word = 'word', self.read_word()
        self.is_cut = rest == b'\\'

    def pass_blanks(self):
        text = self.text
        while self.at < len(text):
            if text[self.at] in BLANKS:
                self.at += 1
            elif text[self.at:self.at + 2] == b'\\\n':
                self.at += 2
            elif text[self.at] == b'#'[0]:
                end = text.find(b'\n', self.at)
                self.at = len(text) if end < 0 else end
            else:
                return

    def read_word(self):
        word, text = Word(self.at), self.text
        while self.at < len(text) and text[self.at] not in ENDS and not word.fault:
            sign = text[self.at:self.at + 1]
            if sign == b"'":
                end = text.find(b"'", self.at + 1)
                if end < 0:
                    word.fault = ('Unclosed', self.at)
                else:
                    word.pieces.append(('held',))
                    word.add(text[self.at + 1:end])
                    self.at = end + 1
            elif sign == b'"':
                self.read_quoted(word)
            elif sign == b'\\':
                self.read_escape(word)
            elif sign == b'$':
                self.read_dollar(word, False)
            else:
                word.add(sign)
                self.at += 1
        return word

    def read_escape(self, word):
        after = self.text[self.at + 1:self.at + 2]
        if not after:
            word.fault = ('end', len(self.text))
            return
        if after != b'\n':
            word.pieces.append(('held',))
            word.add(after)
        self.at += 2

    def read_quoted(self, word):
        begin, text = self.at, self.text
        word.pieces.append(('held',))
        self.at += 1
        while not word.fault:
            sign, after = text[self.at:self.at + 1], text[self.at + 1:self.at + 2]
            if not sign or (sign == b'\\' and not after):
                word.fault = ('Unclosed', begin)
            elif sign == b'"':
                self.at += 1
                return
            elif sign == b'\\' and after in (b'"', b'\\', b'$', b'`'):
                word.add(after)
                self.at += 2
            elif sign == b'$':
                self.read_dollar(word, True)
            else:
                word.add(sign)
                self.at += 1

    def read_dollar(self, word, quoted):
        text, at = self.text, self.at + 1
        has_brace = text[at:at + 1] == b'{'
        end = at = at + has_brace
        while end < len(text) and text[end] in NAME:
            end += 1
        if has_brace and (end == at or text[end:end + 1] != b'}'):
            word.fault = ('Unexpected', self.at)
        elif end > at:
            word.pieces.append(('value', text[at:end], quoted))
            self.at = end + has_brace
        elif text[at:at + 1] == b'?':
            word.pieces.append(('status', None, quoted))
            self.at = at + 1
        else:
            word.add(b'$')
            self.at += 1

    # Refusals.

    def refuse(self, kind, at):
        raise BadScript(f'{kind} {at}')

    def end(self):
        """The text ends in a wrong place."""
        if self.opened:
            self.refuse('Unclosed', self.opened[-1])
        self.refuse('Unexpected', len(self.text))

    def misplaced(self):
        if self.kind == 'end':
            self.end()
        self.refuse('Unexpected', self.begin)

    def take_word(self):
        """The word, in a place where one may stand."""
        word = self.word
        if word.fault:
            if word.fault[0] == 'end':
                self.end()
            self.refuse(*word.fault)
        self.next()
        return word

    # The grammar.

    def keyword(self):
        """The keyword that stands here, None where none does."""
        if self.kind != 'word' or self.word.fault:
            return None
        found = self.word.plain()
        return found if found in KEYWORDS else None

    def expect(self, keyword):
        if self.keyword() != keyword:
            self.misplaced()
        self.next()

    def lines(self):
        while self.kind == '\n':
            self.next()

    def script(self):
        """Steps up to a keyword that begins no command, or the text's end."""
        steps = []
        while True:
            self.lines()
            if self.kind == 'end' and not self.is_cut:
                return steps
            if self.keyword() not in (None, b'if', b'for'):
                return steps
            steps += self.and_or()
            if self.kind not in (';', '\n'):
                return steps if self.kind == 'end' and not self.is_cut else self.misplaced()
            self.next()

    def and_or(self):
        steps, when = [('always', self.command())], {'&&': 'success', '||': 'failure'}
        while self.kind in when:
            due = when[self.kind]
            self.next()
            self.lines()
            steps.append((due, self.command()))
        return steps

    def command(self):
        keyword = self.keyword()
        if self.kind != 'word' or keyword not in (None, b'if', b'for'):
            self.misplaced()
        if keyword:
            return self.opens(keyword)
        words = []
        while self.kind == 'word':
            words.append(self.take_word())
        if len(words) == 1 and words[0].name_set():
            return 'set', *words[0].name_set()
        return 'call', words

    def opens(self, keyword):
        if len(self.opened) == DEPTH:
            self.refuse('TooDeep', self.begin)
        self.opened.append(self.begin)
        self.next()
        command = self.choice() if keyword == b'if' else self.loop()
        self.opened.pop()
        self.next()
        return command

    def choice(self):
        branches, other = [], None
        while True:
            test = self.script()
            self.expect(b'then')
            branches.append((test, self.script()))
            if self.keyword() != b'elif':
                break
            self.next()
        if self.keyword() == b'else':
            self.next()
            other = self.script()
        if self.keyword() != b'fi':
            self.misplaced()
        return 'if', branches, other

    def loop(self):
        name = self.word and not self.word.fault and self.word.plain()
        if not name or name.strip(NAME):
            self.misplaced()
        self.next()
        if self.kind != 'word' or self.word.fault or self.word.plain() != b'in':
            self.misplaced()
        self.next()
        words = []
        while self.kind == 'word':
            words.append(self.take_word())
        if self.kind not in (';', '\n'):
            self.misplaced()
        self.next()
        self.lines()
        self.expect(b'do')
        body = self.script()
        if self.keyword() != b'done':
            self.misplaced()
        return 'for', name, words, body
