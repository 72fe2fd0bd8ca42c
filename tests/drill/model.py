"""What docs/FORMATS.md says of drills, worked out apart from the program:

model.py lines N NUMBER ..   each number with the line of its drill of N sessions
model.py fits NUMBER N LINE  what is wrong with that line: nothing is printed where it fits
model.py early END           each number below END whose first session is drawn with a cut in one of
                             its first three flash calls, the reads of its load
model.py lost END            the first number below END that draws a boot and a look, both without a
                             cut, with a decay after the boot alone, and the line of this drill
model.py uncut N COUNT       the first COUNT numbers whose N sessions are drawn without a cut, each
                             with the line of its drill"""
import re
import sys
from collections import namedtuple

SET, BOOT, MARK_GOOD, LOOK = range(4)
Session = namedtuple('Session', 'command value cut decay')


class Draws:
    def __init__(self, number):
        self.state = number

    def draw(self, n):
        self.state = (self.state * 6364136223846793005 + 1442695040888963407) % 2 ** 64
        return self.state // 2 ** 33 % n

    def session(self):
        """The next session: its command and the value of a set; its cut, a flash call and what is
        left of it; and the copy that decays after it."""
        command = self.draw(4)
        value = self.draw(100) if command == SET else None
        cut = (self.draw(40), self.draw(4)) if self.draw(3) == 0 else None
        decay = self.draw(3) if self.draw(8) == 0 else None
        return Session(command, value, cut, decay)

    def sessions(self, count):
        return (self.session() for _ in range(count))


LINE = re.compile(' '.join(f'{name} (0|[1-9][0-9]*)' for name in (
    'sessions', 'cuts', 'decays', 'programs', 'erases', 'starts', 'wrong')))


def faults(number, count, line):
    """What is wrong with the line of a drill: with what follows from its draws alone, and then
    with what the board below has. A boot that starts a target has saved into three copies, and a
    block that was erased is written next, unless a cut comes between."""
    found = LINE.fullmatch(line)
    if not found:
        return ['it has another form']
    ran, cuts, decays, programs, erases, starts, wrong = map(int, found.groups())
    sessions = list(Draws(number).sessions(count))
    drawn_cuts = sum(one.cut is not None for one in sessions)
    drawn_decays = sum(one.decay is not None for one in sessions)
    boots = sum(one.command == BOOT for one in sessions)
    facts = {
        f'{count} sessions are due': ran == count,
        'a table is wrong': wrong == 0,
        f'{drawn_cuts} cuts are drawn': cuts <= drawn_cuts,
        f'{drawn_decays} decays are drawn': decays <= drawn_decays,
        f'{boots} boots are drawn': starts <= boots,
        'starts have too few programs': 3 * starts <= programs,
        'erases have too few programs': erases <= programs + cuts,
    }
    facts['it is to be ' + line_of(sessions)] = line == line_of(sessions)
    return [says for says, holds in facts.items() if not holds]


Table = namedtuple('Table', 'attempts priorities last_chosen')
DEFAULTS = Table((3, 3), (20, 10), 0)
COPIES, PAGES = range(3), 4
# What a page holds that isn't the log entry of a table.
ERASED, OTHER = 'erased', 'other'
# What a cut leaves of what its call was to write.
OLD, HALF, JUNK, LOST = range(4)


class Cut(Exception):
    """The power went in a flash call."""


class Board:
    """The board of a drill: what each page of each copy's log holds, and which pages are Lost."""

    def __init__(self):
        self.pages = [[ERASED] * PAGES for _ in COPIES]
        self.lost = [[False] * PAGES for _ in COPIES]
        self.cuts = self.decays = self.programs = self.erases = self.starts = self.wrong = 0
        self.allowed, self.cut, self.calls = [DEFAULTS], None, 0

    def end(self, copy):
        """How many pages there are up to the last one that isn't erased."""
        return max((place + 1 for place in range(PAGES)
                    if self.lost[copy][place] or self.pages[copy][place] != ERASED), default=0)

    def passing(self, copy):
        """The table that a copy passes, None for none."""
        last = self.end(copy) - 1
        is_entry = last >= 0 and not self.lost[copy][last] and self.pages[copy][last] != OTHER
        return self.pages[copy][last] if is_entry else None

    def passing_first(self):
        return next((table for table in map(self.passing, COPIES) if table is not None), None)

    # Flash calls.

    def call(self, tear=None):
        """One flash call. Where it is cut it leaves what `tear` makes of the cut's filling."""
        self.calls += 1
        if self.cut is not None and self.calls == self.cut[0] + 1:
            if tear:
                tear(self.cut[1])
            raise Cut

    def read(self, copy):
        """Reads the pages from the last one on, up to one that isn't erased, and then a record."""
        for _ in range(PAGES + 1 - max(self.end(copy), 1)):
            self.call()
        if self.passing(copy) is not None:
            self.call()

    def put(self, copy, first, new, half):
        """A call that writes these pages from one on, or half of them."""
        place, count = slice(first, first + len(new)), len(new)

        def tear(filling):
            if filling == LOST:
                self.lost[copy][place] = [True] * count
            elif filling != OLD:
                self.lost[copy][place] = [False] * count
                self.pages[copy][place] = half if filling == HALF else [OTHER] * count

        self.call(tear)
        self.lost[copy][place], self.pages[copy][place] = [False] * count, new

    def write(self, copy, table):
        if self.end(copy) == PAGES:
            blank = [ERASED] * PAGES
            self.put(copy, 0, blank, blank[:PAGES // 2] + self.pages[copy][PAGES // 2:])
            self.erases += 1
        self.put(copy, self.end(copy), [table], [OTHER])
        self.programs += 1

    # Sessions.

    def run(self, session):
        given = self.passing_first() or DEFAULTS
        self.wrong += given not in self.allowed
        made = made_of(session, given)
        self.cut, self.calls = session.cut, 0
        try:
            for copy in COPIES:
                self.read(copy)
        except Cut:
            self.cuts += 1
        else:
            self.settle(session, given, made)
        if session.decay is not None:
            self.decay(session.decay)

    def settle(self, session, given, made):
        """Repairs the copies, saves, and starts."""
        try:
            is_there = self.passing_first() is not None
            for copy in COPIES if is_there else []:
                if self.passing(copy) != given:
                    self.write(copy, given)
            if made != given:
                for copy in (1, 2, 0) if is_there else COPIES:
                    self.write(copy, made)
                self.starts += session.command == BOOT
            self.allowed = [made]
        except Cut:
            self.cuts += 1
            self.allowed = self.allowed + [made]

    def decay(self, copy):
        if any(self.passing(other) is not None for other in COPIES if other != copy):
            self.decays += 1
            self.lost[copy] = [True] * PAGES


def made_of(session, table):
    """The table that a session makes of the one that it loads. A boot that starts a target always
    makes another one."""
    if session.command == SET:
        return table._replace(priorities=(table.priorities[0], session.value))
    if session.command == BOOT:
        best = [place for place in range(2) if table.priorities[place] and table.attempts[place]]
        if not best:
            return table
        target = max(best, key=lambda one: (table.priorities[one], -one))
        left = with_attempts(table, target, table.attempts[target] - 1)
        return left._replace(last_chosen=target + 1)
    if session.command == MARK_GOOD and table.last_chosen:
        return with_attempts(table, table.last_chosen - 1, 3)
    return table


def with_attempts(table, target, count):
    attempts = list(table.attempts)
    attempts[target] = count
    return table._replace(attempts=tuple(attempts))


def line_of(sessions):
    """The line of a drill."""
    board = Board()
    for session in sessions:
        board.run(session)
    return (f'sessions {len(sessions)} cuts {board.cuts} decays {board.decays} '
            f'programs {board.programs} erases {board.erases} starts {board.starts} '
            f'wrong {board.wrong}')


def early(end):
    for number in range(end):
        cut = Draws(number).session().cut
        if cut and cut[0] < 3:
            print(number)


def lost(end):
    for number in range(end):
        first, second = sessions = list(Draws(number).sessions(2))
        is_whole = first.cut is None and second.cut is None
        commands = first.command, second.command
        decays = first.decay is not None, second.decay is not None
        if is_whole and commands == (BOOT, LOOK) and decays == (True, False):
            print(number, line_of(sessions))
            return


def uncut(count, numbers):
    number = 0
    while numbers:
        sessions = []
        for session in Draws(number).sessions(count):
            if session.cut is not None:
                break
            sessions.append(session)
        if len(sessions) == count:
            print(number, line_of(sessions))
            numbers -= 1
        number += 1


def lines(count, *numbers):
    for number in numbers:
        print(number, line_of(list(Draws(number).sessions(count))))


def fits(number, count, line):
    for says in faults(number, count, str(line)):
        print(f'  drill {number} {count} sends {line!r}: {says}')


def main():
    what, words = sys.argv[1], sys.argv[2:]
    asked = {'lines': lines, 'fits': fits, 'early': early, 'lost': lost, 'uncut': uncut}
    asked[what](*[int(word) if word.isdecimal() else word for word in words])


if __name__ == '__main__':
    main()
