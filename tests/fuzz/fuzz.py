"""Runs the program on damaged input: fuzz.py ROOT FOLDER SEED COUNT FIRST STOP WITHIN PROGRAM ..,
where FOLDER is one to work in, and STOP and WITHIN are `yes` or `no`. tests/fuzz/run says what is
looked at."""
import os
import shutil
import sys
import tempfile
from collections import Counter
from copy import copy

from corpus import Corpus
from device import TooManyRounds
from folder import all_files, content, furnish, put_back
from judge import judge, prepare, shown
from machine import Machine
from make import Maker
from slot import DEFAULTS
from words import Call

# The findings of which the files are kept.
KEPT = 40
COMMANDS = ('raw', 'state', 'mark-good', 'boot', 'shell', 'install', 'verify', 'history', 'menu',
            'drill')
PLAIN = set(b'abcdefghijklmnopqrstuvwxyzABCDEFGHIJKLMNOPQRSTUVWXYZ0123456789_./:=,@%+-')


class Fuzz:
    def __init__(self, corpus, machine, seed, within):
        self.corpus, self.machine, self.seed, self.within = corpus, machine, seed, within
        self.commands, self.statuses = Counter(), Counter()
        self.findings = self.unsure = self.left_out = 0
        self.kept = None

    def try_one(self, number):
        run = Maker(self.corpus, self.seed, number, self.within).make()
        furnish(run)
        try:
            wanted, places = prepare(run)
        except TooManyRounds:
            self.left_out += 1
            return
        files = all_files()
        before, plan = map(content, places)
        got = self.machine.run(run, run.argv, wanted.foreseen.call, places)
        says = judge(run, wanted, got, before, plan) + list(judge_files(files, places))
        if not got.fault:
            put_back(places[0], before)
            put_back(places[1], plan)
            says += self.try_again(run, wanted, got, places)
            says += self.try_boot(run, wanted, places)
        self.count(wanted, got)
        if says:
            self.tell(number, run, says)

    def try_again(self, run, wanted, got, places):
        """The same on a copy of the same device, and then a next session."""
        again = self.machine.run(run, run.argv, wanted.foreseen.call, places)
        if run.starved:
            return
        if again.facts() != got.facts():
            yield 'the same run on the same device ends otherwise'
        words = next_look(run, wanted)
        if again.status != 0 or words is None:
            return
        known = acknowledged(wanted, again)
        for name, _ in known:
            words += [b'-g', name]
        text = b''.join(value + b'\n' for _, value in known)
        after = self.machine.run(following(run, words), words, Call(words), places)
        if after.fault:
            yield f'a next look: {after.fault}'
        elif (after.status, after.text) != (0, text):
            yield (f'a next look ends with {after.status} and sends {shown(after.text)},'
                   f' and not 0 and {shown(text)}')
        elif after.device != again.device:
            yield 'a next look writes'

    def try_boot(self, run, wanted, places):
        """A boot after an install. It takes the target only where its slot is untouched or whole."""
        foreseen = wanted.foreseen
        words = next_words(run, wanted, 'boot', 'inkc')
        if wanted.install is None or words is None:
            return
        slot, whole = foreseen.slot, wanted.held(foreseen.slot.steps(foreseen.image))
        run = following(run, words)
        try:
            next_wanted, next_places = prepare(run)
        except TooManyRounds:
            return
        before, plan = map(content, next_places)
        got = self.machine.run(run, words, next_wanted.foreseen.call, next_places)
        for line in judge(run, next_wanted, got, before, plan):
            yield f'a next boot: {line}'
        is_started = got.text.startswith(f'start {foreseen.command.given["t"]} '.encode())
        if is_started and before[slot.at:slot.end] not in (wanted.held([]), whole):
            yield 'a next boot starts a target whose slot is half written'

    def count(self, wanted, got):
        call = wanted.foreseen.call
        name = call.words[0] if call.kind == 'session' and call.words else None
        self.commands[name if name in COMMANDS else 'other'] += 1
        self.statuses['none' if got.status is None else got.status] += 1
        self.unsure += not wanted.foreseen.sure

    def tell(self, number, run, says):
        """Says what is wrong with a run, and keeps its files."""
        self.findings += 1
        command = 'bbx ' + ' '.join(quoted(word) for word in run.argv)
        print(f'finding: seed {self.seed}, number {number}: ' + '; '.join(says))
        print('  ' + command[:600] + (' ..' if len(command) > 600 else ''))
        if self.findings > KEPT:
            return
        self.kept = self.kept or tempfile.mkdtemp(prefix='bbx-fuzz.')
        kept = f'{self.kept}/{self.seed}-{number}'
        furnish(run)
        shutil.copytree('.', kept + '/files')
        says.append(f'output {run.output}, memory {run.starved or "enough"}')
        if run.limit is not None:
            says.append(f'no file can be written from {run.limit} on, which '
                        + ('ends the run' if run.dies else 'fails'))
        for name, text in (('command', command), ('says', '\n'.join(says))):
            with open(f'{kept}/{name}', 'w', errors='surrogateescape') as file:
                file.write(text + '\n')
        print(f'  its files, as they were before: {kept}')

    def summary(self, count):
        return (f'fuzz {self.seed}: {count} runs, {self.findings} findings; '
                f'{told(self.commands)}; status {told(self.statuses)}')


def judge_files(before, places):
    """Nothing but the device and the plan may change."""
    spared = {os.path.realpath(os.fsencode(place)) for place in places}
    after = all_files()
    for name in sorted(set(before) | set(after)):
        if before.get(name) != after.get(name) and os.path.realpath(name) not in spared:
            yield f'the file {shown(name)} was changed'


def following(run, words):
    """A session of these words after a run, which nothing disturbs."""
    after = copy(run)
    after.argv, after.output, after.starved = words, 'kept', None
    after.limit, after.dies = None, False
    return after


def next_look(run, wanted):
    """The words of a session that loads what a session has left; None where it left nothing."""
    command = wanted.foreseen.command
    if command is None or command.name in ('history', 'verify'):
        return None
    return next_words(run, wanted, 'state', 'ink')


def next_words(run, wanted, name, options):
    """The words of a next session by the same files; None where none can follow."""
    command, call = wanted.foreseen.command, wanted.foreseen.call
    if command is None or call.read_only or 'i' not in command.given:
        return None
    words = [call.device, run.argv[len(run.argv) - len(call.words) - 1].decode(), name]
    for option in options:
        if option in command.given:
            words += ['-' + option, command.given[option]]
    return [word.encode() for word in words]


def acknowledged(wanted, got):
    """The variables that an answer has acknowledged, with their texts."""
    foreseen = wanted.foreseen
    if foreseen.ends or not foreseen.sure:
        return []
    if foreseen.command.name == 'state':
        by_name = {var.name: var for var in foreseen.layout.vars}
        actions = foreseen.command.actions
        sets = {name.encode(): value for kind, name, value in actions if kind == 'set'}
        return [(name, by_name[name].text(by_name[name].read(text))) for name, text in sets.items()]
    if foreseen.command.name == 'install':
        settings, target = foreseen.settings, foreseen.command.given['t']
        return [(settings.variable(f'{target}.{name}').encode(), b'%d' % settings.worth(kind, target))
                for name, kind in DEFAULTS]
    words = got.text.split()
    if len(words) < 3 or foreseen.command.name == 'shell':
        return []
    left = words[3] if foreseen.command.name == 'boot' else words[2]
    name = foreseen.settings.variable(words[1].decode() + '.remaining_attempts')
    return [(name.encode(), left)]


def quoted(word):
    """A word as a shell takes it."""
    if word and set(word) <= PLAIN:
        return word.decode()
    signs = [chr(byte) if byte in range(32, 127) and chr(byte) not in "\\'" else f'\\x{byte:02x}'
             for byte in word]
    return "$'" + ''.join(signs) + "'"


def told(counter):
    names = sorted(counter, key=lambda name: (str(type(name)), name))
    return ', '.join(f'{name} {counter[name]}' for name in names)


def main():
    root, folder, seed, count, first, stop, within, *program = sys.argv[1:]
    corpus = Corpus(root)
    os.chdir(folder)
    machine = Machine([os.fsencode(word) for word in program])
    fuzz = Fuzz(corpus, machine, int(seed), within == 'yes')
    tried = 0
    try:
        while tried < int(count) and not (fuzz.findings and stop == 'yes'):
            fuzz.try_one(int(first) + tried)
            tried += 1
    except KeyboardInterrupt:
        print('interrupted')
    print(f'looked at by their forms alone: {fuzz.unsure}; left out, as boots of more than 1,000 '
          f'rounds: {fuzz.left_out}')
    print(fuzz.summary(tried))
    return 1 if fuzz.findings or (tried < int(count) and stop == 'no') else 0


if __name__ == '__main__':
    sys.exit(main())
