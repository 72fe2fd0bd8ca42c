"""Runs the program within the limits that tests/fuzz/run states."""
import os
import signal

from folder import FOLDER, content
from judge import CUT, Got, shown


# Seconds by the clock, after which a run is said to have no end.
LONGEST = 600


def memory_limit(length):
    return (32 << 20) + 100 * length


def seconds_limit(length, device, sessions):
    return 1 + 3e-6 * length + 1e-7 * device + 3e-3 * sessions


class Machine:
    def __init__(self, program):
        self.program = program
        self.outputs = os.memfd_create('text'), os.memfd_create('errors')
        self.child, self.is_late = None, False
        signal.signal(signal.SIGALRM, self.stop)

    def stop(self, *_):
        self.is_late = True
        os.kill(self.child, signal.SIGKILL)

    def spawn(self, words, run, memory, seconds):
        """The status of a run, and its time on a processor."""
        longest = 67108864 if run.limit is None else run.limit
        limits = [b'--core=0', b'--fsize=%d' % longest, b'--cpu=%d:%d' % (seconds + 1, seconds + 2)]
        if len(self.program) == 1:
            limits.append(b'--as=%d' % memory)
        for file in self.outputs:
            os.ftruncate(file, 0)
            os.lseek(file, 0, os.SEEK_SET)
        text, errors = self.outputs
        files = [(os.POSIX_SPAWN_OPEN, 0, '/dev/null', os.O_RDONLY, 0), {
            'kept': (os.POSIX_SPAWN_DUP2, text, 1),
            'closed': (os.POSIX_SPAWN_CLOSE, 1),
            'full': (os.POSIX_SPAWN_OPEN, 1, '/dev/full', os.O_WRONLY, 0),
        }[run.output], (os.POSIX_SPAWN_DUP2, errors, 2)]
        command = [b'prlimit', *limits, b'--', *self.program, *words]
        self.is_late = False
        signals = [signal.SIGXFSZ] if run.dies else []
        self.child = os.posix_spawnp('prlimit', command, os.environ, file_actions=files,
                                     setsigdef=signals)
        signal.alarm(LONGEST)
        _, status, used = os.wait4(self.child, 0)
        signal.alarm(0)
        return status, used.ru_utime + used.ru_stime

    def run(self, run, words, call, places):
        """What a run leaves, whose device and plan are at these places."""
        files = sum(len(text) for text in run.files.values() if text is not FOLDER)
        length = sum(map(len, words)) + files
        device = len(run.bytes or b'') + (call.geometry[2] if call.geometry else 0)
        memory = run.starved or memory_limit(length)
        seconds = seconds_limit(length, device, call.drill_sessions())
        status, used = self.spawn(words, run, memory, seconds)
        got = Got()
        got.text, got.errors = [os.pread(file, os.fstat(file).st_size, 0) for file in self.outputs]
        got.device, got.plan = map(content, places)
        signalled = os.WTERMSIG(status) if os.WIFSIGNALED(status) else None
        if self.is_late:
            got.fault = 'it has no end'
        elif used > seconds or signalled == signal.SIGXCPU:
            got.fault = f'it takes {used:.1f} s, and has {seconds:.1f} s for {length} bytes'
        elif run.dies and signalled == signal.SIGXFSZ:
            got.status = CUT
        elif signalled:
            got.fault = f'it ends by {signal.Signals(signalled).name}'
        elif os.WEXITSTATUS(status) == 20 and not run.starved:
            got.fault = f'memory was refused below {memory} bytes, for {length}: {shown(got.text)}'
        else:
            got.status = os.WEXITSTATUS(status)
        return got
