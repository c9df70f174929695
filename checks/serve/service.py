"""A run of `nfsacc serve`: the program, what it prints and what it says."""

import os
import subprocess
import tempfile
import threading

PATIENCE = 600


class Service:
    """A program that serves, once it has said on which port. Words of a shell may close or replace its devices, and lines of
    one may stand before it."""

    def __init__(self, program: str, count: int, *options: str, shell: str = '', before: str = ':'):
        self.errors = tempfile.TemporaryFile()
        self.peak = 0.0
        self.seconds = 0.0
        words = [program, 'serve', '0', str(count), *options]
        if shell or before != ':':
            words = ['sh', '-c', f'{before}; exec "$@" {shell}', 'sh', *words]
        self.process = subprocess.Popen(words, stdin=subprocess.DEVNULL, stdout=subprocess.PIPE, stderr=self.errors)
        self.watch = threading.Timer(PATIENCE, self.process.kill)
        self.watch.start()
        line = self.process.stdout.readline().decode()
        if not line.startswith('listening '):
            raise AssertionError(f'it printed {line!r} and said {self.said()!r}')
        self.port = int(line.split()[1])

    def said(self) -> str:
        self.errors.seek(0)
        return self.errors.read().decode()

    def spent(self) -> float:
        """The processor time that it has taken so far, in seconds."""
        with open(f'/proc/{self.process.pid}/stat', encoding='ascii') as file:
            fields = file.read().rpartition(')')[2].split()
        return (int(fields[11]) + int(fields[12])) / os.sysconf('SC_CLK_TCK')

    def end(self) -> tuple[int, str, str]:
        """Waits for its end: its status, its lines after the first one, and what it said. Keeps its peak memory, in MiB, and
        its processor time."""
        lines = self.process.stdout.read().decode()
        _, status, usage = os.wait4(self.process.pid, 0)
        self.process.returncode = os.waitstatus_to_exitcode(status)
        self.peak = usage.ru_maxrss / 1024
        self.seconds = usage.ru_utime + usage.ru_stime
        self.watch.cancel()
        return self.process.returncode, lines, self.said()


def run(program: str, *words: str, output: str | None = None, data: bytes = b'') -> tuple[int, bytes, str]:
    """A run of the program that is to end by itself: its status, what it printed and what it said. It reads these data."""
    with open(output or '/dev/null', 'wb') as device:
        done = subprocess.run([program, *words], input=data, stdout=device if output else subprocess.PIPE,
                              stderr=subprocess.PIPE, timeout=PATIENCE, check=False)
    return done.returncode, done.stdout or b'', done.stderr.decode()


def trusted(count: int) -> str:
    """The lines of a server and its clients, none of whom did anything wrong."""
    return ''.join(f'{node} trusted 0\n' for node in range(1, count + 2))


def all_good(service: Service, count: int) -> None:
    status, lines, said = service.end()
    assert (status, lines, said) == (0, trusted(count), ''), (status, lines, said)
