"""Runs of `nfsacc server`, `gateway` and `witness`, with their secrets and rosters in a folder of their own."""

import re
import shutil
import signal
import subprocess
import tempfile
import threading
import time
from collections.abc import Callable
from pathlib import Path

from peer.keys import Keys, master_of_epoch, member_line
from peer.wire import Address
from serve.service import run
from verifier.keys import CLIENT, SERVER, Roster, digest, read_roster
from verifier.xdr import Reader

PATIENCE = 120
EVERY = '1'
TOLD = r'(\d+) (trusted|suspected|exposed) (\d+) to (\d+)'
STATUSES = {'trusted': 0, 'suspected': 7, 'exposed': 8}
KINDS = {SERVER: 'server', CLIENT: 'client'}


class Party:
    """A program that runs. Its lines are kept as they come."""

    def __init__(self, words: list[str]):
        self.errors = tempfile.TemporaryFile()
        self.lines: list[str] = []
        self.news = threading.Condition()
        self.process = subprocess.Popen(words, stdin=subprocess.DEVNULL, stdout=subprocess.PIPE, stderr=self.errors,
                                        text=True)
        self.reader = threading.Thread(target=self.read, daemon=True)
        self.reader.start()

    def read(self):
        for line in self.process.stdout:
            with self.news:
                self.lines.append(line.rstrip('\n'))
                self.news.notify_all()

    def said(self) -> str:
        self.errors.seek(0)
        return self.errors.read().decode()

    def wait_for(self, pattern: str, after: int = 0, patience: float = PATIENCE) -> re.Match:
        """The first line, of those after so many, that is as the pattern says."""
        end, tried = time.monotonic() + patience, after
        with self.news:
            while True:
                for line in self.lines[tried:]:
                    if match := re.fullmatch(pattern, line):
                        return match
                tried = len(self.lines)
                left = end - time.monotonic()
                if left < 0 or (self.process.poll() is not None and not self.reader.is_alive()):
                    raise AssertionError(f'no line {pattern!r} in {self.lines}; it said {self.said()!r}')
                self.news.wait(min(left, 0.2))

    def address(self, word: str = 'listening') -> Address:
        found = self.wait_for(rf'{word} (\S+):(\d+)')
        return found[1], int(found[2])

    def kill(self):
        """Kills it, as a host that loses its power."""
        self.process.send_signal(signal.SIGKILL)
        self.process.wait(PATIENCE)

    def status(self, patience: float = PATIENCE) -> int:
        """The status of its end, which is to come by itself."""
        status = self.process.wait(patience)
        self.reader.join(patience)
        return status


def spelled(address: Address) -> str:
    return f'{address[0]}:{address[1]}'


class Hosts:
    """A folder with secrets, rosters and states of parties, and programs that run in it until the end."""

    def __init__(self, program: str):
        self.program = program
        self.folder = Path(tempfile.mkdtemp(prefix='hosts'))
        self.parties: list[Party] = []
        self.closes: list = []
        self.states = 0

    def __enter__(self):
        return self

    def __exit__(self, *_):
        for party in self.parties:
            party.process.kill()
            party.process.wait(PATIENCE)
        for each in self.closes:
            each.close()
        shutil.rmtree(self.folder)

    def keep(self, party):
        """Closes a party of the other program in the end."""
        self.closes.append(party)
        return party

    def run(self, *words: str) -> tuple[int, str, str]:
        status, printed, said = run(self.program, *words)
        return status, printed.decode(), said

    # ---- secrets and rosters

    def secret(self, name: str) -> Path:
        """The file of a secret, which is made where it isn't there."""
        path = self.folder / name
        if not path.exists():
            assert self.run('secret', str(path)) == (0, '', '')
        return path

    def member_lines(self, name: str, node: int, kind: int, height: int, epochs: str) -> str:
        """The lines of a member."""
        secret = self.secret(name)
        status, lines, said = self.run('member', '--secret', str(secret), '--node', str(node), '--kind', KINDS[kind],
                                       '--height', str(height), '--epochs', epochs)
        assert (status, said) == (0, ''), (status, said)
        return lines

    def member(self, name: str, node: int, kind: int, height: int, epochs: str = '1-1') -> str:
        """The lines of a member, which are those that the other program makes of the secret."""
        lines = self.member_lines(name, node, kind, height, epochs)
        first, _, last = epochs.partition('-')
        owed = [member_line(self.keys(name, node, kind, height, epoch).member(), epoch)
                for epoch in range(int(first), int(last or first) + 1)]
        assert lines.splitlines() == owed, (lines, owed)
        return lines

    def keys(self, name: str, node: int, kind: int, height: int, epoch: int = 1) -> Keys:
        """The keys of a secret, for a party of the other program."""
        return Keys(node, kind, master_of_epoch(self.secret(name).read_bytes(), node, epoch), height)

    def rosters(self, *members: str, name: str = 'rosters') -> Path:
        """A folder of rosters, made of these lines."""
        lines, folder = self.folder / f'{name}.lines', self.folder / name
        lines.write_text(''.join(members))
        status, printed, said = self.run('rosters', '--out', str(folder), str(lines))
        assert (status, said) == (0, ''), (status, said)
        for line in printed.splitlines():
            epoch, text_digest = re.fullmatch(r'epoch (\d+) sha256:([0-9a-f]{64})', line).groups()
            assert digest((folder / f'epoch-{epoch}.roster').read_bytes()).hex() == text_digest
        return folder

    def roster(self, epoch: int = 1, name: str = 'rosters') -> Roster:
        return read_roster(Reader((self.folder / name / f'epoch-{epoch}.roster').read_bytes()))

    # ---- programs

    def state(self, name: str | None = None) -> Path:
        """A folder for the state of a party, a new one where none is named."""
        self.states += 1
        folder = self.folder / (name or f'state{self.states}')
        folder.mkdir(mode=0o700, exist_ok=True)
        return folder

    def start(self, *words: str) -> Party:
        party = Party([self.program, *words])
        self.parties.append(party)
        return party

    def server(self, name: str, *more: str, state: Path | None = None, node: int = 1) -> Party:
        party = self.start('server', '--secret', str(self.folder / name), '--rosters', str(self.folder / 'rosters'),
                           '--state', str(state or self.state()), '--node', str(node), '--listen', '127.0.0.1:0', *more)
        return party

    def gateway(self, name: str, nodes: str, server: Address, *witnesses: Address, state: Path | None = None,
                every: str = EVERY, more: tuple[str, ...] = ()) -> Party:
        asked = ['--witness', ','.join(map(spelled, witnesses))] if witnesses else []
        return self.start('gateway', '--secret', str(self.folder / name), '--rosters', str(self.folder / 'rosters'),
                          '--state', str(state or self.state()), '--nodes', nodes, '--server', f'1={spelled(server)}',
                          '--listen', '127.0.0.1:0', '--every', every, *asked, *more)

    def witness(self, servers: dict[int, Address], *more: str, state: Path | None = None,
                rosters: str = 'rosters') -> Party:
        at = ','.join(f'{node}={spelled(address)}' for node, address in servers.items())
        return self.start('witness', '--rosters', str(self.folder / rosters), '--state', str(state or self.state()),
                          '--at', at, '--listen', '127.0.0.1:0', '--every', EVERY, *more)

    def ask(self, witness: Address, nodes: str = '1-64', rosters: str = 'rosters') -> tuple[int, dict[int, tuple]]:
        """The status of `ask`, which is that of what it says, and what is said of each node: the word, the open
        challenges and the end."""
        folder = str(self.folder / rosters)
        status, printed, _ = self.run('ask', '--rosters', folder, '--nodes', nodes, spelled(witness))
        lines = [re.fullmatch(TOLD, line).groups() for line in printed.splitlines()]
        told = {int(node): (word, int(count), int(end)) for node, word, count, end in lines}
        assert not told or status == max(STATUSES[word] for word, _, _ in told.values()), (status, told)
        return status, told

    def wait_until(self, witness: Address, holds: Callable[[dict[int, tuple]], bool],
                   patience: float = PATIENCE) -> dict[int, tuple]:
        """Asks until this holds of what is said of all nodes."""
        end = time.monotonic() + patience
        while True:
            _, told = self.ask(witness)
            if holds(told):
                return told
            assert time.monotonic() < end, told
            time.sleep(0.3)

    def status_of(self, state: Path) -> dict[str, list[str]]:
        """What `status` prints: the values of each name."""
        status, printed, said = self.run('status', str(state))
        assert (status, said) == (0, ''), (status, said)
        values: dict[str, list[str]] = {}
        for line in printed.splitlines():
            name, value = line.split(': ')
            values.setdefault(name, []).append(value)
        return values

    def stop(self, party: Party, state: Path) -> int:
        assert self.run('stop', str(state)) == (0, '', '')
        return party.status()
