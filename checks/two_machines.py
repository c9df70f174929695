#!/usr/bin/env python3
"""The story of README for two machines: runs its lines, those of each machine in a folder of its own. A plain client
takes the place of the kernel's mount, and 127.0.0.1 that of the host's name.

usage: checks/two_machines.py PROGRAM
"""

import os
import re
import shutil
import socket
import subprocess
import sys
import tempfile
import time
from pathlib import Path

sys.dont_write_bytecode = True
from serve.client import ROOT, Connection, call  # noqa: E402
from verifier.xdr import opaque  # noqa: E402

README = Path(__file__).resolve().parent.parent / 'README.md'
LINE = re.compile(r' {4}(host|user|both)\$ (.*?)(?: +# .*)?')
PATIENCE = 120
PORTS = re.compile(r'--listen (\S+):(\d+)')


def story() -> list[tuple[str, str]]:
    """The lines of the story: on whose machine, and what is typed."""
    lines = [LINE.fullmatch(line) for line in README.read_text().splitlines()]
    return [(line[1], line[2].replace('files.example', '127.0.0.1')) for line in lines if line]


class Machines:
    """Two folders, and what runs in the background there."""

    def __init__(self, program: str):
        self.room = Path(tempfile.mkdtemp(prefix='two_machines'))
        (self.room / 'bin').mkdir()
        os.symlink(program, self.room / 'bin' / 'nfsacc')
        self.folders = {name: self.room / name for name in ('host', 'user')}
        for folder in self.folders.values():
            folder.mkdir()
        self.running: list[subprocess.Popen] = []

    def words(self, typed: str) -> dict:
        path = f'{self.room / "bin"}:{os.environ["PATH"]}'
        return {'args': ['bash', '-c', typed], 'env': {**os.environ, 'PATH': path}, 'text': True}

    def run(self, name: str, typed: str) -> str:
        done = subprocess.run(**self.words(typed), cwd=self.folders[name], capture_output=True, timeout=PATIENCE)
        assert done.returncode == 0, (typed, done.returncode, done.stderr)
        return done.stdout

    def start(self, name: str, typed: str):
        """Runs a line in the background, and waits until its last program listens."""
        self.running.append(subprocess.Popen(**self.words(f'{typed} wait'), cwd=self.folders[name],
                                             start_new_session=True, stdout=subprocess.DEVNULL))
        port = int(PORTS.search(typed)[2])
        end = time.monotonic() + PATIENCE
        while True:
            try:
                socket.create_connection(('127.0.0.1', port), 1).close()
                return
            except OSError:
                assert time.monotonic() < end, typed
                time.sleep(0.1)

    def both(self, typed: str):
        """The lines of each are sent to the other first. Both see the same digest."""
        for name, other in ('host', 'user'), ('user', 'host'):
            shutil.copy(self.folders[name] / f'{name}.lines', self.folders[other])
        printed = [self.run(name, typed) for name in self.folders]
        assert printed[0] == printed[1] and printed[0].startswith('epoch 1 sha256:'), printed

    def close(self):
        for process in self.running:
            try:
                os.killpg(process.pid, 9)
            except ProcessLookupError:
                pass
            process.wait()
        shutil.rmtree(self.room)


def tell(machines: Machines, typed: str):
    """Asks until the witness has audited both."""
    end = time.monotonic() + PATIENCE
    while True:
        done = subprocess.run(**machines.words(typed), cwd=machines.folders['user'], capture_output=True, timeout=PATIENCE)
        if re.fullmatch(r'1 trusted 0 to [1-9]\d*\n2 trusted 0 to [1-9]\d*\n', done.stdout):
            assert done.returncode == 0
            return
        assert time.monotonic() < end, (done.stdout, done.stderr)
        time.sleep(1)


def use(typed: str):
    """In the place of a mount: a plain client reads the names and a file."""
    connection = Connection(int(re.search(r'[, ]port=(\d+)', typed)[1]))
    reply = connection.ask(call(5, 4, ROOT + opaque(b'hello')))
    assert len(reply) == 24 + 4 + 32 + 68 and reply[24:28] == bytes(4), reply.hex()
    connection.finish()


def main():
    machines = Machines(os.path.abspath(sys.argv[1]))
    lines = story()
    assert len(lines) == 10, lines
    try:
        for name, typed in lines:
            if name == 'both':
                machines.both(typed)
            elif typed.startswith('mount'):
                use(typed)
            elif typed.startswith('nfsacc ask'):
                tell(machines, typed)
            elif typed.endswith('&'):
                machines.start(name, typed)
            else:
                machines.run(name, typed)
    finally:
        machines.close()
    print('the story of README for two machines')


if __name__ == '__main__':
    main()
