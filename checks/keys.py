#!/usr/bin/env python3
"""nfsacc secret, member and rosters from outside: files, lines and rosters, and what is refused.

usage: checks/keys.py PROGRAM
"""

import sys
import tempfile
from hashlib import sha256
from pathlib import Path

sys.dont_write_bytecode = True
from serve.service import run  # noqa: E402
from verifier.keys import digest, read_roster  # noqa: E402
from verifier.xdr import Reader, word  # noqa: E402


def root_of(master: bytes, height: int) -> bytes:
    """The public key of a master secret."""
    level = []
    for leaf in range(2**height):
        hashes = b''.join(digest(digest(master + word(leaf, place, bit))) for place in range(256) for bit in (0, 1))
        level.append(digest(b'\0' + hashes))
    while len(level) > 1:
        level = [digest(b'\1' + left + right) for left, right in zip(level[::2], level[1::2])]
    return level[0]


def check_secret(program: str, folder: Path) -> Path:
    """A secret is made where no file is, for its owner alone."""
    secret = folder / 'secret'
    assert run(program, 'secret', str(secret)) == (0, b'', '')
    made = secret.read_bytes()
    assert len(made) == 32 and secret.stat().st_mode & 0o777 == 0o600
    status, printed, said = run(program, 'secret', str(secret))
    assert (status, printed, said) == (4, b'', f'nfsacc: {secret}: File exists (os error 17)\n'), (status, said)
    assert secret.read_bytes() == made and [one.name for one in folder.iterdir()] == ['secret']
    other = folder / 'other'
    assert run(program, 'secret', str(other)) == (0, b'', '') and other.read_bytes() != made
    status, _, said = run(program, 'secret', str(folder / 'none' / 'secret'))
    assert status == 4 and 'No such file' in said, (status, said)
    return secret


def member(program: str, secret: Path, *words: str) -> bytes:
    status, printed, said = run(program, 'member', '--secret', str(secret), *words)
    assert (status, said) == (0, ''), (status, said)
    return printed


def check_members(program: str, secret: Path):
    """The lines have the keys of the secret bytes, the node and the epoch."""
    bytes_of = secret.read_bytes()
    lines = member(program, secret, '--node', '2', '--kind', 'client', '--height', '2', '--epochs', '3-4').decode()
    wanted = ''.join(
        f'member 2 client 2 epoch {epoch} {root_of(sha256(bytes_of + word(2) + word(epoch)).digest(), 2).hex()}\n'
        for epoch in (3, 4))
    assert lines == wanted, lines
    alone = member(program, secret, '--node', '2', '--kind', 'client', '--height', '2', '--epochs', '4').decode()
    assert alone == wanted.splitlines(True)[1], alone
    lines = member(program, secret, '--node', '1', '--kind', 'server', '--height', '1', '--log-version', '2').decode()
    root = root_of(sha256(bytes_of + word(1) + word(1)).digest(), 1)
    assert lines == f'member 1 server 1 log 2 epoch 1 {root.hex()}\n', lines
    for words in (['--node', '0'], ['--node', '65'], ['--node', 'x'], ['--kind', 'witness'], ['--height', '0'],
                  ['--height', '17'], ['--epochs', '0'], ['--epochs', '2-1'], ['--epochs', '0-1'], ['--epochs', '1-'],
                  ['--epochs', '1-4294967296'], ['--log-version', '3']):
        given = {'--node': '1', '--kind': 'client', '--height': '1'} | {words[0]: words[1]}
        status, printed, said = run(program, 'member', '--secret', str(secret), *[one for pair in given.items() for one in pair])
        assert (status, printed) == (2, b'') and said.startswith(f'nfsacc: {words[0]} is '), (words, status, said)
    secret.chmod(0o640)
    status, printed, said = run(program, 'member', '--secret', str(secret), '--node', '1', '--kind', 'client')
    assert (status, printed, said) == (2, b'', f'nfsacc: {secret}: others than its owner may use it\n'), (status, said)
    secret.chmod(0o600)


def check_rosters(program: str, folder: Path, secret: Path):
    """Rosters have the members that the lines say, in whichever order those stand."""
    server = member(program, secret, '--node', '1', '--kind', 'server', '--height', '2', '--epochs', '1-3')
    client = member(program, folder / 'other', '--node', '9', '--kind', 'client', '--height', '1', '--epochs', '1-3')
    lines = b''.join(sorted(client.splitlines(True) + server.splitlines(True), reverse=True)) + server
    out = folder / 'rosters'
    out.mkdir()
    status, printed, said = run(program, 'rosters', '--out', str(out), '-', data=lines)
    assert (status, said) == (0, ''), (status, said)
    digests = []
    for epoch in (1, 2, 3):
        text = (out / f'epoch-{epoch}.roster').read_bytes()
        assert (out / f'epoch-{epoch}.roster').stat().st_mode & 0o777 == 0o644
        members = read_roster(Reader(text))
        keys = {int(line.split()[1]): line.split()[-1].decode() for line in (server + client).splitlines()
                if b'epoch %d ' % epoch in line}
        assert {one.node: one.root.hex() for one in members.values()} == keys
        assert [(one.node, one.kind, one.height) for one in members.values()] == [(1, 1, 2), (9, 2, 1)]
        digests.append(f'epoch {epoch} sha256:{sha256(text).hexdigest()}\n')
        status, shown, _ = run(program, 'roster', str(out / f'epoch-{epoch}.roster'))
        assert status == 0 and sha256(text).hexdigest() in shown.decode()
    assert printed.decode() == ''.join(digests), printed
    assert sorted(one.name for one in out.iterdir()) == [f'epoch-{epoch}.roster' for epoch in (1, 2, 3)]
    one = server.splitlines(True)[0]
    bad = [one.upper(), b' ' + one, one[:-1] + b' \n', one.replace(b' ', b'  ', 1), one.replace(b'1', b'01', 1), b'\n', b'x\n',
           one[:-2] + b'\n', one[:-1] + b'0\n', one.replace(b'server', b'host'), one.replace(b' 2 ', b' 17 '), b'\xff\n',
           one.replace(b'member 1', b'member 65'), one.replace(b'epoch 1', b'epoch 0'), one[:-1] + b'\r\n', b'x' * 300]
    for line in bad:
        status, printed, said = run(program, 'rosters', '--out', str(out), '-', data=one + line)
        assert (status, printed, said) == (1, b'', 'nfsacc: standard input line 2: bad\n'), (line, status, said)
    for lines, wanted in (
            (one + one.replace(b'server', b'client'), ' line 2: another line says this number in this epoch otherwise'),
            (server + client.splitlines(True)[0], ': epoch 2 lacks number 9'), (b'', ': no member lines')):
        status, printed, said = run(program, 'rosters', '--out', str(out), '-', data=lines)
        assert (status, printed, said) == (1, b'', f'nfsacc: standard input{wanted}\n'), (status, said)
    return len(bad) + 3


def main():
    program = sys.argv[1]
    with tempfile.TemporaryDirectory() as name:
        folder = Path(name)
        secret = check_secret(program, folder)
        check_members(program, secret)
        refused = check_rosters(program, folder, secret)
    print(f'secrets, member lines and rosters are as they must be; {refused} files of lines are refused')


if __name__ == '__main__':
    main()
