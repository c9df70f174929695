#!/usr/bin/env python3
"""Writes streams of records, and what is owed to each by the second verifier: a burst of READs whose replies have more bytes
than the program holds at once; a list of mounts as long as it can be; random calls of all procedures; and the calls of
rows.txt, of which the second verifier must owe what stands there. The k-th record has the time (k, 0), as `nfsacc rpc` gives
it.

usage: checks/command_line/streams.py FOLDER    writes FOLDER/NAME.in and FOLDER/NAME.owed
"""

import copy
import sys
from pathlib import Path
from random import Random

sys.dont_write_bytecode = True
sys.path.insert(0, str(Path(__file__).resolve().parent.parent))
from generator.calls import Caller  # noqa: E402
from generator.kinds import call_as, nfs_as_user_0  # noqa: E402
from verifier.mount import World  # noqa: E402
from verifier.nfs import Files  # noqa: E402
from verifier.rpc import CALL, MOUNT, NFS, RPC_VERSION, reply_to  # noqa: E402
from verifier.xdr import opaque, word  # noqa: E402

RANDOM_CALLS = 4000
PROGRAMS = {'nfs': (NFS, 2), 'mount': (MOUNT, 1)}
CREDENTIALS = {'nobody': '0 0', 'superuser': '1 18 0 1 6d000000 0 0 0'}
# What tells whether a call changed something: the attributes of the root and of `hello`, what is free, and the end of the
# root's listing.
LOOKS = ['1 1 1 0*6', '1 1 2 0*6', '11 1 1 0*6', '10 1 1 0*6 2 2000']


def record(body: bytes) -> bytes:
    return word(0x80000000 | len(body)) + body


class Stream:
    """Records, and what is owed to them by the server of node 1."""

    def __init__(self):
        self.world = World(Files(1))
        self.records: list[bytes] = []
        self.owed: list[bytes] = []

    def call(self, body: bytes):
        self.records.append(record(body))
        reply = reply_to(self.world, body, (len(self.records), 0))
        if reply is not None:
            self.owed.append(record(reply))


def reads() -> Stream:
    """A WRITE of 8,192 bytes and 200 READs of them, which fit into what is read at once."""
    stream = Stream()
    handle = stream.world.files.handle(2)
    stream.call(nfs_as_user_0(8, handle + word(0, 0, 0) + opaque(bytes(range(256)) * 32)))
    for _ in range(200):
        stream.call(nfs_as_user_0(6, handle + word(0, 8192, 0)))
    return stream


def mounts() -> Stream:
    """Mounts by 40 machines whose names have 255 bytes, and one more; then the list of them."""
    stream = Stream()
    for at in range(41):
        stream.call(call_as(MOUNT, 1, 1, opaque(b'/'), b'%03d' % at + b'm' * 252))
    stream.call(call_as(MOUNT, 1, 2, b''))
    return stream


def random_calls() -> Stream:
    stream, random = Stream(), Random('calls')
    for _ in range(RANDOM_CALLS):
        stream.call(Caller(random, stream.world).call())
    return stream


def text_of(words: str) -> bytes:
    """The bytes of words in hexadecimal: `0*6` is six words."""
    text = b''
    for each in words.split():
        digits, _, times = each.partition('*')
        text += word(int(digits, 16)) * int(times or 1)
    return text


def name_of(number: int) -> bytes:
    """A name of four bytes, another for each number below 65,536."""
    return opaque(bytes(0x40 | number >> shift & 15 for shift in (12, 8, 4, 0)))


class Rows(Stream):
    """The calls of rows to one server, beside the same server at which the time is always 0."""

    def __init__(self):
        super().__init__()
        self.still = World(Files(1))
        self.who = 'nfs', text_of(CREDENTIALS['superuser'])

    def ask(self, words: bytes) -> bytes:
        """Makes a call, by its procedure's number and arguments: what is owed at time 0, after the transaction."""
        (program, version), credential = PROGRAMS[self.who[0]], self.who[1]
        xid = word(len(self.records) + 1)
        body = xid + word(CALL, RPC_VERSION, program, version) + words[:4] + credential + word(0, 0) + words[4:]
        self.call(body)
        reply = reply_to(self.still, body, (0, 0))
        assert reply is not None and reply[:4] == xid, words.hex()
        return reply[4:]

    def row(self, row: str):
        name, _, words = row.partition(': ')
        call, _, owed = words.partition('->')
        reply = self.ask(text_of(call))
        assert reply == text_of(owed), f'{name}: the second verifier owes {reply.hex()}'

    def refused(self, row: str):
        before = [self.ask(text_of(look)) for look in LOOKS]
        self.row(row)
        self.row(row)
        assert before == [self.ask(text_of(look)) for look in LOOKS], f'{row}: something changed'

    def machines(self, first: int, end: int, row: str):
        for name in range(first, end):
            self.who = 'mount', text_of(f'1 18 0 1 {name:02x}000000 0 0 0')
            self.row(row)

    def files(self, first: int, end: int, size: int):
        sattr = text_of(f'ffffffff*3 {size:x} ffffffff 0 ffffffff 0')
        (program, version), credential = PROGRAMS['nfs'], self.who[1]
        for number in range(first, end):
            words = word(len(self.records) + 1, CALL, RPC_VERSION, program, version, 9) + credential + word(0, 0)
            self.call(words + text_of('1 1 0*6') + name_of(number) + sattr)
        # The second verifier would take twice as long for twice as many calls: at time 0 the files are made at once.
        self.still = copy.deepcopy(self.world)
        for file in self.still.files.files.values():
            file.atime = file.mtime = file.ctime = (0, 0)

    def links(self, end: int):
        for number in range(1, end):
            self.ask(text_of('c 1 2 0*6 1 1 0*6') + name_of(number))

    def page(self, count: int, length: int):
        assert len(self.ask(text_of(f'10 1 1 0*6 0 {count:x}'))) == length, f'a page of {count}'

    def take(self, line: str, mode: list[str]) -> list[str]:
        """Does what a line says, after a line that says how; answers how the next is to be done."""
        first, *rest = line.split()
        if first == 'as':
            self.who = rest[0], text_of(CREDENTIALS[rest[1]])
        elif first == 'credential':
            self.who = 'nfs', text_of(' '.join(rest))
        elif first in ('refused', 'machines'):
            self.who = 'nfs', text_of(CREDENTIALS['superuser'])
            return [first, *rest]
        elif first in ('files', 'links', 'page'):
            self.who = 'nfs', text_of(CREDENTIALS['superuser'])
            getattr(self, first)(*(int(each, 16) for each in rest))
        elif mode[:1] == ['machines']:
            self.machines(int(mode[1], 16), int(mode[2], 16), line)
        elif mode == ['refused']:
            self.refused(line)
            return mode
        else:
            self.row(line)
        return []


def servers() -> list[Rows]:
    """The streams of rows.txt."""
    streams: list[Rows] = []
    mode: list[str] = []
    for line in Path(__file__).with_name('rows.txt').read_text('ascii').splitlines():
        if line == 'server':
            streams.append(Rows())
            mode = []
        elif line and not line.startswith('#'):
            mode = streams[-1].take(line, mode)
    return streams


def main():
    folder = Path(sys.argv[1])
    made = {'reads': reads(), 'mounts': mounts(), 'random_calls': random_calls()}
    made |= {f'rows_{place}': stream for place, stream in enumerate(servers())}
    for name, stream in made.items():
        (folder / f'{name}.in').write_bytes(b''.join(stream.records))
        (folder / f'{name}.owed').write_bytes(b''.join(stream.owed))


main()
