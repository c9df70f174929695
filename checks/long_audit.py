#!/usr/bin/env python3
"""Writes a script in which witnesses follow one server over a long log, one after another, and what it must print.

The server has a key of height 16, which lasts for 120,000 entries and a few calls more: a call with its reply takes two
of the server's keys and of its client's, and four entries of the server's log (RECV, CLOCK, SEND, ACK). At about each
quarter of the log the server logs a CHECK, and once the witness has audited up to it the next witness begins there. What
each audit finds is forwarded, so that the next one has room. At the end the server lies.

The replies are those that the second verifier finds owed.

usage: checks/long_audit.py SCRIPT PRINTED NODES EVIDENCE [ENTRIES]

SCRIPT and PRINTED are the script and what it prints, NODES the script without the witness's lines. The script has the
evidence written to EVIDENCE. ENTRIES is how long the log is to be, 120,000 if not given.
"""

import sys
from collections import Counter

sys.dont_write_bytecode = True
from verifier.mount import World  # noqa: E402
from verifier.nfs import Files  # noqa: E402
from verifier.rpc import AUTH_NONE, AUTH_SYS, CALL, NFS, RPC_VERSION, reply_to  # noqa: E402
from verifier.xdr import opaque, word  # noqa: E402

SERVER, CLIENTS = 1, [2, 3, 4]
HEIGHT, CLIENT_HEIGHT = 16, 15
MOST_ASKED, MOST_KEPT, WORKERS = 4096, 256, 2
NOTHING, GET_ATTRIBUTES, WRITE = 0, 1, 8
HELLO = word(SERVER, 2) + bytes(24)
NOBODY = word(AUTH_NONE, 0)
ROOT = word(AUTH_SYS) + opaque(word(0) + opaque(b'm') + word(0, 0, 0))
NODE_WORDS = ('node', 'call', 'mark', 'lie')


def call_body(index: int) -> bytes:
    """A call of nothing, one of a file's attributes, or a write that makes the file longer, or changes it."""
    procedure = (NOTHING, GET_ATTRIBUTES, WRITE)[index % 3]
    credential = ROOT if procedure == WRITE else NOBODY
    arguments = {NOTHING: b'', GET_ATTRIBUTES: HELLO}.get(procedure)
    if arguments is None:
        arguments = HELLO + word(0, index % 5000, 0) + opaque(b'entry %06d' % index)
    return word(index + 1, CALL, RPC_VERSION, NFS, 2, procedure) + credential + NOBODY + arguments


class Story:
    """A script and what it prints, with what the nodes have logged and the witness has seen."""

    def __init__(self):
        self.lines, self.printed = [], []
        self.world, self.calls = World(Files(SERVER)), 0
        self.number, self.signed = 0, []
        self.logged = Counter()
        # What the server's log shows of clients: its number there, the client, and the number in the client's log.
        self.shown = []
        self.end, self.kept = 0, Counter()

    def line(self, text: str, *printed: str):
        self.lines.append(text)
        self.printed += printed

    def now(self) -> int:
        """The number of the next line, which is its time."""
        return len(self.lines) + 1

    def call(self, lies: bool = False):
        """A client's call, with its reply and their acknowledgements."""
        client, body = CLIENTS[self.calls % len(CLIENTS)], call_body(self.calls)
        reply = bytearray(reply_to(self.world, body, (self.now(), 0)))
        reply[-1] ^= lies
        self.line(f'call {client} {SERVER} {body.hex()}', f'reply {reply.hex()}')
        self.signed += [self.number + 1, self.number + 3]
        self.shown += [(self.number + 1, client, self.logged[client] + 1)]
        self.shown += [(self.number + 4, client, self.logged[client] + 3)]
        self.number += 4
        self.logged[client] += 3
        self.calls += 1

    def mark(self) -> int:
        self.number += 1
        self.line(f'mark {SERVER}', f'marked {self.number}')
        return self.number

    def forward(self):
        """All that the last audit showed of clients goes to their books, which have no room for most of it."""
        while self.shown and self.shown[0][0] <= self.end:
            _, client, number = self.shown.pop(0)
            self.kept[client] += 1
            reply = 'noted' if self.kept[client] <= MOST_KEPT else 'refused 4'
            self.line(f'forward {SERVER}', f'forwarded {client} {number} {reply}')
        self.line(f'forward {SERVER}', 'empty')

    def audit(self, found: str = '1 sound'):
        """The witness learns the greatest number in reach that the server signed, and audits up to it."""
        last = max(number for number in self.signed if number <= self.end + MOST_ASKED)
        self.line(f'learn {SERVER} {last}', 'noted')
        self.line(f'audit {SERVER}', f'asked {self.end + 1} {last}')
        self.line(f'answer {SERVER}', 'accepted')
        self.line(f'replay {WORKERS}', found)
        self.end = last
        self.signed = [number for number in self.signed if number > last]

    def follow(self, upto: int):
        """Calls until the log has so many entries, audited as it grows."""
        while self.number < upto:
            self.call()
            if self.signed[-1] - self.end > MOST_ASKED:
                self.audit()
                self.forward()

    def audit_all(self):
        while self.signed:
            self.audit()
            self.forward()

    def next_witness(self):
        """A CHECK, and a call after it: the witness audits up to the first that is signed there, the next one begins there."""
        at = self.mark()
        self.call()
        after, shown = self.signed[-2:], [each for each in self.shown if each[0] > at]
        self.signed.pop()
        self.audit_all()
        self.line(f'ask {SERVER}', '1 trusted 0')
        self.line(f'join {SERVER} {at}', 'closed ok', 'joined')
        self.end, self.signed, self.shown, self.kept = at, after, shown, Counter()

    def lie(self, evidence: str):
        """The last reply is changed, and found."""
        self.audit_all()
        self.line(f'ask {SERVER}', '1 trusted 0')
        self.line(f'lie {SERVER}', 'ok')
        self.call(lies=True)
        self.audit(f'{SERVER} fault 4 {self.signed[-1]}')
        self.line(f'ask {SERVER}', '1 exposed 0')
        self.line(f'evidence {SERVER} {evidence}', 'written')
        self.printed.append('closed ok')


def story_of(entries: int, evidence: str) -> Story:
    story = Story()
    story.line(f'node {SERVER} server {HEIGHT}')
    for client in CLIENTS:
        story.line(f'node {client} client {CLIENT_HEIGHT}')
    for quarter in (1, 2, 3):
        story.follow(quarter * entries // 4)
        story.next_witness()
    story.follow(entries)
    story.lie(evidence)
    return story


def write_lines(path: str, lines: list[str]):
    with open(path, 'w') as file:
        file.writelines(f'{line}\n' for line in lines)


def main(script: str, printed: str, nodes: str, evidence: str, entries: str = '120000'):
    story = story_of(int(entries), evidence)
    write_lines(script, story.lines)
    write_lines(printed, story.printed)
    write_lines(nodes, [line for line in story.lines if line.split()[0] in NODE_WORDS])
    print(f'{story.number} entries, {story.calls} calls, {sum(line.startswith("audit") for line in story.lines)} audits')


if __name__ == '__main__':
    if not 5 <= len(sys.argv) <= 6:
        sys.exit(__doc__)
    main(*sys.argv[1:])
