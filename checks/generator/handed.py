"""What `checks/refused_memory.sh` hands its program: texts of a server's log of five entries and of the base at the
last one, of the logs of two clients, of what all three signed, and of what closes a log that the program makes."""

from verifier.evidence import Base, Link, Showing
from verifier.keys import CLIENT, SERVER, ZEROS, Authenticator, digest
from verifier.log import (RECV, SEND, Ack, Check, Clock, Entry, Recv, Send, hash_after, recv_content, send_content)
from verifier.replay import opening_state, step
from verifier.words import LOG_1, LOG_2, number_in, word_of
from verifier.xdr import array, hyper, opaque, word

from .signer import Signer
from .texts import authenticator_text, base_text, entry_text, roster_text

# The words that a packet begins with.
LEARN, ANSWER = 1, 3

# How many numbers are skipped before each entry of a log of version 2.
SKIPPED = 3

# CREATE of `b` in the root, with 700 bytes, by user 0.
NONE = 0xffffffff
CREATE = word(7, 0, 2, 100003, 2, 9, 1, 24, 0, 1, 0x6d000000, 0, 0, 0, 0, 0, 1, 1, 0, 0, 0, 0, 0, 0, 1, 0x62000000,
              NONE, NONE, NONE, 700, NONE, 0, NONE, 0)


class Log:
    """A node's log with its signer."""

    def __init__(self, signer: Signer):
        self.signer = signer
        self.entries: list[Entry] = []
        self.words = [0]
        self.hashes = [ZEROS]

    def append(self, entry: Entry):
        skipped = SKIPPED if self.signer.log == LOG_2 else 0
        number = number_in(self.signer.log, self.words[-1]) + skipped + 1
        self.words.append(word_of(skipped, number))
        self.entries.append(entry)
        self.hashes.append(hash_after(self.hashes[-1], self.words[-1], entry.kind, digest(entry.content())))

    def signed(self, place: int) -> Authenticator:
        return self.signer.sign(self.words[place], self.hashes[place])

    def segment(self, closing: Authenticator) -> bytes:
        """The text of the entries of a log of version 1 from the first one to the closing's."""
        entries = array([entry_text(entry) for entry in self.entries[:closing.word]])
        return word(self.signer.node) + hyper(1) + ZEROS + entries + authenticator_text(closing)


def one_check(signer: Signer) -> Log:
    """The log of a client that only made a checkpoint, of no state."""
    log = Log(signer)
    log.append(Check(bytes([6]) * 32))
    return log


def to_logs(version: int) -> list[bytes]:
    """The roster of a server, its authenticator of the number 1, and the one that closes a log of this version of an
    entry of each kind and six readings of the clock. No message or acknowledgement in it is another node's: its
    signature is the first authenticator's."""
    log = Log(Signer(1, SERVER, 'signer 0', 2, version))
    first = log.signer.sign(1, ZEROS)
    log.append(Send(2, bytes([5]) * 6))
    log.append(Recv(2, 9, bytes([7]) * 32, bytes([1, 2, 3, 4, 5]), first.signature))
    log.append(Ack(2, 9, bytes([7]) * 32, 3, bytes([8]) * 32, first.signature))
    log.append(Check(bytes([6]) * 32))
    for seconds in range(6):
        log.append(Clock(seconds, 0))
    return [roster_text([log.signer.member()]), authenticator_text(first), authenticator_text(log.signed(10))]


class Made:
    """A server that hears a client's call, reads its clock, replies, is acknowledged, and makes a checkpoint."""

    def __init__(self):
        self.server = Signer(1, SERVER, 'signer 0', 2)
        self.client = Signer(2, CLIENT, 'signer 1', 2)
        self.other = Signer(3, CLIENT, 'signer 2', 1)
        sent = hash_after(ZEROS, 1, SEND, digest(send_content(1, digest(CREATE))))
        self.shown = self.client.sign(1, sent)
        self.log = Log(self.server)
        self.state = opening_state(1, SERVER)
        self.take(Recv(2, 1, ZEROS, CREATE, self.shown.signature))
        self.take(Clock(1, 0))
        self.take(self.state.owed)
        self.take(self.acknowledged(mine=bytes([9]) * 32, prev=bytes([8]) * 32))
        self.take(Check(self.state.digest()))

    def take(self, entry: Entry):
        step(self.state, len(self.log.hashes), self.log.hashes[-1], entry)
        self.log.append(entry)

    def acknowledged(self, mine: bytes, prev: bytes) -> Ack:
        """The client received the reply as its second entry."""
        sent = self.state.sent[3]
        content = recv_content(1, 3, sent.prev, sent.body_hash, mine)
        signed = self.client.sign(2, hash_after(prev, 2, RECV, digest(content)))
        return Ack(2, 3, mine, 2, prev, signed.signature)

    def roster(self) -> bytes:
        return roster_text([signer.member() for signer in (self.server, self.client, self.other)])

    def envelope(self) -> bytes:
        """The client's message to the server."""
        return word(2, 1) + hyper(1) + ZEROS + opaque(CREATE) + self.shown.signature.text

    def ack(self) -> bytes:
        """The server's acknowledgement of it."""
        message = word(2) + hyper(1) + ZEROS + digest(CREATE) + digest(self.shown.signature.text)
        return word(1) + hyper(1) + ZEROS + message + self.log.signed(1).signature.text

    def to_books(self) -> list[bytes]:
        """What books are given: the roster, and packets of the server's third authenticator and of the segment that
        it closes. Of the clients' logs the authenticators and the segments. Client 2's message as an authenticator,
        which is of another log, as an envelope, and its acknowledgement."""
        closing = self.log.signed(3)
        texts = [self.roster(), word(LEARN) + authenticator_text(closing), word(ANSWER) + self.log.segment(closing)]
        for log in (one_check(self.client), one_check(self.other)):
            closing = log.signed(1)
            texts += [authenticator_text(closing), log.segment(closing)]
        return texts + [authenticator_text(self.shown), self.envelope(), self.ack()]

    def to_replays(self) -> list[bytes]:
        """The roster, and the segment of the server's whole log."""
        return [self.roster(), self.log.segment(self.log.signed(5))]

    def to_bases(self) -> list[bytes]:
        """The roster, and the file of it with the base at the server's checkpoint, which shows its last two entries."""
        links = [Link(entry.kind, digest(entry.content())) for entry in self.log.entries[3:]]
        showing = Showing(self.server.node, 4, self.log.hashes[3], links, self.log.signed(5))
        return [self.roster(), self.roster() + base_text(Base(showing, 5, self.state.text()))]


def handed(to: str) -> bytes:
    """The texts for bases, for books, for logs, for logs with gaps or for replays, each after its length."""
    if to in ('logs', 'gaps'):
        texts = to_logs({'logs': LOG_1, 'gaps': LOG_2}[to])
    else:
        made = Made()
        texts = {'bases': made.to_bases, 'books': made.to_books, 'replays': made.to_replays}[to]()
    return b''.join(word(len(text)) + text for text in texts)
