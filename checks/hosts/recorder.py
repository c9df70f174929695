"""Ways that keep each signature that crosses them, and what a witness says there of nodes."""

import socket
import threading
from collections.abc import Callable, Iterator

from peer.texts import read_acknowledgement, read_envelope
from peer.wire import (ACKNOWLEDGE, CASE, DELIVER, GREET, LAST_FRAGMENT, NODE, SEGMENT, SHOWN, SIGNED, STANDS, TOLD,
                       WANTED, Address, shut)
from verifier.evidence import Replay, chain, read_segment
from verifier.keys import Authenticator, Roster, digest, is_signed, read_authenticator, roster_text
from verifier.log import ACK, RECV, SEND, message_hash, recv_content
from verifier.log import hash_after as log_hash
from verifier.packets import ACKNOWLEDGEMENT, AUTHENTICATOR, ENVELOPE, MAX_SEGMENT
from verifier.packets import SEGMENT as SEGMENT_PACKET
from verifier.rpc import SUCCESS, accepted
from verifier.words import LOG_1
from verifier.xdr import Reader, Undecodable

from .proxy import Way

NOWHERE: Address = ('127.0.0.1', 1)
TRUSTED, EXPOSED = 1, 3
Sends = dict[int, tuple[bytes, bytes]]


class Book:
    """What crossed the ways of a story with several epochs: the hash that each node signed at each number, and the one
    that each key signed. `faults` has what an honest node never does, and a witness never says of one."""

    def __init__(self, rosters: dict[int, Roster]):
        self.rosters = rosters
        self.epochs = {digest(roster_text(roster)): epoch for epoch, roster in rosters.items()}
        self.lock = threading.Lock()
        self.hashes: dict[tuple[int, int, int], bytes] = {}
        self.leaves: dict[tuple[int, int, int], tuple[int, bytes]] = {}
        self.last: dict[tuple[int, int], int] = {}
        self.known: set[tuple[int, int, int, bytes, bytes]] = set()
        self.sends: dict[tuple[int, int], Sends] = {}
        self.messages: dict[bytes, set[tuple[int, int, int]]] = {}
        self.faults: list[str] = []

    def fail(self, fault: str):
        with self.lock:
            self.faults.append(fault)

    def take(self, epoch: int, claim: Authenticator):
        """Keeps what a node signed. It was taken before where the same node says the same by the same bytes."""
        name = epoch, claim.node, claim.word, claim.hash, digest(claim.signature.text)
        with self.lock:
            if name in self.known:
                return
            self.known.add(name)
        if not is_signed(self.rosters[epoch], claim):
            self.fail(f'not signed: node {claim.node}, epoch {epoch}, number {claim.word}')
            return
        self.mark(epoch, claim.node, claim.word, claim.hash)
        with self.lock:
            said = claim.word, claim.hash
            if self.leaves.setdefault((epoch, claim.node, claim.signature.leaf), said) != said:
                self.faults.append(f'a key twice: node {claim.node}, epoch {epoch}, leaf {claim.signature.leaf}')
            place = epoch, claim.node
            self.last[place] = max(self.last.get(place, 0), claim.word)

    def mark(self, epoch: int, node: int, number: int, at: bytes):
        """Holds the hash at a number, which was signed or leads to one that was, against what was shown before."""
        with self.lock:
            if self.hashes.setdefault((epoch, node, number), at) != at:
                self.faults.append(f'two hashes: node {node}, epoch {epoch}, number {number}')

    def take_message(self, epoch: int, sender: int, number: int, body: bytes):
        """Keeps by which messages a body went."""
        with self.lock:
            self.messages.setdefault(body, set()).add((epoch, sender, number))

    def take_segment(self, epoch: int, segment: Replay):
        """Keeps each hash of a part of a log, and what its entries show that others signed."""
        hashes = chain(segment.opening, segment.first, segment.links())
        for number, at in enumerate(hashes, segment.first - 1):
            if number:
                self.mark(epoch, segment.node, number, at)
        sends = self.sends.setdefault((epoch, segment.node), {})
        for number, (entry, before) in enumerate(zip(segment.entries, hashes), segment.first):
            if entry.kind == SEND:
                sends[number] = before, digest(entry.body)
            elif entry.kind == RECV:
                at = message_hash(segment.node, entry)
                self.take(epoch, Authenticator(entry.sender, entry.seq, at, entry.signature))
            elif entry.kind == ACK:
                content = recv_content(segment.node, entry.seq, *sends[entry.seq], entry.mine)
                at = log_hash(entry.prev, entry.number, RECV, digest(content))
                self.take(epoch, Authenticator(entry.to, entry.number, at, entry.signature))

    def judge(self, epoch: int, node: int, is_trusted: bool, is_exposed: bool, end: int):
        """What a witness says of a node: never exposed, and not trusted beyond what the node signed in the epoch."""
        if is_exposed:
            self.fail(f'exposed: node {node}, epoch {epoch}')
        elif is_trusted and end > self.last.get((epoch, node), 0):
            self.fail(f'trusted to {end} beyond what was signed: node {node}, epoch {epoch}')


class Records:
    """Cuts the bytes of a stream into records, and hands each on; in the end the one that was begun, too."""

    def __init__(self, take: Callable[[bytes, bool], None]):
        self.take = take
        self.left = bytearray()
        self.body = b''

    def feed(self, data: bytes):
        self.left += data
        while len(self.left) >= 4:
            mark = int.from_bytes(self.left[:4], 'big')
            end = 4 + (mark & ~LAST_FRAGMENT)
            if len(self.left) < end:
                return
            self.body += self.left[4:end]
            del self.left[:end]
            if mark & LAST_FRAGMENT:
                self.take(self.body, True)
                self.body = b''

    def end(self):
        self.take(self.body + bytes(self.left[4:]), False)


class Talk:
    """What is said on a connection. The epoch is that of the roster with which the caller greeted."""

    def __init__(self, program: int, book: Book):
        self.program = program
        self.book = book
        self.epoch = 0
        self.asked: dict[bytes, tuple[int, bytes]] = {}

    def hear(self, read: Callable[[Reader], None]) -> Callable[[bytes, bool], None]:
        """Reads a record. Of one that was cut off what is there of it is read."""
        def heard(body: bytes, is_whole: bool):
            try:
                read(Reader(body))
            except (Undecodable, KeyError):
                if is_whole:
                    self.book.fail(f'no record of {self.program:x}: {body[:60].hex()}')
        return heard

    def call(self, reader: Reader):
        xid = reader.fixed(4)
        reader.at = 20
        procedure = reader.word()
        reader.at = 40
        self.asked[xid] = procedure, reader.data[40:44]
        if procedure == GREET:
            self.epoch = self.book.epochs[reader.fixed(32)]
        elif procedure == DELIVER or self.program == NODE and procedure in (ACKNOWLEDGE, STANDS):
            self.packet(reader)

    def answer(self, reader: Reader):
        procedure, front = self.asked.pop(reader.fixed(4), (0, b''))
        reader.word()
        if reader.fixed(16) != accepted(SUCCESS):
            return
        node = int.from_bytes(front, 'big')
        if self.program == NODE:
            self.answer_of_node(procedure, reader)
        elif procedure == WANTED:
            if reader.flag():
                reader.fixed(16)
            for _ in range(reader.word()):
                self.packet(reader)
        elif procedure == SHOWN and reader.flag():
            self.packet(reader)
        elif procedure == TOLD:
            word, _, end = reader.word(), reader.word(), reader.hyper()
            self.book.judge(self.epoch, node, word == TRUSTED, word == EXPOSED, end)
        elif procedure == CASE:
            self.book.judge(self.epoch, node, False, reader.word() != 0, 0)

    def answer_of_node(self, procedure: int, reader: Reader):
        if procedure == DELIVER and reader.word() == 0:
            self.packet(reader)
            if reader.flag():
                self.packet(reader)
        elif procedure == SIGNED and reader.flag() or procedure == SEGMENT and reader.word() == 0:
            self.packet(reader)

    def packet(self, reader: Reader):
        for claim in self.claims(reader):
            self.book.take(self.epoch, claim)

    def claims(self, reader: Reader) -> Iterator[Authenticator]:
        """What a packet shows that nodes signed."""
        kind = reader.word_among(AUTHENTICATOR, ACKNOWLEDGEMENT)
        if kind == AUTHENTICATOR:
            yield read_authenticator(reader)
        elif kind == ACKNOWLEDGEMENT:
            yield read_acknowledgement(reader).claim()
        elif kind == ENVELOPE:
            envelope = read_envelope(reader)
            yield envelope.claim()
            self.book.take_message(self.epoch, envelope.sender, envelope.seq, envelope.body)
        elif kind == SEGMENT_PACKET:
            segment = read_segment(reader, LOG_1, MAX_SEGMENT)
            yield segment.closing
            self.book.take_segment(self.epoch, segment)


class Recorder(Way):
    """Carries bytes to who listens for a program, and back; what a record shows is kept before its last bytes go on."""

    def __init__(self, program: int, book: Book):
        self.program = program
        self.book = book
        super().__init__(NOWHERE)

    def join(self, near: socket.socket, far: socket.socket):
        talk = Talk(self.program, self.book)
        for end in near, far:
            end.setsockopt(socket.IPPROTO_TCP, socket.TCP_NODELAY, 1)
        for ends, read in ((near, far), talk.call), ((far, near), talk.answer):
            threading.Thread(target=self.carry, args=(*ends, Records(talk.hear(read))), daemon=True).start()

    def carry(self, source: socket.socket, target: socket.socket, records: Records):
        try:
            while data := source.recv(1 << 16):
                records.feed(data)
                target.sendall(data)
        except OSError:
            pass
        finally:
            records.end()
            shut(source)
            shut(target)
