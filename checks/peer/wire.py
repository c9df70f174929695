"""Records, calls and answers of docs/WIRE.md, and both ends of a connection."""

import socket
import threading
from collections.abc import Callable
from dataclasses import dataclass

from verifier.rpc import (AUTH_ERROR, AUTH_NONE, CALL, GARBAGE_ARGS, MAX_AUTH, PROC_UNAVAIL, PROG_MISMATCH,
                          PROG_UNAVAIL, REJECTEDCRED, REPLY, RPC_MISMATCH, RPC_VERSION, SUCCESS, accepted, denied)
from verifier.xdr import Reader, Undecodable, opaque, word

NODE, WITNESS = 0x2acc0001, 0x2acc0002
VERSION = 1
NULL, GREET, DELIVER = 0, 1, 2
ACKNOWLEDGE, SIGNED, SEGMENT, STANDS = 3, 4, 5, 6
WANTED, TOLD, SHOWN, CASE = 3, 4, 5, 6
BASE = 7

MAX_FRAGMENTS = 16384
LAST_FRAGMENT = 0x80000000
PIECE = 65536
FRONT = 48
MOST = 29288
MOST_WITH_SEGMENT = 119833232
ANSWERS = {
    NODE: {NULL: 24, GREET: 60, DELIVER: 46340, ACKNOWLEDGE: 28, SIGNED: 16980, SEGMENT: 119833220, STANDS: 28,
           BASE: 67306132},
    WITNESS: {NULL: 24, GREET: 60, DELIVER: 28, WANTED: 468016, TOLD: 48, SHOWN: 16980, CASE: 4194336, BASE: 67306132},
}
MAX_CASE = 4194304
MAX_BASE = 67306100
PATIENCE = 20

Address = tuple[str, int]
# What a procedure gives for its arguments; it raises Undecodable for GARBAGE_ARGS.
Procedure = Callable[[bytes], bytes]


class Broken(Exception):
    """The connection broke, or what came on it is nothing that may come: it is closed."""


class Unserved(Exception):
    """The answer isn't SUCCESS."""


def record(body: bytes) -> bytes:
    return word(LAST_FRAGMENT | len(body)) + body


class RecordReader:
    """Takes records from a connection, a piece at a time."""

    def __init__(self, connection: socket.socket):
        self.stream = connection.makefile('rb', PIECE)

    def take(self, count: int, most: int = PIECE) -> bytes:
        """So many bytes, or an error. A longer text than a piece is read by pieces."""
        data = bytearray()
        while len(data) < count:
            more = self.stream.read(min(count - len(data), most))
            if not more:
                raise Broken('the stream ends within a record')
            data += more
        return bytes(data)

    def next(self, most: int, longer: Callable[[bytes], int] | None = None) -> bytes | None:
        """The next record, or None where the stream ends before one. Where a mark passes `most`, `longer` says by the
        record's first 48 bytes how long it may be."""
        body = b''
        for place in range(MAX_FRAGMENTS):
            mark = self.stream.read(4)
            if not mark and place == 0:
                return None
            if len(mark) < 4:
                raise Broken('the stream ends within a mark')
            number = int.from_bytes(mark, 'big')
            length = number & ~LAST_FRAGMENT
            if len(body) + length > most and longer:
                ahead = self.take(min(length, max(0, FRONT - len(body))))
                body, length = body + ahead, length - len(ahead)
                most, longer = longer(body[:FRONT]), None
            if len(body) + length > most:
                raise Broken(f'a record above {most} bytes')
            body += self.take(length)
            if number & LAST_FRAGMENT:
                return body
        raise Broken(f'a record of more than {MAX_FRAGMENTS} fragments')


# ---- the end that answers

@dataclass(frozen=True)
class Call:
    xid: int
    procedure: int
    arguments: bytes


class Refusal(Exception):
    """A call gets this answer, and isn't performed."""

    def __init__(self, answer: bytes):
        super().__init__()
        self.answer = answer


def read_call(body: bytes, program: int) -> Call:
    """The call that a record says. It raises Broken where no answer is owed, else Refusal."""
    reader = Reader(body)
    try:
        xid, kind, version = reader.word(), reader.word(), reader.word()
        if kind != CALL:
            raise Broken('a record that is no call')
        if version != RPC_VERSION:
            raise Refusal(word(xid, REPLY) + denied(RPC_MISMATCH, RPC_VERSION, RPC_VERSION))
        called, version, procedure = reader.word(), reader.word(), reader.word()
        flavor, _ = reader.word(), reader.opaque(MAX_AUTH)
        reader.word(), reader.opaque(MAX_AUTH)
    except Undecodable:
        raise Broken('a record that is no call') from None
    if flavor != AUTH_NONE:
        raise Refusal(word(xid, REPLY) + denied(AUTH_ERROR, REJECTEDCRED))
    if called != program:
        raise Refusal(word(xid, REPLY) + accepted(PROG_UNAVAIL))
    if version != VERSION:
        raise Refusal(word(xid, REPLY) + accepted(PROG_MISMATCH, VERSION, VERSION))
    return Call(xid, procedure, body[reader.at:])


def answer_to(body: bytes, program: int, procedures: dict[int, Procedure]) -> bytes:
    """The answer to a record. It raises Broken where none is owed."""
    try:
        call = read_call(body, program)
    except Refusal as refusal:
        return refusal.answer
    front = word(call.xid, REPLY)
    if call.procedure not in procedures:
        return front + accepted(PROC_UNAVAIL)
    try:
        return front + accepted(SUCCESS) + procedures[call.procedure](call.arguments)
    except Undecodable:
        return front + accepted(GARBAGE_ARGS)


def no_arguments(arguments: bytes) -> bytes:
    """NULL."""
    Reader(arguments).end()
    return b''


class Listener:
    """Answers calls of a program, each connection in a thread of its own, until it is closed."""

    def __init__(self, program: int, procedures: dict[int, Procedure], longer: Callable[[bytes], int] | None = None):
        self.program = program
        self.procedures = procedures
        self.longer = longer
        self.connections: list[socket.socket] = []
        self.socket = socket.create_server(('127.0.0.1', 0))
        self.address: Address = self.socket.getsockname()
        threading.Thread(target=self.accept, daemon=True).start()

    def accept(self):
        while True:
            try:
                connection, _ = self.socket.accept()
            except OSError:
                return
            self.connections.append(connection)
            threading.Thread(target=self.serve, args=(connection,), daemon=True).start()

    def serve(self, connection: socket.socket):
        connection.setsockopt(socket.IPPROTO_TCP, socket.TCP_NODELAY, 1)
        reader = RecordReader(connection)
        try:
            while (body := reader.next(MOST, self.longer)) is not None:
                connection.sendall(record(answer_to(body, self.program, self.procedures)))
        except (Broken, OSError):
            pass
        finally:
            reader.stream.close()
            connection.close()

    def close(self):
        """Takes no further connection, and breaks those that there are."""
        shut(self.socket)
        for connection in self.connections:
            shut(connection)


def shut(connection: socket.socket):
    try:
        connection.shutdown(socket.SHUT_RDWR)
    except OSError:
        pass
    connection.close()


# ---- the end that calls

def call_text(xid: int, program: int, procedure: int, arguments: bytes) -> bytes:
    return word(xid, CALL, RPC_VERSION, program, VERSION, procedure, AUTH_NONE, 0, AUTH_NONE, 0) + arguments


class Caller:
    """A connection to a party that listens for a program."""

    def __init__(self, address: Address, program: int, patience: float = PATIENCE):
        self.program = program
        self.xid = 0
        try:
            self.socket = socket.create_connection(address, patience)
        except OSError as error:
            raise Broken(str(error)) from None
        self.socket.setsockopt(socket.IPPROTO_TCP, socket.TCP_NODELAY, 1)
        self.reader = RecordReader(self.socket)
        self.sent: list[tuple[int, int]] = []

    def send(self, *calls: tuple[int, bytes]):
        """Sends calls in one write: a procedure and its arguments each."""
        data = b''
        for procedure, arguments in calls:
            self.xid += 1
            self.sent.append((self.xid, procedure))
            data += record(call_text(self.xid, self.program, procedure, arguments))
        try:
            self.socket.sendall(data)
        except OSError as error:
            raise Broken(str(error)) from None

    def answer(self) -> Reader:
        """The results of the first call that isn't answered yet."""
        xid, procedure = self.sent.pop(0)
        try:
            body = self.reader.next(ANSWERS[self.program][procedure])
        except (OSError, ValueError) as error:
            raise Broken(str(error)) from None
        if body is None:
            raise Broken('closed in place of an answer')
        if body[:8] != word(xid, REPLY):
            raise Broken('an answer to another call')
        if body[8:24] != accepted(SUCCESS):
            raise Unserved(body[8:].hex())
        reader = Reader(body)
        reader.at = 24
        return reader

    def ask(self, procedure: int, arguments: bytes = b'') -> Reader:
        self.send((procedure, arguments))
        return self.answer()

    def close(self):
        self.reader.stream.close()
        self.socket.close()


def greet(caller: Caller, digest: bytes, node: int) -> bytes | None:
    """The digest of the other's roster, where it is another than the caller's."""
    answer = caller.ask(GREET, digest + word(node))
    other = answer.fixed(32) if answer.word_among(0, 1) else None
    answer.end()
    return other


def optional_packet(kind: int, text: bytes | None) -> bytes:
    return word(0) if text is None else word(1, kind) + text


def read_base_after(arguments: bytes) -> tuple[int, int]:
    """The arguments of BASE: a node, and the number above which its base is asked for."""
    reader = Reader(arguments)
    asked = reader.word(), reader.hyper()
    reader.end()
    return asked


def base_answer(base: bytes | None) -> bytes:
    return word(1) if base is None else word(0) + opaque(base)


def greeting(digest: bytes) -> Procedure:
    """GREET of who has this roster."""
    def greeted(arguments: bytes) -> bytes:
        reader = Reader(arguments)
        other, _ = reader.fixed(32), reader.word()
        reader.end()
        return word(0) if other == digest else word(1) + digest
    return greeted
