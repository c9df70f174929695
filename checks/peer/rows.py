"""Records with the answers that are owed to them, by the tables of docs/WIRE.md, and how they are tried."""

import socket

from verifier.xdr import hyper, opaque, word

from .wire import (ACKNOWLEDGE, BASE, CASE, DELIVER, GREET, MAX_FRAGMENTS, MOST, NODE, NULL, SEGMENT, SHOWN, SIGNED,
                   STANDS, TOLD, WANTED, WITNESS, Address, Broken, RecordReader, call_text, record)

XID = 5
PATIENCE = 20
UNSERVED = {NODE: 8, WITNESS: 8}
LAST = 1 << 31
ANSWER = word(XID, 1)
DONE = ANSWER + word(0, 0, 0, 0)
UNKNOWN_PROCEDURE = ANSWER + word(0, 0, 0, 3)
GARBAGE_ARGS = ANSWER + word(0, 0, 0, 4)
# The text of a signature by leaf 0 of a tree without a path, which nobody made.
NO_SIGNATURE = word(0) + bytes(2 * 8192) + word(0)

# What is sent, and the answer, or None where the connection is closed.
Row = tuple[bytes, bytes | None]


def raw(address: Address, *parts: bytes) -> bytes | None:
    """The answer to bytes, or None where the connection is closed."""
    connection = socket.create_connection(address, PATIENCE)
    try:
        for part in parts:
            connection.sendall(part)
        return RecordReader(connection).next(MOST)
    except (Broken, ConnectionError):
        return None
    finally:
        connection.close()


def call(program: int, procedure: int, arguments: bytes = b'') -> bytes:
    return call_text(XID, program, procedure, arguments)


def judged(program: int, roster_digest: bytes) -> list[Row]:
    """Records in the order of their checks, for who has this roster."""
    good = call(program, NULL)
    return [
        (b'', None), (word(XID, 0), None), (word(XID, 1, 2), None), (word(XID, 1), None), (good[:-4], None),
        (good[:28] + word(401), None), (word(XID, 0, 3), ANSWER + word(1, 0, 2, 2)),
        (good[:24] + word(1) + good[28:] + word(0), ANSWER + word(1, 1, 2)),
        (word(XID, 0, 2, program + 2, 7, 9, 0, 0, 0, 0), ANSWER + word(0, 0, 0, 1)),
        (word(XID, 0, 2, program, 2, 9, 0, 0, 0, 0), ANSWER + word(0, 0, 0, 2, 1, 1)),
        (call(program, UNSERVED[program]), UNKNOWN_PROCEDURE), (good + word(0), GARBAGE_ARGS), (good, DONE),
        (good[:28] + opaque(b'any') + word(9) + opaque(bytes(300)), DONE),
        (call(program, GREET, bytes(32)), GARBAGE_ARGS),
        (call(program, GREET, bytes(36)), DONE + word(1) + roster_digest),
        (call(program, GREET, roster_digest + word(9)), DONE + word(0)),
    ]


def unsigned(node: int, number: int, at: bytes = bytes(32)) -> bytes:
    """The packet of an authenticator that nobody signed."""
    return word(1, node) + hyper(number) + at + NO_SIGNATURE


def of_node() -> list[Row]:
    """Calls of a node whose log is empty, and whose number is 1."""
    rows = [
        (DELIVER, word(1), GARBAGE_ARGS), (DELIVER, word(2, 9), DONE + word(1)), (ACKNOWLEDGE, word(2), GARBAGE_ARGS),
        (ACKNOWLEDGE, word(4), DONE + word(1)), (SIGNED, hyper(0), DONE + word(0)),
        (SIGNED, hyper(2**64 - 1), DONE + word(0)), (SIGNED, word(0), GARBAGE_ARGS),
        (DELIVER, word(2) + bytes(MOST - 44), DONE + word(1)),
        (STANDS, word(1), GARBAGE_ARGS), (STANDS, word(2) + unsigned(1, 0)[4:], GARBAGE_ARGS),
        (STANDS, unsigned(1, 0) + word(0), GARBAGE_ARGS), (STANDS, unsigned(1, 2**64 - 1), GARBAGE_ARGS),
        (STANDS, unsigned(1, 0), DONE + word(0)), (STANDS, unsigned(2, 0), DONE + word(1)),
        (STANDS, unsigned(1, 1), DONE + word(1)), (STANDS, unsigned(1, 0, b'\1' + bytes(31)), DONE + word(1)),
    ]
    return [(call(NODE, procedure, arguments), owed) for procedure, arguments, owed in rows]


def of_audits() -> list[Row]:
    """Calls of SEGMENT and of BASE, of a node whose log is empty."""
    rows = [
        (SEGMENT, hyper(1) * 2, DONE + word(1)), (SEGMENT, hyper(0) * 2, DONE + word(1)),
        (SEGMENT, hyper(2**64 - 1) * 2, DONE + word(1)), (SEGMENT, hyper(1), GARBAGE_ARGS),
    ]
    return [(call(NODE, procedure, arguments), owed) for procedure, arguments, owed in rows + no_bases()]


def no_bases() -> list[tuple[int, bytes, bytes]]:
    """Calls of BASE where there is none."""
    return [
        (BASE, word(1) + hyper(0), DONE + word(1)), (BASE, word(9) + hyper(2**64 - 1), DONE + word(1)),
        (BASE, hyper(0), GARBAGE_ARGS), (BASE, word(1) + hyper(0) + word(0), GARBAGE_ARGS),
    ]


def of_witness() -> list[Row]:
    """Calls of a witness that was handed nothing yet: 1 is a member, and 9 is none."""
    rows = [
        (DELIVER, b'', DONE + word(18)), (DELIVER, word(6), DONE + word(18)), (WANTED, word(1), DONE + word(0, 0)),
        (WANTED, word(9), DONE + word(0, 0)), (TOLD, word(1), DONE + word(1, 0) + bytes(16)),
        (TOLD, word(9), DONE + bytes(24)), (TOLD, b'', GARBAGE_ARGS), (SHOWN, word(1), DONE + word(0)),
        (SHOWN, word(9), DONE + word(0)), (SHOWN, b'', GARBAGE_ARGS), (CASE, word(1), DONE + word(0)),
        (CASE, word(9), DONE + word(0)), (CASE, word(1, 1), GARBAGE_ARGS),
    ]
    long = [(call(WITNESS, DELIVER, word(kind, node) + bytes(MOST)), None) for kind, node in [(3, 1), (5, 9), (1, 1)]]
    return [(call(WITNESS, procedure, arguments), owed) for procedure, arguments, owed in rows + no_bases()] + long


def try_rows(address: Address, rows: list[Row]):
    for sent, owed in rows:
        got = raw(address, record(sent))
        said = f'{sent[:60].hex()}, {len(sent)} bytes: {owed and owed.hex()} is owed, and {got and got.hex()} came'
        assert got == owed, said


def try_records(address: Address, program: int):
    """Records however they are cut, and past the bounds."""
    null = call(program, NULL)
    cuts = b''.join(word(1) + null[at:at + 1] for at in range(39)) + word(1 | LAST) + null[39:]
    for parts, owed in [
            ([cuts[at:at + 7] for at in range(0, len(cuts), 7)], DONE),
            ([word(0) * (MAX_FRAGMENTS - 1) + record(null)], DONE), ([word(0) * (MAX_FRAGMENTS + 1)], None),
            ([word(0x7fffffff) + bytes(48)], None), ([word(MOST) + bytes(MOST) + word(1)], None)]:
        assert raw(address, *parts) == owed, parts[0][:8].hex()
    if program == NODE:
        assert raw(address, word(MOST + 1 | LAST) + bytes(48)) is None
