#!/usr/bin/env python3
"""Writes, for each length from 0 to 55, sixteen rows of seven messages, each row with the digests of its messages by
Python's hashlib after it; then four long messages at a time, as blocks and what is left after them; then single
messages of up to eighteen pieces of one length, and one of a thousand single bytes. The messages are random, from a
fixed seed; among the short ones stand the examples that FIPS 180-4 and its validation suite print, as far as they have
at most 55 bytes, and hashlib must give their printed digests."""
import hashlib
import random
import sys

ROWS = 16

PRINTED = {
    b"": "e3b0c44298fc1c149afbf4c8996fb92427ae41e4649b934ca495991b7852b855",
    b"abc": "ba7816bf8f01cfea414140de5dae2223b00361a396177a9cb410ff61f20015ad",
    bytes.fromhex("d3"): "28969cdfa74a12c82f3bad960b0b000aca2ac329deea5c2328ebc6f2ba9802c1",
    bytes.fromhex("11af"): "5ca7133fa735326081558ac312c620eeca9970d1e70a4b95533d956f072d1f98",
    bytes.fromhex("74ba2521"): "b16aa56be3880d18cd41e68384cf1ec8c17680c45a02b1575dc1518923ae8b0e",
}


def message(length: int, row: int, place: int) -> bytes:
    """A message: a printed example of this length in each place of the first rows, else random bytes."""
    examples = [example for example in PRINTED if len(example) == length]
    if examples and row < 7 and row == place:
        return examples[0]
    return random.randbytes(length)


def write_long(blocks: int, left: int) -> None:
    """Writes four messages of so many blocks and bytes after them, side by side, and their digests."""
    messages = [random.randbytes(64 * blocks + left) for _ in range(4)]
    parts = [m[64 * b : 64 * b + 64] for b in range(blocks) for m in messages]
    parts += [m[64 * blocks :] for m in messages]
    parts += [hashlib.sha256(m).digest() for m in messages]
    sys.stdout.buffer.write(b"".join(parts))


def write_in_pieces(length: int, pieces: int) -> None:
    """Writes a message of so many pieces of a length, and its digest."""
    message = random.randbytes(length * pieces)
    sys.stdout.buffer.write(message + hashlib.sha256(message).digest())


def main() -> None:
    random.seed(34)
    for example, digest in PRINTED.items():
        if hashlib.sha256(example).hexdigest() != digest:
            sys.exit(f"hashlib gives another digest of {example.hex()} than is printed")
    for length in range(56):
        for row in range(ROWS):
            messages = [message(length, row, place) for place in range(7)]
            sys.stdout.buffer.write(b"".join(messages))
            sys.stdout.buffer.write(b"".join(hashlib.sha256(m).digest() for m in messages))
    for blocks in range(6):
        for left in (0, 1, 32, 55):
            write_long(blocks, left)
    write_long(256, 1)
    for pieces in range(19):
        for length in (1, 7, 55, 64, 100, 255, 256, 257, 600):
            write_in_pieces(length, pieces)
    write_in_pieces(1, 1000)


main()
