"""Signers with keys as docs/FORMATS.md has them, and the members that they sign for."""

from dataclasses import dataclass
from functools import cache

from verifier.keys import DIGEST_BITS, Authenticator, Member, Signature, digest
from verifier.words import LOG_1
from verifier.xdr import array, hyper, word

BIT_PLACES = range(DIGEST_BITS)


@dataclass(frozen=True)
class LeafKey:
    """The secrets of a leaf and their public hashes, by bit place and then by value."""
    secrets: list[bytes]
    publics: list[bytes]

    def hash(self) -> bytes:
        return digest(b'\0' + b''.join(self.publics))


def leaf_key(master: bytes, leaf: int) -> LeafKey:
    secrets = [digest(master + word(leaf, place, bit)) for place in BIT_PLACES for bit in (0, 1)]
    return LeafKey(secrets, [digest(secret) for secret in secrets])


class KeyTree:
    """All keys of a master secret: `levels` has the hashes of each level, the leaves' first."""

    def __init__(self, master: bytes, height: int):
        self.height = height
        self.keys = [leaf_key(master, leaf) for leaf in range(2**height)]
        self.levels = [[key.hash() for key in self.keys]]
        while len(self.levels) <= height:
            below = self.levels[-1]
            self.levels.append([digest(b'\1' + below[at] + below[at + 1]) for at in range(0, len(below), 2)])

    def root(self) -> bytes:
        return self.levels[-1][0]

    def path(self, leaf: int) -> list[bytes]:
        return [self.levels[level][leaf >> level ^ 1] for level in range(self.height)]


@cache
def key_tree(name: str, height: int) -> KeyTree:
    return KeyTree(digest(name.encode()), height)


def signature(leaf: int, shown: bytes, other: bytes, path: list[bytes]) -> Signature:
    return Signature(leaf, shown, other, path, word(leaf) + shown + other + array(path))


class Signer:
    """Signs for a node, by each leaf once."""

    def __init__(self, node: int, kind: int, name: str, height: int, log: int = LOG_1):
        self.node = node
        self.kind = kind
        self.log = log
        self.tree = key_tree(name, height)
        self.leaf = 0

    def member(self) -> Member:
        return Member(self.node, self.kind, self.tree.root(), self.tree.height, self.log)

    def left(self) -> int:
        return 2**self.tree.height - self.leaf

    def sign(self, entry_word: int, at: bytes, node: int | None = None) -> Authenticator:
        """An authenticator over an entry's word and a hash, of this node or, falsely, of another."""
        node = self.node if node is None else node
        signed = digest(word(node) + hyper(entry_word) + at)
        key, leaf = self.tree.keys[self.leaf], self.leaf
        self.leaf += 1
        bits = [signed[place // 8] >> (7 - place % 8) & 1 for place in BIT_PLACES]
        shown = b''.join(key.secrets[2 * place + bit] for place, bit in enumerate(bits))
        other = b''.join(key.publics[2 * place + 1 - bit] for place, bit in enumerate(bits))
        return Authenticator(node, entry_word, at, signature(leaf, shown, other, self.tree.path(leaf)))
