"""One-time keys under a tree, of which only hashes are kept: a key is made again when it signs."""

from generator.signer import BIT_PLACES, leaf_key, signature
from verifier.keys import CLIENT, SERVER, Authenticator, Member, digest
from verifier.words import LOG_1, LOG_2
from verifier.xdr import hyper, word

KINDS = {'server': SERVER, 'client': CLIENT}


class KeysUsedUp(Exception):
    """No key is left."""


def master_of_epoch(secret: bytes, node: int, epoch: int) -> bytes:
    """The master secret of a node in an epoch, by the 32 bytes of a secret's file."""
    return digest(secret + word(node, epoch))


class Keys:
    """The keys of a node. Some leaves may be kept for another log of the same node: who keeps two needs them."""

    def __init__(self, node: int, kind: int, master: bytes, height: int, log: int = LOG_1):
        self.node = node
        self.kind = kind
        self.master = master
        self.height = height
        self.log = log
        self.leaves = list(range(2**height))
        self.levels = [[leaf_key(master, leaf).hash() for leaf in self.leaves]]
        while len(self.levels) <= height:
            below = self.levels[-1]
            self.levels.append([digest(b'\1' + below[at] + below[at + 1]) for at in range(0, len(below), 2)])

    def member(self) -> Member:
        return Member(self.node, self.kind, self.levels[-1][0], self.height, self.log)

    def left(self) -> int:
        return len(self.leaves)

    def split(self) -> 'Keys':
        """The same node with the second half of the leaves, which these keys then lack."""
        other = object.__new__(Keys)
        vars(other).update(vars(self))
        half = len(self.leaves) // 2
        self.leaves, other.leaves = self.leaves[:half], self.leaves[half:]
        return other

    def sign(self, entry_word: int, at: bytes) -> Authenticator:
        """Signs the hash at an entry, by the next leaf."""
        if not self.leaves:
            raise KeysUsedUp
        leaf = self.leaves.pop(0)
        key = leaf_key(self.master, leaf)
        signed = digest(word(self.node) + hyper(entry_word) + at)
        bits = [signed[place // 8] >> (7 - place % 8) & 1 for place in BIT_PLACES]
        shown = b''.join(key.secrets[2 * place + bit] for place, bit in enumerate(bits))
        other = b''.join(key.publics[2 * place + 1 - bit] for place, bit in enumerate(bits))
        path = [self.levels[level][leaf >> level ^ 1] for level in range(self.height)]
        return Authenticator(self.node, entry_word, at, signature(leaf, shown, other, path))


def member_line(member: Member, epoch: int) -> str:
    """The line of a member, as `nfsacc member` prints it."""
    kind = next(name for name, number in KINDS.items() if number == member.kind)
    log = ' log 2' if member.log == LOG_2 else ''
    return f'member {member.node} {kind} {member.height}{log} epoch {epoch} {member.root.hex()}'
