"""Rosters, and signatures by Lamport keys under a Merkle tree."""

from dataclasses import dataclass
from hashlib import sha256

from .words import LOG_1, LOG_2, read_place
from .xdr import Reader, Undecodable, array, hyper, word

SERVER, CLIENT = 1, 2
MAX_MEMBERS = 64
MAX_HEIGHT = 16
SECOND_FORM = 0x80000002
DIGEST_BITS = 256
ZEROS = bytes(32)


def digest(data: bytes) -> bytes:
    return sha256(data).digest()


@dataclass(frozen=True)
class Member:
    node: int
    kind: int
    root: bytes
    height: int
    log: int = LOG_1


@dataclass(frozen=True)
class Signature:
    leaf: int
    shown: bytes
    other: bytes
    path: list[bytes]
    text: bytes


@dataclass(frozen=True)
class Authenticator:
    node: int
    word: int
    hash: bytes
    signature: Signature


Roster = dict[int, Member]


def read_member(reader: Reader, least: int, second: bool) -> Member:
    node = reader.word_among(least, MAX_MEMBERS)
    kind = reader.word_among(SERVER, CLIENT)
    root, height = reader.fixed(32), reader.word_among(1, MAX_HEIGHT)
    return Member(node, kind, root, height, reader.word_among(LOG_1, LOG_2) if second else LOG_1)


def read_roster(reader: Reader) -> Roster:
    """A roster in either form. The second form has a log of version 2."""
    roster, least = {}, 1
    second = reader.data[reader.at:reader.at + 4] == word(SECOND_FORM)
    if second:
        reader.word()
    for _ in range(reader.word_among(0, MAX_MEMBERS)):
        member = read_member(reader, least, second)
        roster[member.node], least = member, member.node + 1
    if second and not has_gaps(roster):
        reader.at -= 4
        raise Undecodable
    return roster


def has_gaps(roster: Roster) -> bool:
    return any(member.log == LOG_2 for member in roster.values())


def roster_text(roster: Roster) -> bytes:
    second = has_gaps(roster)
    members = [word(member.node, member.kind) + member.root + word(member.height, *[member.log] * second)
               for member in roster.values()]
    return word(*[SECOND_FORM] * second) + array(members)


def read_hash(reader: Reader) -> bytes:
    return reader.fixed(32)


def read_signature(reader: Reader) -> Signature:
    start = reader.at
    leaf = reader.word()
    shown = reader.fixed(32 * DIGEST_BITS)
    other = reader.fixed(32 * DIGEST_BITS)
    path = reader.array(MAX_HEIGHT, read_hash)
    return Signature(leaf, shown, other, path, reader.data[start:reader.at])


def read_authenticator(reader: Reader) -> Authenticator:
    return Authenticator(reader.word(), read_place(reader), read_hash(reader), read_signature(reader))


def leaf_hash(signed: bytes, signature: Signature) -> bytes:
    """The hash of the leaf whose key has these halves, where it signed this digest."""
    public = [b'\0']
    for place in range(DIGEST_BITS):
        of_place = slice(32 * place, 32 * place + 32)
        shown = digest(signature.shown[of_place])
        other = signature.other[of_place]
        bit = signed[place // 8] >> (7 - place % 8) & 1
        public += [other, shown] if bit else [shown, other]
    return digest(b''.join(public))


def root_over(leaf: int, hashed: bytes, path: list[bytes]) -> bytes:
    """Where a path leads from a leaf's hash."""
    for sibling in path:
        pair = sibling + hashed if leaf % 2 else hashed + sibling
        hashed = digest(b'\1' + pair)
        leaf //= 2
    return hashed


def is_signed(roster: Roster, claim: Authenticator) -> bool:
    member = roster.get(claim.node)
    signature = claim.signature
    if member is None or signature.leaf >= 2**member.height or len(signature.path) != member.height:
        return False
    signed = digest(word(claim.node) + hyper(claim.word) + claim.hash)
    return root_over(signature.leaf, leaf_hash(signed, signature), signature.path) == member.root
