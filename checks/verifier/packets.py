"""Packets, which a witness is handed, and why one is refused."""

from .evidence import chain, read_segment, words_from
from .keys import Authenticator, Roster, digest, is_signed, read_authenticator, read_hash, read_signature
from .log import MAX_BODY, RECV, SEND, hash_after, recv_content, send_content
from .words import LOG_1, LOG_2, read_place
from .xdr import Reader, Undecodable

AUTHENTICATOR, ENVELOPE, SEGMENT, ACKNOWLEDGEMENT, SEGMENT_2 = 1, 2, 3, 4, 5
UNKNOWN_NODE, GARBAGE, BAD_SIGNATURE = 1, 2, 3
MAX_SEGMENT = 4096

# What a packet says: the authenticator that is to be signed, and the nodes that are to be members.
Said = tuple[Authenticator, set[int]]


def read_alone(reader: Reader) -> Said:
    claim = read_authenticator(reader)
    return claim, {claim.node}


def read_envelope(reader: Reader) -> Said:
    sender, to, seq, prev = reader.word(), reader.word(), read_place(reader), read_hash(reader)
    content, signature = send_content(to, digest(reader.opaque(MAX_BODY))), read_signature(reader)
    if sender == to:
        raise Undecodable
    return Authenticator(sender, seq, hash_after(prev, seq, SEND, digest(content)), signature), {sender, to}


def read_acknowledgement(reader: Reader) -> Said:
    by, entry_word, prev = reader.word(), read_place(reader), read_hash(reader)
    content = recv_content(reader.word(), read_place(reader), *(read_hash(reader) for _ in range(3)))
    at = hash_after(prev, entry_word, RECV, digest(content))
    return Authenticator(by, entry_word, at, read_signature(reader)), {by}


def read_closed(reader: Reader, roster: Roster, log: int) -> Said:
    """A segment, which ends in its closing, of a node that has no log of the other version."""
    segment = read_segment(reader, log, MAX_SEGMENT)
    closing, links = segment.closing, segment.links()
    if segment.node in roster and roster[segment.node].log != log:
        raise Undecodable
    if closing.node != segment.node or closing.word != words_from(segment.first, links)[-1]:
        raise Undecodable
    if closing.hash != chain(segment.opening, segment.first, links)[-1]:
        raise Undecodable
    return closing, {closing.node}


def read_said(reader: Reader, roster: Roster) -> Said:
    kind = reader.word_among(AUTHENTICATOR, SEGMENT_2)
    if kind in (SEGMENT, SEGMENT_2):
        said = read_closed(reader, roster, LOG_1 if kind == SEGMENT else LOG_2)
    else:
        said = {AUTHENTICATOR: read_alone, ENVELOPE: read_envelope, ACKNOWLEDGEMENT: read_acknowledgement}[kind](reader)
    reader.end()
    return said


def refusal(roster: Roster, data: bytes) -> int | None:
    """Why a packet is refused under a roster, if it is."""
    try:
        claim, nodes = read_said(Reader(data), roster)
    except Undecodable:
        return GARBAGE
    if not nodes <= roster.keys():
        return UNKNOWN_NODE
    return None if is_signed(roster, claim) else BAD_SIGNATURE
