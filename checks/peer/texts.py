"""Envelopes and acknowledgements (FORMATS, "The signed log"), and what each of them says was signed."""

from dataclasses import dataclass

from verifier.keys import Authenticator, Signature, digest, read_hash, read_signature
from verifier.log import MAX_BODY, RECV, SEND, Recv, hash_after, recv_content, send_content
from verifier.words import read_place
from verifier.xdr import Reader, hyper, opaque, word


@dataclass(frozen=True)
class Envelope:
    """A message: `seq` is the word of its SEND, `prev` the hash before that."""
    sender: int
    to: int
    seq: int
    prev: bytes
    body: bytes
    signature: Signature

    def text(self) -> bytes:
        return (word(self.sender, self.to) + hyper(self.seq) + self.prev + opaque(self.body)
                + self.signature.text)

    def claim(self) -> Authenticator:
        content = digest(send_content(self.to, digest(self.body)))
        return Authenticator(self.sender, self.seq, hash_after(self.prev, self.seq, SEND, content), self.signature)

    def name(self) -> tuple[int, int, bytes]:
        """What tells it from other messages."""
        return self.sender, self.seq, self.claim().hash

    def receipt(self) -> Recv:
        return Recv(self.sender, self.seq, self.prev, self.body, self.signature)


@dataclass(frozen=True)
class Acknowledgement:
    """That `by` received a message: `number` is the word of its RECV, `prev` the hash before that."""
    by: int
    number: int
    prev: bytes
    sender: int
    seq: int
    sender_prev: bytes
    body_hash: bytes
    signature_hash: bytes
    signature: Signature

    def content(self) -> bytes:
        return recv_content(self.sender, self.seq, self.sender_prev, self.body_hash, self.signature_hash)

    def text(self) -> bytes:
        return word(self.by) + hyper(self.number) + self.prev + self.content() + self.signature.text

    def claim(self) -> Authenticator:
        at = hash_after(self.prev, self.number, RECV, digest(self.content()))
        return Authenticator(self.by, self.number, at, self.signature)

    def message(self) -> tuple[int, int, bytes]:
        """The name of the message that it is of."""
        content = digest(send_content(self.by, self.body_hash))
        return self.sender, self.seq, hash_after(self.sender_prev, self.seq, SEND, content)


def read_envelope(reader: Reader) -> Envelope:
    return Envelope(reader.word(), reader.word(), read_place(reader), read_hash(reader), reader.opaque(MAX_BODY),
                    read_signature(reader))


def read_acknowledgement(reader: Reader) -> Acknowledgement:
    return Acknowledgement(reader.word(), read_place(reader), read_hash(reader), reader.word(), read_place(reader),
                           read_hash(reader), read_hash(reader), read_hash(reader), read_signature(reader))


def whole(read_item, data: bytes):
    """The item whose text the bytes are."""
    reader = Reader(data)
    item = read_item(reader)
    reader.end()
    return item


def text_of_packet(packet: bytes, kind: int) -> bytes:
    """The text in a packet of this kind, which may be any bytes."""
    reader = Reader(packet)
    reader.word_among(kind, kind)
    return packet[reader.at:]
