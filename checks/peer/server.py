"""A server: it answers the calls of program 2acc0001 by the file service of the second verifier."""

import threading
import time

from generator.texts import authenticator_text, base_text
from verifier.keys import Roster, digest, read_authenticator, roster_text
from verifier.nfs import Time
from verifier.packets import ACKNOWLEDGEMENT, AUTHENTICATOR, ENVELOPE
from verifier.xdr import Reader, word

from .keys import Keys
from .node import Node, NoSegment, Refused, TooLong
from .texts import Envelope, text_of_packet, whole
from .wire import (ACKNOWLEDGE, BASE, DELIVER, GREET, NODE, NULL, SEGMENT, SIGNED, STANDS, Listener, Procedure,
                   base_answer, greeting, no_arguments, optional_packet, read_base_after)

LOGGED, ALREADY = 0, 10
OUT_OF_RANGE, TOO_LONG = 1, 2
STANDING, NOT_STANDING = 0, 1


def system_time() -> Time:
    now = time.time_ns() // 1000
    return now // 1000000, now % 1000000


class Server:
    """Answers calls until it is closed; with an address of its own for audits, as an option. After each `check_every` new
    messages it logs a CHECK, if that isn't 0."""

    check_every = 0

    def __init__(self, keys: Keys, roster: Roster, audits_apart: bool = False):
        self.node = Node(keys, roster)
        self.lock = threading.Lock()
        self.roster_digest = digest(roster_text(roster))
        listened = self.procedures()
        self.audits = Listener(NODE, listened) if audits_apart else None
        if self.audits:
            listened = {number: each for number, each in listened.items() if number not in (SEGMENT, BASE)}
        self.listener = Listener(NODE, listened)
        self.address = self.listener.address
        self.audit_address = self.audits.address if self.audits else self.address

    def procedures(self) -> dict[int, Procedure]:
        return {NULL: no_arguments, GREET: greeting(self.roster_digest), DELIVER: self.deliver,
                ACKNOWLEDGE: self.acknowledge, SIGNED: self.signed, SEGMENT: self.segment, STANDS: self.stands,
                BASE: self.base}

    def close(self):
        self.listener.close()
        if self.audits:
            self.audits.close()

    def now(self) -> Time:
        return system_time()

    def deliver(self, arguments: bytes) -> bytes:
        text = text_of_packet(arguments, ENVELOPE)
        with self.lock:
            before = len(self.node.received)
            try:
                answer = self.receive(text)
            except Refused as refused:
                return word(refused.refusal)
            self.check_after(before)
        return answer

    def check_after(self, before: int):
        """Logs a CHECK where one is due, so many messages having been received before."""
        after = len(self.node.received)
        if self.check_every and after > before and after % self.check_every == 0:
            self.node.checkpoint()

    def receive(self, text: bytes) -> bytes:
        """What an envelope gets."""
        envelope = self.node.open(text)
        place = self.node.earlier(envelope)
        if place is None:
            place = self.node.serve(envelope, self.now())
        return self.shown(self.node, place, envelope)

    def shown(self, node: Node, place: int, _envelope: Envelope) -> bytes:
        """The acknowledgement of a RECV, and the reply to it."""
        reply = node.reply_to(place)
        return received(node.ack(place), None if reply is None else node.envelope(reply))

    def acknowledge(self, arguments: bytes) -> bytes:
        text = text_of_packet(arguments, ACKNOWLEDGEMENT)
        with self.lock:
            try:
                return word(LOGGED if self.take_ack(text) else ALREADY)
            except Refused as refused:
                return word(refused.refusal)

    def take_ack(self, text: bytes) -> bool:
        return self.node.take_ack(text)

    def signed(self, arguments: bytes) -> bytes:
        reader = Reader(arguments)
        after = reader.hyper()
        reader.end()
        with self.lock:
            claim = self.node.signed_after(after)
        return optional_packet(AUTHENTICATOR, None if claim is None else authenticator_text(claim))

    def segment(self, arguments: bytes) -> bytes:
        reader = Reader(arguments)
        first, last = reader.hyper(), reader.hyper()
        reader.end()
        with self.lock:
            return segment_answer(self.node, first, last)

    def stands(self, arguments: bytes) -> bytes:
        claim = whole(read_authenticator, text_of_packet(arguments, AUTHENTICATOR))
        with self.lock:
            return word(STANDING if self.node.has_pair(claim) else NOT_STANDING)

    def base(self, arguments: bytes) -> bytes:
        node, after = read_base_after(arguments)
        with self.lock:
            base = self.node.base(after) if node == self.node.number else None
        return base_answer(None if base is None else base_text(base))


def received(ack: bytes, reply: bytes | None) -> bytes:
    return word(LOGGED, ACKNOWLEDGEMENT) + ack + optional_packet(ENVELOPE, reply)


def segment_answer(node: Node, first: int, last: int) -> bytes:
    try:
        return word(0) + node.segment_packet(first, last)
    except TooLong:
        return word(TOO_LONG)
    except NoSegment:
        return word(OUT_OF_RANGE)
