"""A witness: it audits servers, takes what gateways hand it, and says what it found (program 2acc0002)."""

import threading

from generator.texts import authenticator_text, base_text, evidence_text
from verifier.evidence import read_base, read_segment
from verifier.keys import Roster, digest, read_authenticator, roster_text
from verifier.packets import (ACKNOWLEDGEMENT, AUTHENTICATOR, ENVELOPE, MAX_SEGMENT, SEGMENT, SEGMENT_2, refusal)
from verifier.words import LOG_1, LOG_2
from verifier.xdr import Reader, Undecodable, array, hyper, opaque, word

from .books import NOT_ASKED, Book
from .gateway import OtherRoster, greet_or_fail, last_shown, read_delivered
from .texts import read_acknowledgement, read_envelope, whole
from .wire import (BASE, CASE, DELIVER, GREET, MAX_BASE, MAX_CASE, MOST, MOST_WITH_SEGMENT, NODE, NULL, SHOWN, SIGNED,
                   TOLD, WANTED, WITNESS, Address, Broken, Caller, Listener, Unserved, base_answer, call_text, greeting,
                   no_arguments, optional_packet, read_base_after)
from .wire import SEGMENT as ASK_SEGMENT

REFUSED = 16
NO_CASE, HERE, TOO_LARGE = 0, 1, 2
LOGS = {SEGMENT: LOG_1, SEGMENT_2: LOG_2}


class Witness:
    """Has a book of each member, and listens until it is closed."""

    def __init__(self, roster: Roster):
        self.roster = roster
        self.lock = threading.Lock()
        self.books = {node: Book(member, roster) for node, member in roster.items()}
        procedures = {NULL: no_arguments, GREET: greeting(digest(roster_text(roster))), DELIVER: self.deliver,
                      WANTED: self.wanted, TOLD: self.told, SHOWN: self.last_shown, CASE: self.case,
                      BASE: self.base}
        self.listener = Listener(WITNESS, procedures, self.longer)
        self.address = self.listener.address

    def close(self):
        self.listener.close()

    # ---- what it is asked and handed

    def longer(self, front: bytes) -> int:
        """How long a record may be, by its first 48 bytes: longer where it is a segment that is asked for."""
        header = call_text(int.from_bytes(front[:4], 'big'), WITNESS, DELIVER, b'')
        kind, node = int.from_bytes(front[40:44], 'big'), int.from_bytes(front[44:48], 'big')
        with self.lock:
            asked = node in self.books and self.books[node].audit is not None
        return MOST_WITH_SEGMENT if front[:40] == header and kind in LOGS and asked else MOST

    def deliver(self, packet: bytes) -> bytes:
        with self.lock:
            return word(self.take(packet))

    def take(self, packet: bytes) -> int:
        """Takes a packet: what is answered."""
        refused = refusal(self.roster, packet)
        if refused is not None:
            return REFUSED + refused
        kind, text = int.from_bytes(packet[:4], 'big'), packet[4:]
        if kind == AUTHENTICATOR:
            claim = whole(read_authenticator, text)
            return self.books[claim.node].show_last(claim)
        if kind == ENVELOPE:
            envelope = whole(read_envelope, text)
            return self.books[envelope.to].challenge(envelope)
        if kind == ACKNOWLEDGEMENT:
            ack = whole(read_acknowledgement, text)
            return self.books[ack.by].acknowledge(ack)
        return self.take_segment(LOGS[kind], text)

    def take_segment(self, log: int, text: bytes) -> int:
        segment = whole(lambda reader: read_segment(reader, log, MAX_SEGMENT), text)
        answer, shown = self.books[segment.node].answer(segment)
        for claim in shown:
            self.books[claim.node].learn(claim)
        return answer

    def wanted(self, arguments: bytes) -> bytes:
        node = one_word(arguments)
        with self.lock:
            if node not in self.books:
                return word(0, 0)
            book = self.books[node]
            audit = word(0) if book.audit is None else word(1) + b''.join(map(hyper, book.audit))
            messages = [word(ENVELOPE) + envelope.text() for envelope, _ in book.messages.values()]
        return audit + array(messages)

    def told(self, arguments: bytes) -> bytes:
        node = one_word(arguments)
        with self.lock:
            indication, count, end, seconds = self.books[node].told() if node in self.books else (0, 0, 0, 0)
        return word(indication, count) + hyper(end) + hyper(seconds)

    def last_shown(self, arguments: bytes) -> bytes:
        node = one_word(arguments)
        with self.lock:
            claim = self.books[node].last_shown if node in self.books else None
        return optional_packet(AUTHENTICATOR, None if claim is None else authenticator_text(claim))

    def case(self, arguments: bytes) -> bytes:
        node = one_word(arguments)
        with self.lock:
            file = self.evidence(node) if node in self.books else None
        if file is None:
            return word(NO_CASE)
        return word(HERE) + opaque(file) if len(file) <= MAX_CASE else word(TOO_LARGE) + hyper(len(file))

    def base(self, arguments: bytes) -> bytes:
        node, after = read_base_after(arguments)
        with self.lock:
            base = self.books[node].base if node in self.books else None
        return base_answer(None if base is None or base.at <= after else base_text(base))

    # ---- what it does by itself

    def join(self, servers: dict[int, Address]):
        """Begins the books of servers at the bases that they give, where these are good."""
        for node, address in servers.items():
            caller = Caller(address, NODE)
            try:
                greet_or_fail(caller, self.roster, 0)
                text = base_of(caller, node)
            finally:
                caller.close()
            if text is not None:
                self.books[node].begin_at(whole(read_base, text))

    def round(self, servers: dict[int, Address]) -> dict[int, str]:
        """Audits servers and asks others for their logs: of each server that can't be audited now, why."""
        failed = {}
        for node, address in servers.items():
            try:
                self.audit(node, address)
            except (Broken, Unserved, OtherRoster, Undecodable) as error:
                failed[node] = f'{type(error).__name__}: {error}'
        with self.lock:
            for book in self.books.values():
                book.open_audit()
        return failed

    def audit(self, node: int, address: Address):
        """Learns what a server signed, and asks for its log until that was audited. Hands it the messages that it is to
        acknowledge."""
        caller = Caller(address, NODE)
        try:
            greet_or_fail(caller, self.roster, 0)
            while self.learn_last(caller, node) and self.take_part(caller, node):
                pass
            self.ask_messages(caller, node)
        finally:
            caller.close()

    def meet(self, other: Address):
        """Takes what another witness was shown last of each node."""
        caller = Caller(other, WITNESS)
        try:
            greet_or_fail(caller, self.roster, 0)
            for node in self.books:
                claim = last_shown(caller, node)
                if claim is not None:
                    self.deliver(word(AUTHENTICATOR) + authenticator_text(claim))
        finally:
            caller.close()

    def learn_last(self, caller: Caller, node: int) -> bool:
        """Whether an audit of the node is open, once its last signature is learned."""
        answer = caller.ask(SIGNED, hyper(self.books[node].end))
        if answer.flag():
            self.deliver(answer.data[answer.at:])
        with self.lock:
            self.books[node].open_audit()
            return self.books[node].audit is not None

    def take_part(self, caller: Caller, node: int) -> bool:
        """Whether the part that is asked for came."""
        first, last = self.books[node].audit
        answer = caller.ask(ASK_SEGMENT, hyper(first) + hyper(last))
        if answer.word():
            return False
        with self.lock:
            return self.take(answer.data[answer.at:]) != NOT_ASKED and self.books[node].audit is None

    def ask_messages(self, caller: Caller, node: int):
        for envelope, _ in list(self.books[node].messages.values()):
            ack, _ = read_delivered(caller.ask(DELIVER, word(ENVELOPE) + envelope.text()))
            self.deliver(word(ACKNOWLEDGEMENT) + ack.text())

    def evidence(self, node: int) -> bytes | None:
        """The file of evidence against a node, if there is evidence."""
        charge = self.books[node].charge
        return None if charge is None else roster_text(self.roster) + evidence_text(node, charge)


def base_of(caller: Caller, node: int, after: int = 0) -> bytes | None:
    """The base of a node above a number, as a node or a witness gives it."""
    answer = caller.ask(BASE, word(node) + hyper(after))
    base = None if answer.word_among(0, 1) else answer.opaque(MAX_BASE)
    answer.end()
    return base


def one_word(arguments: bytes) -> int:
    reader = Reader(arguments)
    number = reader.word()
    reader.end()
    return number
