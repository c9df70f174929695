"""A gateway: it hands plain calls to a server as a client node, takes a reply only where it is the one to that very
call, and reports to witnesses."""

from dataclasses import dataclass, field

from generator.texts import authenticator_text
from verifier.keys import Authenticator, Roster, digest, read_authenticator, roster_text
from verifier.mount import World
from verifier.nfs import Files
from verifier.packets import ACKNOWLEDGEMENT, AUTHENTICATOR, ENVELOPE
from verifier.rpc import reply_to
from verifier.words import number_in
from verifier.xdr import Reader, Undecodable, word

from .keys import Keys
from .node import Node, Refused
from .texts import Acknowledgement, Envelope, read_acknowledgement, read_envelope
from .wire import (ACKNOWLEDGE, CASE, DELIVER, MAX_CASE, NODE, SHOWN, STANDS, TOLD, WANTED, WITNESS, Address, Broken,
                   Caller, Unserved, greet)

MAX_MESSAGES = 16
INDICATIONS = {1: 'trusted', 2: 'suspected', 3: 'exposed'}


class NoAnswer(Exception):
    """Nothing came that counts. The call stays in hand: the same call again sends the same envelope."""


class CallFailed(Exception):
    """The call has failed: what the server answered to it won't change. The same call again is another one."""


class OtherCall(CallFailed):
    """The server signed a reply that isn't the one to this call: it is logged."""

    def __init__(self, number: int):
        super().__init__(f'the server answered another call: number {number}')
        self.number = number


class CallRefused(CallFailed):
    """The server refused the call, by this number."""

    def __init__(self, number: int):
        super().__init__(f'refused {number}')
        self.number = number


class OtherRoster(Exception):
    """The other side has another roster."""


@dataclass(frozen=True)
class Told:
    """What a witness says of a node."""
    indication: str
    open: int
    end: int
    seconds: int


def is_owed_a_reply(call: bytes) -> bool:
    """Whether one is owed to these bytes, whatever the server's files."""
    return reply_to(World(Files(1)), call, (0, 0)) is not None


@dataclass
class InHand:
    """A call that was sent, and its acknowledgement once that came."""
    call: bytes
    place: int
    ack: Acknowledgement | None = None


@dataclass
class Gateway:
    keys: Keys
    roster: Roster
    server: int
    address: Address
    patience: float = 5
    tries: int = 3
    node: Node = field(init=False)
    caller: Caller | None = None
    in_hand: InHand | None = None
    last: int = 0
    to_acknowledge: list[bytes] = field(default_factory=list)
    signed: dict[int, Authenticator] = field(default_factory=dict)
    reported: dict[Address, int] = field(default_factory=dict)

    def __post_init__(self):
        self.node = Node(self.keys, self.roster)

    # ---- calls

    def connect(self) -> Caller:
        if self.caller is None:
            caller = Caller(self.address, NODE, self.patience)
            greet_or_fail(caller, self.roster, self.node.number)
            self.caller = caller
        return self.caller

    def disconnect(self):
        if self.caller:
            self.caller.close()
        self.caller = None

    def exchange(self, call: bytes) -> bytes | None:
        """The reply to a plain call, or None where none is owed. A call that is in hand is the one that is sent."""
        if self.in_hand is None or self.in_hand.call != call:
            self.last = self.node.send(self.server, call)
            self.in_hand = InHand(call, self.last)
        why = None
        for _ in range(self.tries):
            try:
                return self.try_once(self.in_hand)
            except (Broken, Unserved) as broken:
                self.disconnect()
                why = broken
            except NoAnswer as nothing:
                why = nothing
            except CallFailed:
                self.in_hand = None
                raise
        raise NoAnswer(str(why))

    def try_once(self, in_hand: InHand) -> bytes | None:
        caller = self.connect()
        acks = list(self.to_acknowledge)
        envelope = self.node.envelope(in_hand.place)
        caller.send(*[(ACKNOWLEDGE, word(ACKNOWLEDGEMENT) + text) for text in acks],
                    (DELIVER, word(ENVELOPE) + envelope))
        for _ in acks:
            self.take_acknowledged(caller.answer())
        ack, reply = read_delivered(caller.answer())
        self.take_ack(in_hand, ack)
        is_owed = is_owed_a_reply(in_hand.call)
        if reply is None and is_owed:
            raise NoAnswer('no reply, and one is owed')
        if reply is not None and not is_owed:
            raise CallFailed('a reply, and none is owed')
        body = None if reply is None else self.take_reply(in_hand, reply)
        self.in_hand = None
        return body

    def take_acknowledged(self, answer: Reader):
        """A server has answered the first acknowledgement that was to be sent."""
        try:
            answer.word()
            answer.end()
        except Undecodable:
            raise Broken('no answer to ACKNOWLEDGE') from None
        self.to_acknowledge.pop(0)

    def take_ack(self, in_hand: InHand, ack: Acknowledgement):
        """The acknowledgement counts where it is of this SEND, and the server signed it; the first one is logged."""
        if ack.by != self.server or self.node.fits(ack) != in_hand.place:
            raise NoAnswer('an acknowledgement of another message')
        try:
            self.node.take_ack(ack.text())
        except Refused as refused:
            raise NoAnswer(f'an acknowledgement is refused: {refused}') from None
        self.keep(ack.claim())
        in_hand.ack = in_hand.ack or ack
        if ack != in_hand.ack:
            raise CallFailed('a second acknowledgement')

    def take_reply(self, in_hand: InHand, envelope: Envelope) -> bytes:
        """The body of the reply, where it is the one to this very call."""
        try:
            self.node.open(envelope.text())
        except Refused as refused:
            raise NoAnswer(f'a reply is refused: {refused}') from None
        if envelope.sender != self.server:
            raise NoAnswer('a reply of another member')
        if self.node.earlier(envelope) is not None:
            raise CallFailed('an old reply')
        self.keep(envelope.claim())
        place = self.node.receive(envelope)
        self.to_acknowledge.append(self.node.ack(place))
        number, received = self.number(envelope.seq), self.number(in_hand.ack.number)
        if number != received + 2 or envelope.body[:4] != in_hand.call[:4]:
            raise OtherCall(number)
        return envelope.body

    def number(self, entry_word: int) -> int:
        """The number in a word of the server's log."""
        return number_in(self.roster[self.server].log, entry_word)

    def keep(self, claim: Authenticator):
        self.signed[self.number(claim.word)] = claim

    def finish(self):
        """Sends the acknowledgements that are left."""
        caller = self.connect()
        for text in list(self.to_acknowledge):
            caller.send((ACKNOWLEDGE, word(ACKNOWLEDGEMENT) + text))
            self.take_acknowledged(caller.answer())

    # ---- reports

    def report(self, witness: Address) -> Told:
        """Hands a witness what the server signed and what it wants of this node: what it says of the server."""
        caller = Caller(witness, WITNESS)
        try:
            greet_or_fail(caller, self.roster, self.node.number)
            self.hand_signatures(caller, witness)
            self.answer_wanted(caller)
            return told_of(caller, self.server)
        finally:
            caller.close()

    def hand_signatures(self, caller: Caller, witness: Address):
        """The server's signatures above those that were handed in, and the own last one."""
        numbers = sorted(number for number in self.signed if number > self.reported.get(witness, 0))
        for number in numbers:
            handed(caller, word(AUTHENTICATOR) + authenticator_text(self.signed[number]))
            self.reported[witness] = number
        if self.node.signed:
            handed(caller, word(AUTHENTICATOR) + authenticator_text(self.node.signed[max(self.node.signed)]))

    def answer_wanted(self, caller: Caller):
        audit, messages = read_wanted(caller.ask(WANTED, word(self.node.number)))
        if audit is not None:
            handed(caller, self.node.segment_packet(*audit))
        for envelope in messages:
            ack = self.acknowledgement_of(envelope)
            if ack is not None:
                handed(caller, word(ACKNOWLEDGEMENT) + ack)

    def acknowledgement_of(self, envelope: Envelope) -> bytes | None:
        """That of a message, which is received now where the server sent it and it never came."""
        try:
            envelope = self.node.open(envelope.text())
            place = self.node.earlier(envelope)
            if place is None and envelope.sender == self.server:
                place = self.node.receive(envelope)
        except Refused:
            return None
        return None if place is None else self.node.ack(place)

    def challenge(self, witness: Address) -> int:
        """Hands a witness the last call, which the server doesn't acknowledge."""
        caller = Caller(witness, WITNESS)
        try:
            return handed(caller, word(ENVELOPE) + self.node.envelope(self.last))
        finally:
            caller.close()


def greet_or_fail(caller: Caller, roster: Roster, node: int):
    other = greet(caller, digest(roster_text(roster)), node)
    if other is not None:
        caller.close()
        raise OtherRoster(other.hex())


def read_delivered(answer: Reader) -> tuple[Acknowledgement, Envelope | None]:
    """A server's answer to an envelope."""
    try:
        refusal = answer.word()
        if refusal:
            answer.end()
            raise CallRefused(refusal)
        answer.word_among(ACKNOWLEDGEMENT, ACKNOWLEDGEMENT)
        ack, envelope = read_acknowledgement(answer), None
        if answer.flag():
            answer.word_among(ENVELOPE, ENVELOPE)
            envelope = read_envelope(answer)
        answer.end()
    except Undecodable:
        raise Broken('no answer to DELIVER') from None
    return ack, envelope


def read_wanted(answer: Reader) -> tuple[tuple[int, int] | None, list[Envelope]]:
    """The first and the last number of an audit, and the messages that are to be acknowledged."""
    def read_packet(reader: Reader) -> Envelope:
        reader.word_among(ENVELOPE, ENVELOPE)
        return read_envelope(reader)
    audit = (answer.hyper(), answer.hyper()) if answer.flag() else None
    messages = answer.array(MAX_MESSAGES, read_packet)
    answer.end()
    return audit, messages


def handed(caller: Caller, packet: bytes) -> int:
    """What a witness answers to a packet."""
    answer = caller.ask(DELIVER, packet)
    number = answer.word()
    answer.end()
    return number


def told_of(caller: Caller, node: int) -> Told | None:
    """What a witness says of a node, if it is a member."""
    answer = caller.ask(TOLD, word(node))
    told = answer.word_among(0, 3), answer.word(), answer.hyper(), answer.hyper()
    answer.end()
    return Told(INDICATIONS[told[0]], *told[1:]) if told[0] else None


def ask(witness: Address, node: int) -> Told | None:
    caller = Caller(witness, WITNESS)
    try:
        return told_of(caller, node)
    finally:
        caller.close()


def stands(caller: Caller, claim: Authenticator) -> bool:
    """Whether a node has the pair of an authenticator in its log."""
    answer = caller.ask(STANDS, word(AUTHENTICATOR) + authenticator_text(claim))
    number = answer.word_among(0, 1)
    answer.end()
    return number == 0


def last_shown(caller: Caller, node: int) -> Authenticator | None:
    """What a witness was shown of a node last."""
    answer, claim = caller.ask(SHOWN, word(node)), None
    if answer.flag():
        answer.word_among(AUTHENTICATOR, AUTHENTICATOR)
        claim = read_authenticator(answer)
    answer.end()
    return claim


def case_of(caller: Caller, node: int) -> bytes | int | None:
    """The file of evidence that a witness has against a node, or how long it is where it isn't sent."""
    answer = caller.ask(CASE, word(node))
    kind = answer.word_among(0, 2)
    case = None if kind == 0 else answer.opaque(MAX_CASE) if kind == 1 else answer.hyper()
    answer.end()
    return case
