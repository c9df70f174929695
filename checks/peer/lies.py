"""Servers that lie, each in one way. What a lie changes in a log is signed there; what it only shows is said."""

import threading

from verifier.keys import Roster
from verifier.log import Send
from verifier.rpc import reply_to
from verifier.xdr import Reader

from .keys import Keys
from .node import Node
from .server import Server, received, segment_answer
from .texts import Envelope
from .wire import Broken


def with_last_bit_changed(data: bytes) -> bytes:
    return data[:-1] + bytes([data[-1] ^ 1])


def xid_of(body: bytes) -> bytes:
    return body[:4]


class Liar(Server):
    """Lies in its answer to the message that is the n-th new one, counted from 1; the same each time that it comes."""

    def __init__(self, keys: Keys, roster: Roster, at: int = 1):
        self.at = at
        self.places: list[int] = []
        super().__init__(keys, roster)

    def receive(self, text: bytes) -> bytes:
        envelope = self.node.open(text)
        place = self.node.earlier(envelope)
        if place is None:
            lies = len(self.places) + 1 == self.at
            place = self.node.serve(envelope, self.now(), self.changed if lies else bytes)
            self.places.append(place)
        lies = self.places.index(place) + 1 == self.at
        return self.lie(place, envelope) if lies else self.shown(self.node, place, envelope)

    def changed(self, reply: bytes) -> bytes:
        """The reply that is logged in place of the one that is owed."""
        return reply

    def lie(self, place: int, envelope: Envelope) -> bytes:
        """What is answered to the message that was received there."""
        return self.shown(self.node, place, envelope)


class WrongReply(Liar):
    """The lowest bit of the reply's last byte is changed."""

    def changed(self, reply: bytes) -> bytes:
        return with_last_bit_changed(reply)


class OwesAtBase(Liar):
    """It makes the reply up, and logs no clock before it, but a CHECK of a state that owes it: the base there vouches for
    it."""

    def receive(self, text: bytes) -> bytes:
        envelope = self.node.open(text)
        if self.node.earlier(envelope) is None and len(self.places) + 1 == self.at:
            self.places.append(self.vouch(envelope))
        return super().receive(text)

    def vouch(self, envelope: Envelope) -> int:
        node = self.node
        node.require(2, 3)
        place, state = node.receive(envelope), node.state
        reply = with_last_bit_changed(reply_to(state.world, envelope.body, state.clock))
        state.heard, state.owed = None, Send(envelope.sender, reply)
        node.checkpoint()
        node.append(state.owed)
        return place


class WrongXid(Liar):
    """The reply has another call's xid."""

    def changed(self, reply: bytes) -> bytes:
        return with_last_bit_changed(xid_of(reply)) + reply[4:]


class NoReply(Liar):
    """It says that no reply is owed, and withholds the one that it logged."""

    def lie(self, place: int, envelope: Envelope) -> bytes:
        return received(self.node.ack(place), None)


class OldReply(Liar):
    """The first reply comes again, in place of this one."""

    def lie(self, place: int, envelope: Envelope) -> bytes:
        return received(self.node.ack(place), self.node.envelope(self.places[0] + 2))


class UnaskedReply(Liar):
    """The first reply comes with the acknowledgement of what is owed none."""

    def lie(self, place: int, envelope: Envelope) -> bytes:
        return received(self.node.ack(place), self.node.envelope(3))


class UnsignedReply(Liar):
    """The reply's signature is none."""

    def lie(self, place: int, envelope: Envelope) -> bytes:
        return received(self.node.ack(place), with_last_bit_changed(self.node.envelope(place + 2)))


class UnsignedAck(Liar):
    """The acknowledgement's signature is none."""

    def lie(self, place: int, envelope: Envelope) -> bytes:
        return received(with_last_bit_changed(self.node.ack(place)), self.node.envelope(place + 2))


class OtherAck(Liar):
    """The acknowledgement is that of the first message, and the reply the one that is owed."""

    def lie(self, place: int, envelope: Envelope) -> bytes:
        return received(self.node.ack(self.places[0]), self.node.envelope(place + 2))


class ReceivesTwice(Liar):
    """It acknowledges a message, and logs it once more when it comes again: with another acknowledgement, and the reply
    after that."""

    def receive(self, text: bytes) -> bytes:
        envelope = self.node.open(text)
        comes_again = self.node.earlier(envelope) is not None
        answer = super().receive(text)
        if comes_again:
            place = self.node.serve(envelope, self.now())
            return received(self.node.ack(place), self.node.envelope(place + 2))
        return answer

    def lie(self, place: int, envelope: Envelope) -> bytes:
        return received(self.node.ack(place), None)


class OtherMember(Liar):
    """Another member, who is in league with the server, signs the reply."""

    def __init__(self, keys: Keys, roster: Roster, helper: Keys, at: int = 1):
        self.helper = Node(helper, roster)
        super().__init__(keys, roster, at)

    def lie(self, place: int, envelope: Envelope) -> bytes:
        reply = self.node.entries[place + 1].body
        return received(self.node.ack(place), self.helper.envelope(self.helper.send(envelope.sender, reply)))


class Silent(Liar):
    """No answer comes, nor to anything else on that connection; the message is logged."""

    def __init__(self, keys: Keys, roster: Roster, at: int = 1):
        self.ended = threading.Event()
        super().__init__(keys, roster, at)

    def deliver(self, arguments: bytes) -> bytes:
        answer = super().deliver(arguments)
        if answer:
            return answer
        self.ended.wait()
        raise Broken('it was silent')

    def lie(self, place: int, envelope: Envelope) -> bytes:
        return b''

    def close(self):
        self.ended.set()
        super().close()


class Slow(Server):
    """It answers messages once it may. It counts those that came."""

    def __init__(self, keys: Keys, roster: Roster):
        self.may_answer = threading.Event()
        self.came = 0
        self.counting = threading.Lock()
        super().__init__(keys, roster)

    def deliver(self, arguments: bytes) -> bytes:
        with self.counting:
            self.came += 1
        self.may_answer.wait()
        return super().deliver(arguments)

    def close(self):
        self.may_answer.set()
        super().close()


class Swapped(Liar):
    """It withholds the reply to a call, and answers with it another call of the same xid."""

    def lie(self, place: int, envelope: Envelope) -> bytes:
        return received(self.node.ack(place), None)

    def shown(self, node: Node, place: int, envelope: Envelope) -> bytes:
        if len(self.places) >= self.at and place != (kept := self.places[self.at - 1]):
            call = node.entries[kept - 1]
            if xid_of(call.body) == xid_of(envelope.body) and call.sender == envelope.sender:
                return received(node.ack(place), node.envelope(kept + 2))
        return super().shown(node, place, envelope)


class HidesLog(Server):
    """It gives nobody its log."""

    def segment(self, arguments: bytes) -> bytes:
        reader = Reader(arguments)
        reader.hyper(), reader.hyper()
        reader.end()
        return segment_answer(self.node, 0, 0)


class Fork(Server):
    """It keeps a log of its own for some clients. Witnesses are shown the other one."""

    def __init__(self, keys: Keys, roster: Roster, apart: set[int]):
        self.apart = apart
        self.second = Node(keys.split(), roster)
        super().__init__(keys, roster)

    def receive(self, text: bytes) -> bytes:
        envelope = self.node.open(text)
        node = self.second if envelope.sender in self.apart else self.node
        place = node.earlier(envelope)
        if place is None:
            place = node.serve(envelope, self.now())
        return self.shown(node, place, envelope)

    def take_ack(self, text: bytes) -> bool:
        sender = int.from_bytes(text[:4], 'big')
        return (self.second if sender in self.apart else self.node).take_ack(text)
