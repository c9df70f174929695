"""The log of a server that runs, as it gives it out, and what its entries say that clients sent and got."""

from dataclasses import dataclass, field

from peer.gateway import greet_or_fail
from peer.wire import NODE, SEGMENT, SIGNED, Address, Caller
from verifier.evidence import chain, read_segment
from verifier.keys import ZEROS, Roster, is_signed, read_authenticator
from verifier.log import RECV, SEND, Entry
from verifier.packets import AUTHENTICATOR, MAX_SEGMENT, refusal
from verifier.packets import SEGMENT as SEGMENT_PACKET
from verifier.replay import fault_of, opening_state, step
from verifier.words import LOG_1
from verifier.xdr import Reader, hyper


@dataclass
class Call:
    """A call as the log has it, with the number of its RECV and the reply, if there is one."""
    number: int
    sender: int
    body: bytes
    reply: bytes | None = None


@dataclass
class ServedLog:
    """A log of version 1 up to the last signature, which was replayed and has no fault."""
    entries: list[Entry] = field(default_factory=list)
    calls: list[Call] = field(default_factory=list)


def last_signed(caller: Caller, roster: Roster, node: int, after: int) -> int | None:
    """The number of the last authenticator after a number."""
    answer = caller.ask(SIGNED, hyper(after))
    if not answer.flag():
        return None
    answer.word_among(AUTHENTICATOR, AUTHENTICATOR)
    claim = read_authenticator(answer)
    answer.end()
    assert claim.node == node and after < claim.word <= after + MAX_SEGMENT and is_signed(roster, claim)
    return claim.word


def log_of(address: Address, roster: Roster, node: int = 1) -> ServedLog:
    """The log of the server at an address that gives it out."""
    caller = Caller(address, NODE)
    greet_or_fail(caller, roster, 0)
    served, state, before = ServedLog(), opening_state(node, roster[node].kind), ZEROS
    while (last := last_signed(caller, roster, node, len(served.entries))) is not None:
        first = len(served.entries) + 1
        answer = caller.ask(SEGMENT, hyper(first) + hyper(last))
        assert answer.word() == 0
        packet = answer.data[answer.at:]
        assert refusal(roster, packet) is None and packet[:4] == SEGMENT_PACKET.to_bytes(4, 'big')
        segment = read_segment(Reader(packet[4:]), LOG_1, MAX_SEGMENT)
        assert (segment.node, segment.first, segment.closing.word, segment.opening) == (node, first, last, before)
        hashes = chain(segment.opening, first, segment.links())
        for number, (entry, hash_before) in enumerate(zip(segment.entries, hashes), first):
            assert fault_of(state, roster, entry) is None, (number, entry)
            step(state, number, hash_before, entry)
            if entry.kind == RECV:
                served.calls.append(Call(number, entry.sender, entry.body))
            if entry.kind == SEND:
                served.calls[-1].reply = entry.body
        served.entries += segment.entries
        before = hashes[-1]
    caller.close()
    return served
