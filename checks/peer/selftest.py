#!/usr/bin/env python3
"""The parties of this folder with each other, on loopback: the worked bytes of docs/WIRE.md, records and calls that are
refused, an honest run, and each lie of a server, what a gateway makes of it, and what a witness finds.

usage: checks/peer/selftest.py [NAME..]
"""

import sys
import time
from dataclasses import replace
from pathlib import Path

sys.dont_write_bytecode = True
sys.path.insert(0, str(Path(__file__).resolve().parents[1]))
from generator.texts import authenticator_text  # noqa: E402
from peer import rows  # noqa: E402
from peer.gateway import (CallFailed, CallRefused, Gateway, NoAnswer, OtherCall, OtherRoster, Told, ask,  # noqa: E402
                          case_of, handed, last_shown, stands)
from peer.keys import Keys, master_of_epoch, member_line  # noqa: E402
from peer.lies import (Fork, HidesLog, NoReply, OldReply, OtherAck, OtherMember, ReceivesTwice, Silent,  # noqa: E402
                       Swapped, UnaskedReply, UnsignedAck, UnsignedReply, WrongReply, WrongXid)
from peer.node import Node  # noqa: E402
from peer.server import Server  # noqa: E402
from peer.wire import ACKNOWLEDGE, DELIVER, MOST, NODE, WITNESS, Caller, call_text, record  # noqa: E402
from peer.witness import Witness, base_of  # noqa: E402
from serve.calls import Calls  # noqa: E402
from serve.client import ROOT, call  # noqa: E402
from verifier.evidence import judge  # noqa: E402
from verifier.keys import CLIENT, SERVER, digest, roster_text  # noqa: E402
from verifier.mount import World  # noqa: E402
from verifier.nfs import Files  # noqa: E402
from verifier.packets import AUTHENTICATOR, ENVELOPE  # noqa: E402
from verifier.replay import Fault  # noqa: E402
from verifier.rpc import reply_to  # noqa: E402
from verifier.words import LOG_1, LOG_2  # noqa: E402
from verifier.xdr import opaque, word  # noqa: E402

WIRE = Path(__file__).resolve().parents[2] / 'docs' / 'WIRE.md'
NULL_CALL = word(1, 0, 2, 100003, 2, 0, 0, 0, 0, 0)
LOOKUP = call(7, 4, ROOT + opaque(b'hello'))
ATTRIBUTES = call(8, 1, ROOT)
SAME_XID = call(7, 1, ROOT)
TRUSTED_WORDS = {1: 'trusted', 2: 'trusted', 3: 'trusted'}


class Cast:
    """A server and two clients: their keys, and the roster."""

    def __init__(self, height: int = 5, log: int = LOG_1):
        self.server = Keys(1, SERVER, bytes(28) + word(1), height, log)
        self.clients = {node: Keys(node, CLIENT, bytes(28) + word(node), height, log) for node in (2, 3)}
        self.roster = {keys.node: keys.member() for keys in (self.server, *self.clients.values())}

    def gateway(self, node: int, server: Server, **options) -> Gateway:
        return Gateway(self.clients[node], self.roster, 1, server.address, **options)


def raised(kind: type, act) -> Exception:
    """The error of this kind that an act ends with."""
    try:
        result = act()
    except kind as error:
        return error
    raise AssertionError(f'{kind.__name__} is owed, and it gave {result!r}')


def said_of(witness: Witness) -> dict[int, str]:
    return {node: ask(witness.address, node).indication for node in witness.books}


def close(*parties):
    for party in parties:
        party.close()


# ---- bytes

def check_example():
    """The worked bytes of docs/WIRE.md."""
    page = WIRE.read_text()
    keys = [Keys(1, SERVER, bytes(28) + word(1), 3), Keys(2, CLIENT, bytes(28) + word(2), 3)]
    roster = {each.node: each.member() for each in keys}
    server, client = Node(keys[0], roster), Node(keys[1], roster)
    envelope = client.envelope(client.send(1, NULL_CALL))
    delivered = record(call_text(9, NODE, DELIVER, word(2) + envelope))
    place = server.serve(server.open(envelope), (1, 0))
    reply = server.envelope(server.reply_to(place))
    answer = record(word(9, 1, 0, 0, 0, 0, 0, 4) + server.ack(place) + word(1, 2) + reply)
    assert client.take_ack(server.ack(place))
    back = client.ack(client.receive(client.open(reply)))
    acknowledged = record(call_text(10, NODE, ACKNOWLEDGE, word(4) + back))
    assert server.take_ack(back)
    shown = [digest(roster_text(roster)), digest(delivered), digest(answer), digest(acknowledged), *server.hashes[1:4],
             *client.hashes[1:4], keys[0].member().root, keys[1].member().root]
    for each in shown:
        assert each.hex() in page, each.hex()
    for text, ends in (delivered, 36), (answer, 24), (acknowledged, 36):
        for at in range(0, ends, 4):
            assert text[at:at + 4].hex() in page, text[at:at + 4].hex()
    print('the worked bytes of docs/WIRE.md')


def check_calls():
    """Each row of the tables, of a node and of a witness."""
    cast = Cast(height=1)
    server, witness = Server(cast.server, cast.roster, audits_apart=True), Witness(cast.roster)
    rows.try_rows(server.address, rows.judged(NODE, server.roster_digest) + rows.of_node())
    rows.try_rows(server.address, [(sent, rows.UNKNOWN_PROCEDURE) for sent, _ in rows.of_audits()])
    rows.try_rows(server.audit_address, rows.judged(NODE, server.roster_digest) + rows.of_node() + rows.of_audits())
    rows.try_rows(witness.address, rows.judged(WITNESS, server.roster_digest) + rows.of_witness())
    close(server, witness)
    print('records in the order of their checks, at a node and at a witness')


def check_bounds():
    """Records at their bounds and past them, however cut."""
    cast = Cast()
    server, witness = Server(cast.server, cast.roster), Witness(cast.roster)
    rows.try_records(server.address, NODE)
    rows.try_records(witness.address, WITNESS)
    cast.gateway(2, server).exchange(LOOKUP)
    witness.deliver(word(1) + authenticator_text(server.node.signed[3]))
    witness.books[1].open_audit()
    long = [(3, 1, rows.DONE + word(18)), (5, 1, rows.DONE + word(18)), (3, 2, None), (2, 1, None)]
    rows.try_rows(witness.address, [(rows.call(WITNESS, DELIVER, word(kind, node) + bytes(MOST)), owed)
                                    for kind, node, owed in long])
    close(server, witness)
    print('records at their bounds and past them')


# ---- honest parties

def check_honest(log: int = LOG_1, height: int = 6):
    """Two gateways whose calls are mixed: each reply as one service owes it, two keys a call, everybody trusted."""
    cast = Cast(height, log)
    server, witness = Server(cast.server, cast.roster), Witness(cast.roster)
    gateways = [cast.gateway(node, server) for node in (2, 3)]
    world, calls = World(Files(1)), [Calls(2), Calls(3)]
    for turn in range(14):
        gateway, client = gateways[turn % 2], calls[turn % 2]
        if log == LOG_2:
            gateway.node.to_skip, server.node.to_skip = turn % 3, turn % 2
        body = client.next_call()
        reply = gateway.exchange(body)
        assert reply == reply_to(world, body, server.node.state.clock), body.hex()
        client.take(body, reply)
    assert gateways[0].exchange(b'no call') is None
    for gateway in gateways:
        gateway.finish()
        gateway.report(witness.address)
    assert (cast.server.left(), cast.clients[2].left()) == (2**height - 29, 2**height - 15)
    assert not server.node.state.sent
    end = audit_all(witness, server, gateways)
    assert end == server.node.numbers[max(server.node.signed)], end
    assert witness.books[2].end and witness.books[3].end
    other = Witness({**cast.roster, 4: cast.roster[3]})
    raised(OtherRoster, lambda: gateways[0].report(other.address))
    assert 'OtherRoster' in other.round({1: server.address})[1] and ask(other.address, 1).end == 0
    assert ask(other.address, 9) is None
    close(server, witness, other)
    print(f'an honest server and two gateways, with logs of version {log}: everybody is trusted')


def audit_all(witness: Witness, server: Server, gateways: list[Gateway]) -> int:
    """Goes on with rounds and reports until everybody was audited: the server's end."""
    for _ in range(4):
        assert witness.round({1: server.address}) == {}
        for gateway in gateways:
            gateway.report(witness.address)
    assert said_of(witness) == TRUSTED_WORDS, said_of(witness)
    return ask(witness.address, 1).end


def check_gaps():
    check_honest(LOG_2, 6)


def check_again():
    """What comes again gets what it got, and takes no key."""
    cast = Cast()
    server, witness = Server(cast.server, cast.roster), Witness(cast.roster)
    client = Node(cast.clients[2], cast.roster)
    envelope = client.envelope(client.send(1, LOOKUP))
    caller = Caller(server.address, NODE)
    caller.send((DELIVER, word(2) + envelope), (DELIVER, word(2) + envelope))
    first, again = caller.answer().data, caller.answer().data
    assert first[4:] == again[4:] and cast.server.left() == 30
    reply = client.open(server.node.envelope(3))
    acknowledgement = word(4) + client.ack(client.receive(reply))
    answers = [caller.ask(ACKNOWLEDGE, acknowledgement).data[24:] for _ in range(2)]
    assert answers == [word(0), word(10)], answers
    caller.close()
    caller = Caller(witness.address, WITNESS)
    packets = [word(1) + authenticator_text(server.node.signed[3])] * 2 + [word(ENVELOPE) + envelope] * 2
    packets += [word(4) + server.node.ack(1)] * 2
    assert [handed(caller, packet) for packet in packets] == [0, 10, 0, 10, 0, 26]
    assert ask(witness.address, 1) == Told('trusted', 0, 0, 0)
    caller.close()
    close(server, witness)
    print('what comes again')


def check_stands():
    """The pairs that a log has, and those that it hasn't: of a log without gaps, and of one with some."""
    for log in LOG_1, LOG_2:
        cast = Cast(log=log)
        server = Server(cast.server, cast.roster)
        server.node.to_skip = 2 if log == LOG_2 else 0
        cast.gateway(2, server).exchange(LOOKUP)
        signed = server.node.signed[3]
        caller = Caller(server.address, NODE)
        assert stands(caller, signed) and stands(caller, server.node.signed[1])
        assert stands(caller, replace(signed, signature=server.node.signed[1].signature)), 'whoever signed it'
        others = [replace(signed, hash=bytes(32)), replace(signed, node=2), replace(signed, word=signed.word + 1),
                  cast.clients[2].sign(1, bytes(32))]
        assert not any(stands(caller, other) for other in others)
        caller.close()
        close(server)
    print('pairs that stand in a log')


def check_keys_used_up():
    cast = Cast(height=1)
    server = Server(cast.server, cast.roster)
    gateway = cast.gateway(2, server)
    gateway.exchange(LOOKUP)
    other = cast.gateway(3, server)
    assert raised(CallRefused, lambda: other.exchange(LOOKUP)).number == 4
    close(server)
    print('keys that are used up')


# ---- a server that lies

def caught(witness: Witness, node: int = 1) -> tuple[int, int] | None:
    """The node is exposed by a file that the second verifier takes: of a replay the fault and its entry's number."""
    assert ask(witness.address, node).indication == 'exposed'
    verdict = judge(witness.evidence(node))
    assert verdict.exposed == node
    return verdict.fault


def check_signed_lies():
    """A reply that isn't owed, and one of another xid: both are in the log, and expose the server."""
    for lie in WrongReply, WrongXid:
        cast = Cast()
        server, witness = lie(cast.server, cast.roster, at=2), Witness(cast.roster)
        gateway = cast.gateway(2, server)
        world = World(Files(1))
        assert gateway.exchange(LOOKUP) == reply_to(world, LOOKUP, (0, 0))
        if lie is WrongReply:
            owed = reply_to(world, ATTRIBUTES, (0, 0))
            assert gateway.exchange(ATTRIBUTES) == owed[:-1] + bytes([owed[-1] ^ 1])
        else:
            assert raised(OtherCall, lambda: gateway.exchange(ATTRIBUTES)).number == 7
        assert gateway.exchange(LOOKUP) is not None
        gateway.finish()
        assert gateway.report(witness.address).indication == 'trusted'
        assert witness.round({1: server.address}) == {}
        assert caught(witness) == (Fault.WRONG_REPLY, 7), caught(witness)
        assert gateway.report(witness.address).indication == 'exposed'
        close(server, witness)
    print('a wrong reply and a reply of another xid: the server is exposed')


def check_shown_lies():
    """What a server only shows reaches no local program. The log is good, and the server isn't exposed."""
    for lie in NoReply, UnsignedReply, UnsignedAck, OtherAck:
        cast = Cast()
        server, witness = lie(cast.server, cast.roster, at=2), Witness(cast.roster)
        gateway = cast.gateway(2, server)
        gateway.exchange(LOOKUP)
        raised(NoAnswer, lambda: gateway.exchange(ATTRIBUTES))
        assert cast.clients[2].left() == 32 - 3, 'a call that is in hand takes one key'
        raised(NoAnswer, lambda: gateway.exchange(ATTRIBUTES))
        assert cast.clients[2].left() == 32 - 3
        assert gateway.challenge(witness.address) == 0
        assert gateway.report(witness.address).indication == 'suspected'
        failed = witness.round({1: server.address})
        assert failed == {} and ask(witness.address, 1).indication == 'trusted', failed
        close(server, witness)
    print('replies and acknowledgements that are none: nothing is handed out')


def check_old_reply():
    """One that was received before, or is owed to nothing, fails the call. It isn't logged; the next call goes on."""
    cast = Cast()
    server = UnaskedReply(cast.server, cast.roster, at=2)
    gateway = cast.gateway(2, server)
    gateway.exchange(LOOKUP)
    assert str(raised(CallFailed, lambda: gateway.exchange(b'no call'))) == 'a reply, and none is owed'
    assert [entry.kind for entry in gateway.node.entries] == [1, 3, 2, 1, 3]
    close(server)
    cast = Cast()
    server = OldReply(cast.server, cast.roster, at=2)
    gateway = cast.gateway(2, server)
    gateway.exchange(LOOKUP)
    assert str(raised(CallFailed, lambda: gateway.exchange(ATTRIBUTES))) == 'an old reply'
    assert [entry.kind for entry in gateway.node.entries] == [1, 3, 2, 1, 3]
    assert gateway.exchange(ATTRIBUTES) == reply_to(World(Files(1)), ATTRIBUTES, (0, 0))
    close(server)
    print('an old reply: nothing is handed out')


def check_open_message():
    """A reply that was withheld, and is then to be acknowledged: it is received, and not handed out."""
    cast = Cast()
    server, witness = NoReply(cast.server, cast.roster), Witness(cast.roster)
    gateway = cast.gateway(2, server)
    raised(NoAnswer, lambda: gateway.exchange(LOOKUP))
    caller = Caller(witness.address, WITNESS)
    assert handed(caller, word(ENVELOPE) + server.node.envelope(3)) == 0
    assert ask(witness.address, 2) == Told('suspected', 1, 0, 0)
    gateway.report(witness.address)
    assert ask(witness.address, 2).open == 0 and [entry.kind for entry in gateway.node.entries] == [1, 3, 2]
    assert handed(caller, word(ENVELOPE) + gateway.node.envelope(1)) == 0
    assert witness.round({1: server.address}) == {} and ask(witness.address, 1).open == 0
    stranger = Node(cast.clients[3], cast.roster)
    assert handed(caller, word(ENVELOPE) + stranger.envelope(stranger.send(2, LOOKUP))) == 0
    gateway.report(witness.address)
    assert ask(witness.address, 2).open == 1 and len(gateway.node.entries) == 3, 'it is not from the server'
    caller.close()
    close(server, witness)
    print('messages that are to be acknowledged')


def check_other_member():
    cast = Cast()
    server = OtherMember(cast.server, cast.roster, cast.clients[3], at=1)
    gateway = cast.gateway(2, server)
    raised(NoAnswer, lambda: gateway.exchange(LOOKUP))
    assert [entry.kind for entry in gateway.node.entries] == [1, 3], 'only SEND and ACK are logged'
    close(server)
    print("another member's reply: it isn't taken")


def check_swapped():
    """The reply to one call comes to another of the same xid: it is logged, and not handed out."""
    cast = Cast()
    server, witness = Swapped(cast.server, cast.roster, at=1), Witness(cast.roster)
    gateway = cast.gateway(2, server)
    raised(NoAnswer, lambda: gateway.exchange(LOOKUP))
    assert raised(OtherCall, lambda: gateway.exchange(SAME_XID)).number == 3
    assert [entry.kind for entry in gateway.node.entries] == [1, 3, 1, 3, 2]
    gateway.finish()
    gateway.report(witness.address)
    assert audit_all(witness, server, [gateway]) == 6
    close(server, witness)
    print('a reply to another call of the same xid: it is refused, though the log is good')


def check_silent():
    """A server that is silent is suspected until it shows that it has the message."""
    cast = Cast()
    server, witness = Silent(cast.server, cast.roster, at=2), Witness(cast.roster)
    gateway = cast.gateway(2, server, patience=0.3, tries=2)
    gateway.exchange(LOOKUP)
    raised(NoAnswer, lambda: gateway.exchange(ATTRIBUTES))
    assert gateway.challenge(witness.address) == 0
    time.sleep(1.1)
    told = gateway.report(witness.address)
    assert (told.indication, told.open) == ('suspected', 1) and told.seconds >= 1, told
    assert witness.round({1: server.address}) == {} and ask(witness.address, 1).open == 0
    close(server, witness)
    print('a silent server: it is suspected, and the log that shows the message closes the challenge')


def check_hidden_log():
    cast = Cast()
    server, witness = HidesLog(cast.server, cast.roster), Witness(cast.roster)
    gateway = cast.gateway(2, server)
    gateway.exchange(LOOKUP)
    gateway.report(witness.address)
    for _ in range(2):
        witness.round({1: server.address})
        assert (ask(witness.address, 1).indication, ask(witness.address, 1).open) == ('suspected', 1)
    close(server, witness)
    print('a server that hides its log: it is suspected')


def check_fork():
    """Each gateway sees one half, and either may come first."""
    for first in 2, 3:
        cast = Cast()
        server, witness = Fork(cast.server, cast.roster, apart={3}), Witness(cast.roster)
        gateways = [cast.gateway(first, server), cast.gateway(5 - first, server)]
        for calls, gateway in enumerate(gateways, 1):
            for _ in range(calls):
                gateway.exchange(LOOKUP)
            gateway.finish()
        assert gateways[0].report(witness.address).indication == 'trusted'
        assert gateways[1].report(witness.address).indication == 'exposed'
        assert caught(witness) is None
        close(server, witness)
    print('a fork between two gateways: one witness finds it')


def check_fork_at_two_witnesses():
    """Each witness is shown one half, and they meet: each has a file of it. One that was shown nothing has none."""
    cast = Cast()
    server, witnesses = Fork(cast.server, cast.roster, apart={3}), [Witness(cast.roster) for _ in range(3)]
    for node, witness in zip((2, 3), witnesses):
        gateway = cast.gateway(node, server)
        gateway.exchange(LOOKUP)
        gateway.finish()
        assert gateway.report(witness.address).indication == 'trusted'
    callers = [Caller(witness.address, WITNESS) for witness in witnesses]
    shown = [last_shown(caller, 1) for caller in callers]
    assert shown[0].word == shown[1].word and shown[0].hash != shown[1].hash and shown[2] is None
    assert last_shown(callers[0], 2).node == 2 and last_shown(callers[0], 3) is None
    witnesses[0].meet(witnesses[1].address)
    witnesses[1].meet(witnesses[0].address)
    for caller, witness in zip(callers, witnesses[:2]):
        assert caught(witness) is None and case_of(caller, 1) == witness.evidence(1)
    assert [case_of(callers[0], 2), case_of(callers[2], 1)] == [None, None]
    close(server, *callers, *witnesses)
    print('a fork between two witnesses: both find it once they meet')


def check_fork_after_audit():
    """The one half was audited, and the other comes after it."""
    cast = Cast()
    server, witness = Fork(cast.server, cast.roster, apart={3}), Witness(cast.roster)
    one, other = cast.gateway(2, server), cast.gateway(3, server)
    for gateway, calls in (one, 2), (other, 1):
        for _ in range(calls):
            gateway.exchange(ATTRIBUTES)
        gateway.finish()
    assert witness.round({1: server.address}) == {} and ask(witness.address, 1).end == 7
    assert other.report(witness.address).indication == 'exposed'
    assert caught(witness) is None
    close(server, witness)
    print('a fork whose other half was audited')


def check_twice():
    """A message that is received twice: the first acknowledgement counts, and the log shows the fault."""
    cast = Cast()
    server, witness = ReceivesTwice(cast.server, cast.roster, at=1), Witness(cast.roster)
    gateway = cast.gateway(2, server)
    assert str(raised(CallFailed, lambda: gateway.exchange(LOOKUP))) == 'a second acknowledgement'
    assert witness.round({1: server.address}) == {}
    assert caught(witness) == (Fault.REPEATED, 4)
    close(server, witness)
    print('a message that is received twice: the server is exposed')


def check_fork_of_a_client():
    """A client sends two messages under one number. The server's log shows what it signed."""
    cast = Cast()
    server, witness = Server(cast.server, cast.roster), Witness(cast.roster)
    other_half = cast.clients[2].split()
    for keys, body in (cast.clients[2], LOOKUP), (other_half, ATTRIBUTES):
        assert Gateway(keys, cast.roster, 1, server.address).exchange(body)
    assert witness.round({1: server.address}) == {}
    assert caught(witness, 2) is None and ask(witness.address, 1).indication == 'trusted'
    close(server, witness)
    print("a client's fork: the server's log exposes it")


def check_bases():
    """A witness that begins at a base: what it audits is the log after it, and a lie there is exposed from the base."""
    cast = Cast()
    server = WrongReply(cast.server, cast.roster, at=5)
    server.check_every = 2
    gateway, late = cast.gateway(2, server), Witness(cast.roster)
    for _ in range(3):
        gateway.exchange(ATTRIBUTES)
    gateway.finish()
    late.join({1: server.address})
    at = late.books[1].base.at
    assert late.round({1: server.address}) == {} and ask(late.address, 1).end > at
    callers = Caller(server.address, NODE), Caller(late.address, WITNESS)
    assert base_of(callers[0], 1) == base_of(callers[1], 1) == base_of(callers[0], 1, at - 1)
    assert [base_of(each, 1, at) for each in callers] == [base_of(each, 2) for each in callers] == [None, None]
    claim = server.node.signed[min(server.node.signed)]
    assert handed(callers[1], word(AUTHENTICATOR) + authenticator_text(claim)) == 31
    for _ in range(2):
        gateway.exchange(ATTRIBUTES)
    gateway.finish()
    assert late.round({1: server.address}) == {}
    assert caught(late)[0] == Fault.WRONG_REPLY
    close(server, *callers, late)
    print('a witness that begins at a base: a lie after it is exposed')


def check_secrets():
    """Lines of members, by the secret's bytes, the node and the epoch."""
    keys = Keys(7, CLIENT, master_of_epoch(bytes(range(32)), 7, 3), 1)
    assert member_line(keys.member(), 3) == f'member 7 client 1 epoch 3 {keys.member().root.hex()}'
    print('lines of members')


CHECKS = [check_example, check_calls, check_bounds, check_honest, check_gaps, check_again, check_stands,
          check_keys_used_up, check_signed_lies, check_shown_lies, check_old_reply, check_open_message,
          check_other_member, check_swapped, check_silent, check_hidden_log, check_fork, check_fork_at_two_witnesses,
          check_fork_after_audit, check_twice, check_fork_of_a_client, check_bases, check_secrets]


def main():
    for check in CHECKS:
        if len(sys.argv) < 2 or check.__name__.removeprefix('check_') in sys.argv[1:]:
            check()


if __name__ == '__main__':
    main()
