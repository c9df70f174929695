#!/usr/bin/env python3
"""Parties on hosts of their own, from outside: `nfsacc server`, `gateway` and `witness` as processes, with each other
and with the parties of checks/peer, which were written from docs/WIRE.md.

usage: checks/hosts.py PROGRAM [NAME..] [--calls CALLS] [--kills KILLS]

Tries the parts that are named, or all: the part `rough` is check_rough below. CALLS are made through a gateway, 200 if not
given, and as many by a rough way, 60 if not given. KILLS are those of the part `kills`, 6 if not given.
"""

import argparse
import os
import re
import select
import shutil
import signal
import socket
import struct
import sys
import threading
import time
from collections.abc import Callable
from concurrent.futures import ThreadPoolExecutor
from dataclasses import replace
from pathlib import Path

sys.dont_write_bytecode = True
from generator.texts import authenticator_text  # noqa: E402
from hosts.kills import check_kills  # noqa: E402
from hosts.logs import ServedLog, last_signed, log_of  # noqa: E402
from hosts.parties import EVERY, Hosts, Party, spelled  # noqa: E402
from hosts.proxy import Delay, Garbler, Proxy, Rough, Swaps, Switch, Turns, Waves  # noqa: E402
from peer import rows  # noqa: E402
from peer.gateway import Gateway, ask, case_of, handed, last_shown, stands  # noqa: E402
from peer.keys import Keys  # noqa: E402
from peer.lies import (Fork, HidesLog, Liar, NoReply, OldReply, OtherAck, OtherMember, OwesAtBase,  # noqa: E402
                       ReceivesTwice, Silent, Slow, Swapped, UnsignedAck, UnsignedReply, WrongReply, WrongXid)
from peer.server import Server  # noqa: E402
from peer.texts import whole  # noqa: E402
from peer.wire import (DELIVER, GREET, MAX_BASE, NODE, SEGMENT, WITNESS, Address, Caller, call_text,  # noqa: E402
                       optional_packet)
from peer.witness import REFUSED, Witness, base_of  # noqa: E402
from serve.calls import Calls  # noqa: E402
from serve.client import ROOT, Connection, call, record  # noqa: E402
from verifier.evidence import judge, read_base  # noqa: E402
from verifier.keys import CLIENT, SERVER, Authenticator, Roster, digest, roster_text  # noqa: E402
from verifier.log import ACK, RECV, SEND  # noqa: E402
from verifier.mount import World  # noqa: E402
from verifier.nfs import Files  # noqa: E402
from verifier.packets import AUTHENTICATOR, ENVELOPE  # noqa: E402
from verifier.replay import Fault  # noqa: E402
from verifier.rpc import reply_to  # noqa: E402
from verifier.xdr import Reader, hyper, opaque, word  # noqa: E402

LOOKUP = call(7, 4, ROOT + opaque(b'hello'))
ATTRIBUTES = call(8, 1, ROOT)
SAME_XID = call(7, 1, ROOT)
CONNECTIONS = 4
HEIGHT = 4
LONG_LOG = 480
PATIENCE_OF_READERS = 90
INPUT, COMMAND_LINE, DEVICE, KEYS_USED_UP, OTHER, SUSPECTED, EXPOSED = 1, 2, 4, 5, 6, 7, 8
NO_ROOM = 4


def owed(body: bytes) -> bytes:
    """The reply to a call that reads, by a server whose files are as at the beginning."""
    return reply_to(World(Files(1)), body, (0, 0))


def are_trusted(end: int):
    """What is said once everybody is trusted, and the server was audited up to a number."""
    return lambda told: all(word == 'trusted' for word, _, _ in told.values()) and told[1][2] >= end


def last_number(address: Address, hosts: Hosts) -> int:
    caller = Caller(address, NODE)
    number = last_signed(caller, hosts.roster(), 1, 0)
    caller.close()
    return number


def usual(hosts: Hosts, server_height: int = 7, client_height: int = 6, epochs: str = '1-1'):
    """Rosters of server 1 and clients 2 and 3."""
    hosts.rosters(hosts.member('one', 1, SERVER, server_height, epochs),
                  hosts.member('two', 2, CLIENT, client_height, epochs),
                  hosts.member('three', 3, CLIENT, client_height, epochs))


# ---- three programs of ours

def check_three(program: str):
    """A server, a gateway and a witness, each a process; everybody is trusted, and ends when it is told to."""
    with Hosts(program) as hosts:
        usual(hosts)
        of_server, of_gateway, of_witness = (hosts.state(name) for name in ('s1', 's2', 's3'))
        server = hosts.server('one', '--audit', '127.0.0.1:0', state=of_server)
        server.wait_for('epoch 1, 128 keys made')
        address, audits = server.address(), server.address('audits')
        witness = hosts.witness({1: audits}, state=of_witness)
        gateway = hosts.gateway('two', '2-2', address, witness.address(), state=of_gateway)
        gateway.wait_for('node 2, epoch 1, 64 keys made')
        gateway.wait_for(f'server 1 at {spelled(address)}')
        connection = Connection(gateway.address()[1])
        for body in LOOKUP, ATTRIBUTES, LOOKUP:
            assert connection.ask(body) == owed(body)
        connection.send(record(b'no call') + record(ATTRIBUTES))
        assert connection.reply() == owed(ATTRIBUTES)
        connection.finish()
        last = last_number(address, hosts)
        are_audited = are_trusted(last)
        hosts.wait_until(witness.address(), lambda told: are_audited(told) and told[2][2] > 0)
        _, told = hosts.ask(witness.address(), '1-2')
        assert list(told) == [1, 2], told
        witness.wait_for(r'\S+Z 1 trusted 0 to \d+')
        assert not any('exposed' in line for line in witness.lines), witness.lines
        try_stands(address, witness.address())
        for party, state in (gateway, of_gateway), (witness, of_witness), (server, of_server):
            assert (hosts.stop(party, state), party.said()) == (0, ''), party.said()
    print('three processes: each reply as it is owed, everybody is trusted, and each ends when it is told to')


def try_stands(server: Address, witness: Address):
    """What a witness was shown of a server last stands in the server's log. Another hash at its number doesn't."""
    callers = Caller(server, NODE), Caller(witness, WITNESS)
    claim = last_shown(callers[1], 1)
    assert claim is not None and claim.node == 1
    assert stands(callers[0], claim) and not stands(callers[0], replace(claim, hash=bytes(32)))
    for caller in callers:
        caller.close()


def check_rows(program: str):
    """The tables of docs/WIRE.md, of a server and of a witness, and records past their bounds."""
    with Hosts(program) as hosts:
        usual(hosts)
        roster_digest = digest((hosts.folder / 'rosters' / 'epoch-1.roster').read_bytes())
        server = hosts.server('one', '--audit', '127.0.0.1:0')
        audits = server.address('audits')
        rows.try_rows(server.address(), rows.judged(NODE, roster_digest) + rows.of_node())
        rows.try_rows(server.address(), [(sent, rows.UNKNOWN_PROCEDURE) for sent, _ in rows.of_audits()])
        rows.try_rows(audits, rows.judged(NODE, roster_digest) + rows.of_node() + rows.of_audits())
        rows.try_records(server.address(), NODE)
        rows.try_records(audits, NODE)
        witness = hosts.witness({1: audits})
        rows.try_rows(witness.address(), rows.judged(WITNESS, roster_digest) + rows.of_witness())
        rows.try_records(witness.address(), WITNESS)
    print('the tables of docs/WIRE.md, and records past their bounds')


# ---- our gateway and witness, and a server that lies

def check_lie(program: str):
    """The third reply is wrong. The witness's evidence is taken under the roster."""
    with Hosts(program) as hosts:
        usual(hosts)
        server = hosts.keep(WrongReply(hosts.keys('one', 1, SERVER, 7), hosts.roster(), at=3))
        witness, cases = watched(hosts, server)
        gateway = hosts.gateway('two', '2-2', server.address, witness.address())
        connection = Connection(gateway.address()[1])
        for _ in range(2):
            assert connection.ask(ATTRIBUTES) == owed(ATTRIBUTES)
        wrong, right = connection.ask(ATTRIBUTES), owed(ATTRIBUTES)
        assert wrong == right[:-1] + bytes([right[-1] ^ 1]), wrong.hex()
        fault = exposed(hosts, witness, cases)
        assert fault is not None and fault[0] == Fault.WRONG_REPLY, fault
    print('a server that lies: it is exposed, and the evidence is taken under the roster')


def watched(hosts: Hosts, server: Server, *more: str) -> tuple[Party, Path]:
    """A witness of a server, and the folder for its evidence."""
    cases = hosts.state('cases')
    return hosts.witness({1: server.address}, '--evidence', str(cases), *more), cases


def exposed(hosts: Hosts, witness: Party, cases: Path) -> tuple[int, int] | None:
    """Server 1 is exposed by a file that both verifiers take: the fault and its entry's number, if it is a replay. The
    others are trusted."""
    fault = exposed_alone(hosts, witness, cases)
    others = {2: 'trusted', 3: 'trusted'}
    hosts.wait_until(witness.address(), lambda told: words_of(told) == {1: 'exposed', **others})
    return fault


def exposed_alone(hosts: Hosts, witness: Party, cases: Path) -> tuple[int, int] | None:
    """The same, whatever is said of others."""
    found = witness.wait_for(r'\S+Z 1 exposed \d+ (?:from \d+ )?to \d+: (.*)')
    evidence = cases / 'node-1.evidence'
    assert found[1] == str(evidence), found[1]
    assert_exposes(hosts, evidence)
    caller = Caller(witness.address(), WITNESS)
    assert case_of(caller, 1) == evidence.read_bytes() and case_of(caller, 2) is None
    caller.close()
    return judge(evidence.read_bytes()).fault


def assert_exposes(hosts: Hosts, evidence: Path):
    """Both verifiers take a file as evidence against node 1."""
    roster = hosts.folder / 'rosters' / 'epoch-1.roster'
    assert hosts.run('check', '--roster', str(roster), str(evidence)) == (0, 'exposed 1\n', '')
    assert judge(evidence.read_bytes()).exposed == 1


def words_of(told: dict[int, tuple]) -> dict[int, str]:
    return {node: word for node, (word, _, _) in told.items()}


FROM_BASE = r'\S+Z 1 trusted 0 from (\d+) to (\d+)'


def check_late(program: str):
    """A server that logs its state, and witnesses that begin there: ours, which hands the base on, and the other program's."""
    with Hosts(program) as hosts:
        usual(hosts)
        server = hosts.server('one', '--check-every', '2')
        address, state = server.address(), hosts.state()
        caller = Caller(address, NODE)
        assert base_of(caller, 1) is None
        gateway = hosts.gateway('two', '2-2', address)
        connection = Connection(gateway.address()[1])
        for _ in range(5):
            assert connection.ask(ATTRIBUTES) == owed(ATTRIBUTES)
        base = base_of(caller, 1)
        at = whole(read_base, base).at
        assert base_of(caller, 1, at - 1) == base and base_of(caller, 1, at) is None and base_of(caller, 2) is None
        late = hosts.witness({1: address}, '--join', state=state)
        found = late.wait_for(FROM_BASE)
        assert int(found[1]) == at <= int(found[2]), found[0]
        assert hosts.status_of(state)['node'][0].startswith(f'1 trusted 0 from {at} to ')
        of_witness = Caller(late.address(), WITNESS)
        assert base_of(of_witness, 1) == base and base_of(of_witness, 1, at) is None and base_of(of_witness, 2) is None
        peer = hosts.keep(Witness(hosts.roster()))
        peer.join({1: address})
        assert peer.round({1: address}) == {} and peer.books[1].base.at == at
        assert ask(peer.address, 1).indication == 'trusted' and ask(peer.address, 1).end > at
        early = hosts.witness({1: address})
        early.wait_for(r'\S+Z 1 trusted 0 to \d+')
        caller.close()
        of_witness.close()
    print('a witness that begins late, at a base: its lines say from where')


def begun_below(hosts: Hosts, state: Path) -> tuple[Party, Party, Address, int]:
    """A gateway with five replies, the witness that it reported them to, the address at which it now finds one that began at
    a base, and the number of that base."""
    usual(hosts)
    server = hosts.server('one', '--check-every', '2')
    early = hosts.witness({1: server.address()})
    way = hosts.keep(Switch(early.address()))
    gateway = hosts.gateway('two', '2-2', server.address(), way.address, state=state)
    connection = Connection(gateway.address()[1])
    for _ in range(5):
        assert connection.ask(ATTRIBUTES) == owed(ATTRIBUTES)
    late = hosts.witness({1: server.address()}, '--join')
    at = int(late.wait_for(FROM_BASE)[1])
    replies = [each.number + 2 for each in log_of(server.address(), hosts.roster()).calls]
    way.off()
    way.on(late.address())
    wait_assured(hosts, state, way.address, lambda to: to == replies[0] - 1)
    assert replies[0] < at - 1
    return gateway, early, server.address(), at


def check_below_base(program: str):
    """What a server signed below the base at which a witness began isn't assured by that witness. The gateway keeps it: each
    in a file, a packet that another witness takes. Where it can't, one line says so."""
    with Hosts(program) as hosts:
        state = hosts.state('gateway')
        gateway, early, server, at = begun_below(hosts, state)
        calls = log_of(server, hosts.roster()).calls
        numbers = {each.number + more for each in calls for more in (0, 2)}
        kept = state / 'below-base'
        wanted = {f'epoch-1-node-1-{number}' for number in numbers if number < at - 1}
        assert {each.name for each in kept.iterdir()} == wanted, (list(kept.iterdir()), wanted)
        caller = Caller(early.address(), WITNESS)
        for each in kept.iterdir():
            assert handed(caller, each.read_bytes()) in (0, 10), each
        caller.close()
        assert 'kept' not in gateway.said()
    with Hosts(program) as hosts:
        state = hosts.state('gateway')
        (state / 'below-base').write_bytes(b'')
        gateway, _, _, _ = begun_below(hosts, state)
        said = re.findall(r"nfsacc: witness \S+: number \d+ is below its base, and isn't kept: ", gateway.said())
        assert len(said) == 1, gateway.said()
    print('a gateway keeps what a witness refuses that began at a base above it')


def check_late_lie(program: str):
    """A server lies after the base at which a witness began. The evidence is taken under the roster."""
    with Hosts(program) as hosts:
        usual(hosts)
        server = hosts.keep(WrongReply(hosts.keys('one', 1, SERVER, 7), hosts.roster(), at=6))
        server.check_every = 2
        gateway = hosts.gateway('two', '2-2', server.address)
        connection = Connection(gateway.address()[1])
        for _ in range(5):
            assert connection.ask(ATTRIBUTES) == owed(ATTRIBUTES)
        witness, cases = watched(hosts, server, '--join')
        witness.wait_for(FROM_BASE)
        assert connection.ask(ATTRIBUTES) != owed(ATTRIBUTES)
        fault = exposed_alone(hosts, witness, cases)
        assert fault is not None and fault[0] == Fault.WRONG_REPLY, fault
    print('a server that lies after the base at which a witness began: it is exposed, and the evidence is taken')


def check_late_owed(program: str):
    """A server has the state of a base owe a reply that it made up. Nobody begins there who is asked to: the log is audited
    from its first entry, and the lie is found."""
    with Hosts(program) as hosts:
        usual(hosts)
        server = hosts.keep(OwesAtBase(hosts.keys('one', 1, SERVER, 7), hosts.roster(), at=3))
        gateway = hosts.gateway('two', '2-2', server.address)
        connection = Connection(gateway.address()[1])
        for _ in range(2):
            assert connection.ask(ATTRIBUTES) == owed(ATTRIBUTES)
        assert connection.ask(ATTRIBUTES) != owed(ATTRIBUTES)
        caller = Caller(server.address, NODE)
        assert base_of(caller, 1) is not None
        caller.close()
        witness, cases = watched(hosts, server, '--join')
        fault = exposed_alone(hosts, witness, cases)
        assert fault is not None and fault[0] == Fault.BAD_FORM, fault
        assert not any(re.fullmatch(FROM_BASE, line) for line in witness.lines), witness.lines
        assert "what it showed isn't what it was asked for" in witness.said()
    print('a base whose state owes a reply that was made up: no witness begins there, and the server is exposed')


def check_goes_on(program: str):
    """A witness that runs on lets go of what it audited: its books go on by one base after the other of a server."""
    with Hosts(program) as hosts:
        usual(hosts)
        server = hosts.server('one', '--check-every', '2')
        address, state = server.address(), hosts.state()
        witness = hosts.witness({1: address}, '--overlap', '1', state=state)
        gateway = hosts.gateway('two', '2-2', address, witness.address())
        connection = Connection(gateway.address()[1])
        of_witness = Caller(witness.address(), WITNESS)
        # A base needs something signed after its CHECK: so there is one call more than those by which CHECKs are due.
        assert connection.ask(ATTRIBUTES) == owed(ATTRIBUTES)
        before = 0
        for _ in range(3):
            for _ in range(4):
                assert connection.ask(ATTRIBUTES) == owed(ATTRIBUTES)
            before = begun_after(witness, before)
            base = base_of(of_witness, 1)
            assert base is not None and whole(read_base, base).at >= before
            told = hosts.wait_until(witness.address(), are_trusted(before + 4))
            assert words_of(told) == {1: 'trusted', 2: 'trusted', 3: 'trusted'}, told
        assert re.match(r'1 trusted 0 from \d+ to ', hosts.status_of(state)['node'][0])
        of_witness.close()
    print('a witness that runs on goes on by the bases of a server: its lines say from where')


def begun_after(witness: Party, before: int) -> int:
    """The number of the first base after this one from which the witness says that it audited."""
    found = []

    def is_later() -> bool:
        lines = (re.fullmatch(FROM_BASE, line) for line in list(witness.lines))
        found[:] = [int(line[1]) for line in lines if line and int(line[1]) > before]
        return bool(found)

    soon(is_later, f'no base after {before}: {witness.lines}')
    return found[0]


class LieBetween(WrongReply):
    """While it hides, it shows nothing that it signs, and gives bases as ever."""

    hides = False

    def __init__(self, *given, **named):
        self.given: list[int] = []
        super().__init__(*given, **named)

    def signed(self, arguments: bytes) -> bytes:
        return optional_packet(AUTHENTICATOR, None) if self.hides else super().signed(arguments)

    def base(self, arguments: bytes) -> bytes:
        reader = Reader(super().base(arguments))
        if reader.word() == 0:
            self.given.append(whole(read_base, reader.opaque(MAX_BASE)).at)
        return super().base(arguments)


def check_lie_between(program: str):
    """A server lies between the end of what a witness audited and a base that it gives. The witness goes on by no base at
    which it didn't audit itself, and finds the lie once it sees the log."""
    with Hosts(program) as hosts:
        usual(hosts)
        server = hosts.keep(LieBetween(hosts.keys('one', 1, SERVER, 7), hosts.roster(), at=8))
        server.check_every = 2
        witness, cases = watched(hosts, server, '--overlap', '1')
        gateway = hosts.gateway('two', '2-2', server.address)
        connection = Connection(gateway.address()[1])
        for _ in range(5):
            assert connection.ask(ATTRIBUTES) == owed(ATTRIBUTES)
        begun_after(witness, 0)
        end = last_number(server.address, hosts)
        hosts.wait_until(witness.address(), lambda told: told[1] == ('trusted', 0, end))
        server.hides = True
        for number in range(6, 10):
            assert (connection.ask(ATTRIBUTES) == owed(ATTRIBUTES)) == (number != 8), number
        soon(lambda: any(at > end for at in server.given), f'no base after {end} is asked for: {server.given}')
        time.sleep(2 * float(EVERY) + 1)
        told = hosts.ask(witness.address())[1]
        assert told[1] == ('trusted', 0, end), told
        server.hides = False
        fault = exposed_alone(hosts, witness, cases)
        assert fault is not None and fault[0] == Fault.WRONG_REPLY, fault
    print('a server that lies between what a witness audited and a base that it gives: it is exposed')


def check_fork(program: str):
    """Two gateways see one half each, and one witness finds it."""
    with Hosts(program) as hosts:
        usual(hosts)
        server = hosts.keep(Fork(hosts.keys('one', 1, SERVER, 7), hosts.roster(), apart={3}))
        witness, cases = watched(hosts, server)
        for name, nodes in ('two', '2-2'), ('three', '3-3'):
            gateway = hosts.gateway(name, nodes, server.address, witness.address())
            connection = Connection(gateway.address()[1])
            for _ in range(2):
                assert connection.ask(ATTRIBUTES) == owed(ATTRIBUTES)
        assert exposed(hosts, witness, cases) is None
    print('a fork between two gateways: one witness finds it')


def two_stories(hosts: Hosts) -> list[Server]:
    """A server that keeps two logs by the same keys, each at an address of its own."""
    keys, roster = hosts.keys('one', 1, SERVER, HEIGHT), hosts.roster()
    return [hosts.keep(Server(each, roster)) for each in (keys.split(), keys)]


def tell(hosts: Hosts, name: str, nodes: str, server: Server, witness: Address):
    """Two calls through a gateway that reports to this witness alone."""
    gateway = hosts.gateway(name, nodes, server.address, witness)
    connection = Connection(gateway.address()[1])
    for _ in range(2):
        assert connection.ask(ATTRIBUTES) == owed(ATTRIBUTES)


def soon(holds: Callable[[], bool], what: str, seconds: float = 60):
    """Waits until this holds."""
    end = time.monotonic() + seconds
    while not holds():
        assert time.monotonic() < end, what
        time.sleep(0.05)


def check_meeting(program: str):
    """A server tells two gateways two stories, and shows each of two witnesses the log that it told the gateway which
    reports there. Neither finds anything. Once the one reaches the other both expose the server in the next meeting, also
    where the other is the witness of checks/peer."""
    for make in ours_and_ours, ours_and_peers:
        with Hosts(program) as hosts:
            usual(hosts, HEIGHT, HEIGHT - 1)
            stories, cases = two_stories(hosts), hosts.state('near')
            far_address, far_is_done, far_exposes = make(hosts, stories[1])
            way = hosts.keep(Switch(far_address))
            way.off()
            near = hosts.witness({1: stories[0].address}, '--evidence', str(cases), '--witness', spelled(way.address))
            tell(hosts, 'two', '2', stories[0], near.address())
            tell(hosts, 'three', '3', stories[1], far_address)
            hosts.wait_until(near.address(), are_trusted(7))
            soon(far_is_done, 'the other witness audits')
            wait_for_words(near, f'nfsacc: witness {spelled(way.address)}: the connection broke\n')
            assert not any('exposed' in line for line in near.lines), near.lines
            way.on()
            started = time.monotonic()
            near.wait_for(r'\S+Z 1 exposed \d+ to \d+: .*', patience=20)
            soon(far_exposes, 'the other witness exposes the server', 20)
            took = time.monotonic() - started
            exposed_alone(hosts, near, cases)
            assert near.said().count('nfsacc: witness ') == 1, near.said()
    print(f'two stories that were told to two witnesses meet within a round: {took:.1f} seconds')


def ours_and_ours(hosts: Hosts, story: Server) -> tuple[Address, Callable[[], bool], Callable[[], bool]]:
    """A witness of ours: where it listens, whether it has audited a story, and whether it exposes the server."""
    cases = hosts.state('far')
    far = hosts.witness({1: story.address}, '--evidence', str(cases))

    def is_done() -> bool:
        return are_trusted(7)(hosts.ask(far.address())[1])

    def exposes() -> bool:
        found = any(re.fullmatch(r'\S+Z 1 exposed .*', line) for line in far.lines)
        if found:
            exposed_alone(hosts, far, cases)
        return found
    return far.address(), is_done, exposes


def ours_and_peers(hosts: Hosts, story: Server) -> tuple[Address, Callable[[], bool], Callable[[], bool]]:
    """The same of a witness of checks/peer."""
    far = hosts.keep(Witness(hosts.roster()))

    def is_done() -> bool:
        assert far.round({1: story.address}) == {}
        return far.books[1].end >= 7

    def exposes() -> bool:
        file = far.evidence(1)
        if file is not None:
            (hosts.folder / 'far.evidence').write_bytes(file)
            assert_exposes(hosts, hosts.folder / 'far.evidence')
        return file is not None
    return far.address, is_done, exposes


def check_bad_meetings(program: str):
    """Other witnesses that hang, that go by another roster, that aren't there, or that show what nobody signed: audits go
    on, and it is said once."""
    with Hosts(program) as hosts:
        usual(hosts, HEIGHT, HEIGHT - 1)
        hosts.rosters(hosts.member('one', 1, SERVER, 2), hosts.member('four', 4, CLIENT, 2), name='others')
        server = hosts.server('one')
        silent = socket.create_server(('127.0.0.1', 0))
        nobody = socket.create_server(('127.0.0.1', 0))
        away = nobody.getsockname()
        nobody.close()
        stranger = hosts.witness({1: server.address()}, '--epoch', '1', rosters='others')
        forger = hosts.keep(Forger(hosts.roster(), hosts.keys('four', 4, CLIENT, 2)))
        others = silent.getsockname(), away, stranger.address(), forger.address
        witness = hosts.witness({1: server.address()}, '--witness', ','.join(map(spelled, others)))
        gateway = hosts.gateway('two', '2', server.address(), witness.address())
        connection = Connection(gateway.address()[1])
        for _ in range(3):
            assert connection.ask(ATTRIBUTES) == owed(ATTRIBUTES)
        hosts.wait_until(witness.address(), are_trusted(last_number(server.address(), hosts)))
        wait_for_words(witness, f'{spelled(stranger.address())}: it goes by another roster, sha256:')
        wait_for_words(witness, f'{spelled(away)}: Connection refused')
        soon(lambda: forger.asked > 9, 'a witness that forges is asked again')
        hosts.wait_until(witness.address(), lambda told: set(words_of(told).values()) == {'trusted'})
        said = [witness.said().count(f'nfsacc: witness {spelled(each)}: ') for each in others]
        assert said[0] < 2 and said[1:] == [1, 1, 0], witness.said()
        silent.close()
    print('other witnesses that hang, are away, are of another roster or forge: audits go on, and each is said once')


class Forger(Witness):
    """It shows of each node what another key signed."""

    def __init__(self, roster: Roster, keys: Keys):
        self.signed = keys.sign(9, bytes(32))
        self.asked = 0
        super().__init__(roster)

    def last_shown(self, arguments: bytes) -> bytes:
        self.asked += 1
        forged = replace(self.signed, node=Reader(arguments).word())
        return optional_packet(AUTHENTICATOR, authenticator_text(forged))


def liar(hosts: Hosts, lie: type[Liar]) -> Server:
    keys, roster = hosts.keys('one', 1, SERVER, 7), hosts.roster()
    if lie is OtherMember:
        return hosts.keep(lie(keys, roster, hosts.keys('three', 3, CLIENT, 6), at=2))
    return hosts.keep(lie(keys, roster, at=2))


def refuses(program: str, lie: type[Liar]):
    """The second answer is none: the local program gets nothing, and the call that comes after it is answered. A server
    that never acknowledges the call is suspected, where its log doesn't show in time that it has it."""
    with Hosts(program) as hosts:
        usual(hosts)
        server = liar(hosts, lie)
        witness = hosts.witness({1: server.address})
        gateway = hosts.gateway('two', '2-2', server.address, witness.address())
        address = gateway.address()
        connection = Connection(address[1])
        assert connection.ask(ATTRIBUTES) == owed(ATTRIBUTES)
        connection.send(record(LOOKUP))
        assert connection.is_cut(), f'{lie.__name__}: an answer came'
        again = Connection(address[1])
        assert again.ask(ATTRIBUTES) == owed(ATTRIBUTES), lie.__name__
        again.finish()
        words = ('trusted', 'suspected') if lie in (UnsignedAck, OtherAck) else ('trusted',)
        hosts.wait_until(witness.address(),
                         lambda told: told[1][0] in words and told[2][0] == 'trusted' and told[2][2] > 3)
        assert gateway.said(), f'{lie.__name__}: it said nothing'


def check_none(program: str):
    """Replies and acknowledgements that are none: unsigned, old, another's, withheld."""
    lies = [NoReply, OldReply, UnsignedReply, UnsignedAck, OtherAck, OtherMember]
    with ThreadPoolExecutor(len(lies)) as pool:
        list(pool.map(lambda lie: refuses(program, lie), lies))
    print('replies and acknowledgements that are none: nothing is handed out, and the next call goes on')


def check_other_calls(program: str):
    """A reply that is signed and is another call's: by its xid, or by its number alone; and one that comes with a
    second acknowledgement."""
    for lie in WrongXid, Swapped, ReceivesTwice:
        with Hosts(program) as hosts:
            usual(hosts)
            server = liar(hosts, lie)
            witness = hosts.witness({1: server.address})
            gateway = hosts.gateway('two', '2-2', server.address, witness.address())
            address = gateway.address()
            connection = Connection(address[1])
            assert connection.ask(ATTRIBUTES) == owed(ATTRIBUTES)
            connection.send(record(LOOKUP))
            assert connection.is_cut(), f'{lie.__name__}: an answer came'
            if lie is Swapped:
                other = Connection(address[1])
                other.send(record(SAME_XID))
                assert other.is_cut(), 'the reply to another call came'
            why = '' if lie is ReceivesTwice else 'server 1 answered another call: number 7'
            assert gateway.said() and why in gateway.said(), gateway.said()
            word = 'trusted' if lie is Swapped else 'exposed'
            hosts.wait_until(witness.address(), lambda told, word=word: (told[1][0], told[2][0]) == (word, 'trusted'))
    print('replies to another call, by xid or by number alone: nothing is handed out')


def check_suspected(program: str):
    """A server that is silent, and one that hides its log."""
    for make in Silent, HidesLog:
        with Hosts(program) as hosts:
            usual(hosts)
            keys, roster = hosts.keys('one', 1, SERVER, 7), hosts.roster()
            server = hosts.keep(make(keys, roster))
            witness = hosts.witness({1: server.address}, '--patience', '2')
            gateway = hosts.gateway('two', '2-2', server.address, witness.address())
            connection = Connection(gateway.address()[1])
            connection.send(record(ATTRIBUTES))
            if make is HidesLog:
                assert connection.reply() == owed(ATTRIBUTES)
                witness.wait_for(r'\S+Z 1 suspected 1 to 0: .*')
                assert hosts.ask(witness.address(), '1-1') == (SUSPECTED, {1: ('suspected', 1, 0)})
            else:
                assert hosts.wait_until(witness.address(), lambda told: told[1][2] > 0)
    print('a server that hides its log is suspected')


# ---- the parties of checks/peer with ours

def check_other_witness(program: str):
    """Our gateway with the other server and the other witness."""
    with Hosts(program) as hosts:
        usual(hosts)
        server = hosts.keep(Server(hosts.keys('one', 1, SERVER, 7), hosts.roster()))
        other = hosts.keep(Witness(hosts.roster()))
        gateway = hosts.gateway('two', '2-2', server.address, other.address)
        connection = Connection(gateway.address()[1])
        for _ in range(3):
            assert connection.ask(ATTRIBUTES) == owed(ATTRIBUTES)
        connection.finish()
        for _ in range(100):
            assert other.round({1: server.address}) == {}
            if other.books[1].end >= 11 and other.books[2].end > 0 and not other.books[2].audit:
                break
            time.sleep(0.2)
        assert [ask(other.address, node).indication for node in (1, 2)] == ['trusted'] * 2
        assert ask(other.address, 1).end >= 11 and ask(other.address, 2).end > 0
    print('our gateway with the other server and the other witness')


def check_ask_gateway(program: str):
    """`ask --state` says after a witness's lines up to which number it assured this machine's gateway. A gateway that
    doesn't answer is status 4, or that of what is graver."""
    with Hosts(program) as hosts:
        usual(hosts, HEIGHT, HEIGHT - 1)
        state, server = hosts.state('gateway'), hosts.server('one')
        ours, other = (hosts.witness({1: server.address()}) for _ in range(2))
        gateway = hosts.gateway('two', '2', server.address(), ours.address(), state=state)
        connection = Connection(gateway.address()[1])
        for _ in range(3):
            assert connection.ask(ATTRIBUTES) == owed(ATTRIBUTES)
        wait_assured(hosts, state, ours.address(), lambda to: to is not None and to >= 9)
        [line] = hosts.status_of(state)['witness']
        words = line.removeprefix(f'{spelled(ours.address())} ')
        more = '--nodes', '1', '--state', str(state)
        status, lines, said = ask_all(hosts, [ours.address()], *more)
        assert (status, lines[1:], said) == (0, [words], ''), (status, lines, said)
        status, lines, said = ask_all(hosts, [other.address(), ours.address()], *more)
        assert (status, len(lines), lines[2], said) == (0, 3, line, ''), (status, lines, said)
        exposing = hosts.keep(Says(hosts.roster(), 3)).address
        assert hosts.stop(gateway, state) == 0
        for asked, owed_status in ([ours.address()], DEVICE), ([exposing, ours.address()], EXPOSED):
            status, lines, said = ask_all(hosts, asked, *more)
            assert (status, len(lines)) == (owed_status, len(asked)), (status, lines)
            assert said.count('nfsacc: ') == 1 and said.startswith(f'nfsacc: {state}/control: '), said
    print('`ask --state` says what witnesses assured this machine\'s gateway')


def check_server(program: str):
    """Our server with the other gateway and the other witness, and `ask` with that; the other gateway with our witness. A
    second process with the server's secret is refused, and the server ends when it is told to."""
    with Hosts(program) as hosts:
        usual(hosts)
        state = hosts.state('s1')
        server = hosts.server('one', state=state)
        ours = hosts.witness({1: server.address()})
        other = hosts.keep(Witness(hosts.roster()))
        gateway = Gateway(hosts.keys('three', 3, CLIENT, 6), hosts.roster(), 1, server.address())
        calls = Calls(3)
        for _ in range(8):
            body = calls.next_call()
            reply = gateway.exchange(body)
            assert reply is not None
            calls.take(body, reply)
        assert gateway.exchange(b'no call') is None
        gateway.finish()
        last = last_number(server.address(), hosts)
        for _ in range(100):
            gateway.report(ours.address())
            gateway.report(other.address)
            assert other.round({1: server.address()}) == {}
            if other.books[1].end == last and other.books[3].end > 0 and not other.books[3].audit:
                break
            time.sleep(0.2)
        status, told = hosts.ask(other.address)
        assert status == 0 and told[1] == ('trusted', 0, last) and told[3][2] > 0, told
        hosts.wait_until(ours.address(), lambda told: told[1] == ('trusted', 0, last))
        logged = log_of(server.address(), hosts.roster())
        assert [each.body for each in logged.calls][-1] == b'no call' and len(logged.calls) == 9
        second = hosts.server('one')
        assert second.status() == DEVICE and second.said().startswith('nfsacc: '), second.said()
        assert (hosts.stop(server, state), server.said()) == (0, ''), server.said()
        assert server.lines[-1] == 'stopped', server.lines
    print('our server with the other gateway and the other witness; the other gateway with our witness')


def check_strangers(program: str):
    """Connections that say nothing don't hold a member off, and end after ten seconds; neither a message that was sent
    before nor a GREET keeps a place, while a member's connection stays."""
    with Hosts(program) as hosts:
        usual(hosts)
        server = hosts.server('one')
        gateway = Gateway(hosts.keys('two', 2, CLIENT, 6), hosts.roster(), 1, server.address())
        assert gateway.exchange(ATTRIBUTES) == owed(ATTRIBUTES)
        strangers = [Connection(server.address()[1], address=server.address()[0]) for _ in range(40)]
        began = time.monotonic()
        again = Caller(server.address(), NODE)
        again.ask(DELIVER, word(ENVELOPE) + gateway.node.envelope(gateway.last))
        assert gateway.exchange(LOOKUP) == owed(LOOKUP)
        member = gateway.caller
        assert all(stranger.ends() for stranger in strangers) and time.monotonic() - began < 20
        assert again.socket.recv(1) == b''
        assert gateway.exchange(ATTRIBUTES) == owed(ATTRIBUTES) and gateway.caller is member
        gateway.finish()
        assert server.process.poll() is None and server.said() == '', server.said()
    print('forty silent connections and a repeated message hold nobody off, and end after ten seconds')


class SlowReader:
    """Asks for a segment from an address of this machine, and takes next to nothing of the answer."""

    def __init__(self, server: Address, own: str, last: int):
        self.socket = socket.socket()
        self.socket.setsockopt(socket.SOL_SOCKET, socket.SO_RCVBUF, 65536)
        self.socket.settimeout(PATIENCE_OF_READERS)
        self.socket.bind((own, 0))
        self.socket.connect(server)
        self.socket.sendall(record(call_text(1, NODE, SEGMENT, hyper(1) + hyper(last))))

    def has_bytes(self, seconds: float) -> bool:
        """Whether its answer begins so soon."""
        return bool(select.select([self.socket], [], [], seconds)[0])

    def close(self):
        self.socket.close()


def check_slow_readers(program: str):
    """Who reads a segment slowly holds up neither calls nor, but for a time, other audits: two segments are written at
    once, one of an address, each within 30 seconds."""
    with Hosts(program) as hosts:
        usual(hosts, 11, 10)
        server = hosts.server('one')
        gateway = hosts.gateway('two', '2-2', server.address())
        made = make_calls(gateway.address(), LONG_LOG)
        last = last_number(server.address(), hosts)
        slow = [hosts.keep(SlowReader(server.address(), own, last)) for own in ('127.0.0.2', '127.0.0.3')]
        assert all(reader.has_bytes(10) for reader in slow)
        again, third = (hosts.keep(SlowReader(server.address(), own, last)) for own in ('127.0.0.2', '127.0.0.4'))
        assert not again.has_bytes(2) and not third.has_bytes(2)
        began = time.monotonic()
        made += make_calls(gateway.address(), CONNECTIONS)
        assert time.monotonic() - began < 10
        assert third.has_bytes(60)
        assert 'timed out' in server.said(), server.said()
        for reader in *slow, again, third:
            reader.close()
        assert len(log_of(server.address(), hosts.roster()).calls) == LONG_LOG + CONNECTIONS
    print('two slow readers of a segment are cut off after 30 seconds; a third waits, and calls go on')


def check_put_back(program: str):
    """A server whose state folder was put back as it was before begins an epoch again that it had begun. It ends with 6
    once a witness asks it with its own signature, and signs nothing more. What isn't signed by it doesn't end it."""
    with Hosts(program) as hosts:
        usual(hosts, HEIGHT, HEIGHT - 1, '1-2')
        server = hosts.server('one', '--audit', '127.0.0.1:0')
        server.wait_for(f'epoch 1, {2**HEIGHT} keys made')
        server.kill()
        backup = (hosts.folder / 'one.spent').read_bytes()
        server = hosts.server('one', '--audit', '127.0.0.1:0')
        server.wait_for(f'epoch 2, {2**HEIGHT} keys made')
        way = hosts.keep(Switch(server.address('audits')))
        witness = hosts.witness({1: way.address})
        gateway = hosts.gateway('two', '2', server.address(), witness.address())
        connection = Connection(gateway.address()[1])
        for _ in range(3):
            assert connection.ask(ATTRIBUTES) == owed(ATTRIBUTES)
        hosts.wait_until(witness.address(), are_trusted(11))
        asker = Caller(witness.address(), WITNESS)
        of_server, of_client = last_shown(asker, 1), last_shown(asker, 2)
        asker.close()
        gateway.kill()
        server.kill()
        way.off()
        (hosts.folder / 'one.spent').write_bytes(backup)
        server = hosts.server('one', '--audit', '127.0.0.1:0')
        server.wait_for(f'epoch 2, {2**HEIGHT} keys made')
        try_no_claims(server, of_server, of_client)
        before = len(witness.lines)
        way.on(server.address('audits'))
        assert server.status() == OTHER, server.said()
        line = f'nfsacc: the log was put back to an earlier one: number {of_server.word} was signed before\n'
        assert re.fullmatch(f'{TIME} {line}', server.said()), server.said()
        assert server.lines[-1] == 'the log was put back to an earlier one', server.lines
        wait_for_words(witness, 'nfsacc: 1 has a log that was put back to an earlier one\n')
        assert not any('exposed' in line for line in witness.lines[before:]), witness.lines
    print('a server whose log was put back ends with 6 once a witness asks it, and signs nothing more')


def try_no_claims(server: Party, of_server: Authenticator, of_client: Authenticator):
    """A server whose log lacks all that was signed is asked for what it didn't sign: it serves on."""
    caller = Caller(server.address(), NODE)
    other_hash, other_number = replace(of_server, hash=bytes(32)), replace(of_server, word=of_server.word + 4)
    for claim in other_hash, other_number, of_client, replace(of_client, node=1), replace(of_server, node=2):
        assert not stands(caller, claim)
    nothing = replace(of_server, word=0, hash=bytes(32))
    assert stands(caller, nothing)
    caller.close()
    time.sleep(1)
    assert server.process.poll() is None and server.said() == '', server.said()


def check_server_keys(program: str):
    """Keys that are used up: the server ends with 5, and its next start takes the next epoch; so does one that was
    killed. Without another roster it doesn't start."""
    with Hosts(program) as hosts:
        usual(hosts, 2, 4, '1-3')
        server = hosts.server('one')
        gateway = Gateway(hosts.keys('two', 2, CLIENT, 4), hosts.roster(), 1, server.address())
        for _ in range(2):
            assert gateway.exchange(ATTRIBUTES) == owed(ATTRIBUTES)
        server.wait_for('keys used up after 2 calls')
        assert server.status() == KEYS_USED_UP
        for epoch in 2, 3:
            server = hosts.server('one')
            server.wait_for(f'epoch {epoch}, 4 keys made')
            server.address()
            server.kill()
        server = hosts.server('one')
        assert server.status() == 1 and 'there is no roster' in server.said(), server.said()
    print('a server takes the next epoch, and ends with 5 when its keys are used up')


# ---- secrets, epochs and lives

def check_lives(program: str):
    """A secret is used by one process at a time, and no key twice."""
    with Hosts(program) as hosts:
        hosts.rosters(hosts.member('one', 1, SERVER, 7, '1-3'), hosts.member('two', 2, CLIENT, 5, '1-3'),
                      hosts.member('two', 3, CLIENT, 5, '1-3'))
        secret = hosts.folder / 'one'
        assert secret.stat().st_mode & 0o777 == 0o600 and len(secret.read_bytes()) == 32
        assert hosts.run('secret', str(secret))[0] == DEVICE
        server = hosts.server('one', '--progress')
        address = server.address()
        assert re.fullmatch(f'{TIME} nfsacc: epoch 1: making 128 keys\n', server.said()), server.said()
        assert 'epoch 1 node 1 roster sha256:' in Path(f'{secret}.spent').read_text()
        second = hosts.server('one')
        assert second.status() == DEVICE and second.said().startswith('nfsacc: '), second.said()
        gateway = hosts.gateway('two', '2-3', address)
        gateway.wait_for('node 2, epoch 1, 32 keys made')
        assert Connection(gateway.address()[1]).ask(ATTRIBUTES) == owed(ATTRIBUTES)
        second = hosts.gateway('two', '2-3', address)
        assert second.status() == DEVICE, second.said()
        gateway.kill()
        gateway = hosts.gateway('two', '2-3', address)
        gateway.wait_for('node 3, epoch 1, 32 keys made')
        assert Connection(gateway.address()[1]).ask(ATTRIBUTES) == owed(ATTRIBUTES)
        gateway.kill()
        server.kill()
        server = hosts.server('one')
        server.wait_for('epoch 2, 128 keys made')
        gateway = hosts.gateway('two', '2-3', server.address())
        gateway.wait_for('node 2, epoch 2, 32 keys made')
        assert Connection(gateway.address()[1]).ask(ATTRIBUTES) == owed(ATTRIBUTES)
    print('a second process with a secret is refused, and one that was killed goes on with the next epoch or life')


def check_second_roster(program: str):
    """An epoch that was begun under one roster isn't begun under another."""
    with Hosts(program) as hosts:
        lines = [hosts.member('one', 1, SERVER, 4), hosts.member('two', 2, CLIENT, 4)]
        lines.append(hosts.member('two', 3, CLIENT, 4))
        folder = hosts.rosters(*lines[:2])
        server = hosts.server('one')
        gateway = hosts.gateway('two', '2-2', server.address())
        gateway.address()
        gateway.kill()
        server.kill()
        shutil.rmtree(folder)
        hosts.rosters(*lines)
        server = hosts.server('one')
        assert server.status() not in (0, None) and server.said().startswith('nfsacc: '), server.said()
        assert not any(line.startswith('listening') for line in server.lines)
    print('a second roster of an epoch is refused')


def check_keys_used_up(program: str):
    """The call in hand is finished; the server ends with 5, and its next start takes the next epoch."""
    with Hosts(program) as hosts:
        usual(hosts, 2, 4, '1-2')
        server = hosts.server('one')
        gateway = hosts.gateway('two', '2-2', server.address())
        connection = Connection(gateway.address()[1])
        for _ in range(2):
            assert connection.ask(ATTRIBUTES) == owed(ATTRIBUTES)
        server.wait_for('keys used up after 2 calls')
        assert server.status() == KEYS_USED_UP
        gateway.kill()
        server = hosts.server('one')
        server.wait_for('epoch 2, 4 keys made')
    print('keys that are used up: the server ends with 5')


def check_ask(program: str):
    """No connection, and another roster. Trusted, suspected and exposed are asked for above."""
    with Hosts(program) as hosts:
        usual(hosts)
        hosts.rosters(hosts.member('one', 1, SERVER, 5), hosts.member('four', 4, CLIENT, 2), name='others')
        server = hosts.server('one')
        witness = hosts.witness({1: server.address()})
        assert hosts.ask(witness.address()) == (0, {node: ('trusted', 0, 0) for node in (1, 2, 3)})
        assert hosts.ask(witness.address(), rosters='others')[0] == OTHER
        stranger = hosts.witness({1: server.address()}, '--epoch', '1', rosters='others')
        stranger.wait_for(r'(?:\S+Z )?1 greets another roster sha256:[0-9a-f]{64}')
        witness.kill()
        assert hosts.ask(witness.address())[0] == DEVICE
    print('statuses of `ask`, and a witness with another roster')


class Says(Witness):
    """It says this of node 1, and has this file as its evidence against it."""

    def __init__(self, roster: Roster, indication: int, file: bytes | None = None):
        self.indication = indication
        self.file = file
        super().__init__(roster)

    def told(self, arguments: bytes) -> bytes:
        return word(self.indication, 0) + hyper(0) + hyper(0) if arguments == word(1) else super().told(arguments)

    def evidence(self, node: int) -> bytes | None:
        return self.file if node == 1 else None


def ask_all(hosts: Hosts, witnesses: list[Address], *more: str) -> tuple[int, list[str], str]:
    """The status of `ask` of several witnesses, its lines, and what it says on standard error."""
    asked = ','.join(map(spelled, witnesses))
    status, printed, said = hosts.run('ask', '--rosters', str(hosts.folder / 'rosters'), *more, asked)
    return status, printed.splitlines(), said


def check_ask_many(program: str):
    """`ask` of several witnesses: all are asked, and the status is the gravest. Evidence is judged before it is put."""
    with Hosts(program) as hosts:
        usual(hosts, HEIGHT, HEIGHT - 1)
        hosts.rosters(hosts.member('one', 1, SERVER, 2), hosts.member('four', 4, CLIENT, 2), name='others')
        trusting, suspecting = (hosts.keep(Says(hosts.roster(), indication)).address for indication in (1, 2))
        exposing = hosts.keep(Says(hosts.roster(), 3)).address
        stranger = hosts.keep(Witness(hosts.roster(name='others'))).address
        nobody = socket.create_server(('127.0.0.1', 0))
        away = nobody.getsockname()
        nobody.close()
        for asked, owed_status in (((trusting, trusting), 0), ((trusting, suspecting), SUSPECTED), ((away, trusting), DEVICE),
                                   ((suspecting, away), DEVICE), ((stranger, suspecting, away), OTHER),
                                   ((away, stranger), OTHER), ((exposing, away, stranger), EXPOSED),
                                   ((stranger, exposing, trusting), EXPOSED)):
            status, lines, said = ask_all(hosts, list(asked), '--nodes', '1')
            words = {trusting: 'trusted', suspecting: 'suspected', exposing: 'exposed'}
            there = [each for each in asked if each in words]
            assert (status, lines) == (owed_status, [f'{spelled(each)} 1 {words[each]} 0 to 0' for each in there]), lines
            assert said.count('nfsacc: ') == len(asked) - len(there), said
        assert ask_all(hosts, [trusting])[1][0] == '1 trusted 0 to 0'
        assert hosts.run('ask', '--evidence', str(hosts.folder), spelled(trusting))[0] == COMMAND_LINE
        try_evidence(hosts)
    print('`ask` of several witnesses, and evidence that is judged before it is put')


def try_evidence(hosts: Hosts):
    """Evidence against node 1 is fetched where it is good."""
    server = hosts.keep(WrongReply(hosts.keys('one', 1, SERVER, HEIGHT), hosts.roster(), at=2))
    witness, cases = watched(hosts, server)
    gateway = hosts.gateway('two', '2', server.address, witness.address())
    connection = Connection(gateway.address()[1])
    for _ in range(2):
        connection.ask(ATTRIBUTES)
    assert exposed(hosts, witness, cases) is not None
    good, folder = (cases / 'node-1.evidence').read_bytes(), hosts.state('fetched')
    put = folder / 'node-1.evidence'
    other = bytearray(good)
    other[len(roster_text(hosts.roster())) + 3] = 2
    for file, words in ((None, 'it has no evidence against 1'), (b'', 'isn\'t good'), (good + bytes(4), 'isn\'t good'),
                        (good[:-1] + bytes([good[-1] ^ 1]), 'isn\'t good'), (bytes(other), 'isn\'t good'),
                        (bytes(5000000), '5000000 bytes, which it doesn\'t send')):
        liar = hosts.keep(Says(hosts.roster(), 3, file))
        status, lines, said = ask_all(hosts, [liar.address], '--evidence', str(folder))
        assert (status, lines[0]) == (EXPOSED, '1 exposed 0 to 0') and words in said, said
        assert said.count('nfsacc: ') == 1 and list(folder.iterdir()) == [], said
    status, _, said = ask_all(hosts, [liar.address, witness.address()], '--evidence', str(folder))
    assert status == EXPOSED and said.count('nfsacc: ') == 1, said
    assert put.read_bytes() == good and list(folder.iterdir()) == [put]
    assert ask_all(hosts, [witness.address()], '--evidence', str(folder / 'none'))[0] == DEVICE


# ---- many calls

class Local:
    """A plain connection to a gateway that makes calls at random, and keeps each with its reply."""

    def __init__(self, address: Address, number: int):
        self.connection = Connection(address[1])
        self.calls = Calls(number)
        self.made: list[tuple[bytes, bytes]] = []

    def make(self, count: int):
        for _ in range(count):
            body = self.calls.next_call()
            reply = self.connection.ask(body)
            self.calls.take(body, reply)
            self.made.append((body, reply))
        self.connection.finish()


def make_calls(address: Address, count: int) -> list[Local]:
    """So many calls in all, by several connections at once."""
    locals_ = [Local(address, number) for number in range(1, CONNECTIONS + 1)]
    with ThreadPoolExecutor(CONNECTIONS) as pool:
        list(pool.map(lambda each: each.make(count // CONNECTIONS), locals_))
    return locals_


def compare(logged: ServedLog, made: list[Local]):
    """The log has each call once, in each connection's order, with the reply that the connection got. It was replayed,
    so these are the replies that are owed in its order."""
    for number, local in enumerate(made, 1):
        there = [(each.body, each.reply) for each in logged.calls if each.body[:2] == number.to_bytes(2, 'big')]
        assert there == local.made, f'connection {number}: {len(there)} calls in the log, and {len(local.made)} made'
    assert len(logged.calls) == sum(len(local.made) for local in made)
    acked = [entry.number for entry in logged.entries if entry.kind == ACK]
    numbers = range(3, 3 * len(logged.calls) + 1)
    assert len(set(acked)) == len(acked) and set(acked) <= set(numbers), 'a call of a client makes SEND, ACK and RECV'


def check_calls(program: str, count: int = 200):
    """Calls by several connections through one gateway: each reply as one service owes it in the server's order."""
    with Hosts(program) as hosts:
        height = (2 * count).bit_length()
        usual(hosts, height, height)
        server = hosts.server('one')
        address = server.address()
        witness = hosts.witness({1: address})
        gateway = hosts.gateway('two', '2-2', address, witness.address())
        made = make_calls(gateway.address(), count)
        logged = log_of(address, hosts.roster())
        compare(logged, made)
        hosts.wait_until(witness.address(), are_trusted(last_number_after(address, hosts, logged)), 600)
        assert gateway.said() == '', gateway.said()
    print(f'{count} calls through a gateway: each reply is owed in the order of the log, and takes two keys of each')


def last_number_after(address: Address, hosts: Hosts, logged: ServedLog) -> int:
    """The last signed number, of a log that was read to some number."""
    caller = Caller(address, NODE)
    number = last_signed(caller, hosts.roster(), 1, len(logged.entries)) or len(logged.entries)
    caller.close()
    return number


def short(answer: bytes) -> list[bytes]:
    """The beginnings of an answer to a message, as records of their own: cut in each of its parts."""
    return [record(answer[:at]) for at in (0, 4, 20, 24, 28, 32, 100, 9000, 16800, len(answer) - 4)]


GARBAGE = [
    lambda answer: b'', lambda answer: record(answer)[:2], lambda answer: record(answer)[:-1],
    lambda answer: word(0x7fffffff) + answer, lambda answer: word(0) * 20000, lambda answer: b'HTTP/1.1 400 No\n',
    lambda answer: record(word(0xffffffff) + answer[4:]), lambda answer: record(answer[:4] + word(0) + answer[8:]),
    lambda answer: record(answer[:20] + word(5)), lambda answer: record(answer[:20] + word(3)),
    lambda answer: record(answer[:8] + word(1, 1, 2)), lambda answer: record(answer + word(0)),
    lambda answer: record(answer[:24] + word(0, 0, 9)), lambda answer: record(answer + bytes(40000)),
    *[lambda answer, place=place: short(answer)[place] for place in range(10)],
]


def check_garbage(program: str):
    """What is no answer to a message, and then the answer: each call was made once, and is answered."""
    with Hosts(program) as hosts:
        usual(hosts)
        server = hosts.server('one')
        garbler = hosts.keep(Garbler(server.address(), DELIVER, GARBAGE))
        gateway = hosts.gateway('two', '2-2', garbler.address)
        connection = Connection(gateway.address()[1])
        for given in range(len(GARBAGE)):
            assert garbler.given == given
            assert connection.ask(ATTRIBUTES) == owed(ATTRIBUTES), given
        assert len(log_of(server.address(), hosts.roster()).calls) == len(GARBAGE)
    print(f'{len(GARBAGE)} answers that are none: each call goes on, and is made once')


def check_same_call(program: str):
    """A call whose local connection ended, and that comes again while it is in hand, is that call. After its reply it
    is another."""
    with Hosts(program) as hosts:
        usual(hosts)
        server = hosts.keep(Slow(hosts.keys('one', 1, SERVER, 7), hosts.roster()))
        gateway = hosts.gateway('two', '2-2', server.address)
        address = gateway.address()
        first = Connection(address[1])
        first.send(record(ATTRIBUTES))
        time.sleep(1)
        first.close()
        time.sleep(1)
        second = Connection(address[1])
        second.send(record(ATTRIBUTES))
        time.sleep(1)
        server.may_answer.set()
        assert second.reply() == owed(ATTRIBUTES)
        assert second.ask(ATTRIBUTES) == owed(ATTRIBUTES)
        calls = [each.sender for each in log_of(server.address, hosts.roster()).calls]
        assert calls == [2, 2], f'{len(calls)} calls were made'
    print('a call that comes again on another connection is made once')


def of_own_xid(number: int) -> bytes:
    """A call that has this number as its xid."""
    return word(number) + ATTRIBUTES[4:]


def make_in_flight(address: Address, many: int, count: int):
    """So many local connections make so many calls each, one after the other. Each gets the reply to it."""
    def make(first: int):
        connection = Connection(address[1])
        for number in range(first, first + count):
            assert connection.ask(of_own_xid(number)) == owed(of_own_xid(number)), number
        connection.close()

    with ThreadPoolExecutor(many) as pool:
        list(pool.map(make, range(100, 100 + many * count, count)))


def check_in_flight(program: str, many: int = 16, count: int = 4):
    """As many calls are in flight as there are local connections, over four connections to the server. Each gets its
    reply, and takes two keys of each node."""
    with Hosts(program) as hosts:
        usual(hosts, 8, 8)
        server = hosts.server('one')
        way = hosts.keep(Waves(server.address(), many))
        witness = hosts.witness({1: server.address()})
        state = hosts.state()
        gateway = hosts.gateway('two', '2-2', way.address, witness.address(), state=state)
        make_in_flight(gateway.address(), many, count)
        assert way.came == many * count, f'{way.came} calls came'
        assert way.connections <= 1 + CONNECTIONS, f'{way.connections} connections, with the one that asked for the roster'
        logged = log_of(server.address(), hosts.roster())
        assert sorted(each.body for each in logged.calls) == [of_own_xid(100 + each) for each in range(many * count)]
        takes_two_keys(logged)
        hosts.wait_until(witness.address(), lambda told: told[2][:2] == ('trusted', 0) and told[2][2] >= 3 * many * count)
        assert hosts.stop(gateway, state) == 0, gateway.said()
    print(f'{many * count} calls by {many} local connections take {count} round trips over {way.connections - 1} connections')


def check_sixteen_in_flight(program: str, many: int = 16, count: int = 4, seconds: float = 0.05):
    """Calls by sixteen local connections over a long way don't wait for each other's round trips."""
    with Hosts(program) as hosts:
        usual(hosts, 8, 8)
        server = hosts.server('one')
        way = hosts.keep(Delay(server.address(), seconds))
        address = hosts.gateway('two', '2-2', way.address).address()
        started = time.monotonic()
        make_in_flight(address, many, count)
        took = time.monotonic() - started
        trips = round(took / (2 * seconds), 1)
        assert trips < many * count / 2, f'{many * count} calls took as long as {trips} round trips'
        takes_two_keys(log_of(server.address(), hosts.roster()))
    print(f'{many * count} calls by {many} local connections over a long way take as long as {trips} round trips')


def check_disorder(program: str, many: int = 16, count: int = 8):
    """Answers that come twice, or out of the order of the calls: each local connection gets the replies to its own calls,
    and no call is made twice."""
    with Hosts(program) as hosts:
        usual(hosts, 9, 9)
        server = hosts.server('one')
        way = hosts.keep(Swaps(server.address(), 3, 6))
        gateway = hosts.gateway('two', '2-2', way.address)
        make_in_flight(gateway.address(), many, count)
        logged = log_of(server.address(), hosts.roster())
        assert sorted(each.body for each in logged.calls) == [of_own_xid(100 + each) for each in range(many * count)]
        takes_two_keys(logged)
        assert way.swaps + way.repeats > 3, (way.swaps, way.repeats)
    print(f'{way.swaps} answers out of order and {way.repeats} that come twice: each of {many * count} calls gets its own')


def check_rough_in_flight(program: str, many: int = 12, count: int = 8):
    """The way drops, delays, repeats and cuts while several calls are in flight on each connection: each reply comes, no
    call is made twice, and each reply is acknowledged in the end."""
    with Hosts(program) as hosts:
        usual(hosts, 8, 8)
        server = hosts.server('one')
        way = hosts.keep(Rough(server.address(), 5, 24))
        state = hosts.state()
        gateway = hosts.gateway('two', '2-2', way.address, state=state)
        make_in_flight(gateway.address(), many, count)
        way.smooth()
        assert hosts.stop(gateway, state) == 0, gateway.said()
        logged = log_to_the_end(hosts, server)
        assert sorted(each.body for each in logged.calls) == [of_own_xid(100 + each) for each in range(many * count)]
        acked = sum(entry.kind == ACK for entry in logged.entries)
        assert acked == many * count, f'{acked} of {many * count} replies were acknowledged'
        faults = sum(times for fault, times in way.faults.items() if fault)
    print(f'{many * count} calls by {many} local connections over a rough way, {faults} faults, {way.connections} '
          'connections: each reply comes, and takes two keys of each')


def check_gives_up_in_flight(program: str, many: int = 8):
    """A server that answers nothing: each of the calls in flight is given up after the seconds that are asked for."""
    with Hosts(program) as hosts:
        usual(hosts)
        server = hosts.keep(Slow(hosts.keys('one', 1, SERVER, 7), hosts.roster()))
        gateway = hosts.gateway('two', '2-2', server.address, more=('--give-up', '2'))
        connections = [Connection(gateway.address()[1]) for _ in range(many)]
        started = time.monotonic()
        for number, connection in enumerate(connections):
            connection.send(record(of_own_xid(number)))
        for connection in connections:
            assert connection.is_cut()
        took = time.monotonic() - started
        assert 2 <= took < 10, f'it took {took} seconds'
        server.may_answer.set()
        assert Connection(gateway.address()[1]).ask(ATTRIBUTES) == owed(ATTRIBUTES)
    print(f'{many} calls in flight are given up after --give-up, and the next one is made')


def check_gateway_put_back(program: str):
    """A gateway whose notes were put back, and that would sign its numbers again, ends with 6 before it signs."""
    with Hosts(program) as hosts:
        usual(hosts)
        server = hosts.server('one')
        witness = hosts.witness({1: server.address()})
        gateway = hosts.gateway('two', '2-2', server.address(), witness.address())
        connection = Connection(gateway.address()[1])
        for _ in range(3):
            assert connection.ask(ATTRIBUTES) == owed(ATTRIBUTES)
        hosts.wait_until(witness.address(), lambda told: told[2][2] >= 9)
        gateway.kill()
        (hosts.folder / 'two.spent').unlink()
        gateway = hosts.gateway('two', '2-2', server.address(), witness.address())
        assert gateway.status() == OTHER
        assert 'nfsacc: the log was put back to an earlier one: number ' in gateway.said(), gateway.said()
        assert len(log_of(server.address(), hosts.roster()).calls) == 3
    print('a gateway whose log was put back ends with 6, and signs nothing')


def check_open_message(program: str):
    """A reply that was withheld is received where a witness asks for its acknowledgement, and isn't handed out."""
    with Hosts(program) as hosts:
        usual(hosts)
        server = hosts.keep(NoReply(hosts.keys('one', 1, SERVER, 7), hosts.roster()))
        witness = hosts.witness({1: server.address})
        gateway = hosts.gateway('two', '2-2', server.address, witness.address(), more=('--reserve', '2'))
        connection = Connection(gateway.address()[1])
        connection.send(record(ATTRIBUTES))
        while len(server.node.entries) < 3:
            time.sleep(0.1)
        caller = Caller(witness.address(), WITNESS)
        assert handed(caller, word(ENVELOPE) + server.node.envelope(3)) == 0, 'no challenge was opened'
        hosts.wait_until(witness.address(), lambda told: told[2][:2] == ('trusted', 0))
        caller.close()
        connection.socket.settimeout(2)
        try:
            came = connection.socket.recv(1)
        except TimeoutError:
            came = b''
        assert came == b'', 'the reply was handed out'
    print('a withheld reply that a witness asks for is acknowledged, and not handed out')


def takes_two_keys(logged: ServedLog):
    """Each call, which is owed a reply, has taken two keys of the server. That it took two of the client's the numbers of
    the ACKs show."""
    signed = [entry for entry in logged.entries if entry.kind in (RECV, SEND)]
    assert len(signed) == 2 * len(logged.calls), f'{len(signed)} keys of {len(logged.calls)} calls'


def log_to_the_end(hosts: Hosts, server: Party) -> ServedLog:
    """The server's log with the acknowledgements of all replies to other clients. A log is given out up to its last
    signature, so client 3 makes a call more, which isn't among the log's calls here."""
    gateway = hosts.gateway('three', '3-3', server.address())
    Connection(gateway.address()[1]).ask(ATTRIBUTES)
    logged = log_of(server.address(), hosts.roster())
    takes_two_keys(logged)
    assert logged.calls.pop().body == ATTRIBUTES
    return logged


def check_rough(program: str, count: int = 60):
    """The way to the server drops, delays, repeats and cuts: each reply comes, no call is made twice, and each reply is
    acknowledged in the end, once the way is smooth. A call takes a round trip, and a further one only over a new connection."""
    with Hosts(program) as hosts:
        height = (2 * count).bit_length()
        usual(hosts, height, height)
        server = hosts.server('one')
        way = hosts.keep(Rough(server.address(), 1, 12))
        state = hosts.state()
        gateway = hosts.gateway('two', '2-2', way.address, state=state)
        made = make_calls(gateway.address(), count)
        way.smooth()
        assert hosts.stop(gateway, state) == 0, gateway.said()
        logged = log_to_the_end(hosts, server)
        compare(logged, made)
        acked = sum(entry.kind == ACK for entry in logged.entries)
        assert acked == count, f'{acked} of {count} replies were acknowledged'
        faults = {fault: times for fault, times in sorted(way.faults.items()) if fault}
        assert sum(faults.values()) > 3, faults
        trips = way.calls[DELIVER]
        assert way.calls[GREET] <= way.connections and count <= trips < count + way.connections, (trips, way.connections)
    print(f'{count} calls over a rough way, {faults}, by {trips} round trips over {way.connections} connections: '
          'each reply comes, and takes two keys of each')


def check_round_trips(program: str, count: int = 24):
    """A call takes one round trip: the answer to the acknowledgement of its reply isn't awaited."""
    with Hosts(program) as hosts:
        usual(hosts)
        server = hosts.server('one')
        way = hosts.keep(Turns(server.address()))
        gateway = hosts.gateway('two', '2-2', way.address)
        connection = Connection(gateway.address()[1])
        before = way.trips
        for _ in range(count):
            assert connection.ask(ATTRIBUTES) == owed(ATTRIBUTES)
        assert way.trips - before == count + 1, f'{way.trips - before} round trips for GREET and {count} calls'
        logged = log_of(server.address(), hosts.roster())
        assert sum(entry.kind == ACK for entry in logged.entries) >= count - 1
    print(f'{count} calls take a round trip each')


def wait_for_words(party: Party, words: str):
    """Waits until a party has said this on standard error."""
    end = time.monotonic() + 60
    while words not in party.said():
        assert time.monotonic() < end, party.said()
        time.sleep(0.1)


def check_away(program: str):
    """While the server is away a local program waits, and witnesses are told of the gateway's log and of the call. The
    gateway ends when it is told to."""
    with Hosts(program) as hosts:
        usual(hosts)
        server = hosts.server('one')
        way = hosts.keep(Switch(server.address()))
        witness = hosts.witness({1: server.address()})
        state = hosts.state()
        gateway = hosts.gateway('two', '2-2', way.address, witness.address(), state=state)
        connection = Connection(gateway.address()[1])
        for _ in range(3):
            assert connection.ask(ATTRIBUTES) == owed(ATTRIBUTES)
        way.off()
        connection.send(record(LOOKUP))
        wait_for_words(gateway, 'nfsacc: server 1 gives no answer, and is tried again: ')
        hosts.wait_until(witness.address(), lambda told: told[2][2] >= 10)
        way.on()
        assert connection.reply() == owed(LOOKUP)
        wait_for_words(gateway, 'nfsacc: server 1 answers again\n')
        server.process.send_signal(signal.SIGSTOP)
        connection.send(record(ATTRIBUTES))
        time.sleep(2)
        server.process.send_signal(signal.SIGCONT)
        assert connection.reply() == owed(ATTRIBUTES)
        way.off()
        connection.send(record(ATTRIBUTES))
        time.sleep(1)
        started = time.monotonic()
        assert hosts.stop(gateway, state) == 0, gateway.said()
        assert time.monotonic() - started < 10, 'it took long to stop'
        assert connection.is_cut()
        calls = [each.body for each in log_of(server.address(), hosts.roster()).calls]
        assert calls in ([*[ATTRIBUTES] * 3, LOOKUP, *[ATTRIBUTES] * times] for times in (1, 2)), len(calls)
    print('a server that is away for a while: the local program waits, and witnesses are told meanwhile')


def check_give_up(program: str):
    """A call is given up after the seconds that are asked for, and the next one is made."""
    with Hosts(program) as hosts:
        usual(hosts)
        server = hosts.server('one')
        way = hosts.keep(Switch(server.address()))
        gateway = hosts.gateway('two', '2-2', way.address, more=('--give-up', '2'))
        address = gateway.address()
        way.off()
        connection = Connection(address[1])
        started = time.monotonic()
        connection.send(record(LOOKUP))
        assert connection.is_cut()
        assert time.monotonic() - started >= 2
        wait_for_words(gateway, 'server 1 gives no answer: the server can\'t be reached')
        way.on()
        assert Connection(address[1]).ask(ATTRIBUTES) == owed(ATTRIBUTES)
    print('a call is given up after --give-up, and the next one is made')


def check_next_epoch(program: str):
    """A gateway whose server begins the next epoch ends with 6 once it connects again."""
    with Hosts(program) as hosts:
        usual(hosts, epochs='1-2')
        server = hosts.server('one')
        way = hosts.keep(Switch(server.address()))
        gateway = hosts.gateway('two', '2-2', way.address)
        connection = Connection(gateway.address()[1])
        assert connection.ask(ATTRIBUTES) == owed(ATTRIBUTES)
        server.kill()
        connection.send(record(ATTRIBUTES))
        server = hosts.server('one')
        way.on(server.address())
        assert connection.is_cut()
        assert gateway.status() == OTHER
        assert 'nfsacc: server 1 greets another roster sha256:' in gateway.said(), gateway.said()
    print('a gateway whose server begins another epoch ends with 6')


def check_witness_epoch(program: str):
    """A witness goes by the roster with which a server greets: it waits for one that it has, says once why there is none,
    and stops when it is told to. With --epoch it goes by that roster, whatever the server's is."""
    with Hosts(program) as hosts:
        usual(hosts, HEIGHT, HEIGHT - 1, '1-3')
        hosts.rosters(hosts.member('one', 1, SERVER, 2), hosts.member('four', 4, CLIENT, 2), name='others')
        server = hosts.server('one')
        way = hosts.keep(Switch(server.address()))
        way.off()
        stranger = hosts.keep(Server(hosts.keys('one', 1, SERVER, 2), hosts.roster(name='others')))
        states = [hosts.state(name) for name in ('w1', 'w2')]
        waiting = hosts.witness({1: way.address}, state=states[0])
        lost = hosts.witness({1: stranger.address}, state=states[1])
        wait_for_words(waiting, f'nfsacc: server 1 at {spelled(way.address)}: ')
        wait_for_words(lost, f'nfsacc: server 1 at {spelled(stranger.address)}: it goes by a roster that isn\'t known, sha256:')
        told = hosts.status_of(states[0])
        assert told.pop('memory') and told == {'kind': ['witness']}, told
        time.sleep(3)
        assert waiting.said().count('nfsacc: ') == lost.said().count('nfsacc: ') == 1, (waiting.said(), lost.said())
        assert hosts.stop(lost, states[1]) == 0 and lost.lines == ['stopped'], lost.lines
        assert waiting.lines == [], waiting.lines
        way.on()
        waiting.wait_for('epoch 1')
        waiting.address()
        both = hosts.witness({2: way.address, 1: server.address()})
        both.wait_for('epoch 1')
        named = hosts.witness({1: server.address()}, '--epoch', '2')
        named.wait_for('epoch 2')
        named.wait_for(r'(?:\S+Z )?1 greets another roster sha256:[0-9a-f]{64}')
        time.sleep(2)
        assert named.process.poll() is None and named.said() == '', named.said()
        assert hosts.witness({1: server.address()}, '--epoch', '4').status() == INPUT
    print('a witness goes by the roster with which a server greets, or by that of --epoch')


def check_witness_next_epoch(program: str):
    """A witness whose server begins the next epoch ends with 6, and says so; its evidence was put before. One that is begun
    anew goes by the next epoch."""
    with Hosts(program) as hosts:
        usual(hosts, HEIGHT, HEIGHT - 1, '1-2')
        liar = hosts.keep(WrongReply(hosts.keys('one', 1, SERVER, HEIGHT), hosts.roster(), at=2))
        way, cases = hosts.keep(Switch(liar.address)), hosts.state('cases')
        witness = hosts.witness({1: way.address}, '--evidence', str(cases))
        witness.wait_for('epoch 1')
        gateway = hosts.gateway('two', '2', liar.address, witness.address())
        connection = Connection(gateway.address()[1])
        for _ in range(2):
            connection.ask(ATTRIBUTES)
        exposed_alone(hosts, witness, cases)
        later = hosts.keep(Server(hosts.keys('one', 1, SERVER, HEIGHT, 2), hosts.roster(2)))
        way.off()
        way.on(later.address)
        assert witness.status() == OTHER, witness.said()
        assert witness.lines[-1] == 'a server goes by another roster', witness.lines
        assert re.search(f'{TIME} nfsacc: server 1 began epoch 2\n$', witness.said()), witness.said()
        assert not any('greets another roster' in line for line in witness.lines), witness.lines
        hosts.witness({1: way.address}).wait_for('epoch 2')
    print('a witness whose server begins another epoch ends with 6')


def check_resets(program: str):
    """A peer that resets its connection within a record: a server and a witness say that it did."""
    with Hosts(program) as hosts:
        usual(hosts, HEIGHT, HEIGHT - 1)
        server = hosts.server('one')
        witness = hosts.witness({1: server.address()})
        for party in server, witness:
            peer = socket.create_connection(party.address())
            peer.setsockopt(socket.SOL_SOCKET, socket.SO_LINGER, struct.pack('ii', 1, 0))
            peer.sendall(word(0x80000028) + bytes(8))
            time.sleep(0.5)
            peer.close()
            wait_for_words(party, ': connection reset\n')
            assert 'device' not in party.said(), party.said()
    print('a peer that resets its connection is said to have done so')


def check_challenge(program: str):
    """A call that the server doesn't acknowledge by its signature goes to witnesses at once."""
    with Hosts(program) as hosts:
        usual(hosts)
        server = liar(hosts, UnsignedAck)
        other = hosts.keep(Witness(hosts.roster()))
        gateway = hosts.gateway('two', '2-2', server.address, other.address, every='1000')
        connection = Connection(gateway.address()[1])
        assert connection.ask(ATTRIBUTES) == owed(ATTRIBUTES)
        connection.send(record(LOOKUP))
        assert connection.is_cut()
        end = time.monotonic() + 60
        while not other.books[1].messages:
            assert time.monotonic() < end, 'no challenge came'
            time.sleep(0.1)
        [(envelope, _)] = other.books[1].messages.values()
        assert envelope.body == LOOKUP
    print('a call without an acknowledgement that is signed goes to witnesses at once')


def check_breaks(program: str, count: int = 120):
    """The way to the server breaks again and again, at any byte: each reply comes, and no call is made twice."""
    with Hosts(program) as hosts:
        height = (2 * count).bit_length()
        usual(hosts, height, height)
        server = hosts.server('one')
        proxy = hosts.keep(Proxy(server.address(), 1, 600000))
        gateway = hosts.gateway('two', '2-2', proxy.address)
        made = make_calls(gateway.address(), count)
        compare(log_of(server.address(), hosts.roster()), made)
        assert proxy.cuts > 3, f'{proxy.cuts} cuts'
    print(f'{count} calls, and {proxy.cuts} breaks of the way to the server: each reply comes, no call is made twice')


def check_ranges(program: str):
    """One number is a range, too: the only number of a gateway, the only epoch of a member, the only node of `ask`."""
    with Hosts(program) as hosts:
        usual(hosts, epochs='1')
        server = hosts.server('one')
        witness = hosts.witness({1: server.address()})
        gateway = hosts.gateway('two', '2', server.address(), witness.address())
        gateway.wait_for('node 2, epoch 1, 64 keys made')
        status, told = hosts.ask(witness.address(), '2')
        assert (status, list(told)) == (0, [2]), told
        gateway.kill()
        assert hosts.gateway('two', '2', server.address()).status() == INPUT
        for nodes in '0', '65', '02', '2-', '-2', '2-2-2', '3-2', '1-65', ' 2', '+2', '2 ', '':
            status, _, said = hosts.run('ask', f'--nodes={nodes}', spelled(witness.address()))
            owed_status = 0 if nodes == '02' else COMMAND_LINE
            assert status == owed_status, (nodes, status, said)
    print('one number is a range, too')


def check_status(program: str):
    """What a server, a gateway and a witness say of themselves; 4 where nobody answers."""
    with Hosts(program) as hosts:
        usual(hosts)
        of_server, of_gateway, of_witness = (hosts.state(name) for name in ('s1', 's2', 's3'))
        server = hosts.server('one', '--audit', '127.0.0.1:0', state=of_server)
        audits = server.address('audits')
        told = hosts.status_of(of_server)
        assert 'audited to' not in told and int(told.pop('memory')[0].removesuffix(' KiB')) > 100, told
        assert told == {'kind': ['server'], 'node': ['1'], 'epoch': ['1'], 'keys left': ['128'], 'calls': ['0'],
                        'connections': ['0']}, told
        witness = hosts.witness({1: audits}, state=of_witness)
        gateway = hosts.gateway('two', '2', server.address(), witness.address(), state=of_gateway)
        connection = Connection(gateway.address()[1])
        for _ in range(3):
            assert connection.ask(ATTRIBUTES) == owed(ATTRIBUTES)
        last = last_number(server.address(), hosts)
        hosts.wait_until(witness.address(), are_trusted(last))
        told = hosts.status_of(of_server)
        assert (told['keys left'], told['calls'], told['audited to']) == (['122'], ['3'], [str(last)]), told
        assert int(told['connections'][0]) >= 1, told
        told = hosts.status_of(of_gateway)
        assert (told['kind'], told['node'], told['calls']) == (['gateway'], ['2'], ['3']), told
        assert (told['epoch'], told['keys left']) == (['1'], ['58']), told
        told = hosts.status_of(of_witness)
        assert told['kind'] == ['witness'] and told['node'][0] == f'1 trusted 0 to {last}', told
        for party, state in (gateway, of_gateway), (witness, of_witness), (server, of_server):
            assert hosts.stop(party, state) == 0
            status, printed, said = hosts.run('status', str(state))
            assert (status, printed) == (DEVICE, '') and said.startswith(f'nfsacc: {state}/control: '), said
    print('a server, a gateway and a witness say how they are, and nobody does once they have ended')


def check_log_file(program: str):
    """Each line of a process goes to its log file, too, at the end, for its owner alone and with its time; the file may
    be emptied meanwhile. A gateway's cause and a witness's lines stand there once, and each has one time."""
    with Hosts(program) as hosts:
        usual(hosts)
        files = {name: hosts.folder / f'{name}.log' for name in ('server', 'gateway', 'witness')}
        files['server'].write_text('an older line\n')
        state = hosts.state()
        server = hosts.server('one', '--log-file', str(files['server']), state=state)
        witness = hosts.witness({1: server.address()}, '--log-file', str(files['witness']))
        gateway = hosts.gateway('two', '2', server.address(), witness.address(), more=('--log-file', str(files['gateway'])))
        connection = Connection(gateway.address()[1])
        assert connection.ask(ATTRIBUTES) == owed(ATTRIBUTES)
        connection.send(word(0x7fffffff))
        assert connection.socket.recv(1) == b''
        witness.wait_for(r'\S+Z 1 trusted 0 to \d+')
        assert files['gateway'].stat().st_mode & 0o777 == 0o600
        assert timed_lines(files['server'], after='an older line\n') == server.lines
        said = [line.split('Z ')[-1] for line in witness.lines]
        assert timed_lines(files['witness'])[:len(said)] == said
        caused = timed_lines(files['gateway'])
        assert caused[:-1] == gateway.lines and re.fullmatch(r'nfsacc: 127\.0\.0\.1:\d+: .+', caused[-1]), caused
        assert re.fullmatch(rf'{TIME} {re.escape(caused[-1])}\n', gateway.said()), gateway.said()
        os.truncate(files['server'], 0)
        assert hosts.stop(server, state) == 0
        assert timed_lines(files['server']) == ['stopped']
        status, _, said = hosts.run('server', *server.process.args[2:-1], str(hosts.folder / 'none' / 'server.log'))
        assert status == DEVICE and 'server.log' in said, (status, said)
    print('each line of a process goes to its log file, too, with its time')


TIME = r'\d{4}-\d\d-\d\dT\d\d:\d\d:\d\dZ'


def timed_lines(file: Path, after: str = '') -> list[str]:
    """The lines of a log file, after those that stood there before, without their times."""
    text = file.read_text()
    assert text.startswith(after), text
    lines = [re.fullmatch(rf'{TIME} (.*)', line) for line in text.removeprefix(after).splitlines()]
    assert all(lines) and text.endswith('\n'), text
    return [line[1] for line in lines]


class NoRoom(Witness):
    """It has no room for what it is shown, until it is given some. What it asks for itself it takes."""
    has_room = False

    def deliver(self, packet: bytes) -> bytes:
        is_shown = packet[:4] == word(AUTHENTICATOR) and threading.current_thread() is not threading.main_thread()
        return word(REFUSED + NO_ROOM) if is_shown and not self.has_room else super().deliver(packet)


def wait_assured(hosts: Hosts, state: Path, witness: Address, holds: Callable[[int | None], bool], by=lambda: None):
    """Waits until this holds of the number up to which a witness answers for a gateway's replies."""
    end = time.monotonic() + 60
    while True:
        by()
        lines = hosts.status_of(state).get('witness', [])
        words = dict(line.split(' assured ') for line in lines)
        said = words.get(spelled(witness))
        if said is not None and holds(None if said == 'of none' else int(said.removeprefix('to '))):
            return
        assert time.monotonic() < end, lines
        time.sleep(0.3)


def check_progress(gateway: Party, witness: Address, reply: int):
    """A gateway says as it goes what its status says of a witness, whenever that has changed."""
    said = rf'nfsacc: witness {re.escape(spelled(witness))}: assured (of none|to \d+)$'
    end = time.monotonic() + 60
    while not any(words.startswith('to ') and int(words[3:]) >= reply
                  for words in re.findall(said, gateway.said(), re.MULTILINE)):
        assert time.monotonic() < end, gateway.said()
        time.sleep(0.2)
    lines = re.findall(said, gateway.said(), re.MULTILINE)
    assert all(line != following for line, following in zip(lines, lines[1:])), lines


def check_assured(program: str):
    """A gateway says up to which number each witness answers for its replies: no further than the witness has taken
    what the server signed and has audited the server, of which one that takes its place knows nothing; and not at all
    where it calls the server exposed. With `--progress` it says so as it goes."""
    with Hosts(program) as hosts:
        usual(hosts)
        state, server = hosts.state('gateway'), hosts.server('one')
        ours, other = hosts.witness({1: server.address()}), hosts.keep(NoRoom(hosts.roster()))
        way = hosts.keep(Switch(other.address))
        gateway = hosts.gateway('two', '2-2', server.address(), ours.address(), way.address, state=state,
                                more=('--progress',))
        connection = Connection(gateway.address()[1])
        for _ in range(5):
            assert connection.ask(ATTRIBUTES) == owed(ATTRIBUTES)
        replies = [each.number + 2 for each in log_of(server.address(), hosts.roster()).calls]
        wait_assured(hosts, state, ours.address(), lambda to: to is not None and to >= replies[-1])
        check_progress(gateway, ours.address(), replies[-1])
        for witness in other, hosts.keep(NoRoom(hosts.roster())):
            def audit(witness=witness):
                assert witness.round({1: server.address()}) == {}

            way.off()
            way.on(witness.address)
            while witness.books[1].end < replies[-1]:
                audit()
            wait_assured(hosts, state, way.address, lambda to: to == replies[0] - 1, audit)
            time.sleep(2)
            wait_assured(hosts, state, way.address, lambda to: to == replies[0] - 1, audit)
            witness.has_room = True
            wait_assured(hosts, state, way.address, lambda to: to is not None and to >= replies[-1], audit)
    with Hosts(program) as hosts:
        usual(hosts)
        state = hosts.state('gateway')
        server = hosts.keep(WrongReply(hosts.keys('one', 1, SERVER, 7), hosts.roster(), at=3))
        witness, cases = watched(hosts, server)
        gateway = hosts.gateway('two', '2-2', server.address, witness.address(), state=state)
        connection = Connection(gateway.address()[1])
        for _ in range(2):
            assert connection.ask(ATTRIBUTES) == owed(ATTRIBUTES)
        wait_assured(hosts, state, witness.address(), lambda to: to is not None and to >= 7)
        assert connection.ask(ATTRIBUTES) != owed(ATTRIBUTES)
        assert exposed(hosts, witness, cases) is not None
        wait_assured(hosts, state, witness.address(), lambda to: to is None)
    print('a gateway says up to which reply each witness answers: not before it has taken what was signed, nor of a liar')


CHECKS = [check_late, check_late_lie, check_late_owed, check_goes_on, check_lie_between, check_below_base, check_meeting, check_bad_meetings, check_put_back, check_slow_readers, check_ask_many, check_server, check_strangers, check_assured, check_server_keys, check_three, check_rows, check_lie, check_fork, check_none, check_other_calls, check_suspected,
          check_other_witness, check_lives, check_second_roster, check_keys_used_up, check_ask,
          check_calls, check_breaks, check_garbage, check_same_call, check_in_flight,
          check_sixteen_in_flight, check_disorder, check_rough_in_flight, check_gives_up_in_flight, check_gateway_put_back, check_open_message, check_rough,
          check_round_trips, check_away, check_give_up, check_next_epoch, check_witness_epoch, check_witness_next_epoch,
          check_resets, check_ask_gateway, check_challenge, check_ranges, check_status,
          check_log_file, check_kills]


def main():
    parser = argparse.ArgumentParser()
    parser.add_argument('program')
    parser.add_argument('names', nargs='*')
    parser.add_argument('--calls', type=int)
    parser.add_argument('--kills', type=int)
    asked = parser.parse_intermixed_args()
    program = os.path.abspath(asked.program)
    counts = {check_calls: asked.calls, check_rough: asked.calls, check_kills: asked.kills}
    for check in CHECKS:
        if not asked.names or check.__name__.removeprefix('check_') in asked.names:
            count = counts.get(check)
            if count:
                check(program, count)
            else:
                check(program)


if __name__ == '__main__':
    main()
