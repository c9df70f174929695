#!/usr/bin/env python3
"""nfsacc serve from outside: clients at once, hostile ones among them, each reply as it is owed, the lines in the end,
and command lines that are refused.

usage: checks/serve.py PROGRAM
"""

import os
import socket
import sys
import tempfile
import threading
import time
from datetime import datetime, timezone
from hashlib import sha256
from pathlib import Path
from random import Random

sys.dont_write_bytecode = True
from serve.client import ROOT, Connection, call, credential, mount_call, record, sattr  # noqa: E402
from serve.service import Service, all_good, run, trusted  # noqa: E402
from verifier.keys import digest, read_roster  # noqa: E402
from verifier.mount import World  # noqa: E402
from verifier.nfs import Files  # noqa: E402
from verifier.rpc import reply_to  # noqa: E402
from verifier.xdr import Reader, opaque, word  # noqa: E402

EPOCH = (0, 0)
NULL = bytes.fromhex('00000001 00000000 00000002 000186a3 00000002 00000000 00000000 00000000 00000000 00000000')
NULL_REPLY = bytes.fromhex('00000001 00000001 00000000 00000000 00000000 00000000')
PROMPT = 15
FULL = 'nfsacc: standard output: No space left on device (os error 28)\n'


def new_world() -> World:
    return World(Files(1))


def heights(server: int, client: int) -> list[str]:
    return ['--server-height', str(server), '--client-height', str(client)]


def at_once(jobs: list) -> list:
    """Runs these at once: what each gives, or the first error."""
    results: list = [None] * len(jobs)
    errors: list[BaseException] = []

    def work(place: int):
        try:
            results[place] = jobs[place]()
        except BaseException as error:  # pylint: disable=broad-except
            errors.append(error)

    threads = [threading.Thread(target=work, args=(place,)) for place in range(len(jobs))]
    for thread in threads:
        thread.start()
    for thread in threads:
        thread.join()
    if errors:
        raise errors[0]
    return results


def null_client(port: int) -> bytes:
    connection = Connection(port)
    reply = connection.ask(NULL)
    connection.close()
    return reply


# ---- clients at once

def serve_null(program: str, count: int):
    """So many clients at once, with the heights that a run has by itself."""
    service = Service(program, count)
    replies = at_once([lambda: null_client(service.port)] * count)
    assert replies == [NULL_REPLY] * count, replies
    all_good(service, count)


def check_one_and_two(program: str):
    at_once([lambda: serve_null(program, 1), lambda: serve_null(program, 2)])
    print('one client and two at once, with the keys that a run has by itself: each reply, and everybody trusted')


def check_one_more(program: str):
    """A client past COUNT is refused at once, or cut where it came before the last place was taken."""
    service = Service(program, 1, *heights(2, 2))
    served, early = Connection(service.port), late_connection(service.port)
    assert served.ask(NULL) == NULL_REPLY
    assert early is None or early.is_cut()
    assert refuses(service.port), 'a client past COUNT is not refused'
    assert served.ask(NULL) == NULL_REPLY
    served.finish()
    all_good(service, 1)
    print('one client more than are served: it is refused at once, and the one that is served goes on')


def late_connection(port: int) -> Connection | None:
    """A connection, if it isn't refused."""
    try:
        return Connection(port)
    except ConnectionRefusedError:
        return None


def refuses(port: int) -> bool:
    """Whether connections are refused, within five seconds."""
    for _ in range(50):
        connection = late_connection(port)
        if connection is None:
            return True
        connection.close()
        time.sleep(0.1)
    return False


def check_sixteen(program: str):
    service = Service(program, 16, *heights(6, 2))
    replies = at_once([lambda: null_client(service.port)] * 16)
    assert replies == [NULL_REPLY] * 16, replies
    all_good(service, 16)
    print('sixteen clients at once: each reply, and everybody trusted')


class Worker:
    """A connection that makes calls on files that it shares with others, and keeps each with its reply."""

    def __init__(self, port: int, number: int, seed: int):
        self.connection = Connection(port)
        self.number = number
        self.random = Random(seed * 100 + number)
        self.made: list[tuple[bytes, bytes]] = []
        self.xid = number << 16

    def ask(self, procedure: int, arguments: bytes) -> bytes:
        self.xid += 1
        body = call(self.xid, procedure, arguments)
        reply = self.connection.ask(body)
        assert reply[:4] == body[:4], 'a reply to another call'
        self.made.append((body, reply))
        return reply

    def name(self) -> bytes:
        return opaque(b'w%d.%d' % (self.number, self.xid))

    def create(self) -> bytes:
        """A file in the root: its handle."""
        reply = self.ask(9, ROOT + self.name() + sattr(0o644))
        assert reply[24:28] == word(0), reply
        return reply[28:60]

    def step(self, handle: bytes):
        """One call, in whose reply the time stands at which the server heard it."""
        choice = self.random.randrange(4)
        if choice == 0:
            self.create()
        elif choice == 1:
            self.ask(2, ROOT + sattr(0o777))
        else:
            data = self.random.randbytes(self.random.choice([1, 40, 512, 3000]))
            self.ask(8, handle + word(0, self.random.randrange(600), 0) + opaque(data))

    def work(self, calls: int) -> list[tuple[bytes, bytes]]:
        handle = self.create()
        for _ in range(calls - 1):
            self.step(handle)
        return self.made


def time_in(body: bytes, reply: bytes) -> tuple[int, int]:
    """When the server heard a call: the last change of the file whose attributes the reply ends with."""
    start = len(reply) - 8
    assert reply[24:28] == word(0), (body, reply)
    return int.from_bytes(reply[start:start + 4], 'big'), int.from_bytes(reply[start + 4:], 'big')


def comes_next(world: World, body: bytes, reply: bytes) -> int | None:
    """Whether a call of a worker may be the next that the server heard, by its reply: the lower, the sooner. The server
    gives calls that waited for one another the same time, so that doesn't tell their order."""
    procedure = int.from_bytes(body[20:24], 'big')
    if procedure == 8:
        return 0
    if procedure == 2:
        return 1 if reply[-16:-8] == word(*world.files.files[1].mtime) else None
    return 2 if int.from_bytes(reply[32:36], 'big') == world.files.next_number else None


def check_order(made: list[list[tuple[bytes, bytes]]], began: float, ended: float):
    """The replies are those that one service alone owes to the calls, in an order in which each connection's calls keep
    theirs, and times don't fall. They are the system's, between those at which the calls began and ended."""
    waiting = [[(time_in(*one), *one) for one in reversed(calls)] for calls in made]
    world, before = new_world(), (int(began), 0)
    for _ in range(sum(map(len, made))):
        heads = [(calls[-1][0], comes_next(world, *calls[-1][1:]), place)
                 for place, calls in enumerate(waiting) if calls]
        now = min(head[0] for head in heads)
        ready = [(how, place) for moment, how, place in heads if moment == now and how is not None]
        assert ready and now >= before, 'no call comes next'
        moment, body, reply = waiting[min(ready)[1]].pop()
        owed = reply_to(world, body, moment)
        assert reply == owed, f'{body.hex()} got {reply.hex()}, and {owed.hex() if owed else None} is owed'
        before = now
    assert before[0] <= ended, f'the last time is {before}, and the calls ended at {ended}'


def check_thousands(program: str, calls: int = 125):
    service = Service(program, 16, *heights(12, 8))
    workers = [Worker(service.port, number, 1) for number in range(16)]
    began, start = time.time(), time.monotonic()
    made = at_once([lambda worker=worker: worker.work(calls) for worker in workers])
    seconds, before = time.monotonic() - start, service.spent()
    for worker in workers:
        worker.connection.close()
    all_good(service, 16)
    # The audits check four signatures a call, and to check one takes a twentieth of a millisecond at least.
    audits = service.seconds - before
    assert audits >= 16 * calls * 4 / 20000, f'the audits took {audits} seconds'
    check_order(made, began, time.time())
    print(f'{16 * calls} calls by sixteen connections at once: each reply is the one that is owed '
          f'({16 * calls / seconds:.0f} a second)')


# ---- records, however they come

def check_cuts(program: str):
    service = Service(program, 2, *heights(6, 5))
    cut, piped = Connection(service.port), Connection(service.port)
    for place in (1, 4, 20, 39):
        cut.send(record(NULL, place))
        assert cut.reply() == NULL_REPLY
    for byte in record(NULL, 4, 8):
        cut.send(bytes([byte]))
    assert cut.reply() == NULL_REPLY
    lookup = call(3, 4, ROOT + opaque(b'hello'))
    names = [NULL, mount_call(7, 1, opaque(b'/')), lookup, b'no call', call(9, 1, ROOT)]
    piped.send(b''.join(record(body) for body in names))
    world = new_world()
    owed = [reply_to(world, body, EPOCH) for body in names]
    assert owed[3] is None
    assert [piped.reply() for _ in range(4)] == [reply for reply in owed if reply is not None]
    cut.finish()
    piped.finish()
    all_good(service, 2)
    print('records in fragments, byte by byte and five at once: each reply, and none where none is owed')


# ---- hostile clients

def stops_reading(service: Service) -> Connection:
    """Asks for much more than what lies between it and the server, and reads nothing of it."""
    connection = Connection(service.port, small=True)
    handle = connection.ask(call(1, 9, ROOT + opaque(b'big') + sattr(0o644)))[28:60]
    assert connection.ask(call(2, 8, handle + word(0, 0, 0) + opaque(bytes(8192))))[24:28] == word(0)
    asked = record(call(3, 6, handle + word(0, 8192, 0)))
    connection.socket.settimeout(2)
    try:
        connection.send(asked * 400)
    except TimeoutError:
        pass
    return connection


def good_client(service: Service, calls: int, half_way=None) -> list[float]:
    """Makes calls, and gives how long each took. Half way it does this."""
    connection, took = Connection(service.port), []
    world = new_world()
    for xid in range(calls):
        if half_way and xid == calls // 2:
            half_way()
        body = call(xid, 4, ROOT + opaque(b'hello'))
        start = time.monotonic()
        reply = connection.ask(body)
        took.append(time.monotonic() - start)
        owed = reply_to(world, body, EPOCH)
        assert reply[:60] == owed[:60], (reply, owed)
    connection.finish()
    return took


def faults(said: str) -> dict[int, str]:
    """What is said of each node: a line each."""
    found = {}
    for line in said.splitlines():
        assert line.startswith('nfsacc: node ') and '127.0.0.1:' in line, line
        found[int(line.split()[2])] = line.split(': ', 2)[2]
    return found


def check_hostile(program: str):
    service = Service(program, 6, *heights(10, 9))
    deaf = stops_reading(service)
    half = Connection(service.port)
    half.send(record(NULL) + record(NULL)[:20])
    assert half.reply() == NULL_REPLY
    reset = Connection(service.port)
    assert reset.ask(NULL) == NULL_REPLY
    reset.send(record(NULL)[:10])
    reset.reset()
    garbage = Connection(service.port)
    garbage.send(b'GET / HTTP/1.1\r\nHost: nobody\r\n\r\n')
    assert garbage.ends()
    endless = Connection(service.port)
    send_endless(endless)
    longest = max(good_client(service, 40))
    assert longest < PROMPT, f'a reply took {longest} seconds'
    assert service.process.poll() is None, 'it ended before its connections did'
    half.close()
    garbage.close()
    endless.close()
    deaf.reset()
    status, lines, said = service.end()
    assert (status, lines) == (0, trusted(6)), (status, lines, said)
    found = faults(said)
    assert found.get(2, '').startswith(('fault 4', 'fault 6')) and found.get(3, '').startswith('fault 5'), said
    assert found.get(4) == 'fault 4: connection reset', said
    assert found.get(5, '').startswith('fault 3') and found.get(6, '').startswith('fault 3'), said
    assert 7 not in found, said
    print('a client that stops reading, half a record, a reset, garbage and an endless record: each loses only itself')


def send_endless(connection: Connection):
    """A record of fragments without a last one."""
    try:
        for _ in range(200):
            connection.send(word(100) + bytes(100))
    except OSError:
        pass


class Hostile(threading.Thread):
    """A client that does something hostile again and again until it is told to stop, its connection ends, or its turns are
    over."""

    def __init__(self, port: int, act, turns: int, pause: float = 0.0):
        super().__init__()
        self.connection = Connection(port)
        self.act = act
        self.turns = turns
        self.pause = pause
        self.told = threading.Event()
        self.error: AssertionError | None = None

    def run(self):
        try:
            for turn in range(self.turns):
                if self.told.wait(self.pause):
                    return
                self.act(self.connection, turn)
        except (OSError, EOFError):
            pass
        except AssertionError as error:
            self.error = error

    def stop(self):
        self.told.set()
        self.join()
        self.connection.close()
        if self.error:
            raise self.error


def send_random(connection: Connection, turn: int):
    connection.send(Random(turn).randbytes(3000))


def send_fragments(connection: Connection, _turn: int):
    connection.send(word(0) * 50)


def send_half(connection: Connection, turn: int):
    if turn == 0:
        connection.send(record(NULL)[:30])


def send_and_reset(connection: Connection, turn: int):
    if turn == 0:
        connection.send(record(NULL) + record(NULL)[:10])
        connection.reset()


def send_byte(connection: Connection, turn: int):
    """A byte of records that are no calls."""
    connection.send(record(b'no call')[turn % 11:turn % 11 + 1])


def take_keys(connection: Connection, turn: int):
    """Records that are no calls take a key each of their client and of the server, calls take two. One record that is no
    call, and calls after it, leave their client a single key, with which a call would take two of the server."""
    if turn == 0:
        connection.send(record(b'no call'))
    else:
        assert connection.ask(NULL) == NULL_REPLY


def take_keys_singly(connection: Connection, turn: int):
    """Records of the greatest length that are no calls: as many as there are keys."""
    connection.send(record(Random(turn).randbytes(12288)))


CROWD = [(send_random, 20, 0.05)] * 3 + [(send_fragments, 400, 0.1)] * 3 + [(send_half, 1, 0.0)] * 2 + [
    (send_and_reset, 1, 0.0)] * 2 + [(send_byte, 60, 1.0)] * 2 + [(take_keys, 80, 0.0)] * 2 + [(take_keys_singly, 80, 0.0)]


# What the program may have at once, in MiB: there are keys for 512 calls, a call takes some 0.6 with all that the witness
# keeps of it, and records of the greatest length take 1.4 times as much.
CROWD_MEMORY = 512


def middle(times: list[float]) -> float:
    return sorted(times)[len(times) // 2]


def check_crowd(program: str):
    """Fifteen hostile clients, and one that makes as many calls as its keys allow: half of them while three others take
    all their keys. All keys of the clients together are as many as the server's."""
    calls = 32
    idle = Service(program, 1, *heights(10, 6))
    alone = good_client(idle, calls)
    all_good(idle, 1)
    service = Service(program, 16, *heights(10, 6))
    crowd = [Hostile(service.port, *one) for one in CROWD]
    for one in crowd:
        one.start()
    beside = good_client(service, calls, lambda: wait_for_takers(crowd))
    assert service.process.poll() is None, 'it ended before its connections did'
    for one in crowd:
        one.stop()
    status, lines, said = service.end()
    assert (status, lines) == (0, trusted(16)), (status, lines, said)
    check_crowd_faults(crowd, faults(said))
    assert max(beside) < PROMPT, beside
    assert service.peak < CROWD_MEMORY, f'{service.peak} MiB'
    taken, others = middle(beside[:calls // 2]), middle(beside[calls // 2:])
    print(f'fifteen hostile clients of sixteen: the sixteenth has all {calls} replies, after {taken * 1000:.1f} ms while '
          f'three take all their keys, {others * 1000:.1f} ms beside the others (alone {middle(alone) * 1000:.1f} ms); '
          f'peak memory {service.peak:.0f} MiB')


def wait_for_takers(crowd: list[Hostile]):
    """Until those who take all their keys have none left, and their audits, which take a part of a second, are over."""
    for one in crowd:
        if one.act in (take_keys, take_keys_singly):
            one.join()
    time.sleep(1)


def check_crowd_faults(crowd: list[Hostile], found: dict[int, str]):
    """What is said of hostile clients: those that break records are told so, and those that take all keys."""
    for place, one in enumerate(crowd):
        if one.act in (send_random, send_half):
            assert place + 2 in found, (place, found)
    assert sum(fault == 'fault 6: keys used up' for fault in found.values()) == 3, found


def check_keys_used_up(program: str):
    service = Service(program, 2, *heights(2, 1))
    first, second = Connection(service.port), Connection(service.port)
    first.send(record(b'no call') + record(NULL))
    assert first.ends()
    assert second.ask(NULL) == NULL_REPLY
    first.close()
    second.finish()
    status, lines, said = service.end()
    assert (status, lines) == (0, trusted(2)), (status, lines, said)
    assert faults(said) == {2: 'fault 6: keys used up'}, said
    service = Service(program, 2, *heights(1, 2))
    first, second = Connection(service.port), Connection(service.port)
    assert first.ask(NULL) == NULL_REPLY
    second.send(record(NULL))
    assert second.ends()
    first.close()
    second.close()
    status, lines, said = service.end()
    assert (status, lines) == (0, trusted(2)), (status, lines, said)
    assert faults(said) == {3: 'fault 6: keys used up'}, said
    print('a client whose keys are used up is told, and the other one is served; so it is where the server\'s are')


def check_closes_early(program: str):
    """Clients that go before their replies come, so that the server writes to nobody."""
    service = Service(program, 3, *heights(7, 6))
    for _ in range(2):
        connection = Connection(service.port)
        connection.send(record(NULL) * 20)
        connection.reset()
    good_client(service, 10)
    status, lines, said = service.end()
    assert (status, lines) == (0, trusted(3)), (status, lines, said)
    assert set(faults(said)) <= {2, 3}, said
    print('clients that go before their replies come: the others are served, and everybody is audited')


# ---- times, patience and ends

def write_once(connection: Connection, xid: int, handle: bytes) -> tuple[int, int]:
    """The time at which the server heard a WRITE: its seconds and microseconds."""
    body = call(xid, 8, handle + word(0, 0, 0) + opaque(b'x'))
    return time_in(body, connection.ask(body))


def check_times(program: str):
    """The times of calls are the system's, to the microsecond, and don't fall."""
    service = Service(program, 1, *heights(6, 6))
    connection = Connection(service.port)
    began = time.time_ns() // 1000
    handle = connection.ask(call(1, 9, ROOT + opaque(b'f') + sattr(0o644)))[28:60]
    times = [write_once(connection, xid, handle) for xid in range(2, 14)]
    ended = time.time_ns() // 1000
    assert times == sorted(times) and any(micros for _, micros in times), times
    assert all(began <= seconds * 1000000 + micros <= ended for seconds, micros in times), (began, times, ended)
    connection.finish()
    all_good(service, 1)
    print('the times of calls are the system\'s, to the microsecond')


def check_shortage(program: str):
    """Where the program may open no more files a connection waits until another one has ended, and takes no place before."""
    service = Service(program, 4, *heights(4, 2), before='ulimit -n 9')
    clients = [Connection(service.port) for _ in range(4)]
    for client in clients:
        assert client.ask(NULL) == NULL_REPLY
        client.finish()
    status, lines, said = service.end()
    assert (status, lines) == (0, trusted(4)), (status, lines, said)
    told = said.splitlines()
    assert told and set(told) == {'nfsacc: no connection is accepted for now: Too many open files (os error 24)'}, said
    print('where the program may open no more files, connections wait, and take no place before they are accepted')


def check_idle(program: str):
    """A silent connection ends in its time, within a record with fault 5; one that calls now and then stays."""
    for options in ([], ['--control']):
        with tempfile.TemporaryDirectory() as folder:
            service = Service(program, 3, *heights(6, 4), '--idle', '2', *options, *([folder] if options else []))
            silent, half, busy = (Connection(service.port) for _ in range(3))
            half.send(record(NULL)[:20])
            start = time.monotonic()
            while time.monotonic() - start < 4:
                assert busy.ask(NULL) == NULL_REPLY
                time.sleep(0.8)
            assert silent.ends() and half.ends()
            busy.finish()
            status, lines, said = service.end()
            assert (status, lines) == (0, trusted(3)), (status, lines, said)
            assert list(faults(said)) == [3] and faults(said)[3].startswith('fault 5'), said
    print('with --idle silent connections end in their time, and others go on')


def tell(folder: str, *words: bytes):
    """Sends each of these to the control socket, by a connection of its own."""
    for one in words:
        with socket.socket(socket.AF_UNIX) as control:
            control.connect(f'{folder}/control')
            control.sendall(one)


def check_control(program: str):
    """The word of the control socket ends the run in order: silent clients and one that stops reading are cut, and everybody
    is audited."""
    with tempfile.TemporaryDirectory() as folder:
        service = Service(program, 8, *heights(10, 7), '--control', folder)
        silent, asking, deaf = Connection(service.port), Connection(service.port), stops_reading(service)
        tell(folder, b'stop', b'start\n', b'stopp\n', b'\nstop\n', b'')
        time.sleep(0.5)
        assert asking.ask(NULL) == NULL_REPLY
        status, _, said = run(program, 'serve', '0', '1', *heights(1, 1), '--control', folder)
        assert status == 4 and said.startswith(f'nfsacc: {folder}/control: Address already in use'), (status, said)
        start = time.monotonic()
        tell(folder, b'stop\n')
        assert silent.ends() and asking.ends()
        assert refuses(service.port), 'a client is accepted after the end'
        status, lines, said = service.end()
        assert (status, lines) == (0, trusted(8)), (status, lines, said)
        assert 'nfsacc: told to stop\n' in said and time.monotonic() - start < 60, said
        assert not os.path.exists(f'{folder}/control'), 'the socket is left'
        deaf.close()
    print('the control socket ends a run in order, and everybody is audited')


def check_left_control(program: str):
    """A control socket that a killed run has left makes room; what isn't one stays."""
    with tempfile.TemporaryDirectory() as folder:
        killed = Service(program, 1, *heights(1, 1), '--control', folder)
        killed.process.kill()
        killed.process.wait()
        killed.watch.cancel()
        service = Service(program, 2, *heights(2, 1), '--control', folder)
        assert null_client(service.port) == NULL_REPLY
        tell(folder, b'stop\n')
        status, lines, said = service.end()
        assert (status, lines, said) == (0, trusted(2), 'nfsacc: told to stop\n'), (status, lines, said)
        Path(folder, 'control').write_text('mine')
        status, _, said = run(program, 'serve', '0', '1', *heights(1, 1), '--control', folder)
        assert status == 4 and Path(folder, 'control').read_text() == 'mine', (status, said)
    print('a control socket that a killed run has left makes room, and nothing else does')


# ---- files and devices

def check_devices(program: str):
    if os.path.exists('/dev/full'):
        status, _, said = run(program, 'serve', '0', '1', *heights(1, 1), output='/dev/full')
        assert (status, said) == (4, FULL), (status, said)
        status, printed, said = run(program, 'serve', '0', '1', *heights(1, 1), '--roster-out', '/dev/full')
        assert (status, printed) == (4, b'') and said.startswith('nfsacc: /dev/full: '), (status, printed, said)
    status, printed, said = run(program, 'serve', '0', '1', *heights(1, 1), '--roster-out', 'no folder/roster')
    assert (status, printed) == (4, b'') and said.startswith('nfsacc: no folder/roster: '), (status, printed, said)
    for folder in ('no folder', sys.argv[0], '/proc'):
        status, printed, said = run(program, 'serve', '0', '1', *heights(1, 1), '--evidence', folder)
        assert (status, printed) == (4, b'') and said.startswith(f'nfsacc: {folder}: '), (status, printed, said)
    service = Service(program, 1, *heights(3, 2))
    status, _, said = run(program, 'serve', str(service.port), '1', *heights(1, 1))
    assert status == 4 and said.startswith(f'nfsacc: 127.0.0.1:{service.port}: '), (status, said)
    service.process.stdout.close()
    assert null_client(service.port) == NULL_REPLY
    assert service.process.wait() == 4, service.said()
    assert service.said() == 'nfsacc: standard output: Broken pipe (os error 32)\n', service.said()
    service.watch.cancel()
    print('a full device, a folder that is none, a port that is taken and a closed pipe end with their status')


def check_closed_devices(program: str):
    """Standard error full or closed: what would be said goes nowhere, and to no client."""
    for shell in ('2> /dev/full', '2>&-', '<&- 2>&-'):
        service = Service(program, 2, *heights(3, 2), '--progress', shell=shell)
        quiet, loud = Connection(service.port), Connection(service.port)
        assert quiet.ask(NULL) == NULL_REPLY
        loud.send(b'GET / HTTP/1.1\r\n')
        assert loud.ends()
        loud.close()
        assert quiet.ask(NULL) == NULL_REPLY
        quiet.finish()
        all_good(service, 2)
    print('where standard error is full or closed, everybody is served and told nothing of others')


def root_of(master: bytes, height: int) -> bytes:
    """The public key of a master secret."""
    level = []
    for leaf in range(2**height):
        hashes = b''.join(digest(digest(master + word(leaf, place, bit))) for place in range(256) for bit in (0, 1))
        level.append(digest(b'\0' + hashes))
    while len(level) > 1:
        level = [digest(b'\1' + left + right) for left, right in zip(level[::2], level[1::2])]
    return level[0]


def untimed(lines: list[str]) -> list[str]:
    """Lines without the times that they begin with, which are the system's and don't fall."""
    times = [datetime.strptime(line.split(' ')[0], '%Y-%m-%dT%H:%M:%SZ') for line in lines]
    now = datetime.now(timezone.utc).replace(tzinfo=None)
    assert times == sorted(times) and all(abs(now - moment).total_seconds() < 600 for moment in times), lines
    return [line.split(' ', 1)[1] for line in lines]


def check_roster(program: str):
    secret = bytes(range(32))
    with tempfile.TemporaryDirectory() as name:
        folder = Path(name)
        master = folder / 'master'
        master.write_bytes(secret)
        master.chmod(0o600)
        for options, of in (([], lambda node: bytes(28) + word(node)),
                            (['--master', str(master)], lambda node: sha256(secret + word(node) + word(1)).digest())):
            roster = folder / 'roster'
            roster.unlink(missing_ok=True)
            service = Service(program, 2, *heights(2, 1), '--roster-out', str(roster), '--progress', *options)
            members = read_roster(Reader(roster.read_bytes()))
            assert [(one.node, one.kind, one.height) for one in members.values()] == [(1, 1, 2), (2, 2, 1), (3, 2, 1)]
            assert [one.root for one in members.values()] == [
                root_of(of(node), height) for node, height in ((1, 2), (2, 1), (3, 1))]
            at_once([lambda: null_client(service.port)] * 2)
            status, lines, said = service.end()
            assert (status, lines) == (0, trusted(2)), (status, lines, said)
            made = [f'nfsacc: node {node}: {keys} keys made' for node, keys in ((1, 4), (2, 2), (3, 2))]
            clients = [f'nfsacc: node {node}: audited to 3' for node in (2, 3)]
            # Its second reply, which may stand before or after the first one's acknowledgement.
            server = [f'nfsacc: node 1: audited to {number}' for number in (6, 7)]
            told = untimed(said.splitlines())
            assert told[:3] == made and sorted(told[3:5]) == clients and told[5:] in ([one] for one in server), said
        outside = Service(program, 1, *heights(1, 1), '--address', '0.0.0.0', '--master', str(master))
        status, printed, said = run(program, 'serve', '0', '1', '--master', str(master))
        assert (status, printed, said) == (4, b'', f'nfsacc: {master}: another process uses it\n'), (status, said)
        assert null_client(outside.port) == NULL_REPLY
        all_good(outside, 1)
        spent = Path(f'{master}.spent')
        assert spent.read_text() == 'run 1\nrun 2\n' and spent.stat().st_mode & 0o777 == 0o600, spent.read_text()
    print('the roster is there before it listens, with the keys that their master secrets make; each run has keys of its own')


def check_bases(program: str):
    """After each three of ten calls the server logs a CHECK, whose base stands in its folder once the next call is logged."""
    with tempfile.TemporaryDirectory() as name:
        service = Service(program, 1, *heights(6, 5), '--check-every', '3', '--base-out', name)
        connection = Connection(service.port)
        for _ in range(10):
            assert connection.ask(NULL) == NULL_REPLY
        connection.close()
        status, lines, said = service.end()
        assert (status, lines) == (0, trusted(1)), (status, lines, said)
        assert sorted(os.listdir(name)) == ['node-1.13.base', 'node-1.26.base', 'node-1.39.base'], os.listdir(name)
        for number in (13, 26, 39):
            status, printed, said = run(program, 'base', f'{name}/node-1.{number}.base')
            assert (status, printed, said) == (0, f'base 1 {number}\n'.encode(), ''), (status, printed, said)
        status, printed, said = run(program, 'serve', '0', '1', '--base-out', f'{name}/none')
        assert (status, printed) == (4, b'') and f'{name}/none' in said, (status, said)
    print('after each three calls a base stands in its folder, and is good')


def check_addresses(program: str):
    """Loopback addresses, which want no secret bytes."""
    tried = []
    for address in ('127.0.0.2', '::1'):
        status, _, said = run(program, 'serve', '0', '1', *heights(1, 1), '--address', address, output='/dev/full')
        if status == 4 and said.startswith(f'nfsacc: [{address}]:0: '):
            print(f'skipped: {address} is no address of this machine')
            continue
        assert (status, said) == (4, FULL), (address, status, said)
        tried.append(address)
    service = Service(program, 1, *heights(1, 1), '--address', '127.0.0.2')
    connection = Connection(service.port, address='127.0.0.2')
    assert connection.ask(NULL) == NULL_REPLY
    connection.finish()
    all_good(service, 1)
    print(f'addresses of this machine alone want no secret bytes: {", ".join(tried)}')


# ---- command lines

REFUSED = [
    ['65536', '1'], ['-1', '1'], ['+1', '1'], ['', '1'], ['x', '1'], ['0x1', '1'], ['1 ', '1'], ['99999999999', '1'],
    ['0', '0'], ['0', '17'], ['0', ''], ['0', '+1'], ['0', '1.0'], ['0'], ['0', '1', '2'], [],
    ['0', '1', '--server-height', '0'], ['0', '1', '--server-height', '16'], ['0', '1', '--client-height', '16'],
    ['0', '1', '--client-height', 'x'], ['0', '1', '--server-height'], ['0', '1', '--progress', '--progress'],
    ['0', '1', '--address', '0.0.0.0'], ['0', '1', '--address', '::'], ['0', '1', '--address', 'localhost'],
    ['0', '1', '--address', '127.0.0.256'], ['0', '1', '--address', '10.0.0.1'], ['0', '1', '--no-such'],
    ['0', '1', '--idle', '0'], ['0', '1', '--idle', '86401'], ['0', '1', '--idle', '1.5'], ['0', '1', '--idle'],
    ['0', '1', '--control'], ['0', '1', '--log-version', '0'], ['0', '1', '--log-version', '3'],
    ['0', '1', '--log-version', 'x'], ['0', '1', '--log-version'], ['0', '1', '--check-every', '0'],
    ['0', '1', '--check-every', '16385'], ['0', '1', '--check-every'], ['0', '1', '--base-out'],
]


# Modes and sizes of files that are no master secret, each with the status of `serve`. Nobody but the owner may use it.
NO_MASTERS = [(0o600 | bit, 32, 2) for bit in (0o40, 0o20, 0o10, 0o4, 0o2, 0o1)] + [(0o600, size, 1) for size in (31, 33, 0)]


# What a file beside a secret may not say.
NO_SPENT = [b'\n', b'run 1', b'run 01\n', b'run 0\n', b'run 4294967296\n', b'run 2\nrun 2\n', b'run 2\nrun 1\n', b'run 1 \n',
            b'run 1\r\n', b'\xff\n']


def check_spent(program: str, folder: Path):
    """A run whose number can't be noted beside its secret doesn't begin."""
    master = folder / 'master'
    master.write_bytes(bytes(32))
    master.chmod(0o600)
    spent = Path(f'{master}.spent')
    for text in NO_SPENT:
        spent.write_bytes(text)
        status, printed, said = run(program, 'serve', '0', '1', '--master', str(master))
        wanted = f'nfsacc: {spent}: it does not say what was begun with a secret\n'
        assert (status, printed, said) == (1, b'', wanted) and spent.read_bytes() == text, (text, status, said)
    spent.write_bytes(b'run 4294967295\n')
    status, printed, said = run(program, 'serve', '0', '1', '--master', str(master))
    assert (status, printed, said) == (1, b'', f'nfsacc: {spent}: no number is left for a run\n'), (status, said)
    spent.unlink()
    spent.mkdir()
    status, printed, said = run(program, 'serve', '0', '1', '--master', str(master))
    assert (status, printed) == (4, b'') and said.startswith(f'nfsacc: {spent}: '), (status, said)
    spent.rmdir()
    for other in (folder / 'soft', folder / 'hard'):
        if other.name == 'soft':
            other.symlink_to(master)
        else:
            other.hardlink_to(master)
        status, printed, said = run(program, 'serve', '0', '1', '--master', str(other))
        assert (status, said) == (2, f'nfsacc: {other}: it is a link, or has another name\n'), (status, said)
        other.unlink()
    assert not spent.exists()


def check_refused(program: str):
    for words in REFUSED:
        status, printed, said = run(program, 'serve', *words)
        assert (status, printed) == (2, b'') and said, (words, status, printed, said)
    with tempfile.TemporaryDirectory() as name:
        for mode, size, wanted in NO_MASTERS:
            master = Path(name) / f'{mode}.{size}'
            master.write_bytes(bytes(size))
            master.chmod(mode)
            status, printed, said = run(program, 'serve', '0', '1', '--master', str(master))
            assert (status, printed) == (wanted, b'') and str(master) in said, (mode, size, status, said)
        status, printed, said = run(program, 'serve', '0', '1', '--master', f'{name}/none')
        assert (status, printed) == (4, b'') and f'{name}/none' in said, (status, said)
        status, printed, said = run(program, 'serve', '0', '1', '--master', name)
        assert (status, printed) == (4, b'') and said.startswith(f'nfsacc: {name}: Is a directory'), (status, said)
        status, printed, said = run(program, 'serve', '0', '1', '--master', '/dev/null')
        assert (status, said) == (2, 'nfsacc: /dev/null: it is a device, and no file\n'), (status, said)
        status, printed, said = run(program, 'serve', '0', '1', '--master', '-', data=bytes(32))
        assert (status, said) == (4, "nfsacc: standard input: what is begun can't be noted beside it\n"), (status, said)
        check_spent(program, Path(name))
        Path(name).chmod(0o755)
        status, printed, said = run(program, 'serve', '0', '1', '--control', name)
        assert (status, said) == (2, f'nfsacc: {name}: others than its owner may use it\n'), (status, said)
        for folder in (f'{name}/none', f'{name}/{0o600}.33'):
            status, printed, said = run(program, 'serve', '0', '1', '--control', folder)
            assert (status, printed) == (4, b'') and said.startswith(f'nfsacc: {folder}: '), (status, said)
    status, printed, _ = run(program, 'serve', '--help')
    assert status == 0 and all(f'\n{height:>4} ' in printed.decode() for height in range(1, 16)), printed.decode()
    print(f'{len(REFUSED) + len(NO_MASTERS) + 1} command lines are refused; the help tells of each height')


CHECKS = [check_refused, check_devices, check_closed_devices, check_roster, check_addresses, check_one_and_two,
          check_one_more, check_sixteen, check_cuts, check_keys_used_up, check_closes_early, check_hostile, check_crowd,
          check_thousands, check_times, check_shortage, check_idle, check_bases, check_control, check_left_control]


def main():
    program = os.path.abspath(sys.argv[1])
    wanted = sys.argv[2:]
    for check in CHECKS:
        if not wanted or check.__name__.removeprefix('check_') in wanted:
            check(program)


if __name__ == '__main__':
    main()
