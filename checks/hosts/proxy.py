"""Ways between a gateway and a server: ones that break, a long one, one on which other bytes come than the server's, one
that is off at times, and ones that count round trips."""

import socket
import sys
import threading
import time
from collections import Counter
from collections.abc import Callable
from queue import SimpleQueue
from random import Random

from peer.wire import ACKNOWLEDGE, DELIVER, MOST, Address, Broken, RecordReader, record, shut

PIECE = 4096
MOST_OF_ANY = 1 << 27


class Way:
    """Accepts connections, each of which has one to an address behind it."""

    def __init__(self, to: Address):
        self.to = to
        self.socket = socket.create_server(('127.0.0.1', 0))
        self.address: Address = self.socket.getsockname()
        threading.Thread(target=self.accept, daemon=True).start()

    def accept(self):
        while True:
            try:
                near, _ = self.socket.accept()
            except OSError:
                return
            try:
                self.join(near, socket.create_connection(self.to))
            except OSError:
                shut(near)

    def join(self, near: socket.socket, far: socket.socket):
        """Starts to carry between the two."""
        raise NotImplementedError

    def close(self):
        shut(self.socket)


class Proxy(Way):
    """Carries bytes to an address and back, and now and then cuts a connection, at any byte."""

    def __init__(self, to: Address, seed: int, most: int):
        self.random = Random(seed)
        self.most = most
        self.cuts = 0
        super().__init__(to)

    def join(self, near: socket.socket, far: socket.socket):
        bounds = [self.random.randrange(self.most), self.random.randrange(self.most)]
        for ends, bound in ((near, far), bounds[0]), ((far, near), bounds[1]):
            threading.Thread(target=self.carry, args=(*ends, bound), daemon=True).start()

    def carry(self, source: socket.socket, target: socket.socket, bound: int):
        """Carries up to so many bytes, and then breaks both ends."""
        try:
            while bound and (data := source.recv(min(bound, PIECE))):
                target.sendall(data)
                bound -= len(data)
            self.cuts += bound == 0
        except OSError:
            pass
        finally:
            shut(source)
            shut(target)


class Delay(Way):
    """Carries bytes to an address and back, each so many seconds later."""

    def __init__(self, to: Address, seconds: float):
        self.seconds = seconds
        super().__init__(to)

    def join(self, near: socket.socket, far: socket.socket):
        for end in near, far:
            end.setsockopt(socket.IPPROTO_TCP, socket.TCP_NODELAY, 1)
        for source, target in (near, far), (far, near):
            pieces: SimpleQueue[tuple[float, bytes]] = SimpleQueue()
            threading.Thread(target=self.take, args=(source, pieces), daemon=True).start()
            threading.Thread(target=self.give, args=(target, pieces), daemon=True).start()

    def take(self, source: socket.socket, pieces: 'SimpleQueue[tuple[float, bytes]]'):
        data = b'more'
        while data:
            try:
                data = source.recv(1 << 16)
            except OSError:
                data = b''
            pieces.put((time.monotonic() + self.seconds, data))

    def give(self, target: socket.socket, pieces: 'SimpleQueue[tuple[float, bytes]]'):
        while True:
            at, data = pieces.get()
            time.sleep(max(0.0, at - time.monotonic()))
            try:
                target.sendall(data)
            except OSError:
                data = b''
            if not data:
                shut(target)
                return


class Garbler(Way):
    """Carries calls one by one. What is answered to every other call of a procedure it replaces by what the next of
    these makes of it, and then breaks the connection; once each was given it carries these answers, too."""

    def __init__(self, to: Address, procedure: int, garbage: list[Callable[[bytes], bytes]]):
        self.procedure = procedure
        self.garbage = garbage
        self.given = 0
        self.carried = True
        super().__init__(to)

    def join(self, near: socket.socket, far: socket.socket):
        threading.Thread(target=self.serve, args=(near, far), daemon=True).start()

    def serve(self, near: socket.socket, far: socket.socket):
        calls, answers = RecordReader(near), RecordReader(far)
        try:
            while (call := calls.next(MOST)) is not None:
                far.sendall(record(call))
                answer = answers.next(MOST_OF_ANY)
                garbage = self.next_garbage(call)
                near.sendall(garbage(answer) if garbage else record(answer))
                if garbage:
                    return
        except (Broken, OSError):
            pass
        finally:
            shut(near)
            shut(far)

    def next_garbage(self, call: bytes) -> Callable[[bytes], bytes] | None:
        """What replaces the answer to a call, if something does."""
        if procedure_of(call) != self.procedure or self.given == len(self.garbage):
            return None
        self.carried = not self.carried
        if self.carried:
            return None
        self.given += 1
        return self.garbage[self.given - 1]


def procedure_of(call: bytes) -> int:
    return int.from_bytes(call[20:24], 'big')


def carry(source: socket.socket, target: socket.socket):
    """Carries all bytes, and then breaks both ends."""
    try:
        while data := source.recv(1 << 16):
            target.sendall(data)
    except OSError:
        pass
    finally:
        shut(source)
        shut(target)


class Switch(Way):
    """Carries bytes to an address and back while it is on. While it is off each connection breaks."""

    def __init__(self, to: Address):
        self.is_on = True
        self.ends: list[socket.socket] = []
        super().__init__(to)

    def join(self, near: socket.socket, far: socket.socket):
        self.ends += [near, far]
        if not self.is_on:
            self.off()
        for ends in (near, far), (far, near):
            threading.Thread(target=carry, args=ends, daemon=True).start()

    def off(self):
        self.is_on = False
        for end in self.ends:
            shut(end)
        self.ends = []

    def on(self, to: Address | None = None):
        """On again, to another address if one is given."""
        self.to = to or self.to
        self.is_on = True


class Turns(Way):
    """Carries calls one by one, and counts round trips: the answers that were awaited before the next call came. The
    answer to an ACKNOWLEDGE is kept until then, so who waits for it waits for long."""

    def __init__(self, to: Address):
        self.trips = 0
        super().__init__(to)

    def join(self, near: socket.socket, far: socket.socket):
        threading.Thread(target=self.serve, args=(near, far), daemon=True).start()

    def serve(self, near: socket.socket, far: socket.socket):
        calls, answers, kept = RecordReader(near), RecordReader(far), b''
        try:
            while (call := calls.next(MOST)) is not None:
                far.sendall(record(call))
                kept += record(answers.next(MOST_OF_ANY))
                if procedure_of(call) != ACKNOWLEDGE:
                    self.trips += 1
                    near.sendall(kept)
                    kept = b''
        except (Broken, OSError):
            pass
        finally:
            shut(near)
            shut(far)


class Waves(Way):
    """Carries calls, and keeps what is answered to DELIVER until so many of these calls came, over all connections: then
    their answers go, which is one round trip for all of them. Counts the calls and the connections."""

    def __init__(self, to: Address, many: int):
        self.many = many
        self.came = 0
        self.connections = 0
        self.changed = threading.Condition()
        super().__init__(to)

    def join(self, near: socket.socket, far: socket.socket):
        self.connections += 1
        numbers: SimpleQueue[int | None] = SimpleQueue()
        for carry_some, ends in (self.carry_calls, (near, far)), (self.carry_answers, (far, near)):
            threading.Thread(target=carry_some, args=(*ends, numbers), daemon=True).start()

    def carry_calls(self, near: socket.socket, far: socket.socket, numbers: 'SimpleQueue[int | None]'):
        calls = RecordReader(near)
        try:
            while (call := calls.next(MOST)) is not None:
                numbers.put(self.count() if procedure_of(call) == DELIVER else None)
                far.sendall(record(call))
        except (Broken, OSError):
            pass
        finally:
            shut(near)
            shut(far)

    def count(self) -> int:
        """One more call came: how many came before it."""
        with self.changed:
            self.came += 1
            self.changed.notify_all()
            return self.came - 1

    def carry_answers(self, far: socket.socket, near: socket.socket, numbers: 'SimpleQueue[int | None]'):
        answers = RecordReader(far)
        try:
            while (answer := answers.next(MOST_OF_ANY)) is not None:
                number = numbers.get()
                if number is not None:
                    with self.changed:
                        self.changed.wait_for(lambda: self.came >= (number // self.many + 1) * self.many)
                near.sendall(record(answer))
        except (Broken, OSError):
            pass
        finally:
            shut(near)
            shut(far)


class Swaps(Way):
    """Carries records. Now and then it keeps what is answered until the next answer on that connection has gone, or it
    carries it twice."""

    def __init__(self, to: Address, seed: int, every: int):
        """In one of so many answers."""
        self.random = Random(seed)
        self.every = every
        self.swaps = 0
        self.repeats = 0
        super().__init__(to)

    def join(self, near: socket.socket, far: socket.socket):
        seen: Counter[str] = Counter()
        for carry_some, ends in (self.carry_calls, (near, far)), (self.carry_answers, (far, near)):
            threading.Thread(target=carry_some, args=(*ends, seen), daemon=True).start()

    def carry_calls(self, near: socket.socket, far: socket.socket, seen: Counter[str]):
        calls = RecordReader(near)
        try:
            while (call := calls.next(MOST)) is not None:
                seen['calls'] += 1
                far.sendall(record(call))
        except (Broken, OSError):
            pass
        finally:
            shut(near)
            shut(far)

    def carry_answers(self, far: socket.socket, near: socket.socket, seen: Counter[str]):
        answers, kept = RecordReader(far), b''
        try:
            while (answer := answers.next(MOST_OF_ANY)) is not None:
                seen['answers'] += 1
                data, chance = record(answer), self.random.randrange(2 * self.every)
                if chance == 0 and not kept and seen['calls'] > seen['answers']:
                    kept = data
                    continue
                self.swaps += kept != b''
                self.repeats += chance == 1
                near.sendall(data + kept + (data if chance == 1 else b''))
                kept = b''
        except (Broken, OSError):
            pass
        finally:
            shut(near)
            shut(far)


class Rough(Way):
    """Carries records, and now and then drops one, keeps it for a while, carries it twice or after an earlier one, or cuts
    the connection in its middle. A connection on which a record was dropped is cut some time later. Counts connections,
    and the calls that come over them."""

    FAULTS = ('drop', 'delay', 'repeat', 'earlier', 'cut')

    def __init__(self, to: Address, seed: int, every: int):
        """A fault in one of so many records."""
        self.random = Random(seed)
        self.every = every
        self.faults: Counter[str] = Counter()
        self.connections = 0
        self.calls: Counter[int] = Counter()
        super().__init__(to)

    def join(self, near: socket.socket, far: socket.socket):
        self.connections += 1
        for ends in (near, far, self.count), (far, near, lambda _: None):
            threading.Thread(target=self.carry, args=ends, daemon=True).start()

    def smooth(self):
        """Carries each record from now on as it came."""
        self.every = sys.maxsize

    def count(self, call: bytes):
        """Counts the calls that come, by their procedures."""
        self.calls[procedure_of(call)] += 1

    def carry(self, source: socket.socket, target: socket.socket, note: Callable[[bytes], None]):
        reader, earlier = RecordReader(source), b''
        try:
            while (body := reader.next(MOST_OF_ANY)) is not None:
                note(body)
                fault = self.random.choice(self.FAULTS) if self.random.randrange(self.every) == 0 else ''
                self.faults[fault] += 1
                self.carry_record(fault, record(body), earlier, target)
                earlier = record(body)
        except (Broken, OSError):
            pass
        finally:
            shut(source)
            shut(target)

    def carry_record(self, fault: str, data: bytes, earlier: bytes, target: socket.socket):
        if fault == 'drop':
            threading.Timer(0.3, shut, (target,)).start()
            return
        if fault == 'delay':
            time.sleep(self.random.random() / 4)
        before = {'repeat': data, 'earlier': earlier}.get(fault, b'')
        target.sendall(before + data[:self.random.randrange(len(data)) if fault == 'cut' else len(data)])
        if fault == 'cut':
            raise Broken('cut')
