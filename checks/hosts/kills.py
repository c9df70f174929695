"""A story in which the server, the gateway and the witness are killed again and again, and each is begun anew."""

import re
import signal
import threading
import time
from collections import Counter
from collections.abc import Callable
from dataclasses import replace
from random import Random

from peer.keys import Keys
from peer.wire import NODE, WITNESS, Address
from serve.calls import Calls
from serve.client import Connection
from verifier.keys import CLIENT, MAX_MEMBERS, SERVER

from .parties import PATIENCE, TOLD, Hosts, Party
from .recorder import NOWHERE, Book, Recorder

KILLED = -signal.SIGKILL
STOPPED, DEVICE, KEYS_USED_UP, OTHER = 0, 4, 5, 6
SERVER_HEIGHT, CLIENT_HEIGHT = 9, 6
SPARE_EPOCHS, SPARE_NODES = 5, 10
PROGRAMS = 3
LONGEST_PAUSE = 0.4
LONGEST_LIFE = 2.0


class Lives(threading.Thread):
    """A process that is begun again whenever it ends, as by a service manager, until it is told to be over."""

    def __init__(self, begin: Callable[[], Party | None], is_up: Callable[[Party], None], is_down: Callable[[], None],
                 statuses: set[int]):
        """It may end with these statuses, and with DEVICE before it listens."""
        super().__init__(daemon=True)
        self.begin, self.is_up, self.is_down = begin, is_up, is_down
        self.statuses = statuses
        self.party: Party | None = None
        self.ends: list[tuple[int, list[str], str]] = []
        self.is_over = False
        self.why = ''

    def run(self):
        while not self.is_over and (party := self.begin()):
            self.party = party
            while party.process.poll() is None and not listens(party):
                time.sleep(0.005)
            if listens(party):
                self.is_up(party)
            status = party.status(None)
            self.is_down()
            self.note_end(party, status)
            time.sleep(0.3 if status == DEVICE else 0.05)

    def note_end(self, party: Party, status: int):
        said = party.said()
        party.errors.close()
        party.process.stdout.close()
        self.ends.append((status, party.lines, said))
        if status not in self.statuses | (set() if listens(party) else {DEVICE}) and not self.is_over:
            self.why = f'{party.process.args[1]} ended with {status}: {party.lines} {said!r}'
            self.is_over = True

    def kill(self) -> bool:
        """Kills it, whatever it is about. Whether it didn't end otherwise."""
        party = self.party
        if party is None or party.process.poll() is not None:
            return False
        party.process.kill()
        return party.process.wait(PATIENCE) == KILLED

    def finish(self):
        """Ends it for good."""
        self.is_over = True
        if self.party is not None:
            self.party.process.kill()
        self.join(PATIENCE)


def listens(party: Party) -> bool:
    return any(line.startswith('listening ') for line in party.lines)


class Program(threading.Thread):
    """A local program: it calls all the time, and connects anew where its connection is gone. No call comes again."""

    def __init__(self, story: 'Story', number: int):
        super().__init__(daemon=True)
        self.story = story
        self.calls = Calls(number)
        self.random = Random(number)
        self.sent: list[bytes] = []
        self.answered: list[tuple[bytes, bytes]] = []
        self.is_over = False
        self.why = ''

    def run(self):
        while not self.is_over:
            address = self.story.gateway_at
            try:
                if address:
                    self.use(Connection(address[1]))
            except TimeoutError:
                self.why = 'no answer came for a minute'
                return
            except (EOFError, OSError):
                pass
            time.sleep(0.02)

    def use(self, connection: Connection):
        try:
            while not self.is_over:
                body = self.calls.next_call()
                self.sent.append(body)
                reply = connection.ask(body)
                self.answered.append((body, reply))
                self.calls.take(body, reply)
                time.sleep(self.random.uniform(0, LONGEST_PAUSE))
        finally:
            connection.close()


class Story:
    """A server with epochs, a gateway with numbers from 2 on, a witness that goes by the server's epoch, and programs.
    Each kill comes after so many seconds, and is of one of the three, by its place among `lives`."""

    def __init__(self, hosts: Hosts, kills: list[tuple[float, int]]):
        self.hosts = hosts
        self.kills = kills
        epochs = Counter(place for _, place in kills)[0] + SPARE_EPOCHS
        nodes = min(MAX_MEMBERS, len(kills) + SPARE_NODES)
        self.nodes = f'2-{nodes}'
        all_epochs = f'1-{epochs}'
        clients = [hosts.member_lines('two', node, CLIENT, CLIENT_HEIGHT, all_epochs) for node in range(2, nodes + 1)]
        hosts.rosters(hosts.member_lines('one', 1, SERVER, SERVER_HEIGHT, all_epochs), *clients)
        self.book = Book({epoch: hosts.roster(epoch) for epoch in range(1, epochs + 1)})
        self.to_server = hosts.keep(Recorder(NODE, self.book))
        self.to_witness = hosts.keep(Recorder(WITNESS, self.book))
        self.states = [hosts.state(name) for name in ('of_server', 'of_gateway', 'of_witness')]
        self.cases = hosts.state('cases')
        self.lock = threading.Lock()
        self.epoch: int | None = None
        self.gateway_at: Address | None = None
        self.witness_epochs: list[tuple[Party, int]] = []
        self.servers = Lives(self.begin_server, self.server_is_up, self.server_is_down, {KILLED, KEYS_USED_UP})
        self.gateways = Lives(self.begin_gateway, self.gateway_is_up, self.gateway_is_down,
                              {KILLED, KEYS_USED_UP, OTHER})
        self.witnesses = Lives(self.begin_witness, self.witness_is_up, self.witness_is_down, {KILLED, OTHER})
        self.lives = [self.servers, self.gateways, self.witnesses]
        self.programs = [Program(self, number) for number in range(1, PROGRAMS + 1)]

    # ---- the server

    def begin_server(self) -> Party:
        return self.hosts.server('one', state=self.states[0])

    def server_is_up(self, party: Party):
        """The witness of an earlier epoch can't be reached from then on. It ends by itself."""
        epoch = int(party.wait_for(r'epoch (\d+), \d+ keys made')[1])
        with self.lock:
            self.epoch = epoch
            if self.witness_epochs and self.witness_epochs[-1][1] != epoch:
                self.to_witness.to = NOWHERE
            self.to_server.to = party.address()

    def server_is_down(self):
        with self.lock:
            self.epoch, self.to_server.to = None, NOWHERE

    # ---- the witness

    def begin_witness(self) -> Party:
        return self.hosts.witness({1: self.to_server.address}, '--evidence', str(self.cases), state=self.states[2])

    def witness_is_up(self, party: Party):
        """It listens once a server has greeted it, and goes by the epoch of that one."""
        epoch = int(party.wait_for(r'epoch (\d+)')[1])
        with self.lock:
            self.witness_epochs.append((party, epoch))
            if epoch == self.epoch:
                self.to_witness.to = party.address()

    def witness_is_down(self):
        self.to_witness.to = NOWHERE

    # ---- the gateway

    def begin_gateway(self) -> Party:
        return self.hosts.gateway('two', self.nodes, self.to_server.address, self.to_witness.address,
                                  state=self.states[1])

    def gateway_is_up(self, party: Party):
        self.gateway_at = party.address()

    def gateway_is_down(self):
        self.gateway_at = None

    # ---- the story

    def run(self):
        """All are killed as it is planned; then calls go on, and all is audited."""
        for each in *self.lives, *self.programs:
            each.start()
        try:
            for pause, place in self.kills:
                time.sleep(pause)
                while not self.lives[place].kill():
                    self.see_to_it()
                    time.sleep(0.01)
            self.settle()
            self.stop()
        finally:
            for each in *self.programs, *self.lives:
                each.is_over = True
            for lives in self.lives:
                lives.finish()

    def see_to_it(self):
        for each in *self.lives, *self.programs:
            assert not each.why, each.why
        assert not self.book.faults, self.book.faults

    def wait(self, holds: Callable[[], bool]):
        end = time.monotonic() + PATIENCE
        while not holds():
            self.see_to_it()
            assert time.monotonic() < end, [lives.party and lives.party.lines for lives in self.lives]
            time.sleep(0.1)

    def settle(self):
        """Each program gets three more replies, and the witness has audited what the server then signed."""
        goal = [len(program.answered) + 3 for program in self.programs]
        self.wait(lambda: all(len(program.answered) >= count for program, count in zip(self.programs, goal)))
        for program in self.programs:
            program.is_over = True
        for program in self.programs:
            program.join(PATIENCE)
        self.wait(self.all_is_audited)

    def all_is_audited(self) -> bool:
        at, epoch = self.to_witness.to, self.epoch
        if at == NOWHERE or epoch is None:
            return False
        _, told = self.hosts.ask(at, '1')
        return told.get(1, ('', 0, 0))[0] == 'trusted' and told[1][2] >= self.book.last[epoch, 1]

    def stop(self):
        """All end when they are told to."""
        self.wait(lambda: self.gateway_at is not None)
        for place in 1, 2, 0:
            lives = self.lives[place]
            lives.is_over = True
            assert self.hosts.stop(lives.party, self.states[place]) == STOPPED, lives.party.lines

    # ---- what is held against it in the end

    def judge(self):
        self.see_to_it()
        assert not list(self.cases.iterdir()), 'there is evidence'
        for lives in self.servers, self.gateways:
            begun = [lines[0] for _, lines, _ in lives.ends if lines]
            assert len(set(begun)) == len(begun), begun
        for party, epoch in self.witness_epochs:
            self.judge_lines(epoch, party.lines)
        for program in self.programs:
            self.judge_program(program)

    def judge_lines(self, epoch: int, lines: list[str]):
        """A witness exposes nobody, and trusts nobody beyond what was signed."""
        for line in lines:
            if match := re.match(rf'\S+Z {TOLD}', line):
                self.book.judge(epoch, int(match[1]), match[2] == 'trusted', match[2] == 'exposed', int(match[4]))
        assert not self.book.faults, self.book.faults

    def judge_program(self, program: Program):
        """No call went by two messages, and each reply is one that the server signed, in the epoch of its call."""
        messages = self.book.messages
        assert all(len(messages.get(body, ())) <= 1 for body in program.sent), 'a call went twice'
        for body, reply in program.answered:
            [(epoch, _, _)] = messages[body]
            assert any(named[:2] == (epoch, 1) for named in messages.get(reply, ())), 'a reply that wasn\'t signed'


def try_book():
    """A book finds a number that was signed twice, a key that signed twice, what isn't signed, and what a witness says
    too much."""
    keys = Keys(2, CLIENT, bytes(32), 2)
    book = Book({1: {2: keys.member()}})
    claim = keys.sign(1, bytes(32))
    keys.leaves.insert(0, claim.signature.leaf)
    for each in claim, claim, keys.sign(2, bytes(32)), keys.sign(1, bytes([1]) * 32), replace(claim, word=3):
        book.take(1, each)
    for end, is_exposed in (2, False), (3, False), (2, True):
        book.judge(1, 2, not is_exposed, is_exposed, end)
    found = [fault.partition(':')[0] for fault in book.faults]
    assert found == ['a key twice', 'two hashes', 'not signed', 'trusted to 3 beyond what was signed', 'exposed'], found


def check_kills(program: str, count: int = 6, seed: int = 2) -> Story:
    """The server, the gateway and the witness are killed at random moments, and begun anew: no number of a log is
    signed twice and no key signs twice, and a witness accuses nobody."""
    try_book()
    random = Random(seed)
    kills = [(random.uniform(0, LONGEST_LIFE), random.randrange(3)) for _ in range(count)]
    with Hosts(program) as hosts:
        story = Story(hosts, kills)
        story.run()
        story.judge()
    book, killed = story.book, Counter(place for _, place in kills)
    answered = sum(len(each.answered) for each in story.programs)
    epochs = len({epoch for epoch, node in book.last if node == 1})
    print(f'{killed[0]} kills of a server, {killed[1]} of a gateway, {killed[2]} of a witness, and {answered} calls: '
          f'{len(book.leaves)} signatures of {len(book.last)} nodes in {epochs} epochs, no number and no key twice; '
          'nobody is exposed')
    return story
