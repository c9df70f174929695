"""The replay of a log: the state of a node, the faults of an entry in their order, and what an entry does."""

from collections.abc import Callable
from dataclasses import dataclass, field
from enum import IntEnum

from .keys import SERVER, Authenticator, Roster, digest, is_signed
from .log import (ACK, CHECK, CLOCK, RECV, SEND, Ack, Clock, Entry, Recv, Send, hash_after, message_hash,
                  recv_content)
from .mount import World
from .nfs import DIRECTORY, File, Files, Time
from .rpc import reply_to
from .xdr import array, hyper, opaque, word

STATE_VERSION = 1
MAX_MICROSECONDS = 999999


class Fault(IntEnum):
    BAD_FORM = 1
    BAD_RECEIVE = 2
    REPEATED = 3
    WRONG_REPLY = 4
    CLOCK_BACK = 5
    WRONG_CHECKPOINT = 6
    BAD_ACK = 7


@dataclass(frozen=True)
class Sent:
    """A message that has no acknowledgement yet, with the hash in the log before its SEND."""
    to: int
    prev: bytes
    body_hash: bytes


@dataclass
class State:
    """The state of a node. A server has a world, and it `heard` a RECV, owes a SEND, or is idle."""
    node: int
    kind: int
    world: World
    clock: Time = (0, 0)
    received: set[tuple[int, int, bytes]] = field(default_factory=set)
    sent: dict[int, Sent] = field(default_factory=dict)
    heard: Recv | None = None
    owed: Send | None = None

    def is_idle_server(self) -> bool:
        return self.kind == SERVER and self.heard is None and self.owed is None

    def digest(self) -> bytes:
        """H of the text in which each file's text stands as its H, at the stage that it has."""
        return digest(self.text(digest))

    def text(self, of_file: Callable[[bytes], bytes] = bytes) -> bytes:
        """The text, or one that has something else of each file's text."""
        received = [word(sender) + hyper(seq) + at for sender, seq, at in sorted(self.received)]
        sent = [hyper(seq) + word(message.to) + message.prev + message.body_hash
                for seq, message in sorted(self.sent.items())]
        head = word(STATE_VERSION, self.node, self.kind, *self.clock)
        world = world_text(self.world, of_file) if self.kind == SERVER else b''
        return head + array(received) + array(sent) + self.stage() + world

    def stage(self) -> bytes:
        if self.heard is not None:
            return word(1, self.heard.sender) + opaque(self.heard.body)
        if self.owed is not None:
            return word(2, self.owed.to) + opaque(self.owed.body)
        return word(0)


def opening_state(node: int, kind: int) -> State:
    return State(node, kind, World(Files(node)))


def world_text(world: World, of_file: Callable[[bytes], bytes]) -> bytes:
    """The rest of a server's text."""
    mounts = array([opaque(machine) + opaque(path) for machine, path in world.mounts])
    files = [of_file(file_text(number, file)) for number, file in sorted(world.files.files.items())]
    return word(world.files.next_number) + mounts + array(files)


def file_text(number: int, file: File) -> bytes:
    head = word(number, file.kind, file.mode, file.uid, file.gid, *file.atime, *file.mtime, *file.ctime)
    if file.kind != DIRECTORY:
        return head + opaque(file.data)
    return head + word(file.next_cookie) + array(
        [opaque(name) + word(below, cookie) for name, (below, cookie) in file.entries.items()])


def fault_of(state: State, roster: Roster, entry: Entry) -> Fault | None:
    """The first fault that applies to an entry after a state."""
    if is_out_of_turn(state, entry):
        return Fault.BAD_FORM
    if is_wrong_reply(state, entry):
        return Fault.WRONG_REPLY
    if entry.kind == RECV:
        return fault_of_receive(state, roster, entry)
    if entry.kind == CLOCK and (entry.seconds, entry.microseconds) < state.clock:
        return Fault.CLOCK_BACK
    if entry.kind == ACK and not is_acknowledged(state, roster, entry):
        return Fault.BAD_ACK
    if entry.kind == CHECK and entry.digest != state.digest():
        return Fault.WRONG_CHECKPOINT
    return None


def is_out_of_turn(state: State, entry: Entry) -> bool:
    if entry.kind == CLOCK and entry.microseconds > MAX_MICROSECONDS:
        return True
    return state.kind == SERVER and (entry.kind == CLOCK) != (state.heard is not None)


def is_wrong_reply(state: State, entry: Entry) -> bool:
    if state.owed is not None:
        return entry != state.owed
    return state.is_idle_server() and entry.kind == SEND


def fault_of_receive(state: State, roster: Roster, entry: Recv) -> Fault | None:
    at = message_hash(state.node, entry)
    if entry.sender == state.node:
        return Fault.BAD_RECEIVE
    if not is_signed(roster, Authenticator(entry.sender, entry.seq, at, entry.signature)):
        return Fault.BAD_RECEIVE
    return Fault.REPEATED if (entry.sender, entry.seq, at) in state.received else None


def is_acknowledged(state: State, roster: Roster, entry: Ack) -> bool:
    """Whether an ACK is of a sent message, and its receiver signed that it has it."""
    message = state.sent.get(entry.seq)
    if message is None or message.to != entry.to:
        return False
    content = recv_content(state.node, entry.seq, message.prev, message.body_hash, entry.mine)
    receipt = hash_after(entry.prev, entry.number, RECV, digest(content))
    return is_signed(roster, Authenticator(entry.to, entry.number, receipt, entry.signature))


def step(state: State, entry_word: int, before: bytes, entry: Entry):
    """What an entry without fault does to the state; `before` is the hash before it."""
    if entry.kind == SEND:
        state.sent[entry_word] = Sent(entry.to, before, digest(entry.body))
        state.owed = None
    elif entry.kind == RECV:
        state.received.add((entry.sender, entry.seq, message_hash(state.node, entry)))
        state.heard = entry if state.kind == SERVER else None
    elif entry.kind == ACK:
        del state.sent[entry.seq]
    elif entry.kind == CLOCK:
        read_clock(state, entry)


def read_clock(state: State, entry: Clock):
    state.clock = (entry.seconds, entry.microseconds)
    if state.heard is not None:
        reply = reply_to(state.world, state.heard.body, state.clock)
        state.owed = None if reply is None else Send(state.heard.sender, reply)
        state.heard = None


def first_fault(roster: Roster, state: State, entries: list[Entry], words: list[int],
                hashes: list[bytes]) -> tuple[Fault, int] | None:
    """The first entry with a fault after a state, by its index; `words` has that of each entry, and `hashes` the hash
    before each. The state goes on with them."""
    for at, (entry, entry_word, before) in enumerate(zip(entries, words, hashes)):
        fault = fault_of(state, roster, entry)
        if fault is not None:
            return fault, at
        step(state, entry_word, before, entry)
    return None
