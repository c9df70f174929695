"""The small files that checks/evidence keeps of this generator: what readers were in doubt about."""

from dataclasses import replace
from random import Random

from verifier.evidence import Fork, Link, Showing, chain
from verifier.keys import CLIENT, SERVER
from verifier.log import SEND, Check, Clock, Send
from verifier.nfs import ROOT
from verifier.xdr import opaque, word

from . import gaps
from .kinds import file_of, nfs_as_user_0
from .logs import Cast, Log
from .signer import Signer


class Pair(Cast):
    """Node 1, who is accused, and client 2, with keys of height 3."""

    def __init__(self, kind: int):
        self.random = Random('stored')
        self.members = [Signer(1, kind, 'signer 0', 3), Signer(2, CLIENT, 'signer 1', 3)]
        self.stranger = Signer(3, CLIENT, 'stranger', 3)
        self.kept = 0


def replay_of(log: Log) -> bytes:
    return file_of(log.cast, log.signer.node, log.replay())


def client_clock() -> bytes:
    """A client's honest log: it reads its clock unasked, and sends without having heard."""
    log = Log(Pair(CLIENT))
    for entry in (Clock(1, 0), Clock(1, 0), Send(2, b'unasked'), Clock(2, 999999)):
        log.append(entry)
    log.append(log.check())
    return replay_of(log)


def member_left_out() -> bytes:
    """A server's honest log of an exchange, and a roster without the client: what it received is a stranger's there."""
    log = Log(Pair(SERVER))
    log.exchange(nfs_as_user_0(4, log.state.world.files.handle(ROOT) + opaque(b'hello')))
    return file_of(log.cast, 1, log.replay(), [log.signer.member()])


def kind_changed() -> bytes:
    """A client's honest log, and a roster that has the client as a server: its CLOCK is out of turn there."""
    log = Log(Pair(CLIENT))
    log.append(Clock(1, 0))
    members = [replace(member, kind=SERVER) if member.node == 1 else member for member in log.cast.roster().values()]
    return file_of(log.cast, 1, log.replay(), members)


def acknowledged() -> Log:
    """A client's log of a message and its ACK."""
    log = Log(Pair(CLIENT))
    log.append(Send(2, b'body'))
    log.append(log.acknowledgement(1))
    return log


def check_after_ack() -> bytes:
    log = acknowledged()
    log.append(log.check())
    return replay_of(log)


def wrong_check_after_ack() -> bytes:
    """The digest is that of the state before the ACK."""
    log = Log(Pair(CLIENT))
    log.append(Send(2, b'body'))
    before = log.state.digest()
    log.append(log.acknowledgement(1))
    log.append(Check(before), honest=False)
    return replay_of(log)


def second_ack() -> bytes:
    log = acknowledged()
    log.append(log.entries[-1], honest=False)
    return replay_of(log)


def first_0() -> bytes:
    """A showing whose first is 0, signed over all that it says."""
    cast = Pair(SERVER)
    signer, opening, link = cast.accused(), bytes(31) + b'\1', Link(SEND, bytes(32))
    closing = signer.sign(0, chain(opening, 0, [link])[-1])
    return file_of(cast, 1, Fork(0, [Showing(1, 0, opening, [link], closing)]))


def other_handle() -> bytes:
    """GETATTR with the handle of server 2's root, which is STALE at server 1."""
    log = Log(Pair(SERVER))
    log.exchange(nfs_as_user_0(1, word(2, ROOT) + bytes(24)))
    return replay_of(log)


def odd_name() -> bytes:
    """LOOKUP of a back quote and a line feed, to which OK is answered where NOENT is owed."""
    log = Log(Pair(SERVER))
    log.append(log.message(nfs_as_user_0(4, log.state.world.files.handle(ROOT) + opaque(b'`\n'))))
    log.append(log.clock())
    owed = log.state.owed
    log.append(replace(owed, body=owed.body[:-4] + word(0)), honest=False)
    return replay_of(log)


def long_write() -> bytes:
    """A WRITE of 8,192 bytes, and the state after it."""
    log = Log(Pair(SERVER))
    arguments = log.state.world.files.handle(2) + word(0, 0, 0) + opaque(log.random.randbytes(8192))
    log.exchange(nfs_as_user_0(8, arguments))
    log.append(log.check())
    return replay_of(log)


def hidden_entry() -> bytes:
    """A log of version 2: number 3 is signed, and what is shown of the log skips it."""
    return gaps.hidden_entry(Random('hidden_entry 0'), 0).data


def other_before() -> bytes:
    """A log of version 2 whose first entry is 6, and the same links after 3, with a first count that fits: it ends in
    another hash."""
    return gaps.other_before(Random('other_before 0'), 0).data


def wrong_reply_after_gap() -> bytes:
    """A log of version 2 whose first entry is 6: its reply, number 8, isn't the one that is owed."""
    return gaps.lie(Random('wrong_reply_after_gap 0'), 0).data


STORED = [client_clock, check_after_ack, wrong_check_after_ack, second_ack, first_0, other_handle, odd_name,
          long_write, member_left_out, kind_changed, hidden_entry, other_before, wrong_reply_after_gap]
