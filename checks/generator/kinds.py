"""Kinds of files of evidence: each function makes one, with the verdict that it is meant to have."""

from dataclasses import dataclass, replace
from random import Random

from verifier.evidence import MAX_ENTRIES, MAX_LINKS, Fork, Link, Replay, Showing, chain
from verifier.keys import CLIENT, MAX_MEMBERS, SERVER, ZEROS, Member, digest
from verifier.log import ACK, CHECK, CLOCK, RECV, SEND, Clock, Send
from verifier.mount import World
from verifier.nfs import ROOT, Files
from verifier.replay import Fault
from verifier.rpc import AUTH_SYS, MOUNT, NFS
from verifier.words import LOG_1
from verifier.xdr import opaque, word

from .calls import Caller
from .faults import FAULTS, any_entry, changed_signature, flipped
from .logs import Cast, Log
from .texts import authenticator_text, evidence_text, roster_text

GREATEST_PLACE = 2**64 - 2
Kind = int | None


@dataclass(frozen=True)
class Case:
    """A file, the node that it is meant to expose, and of a replay the fault and its entry's number. Where they are given,
    the reason why it is no evidence, and the byte at which the first item begins that doesn't decode."""
    data: bytes
    exposed: int | None = None
    fault: tuple[int, int] | None = None
    reason: str | None = None
    byte: int | None = None


def file_of(cast: Cast, node: int, charge: Fork | Replay, members: list[Member] | None = None) -> bytes:
    members = list(cast.roster().values()) if members is None else members
    return roster_text(members) + evidence_text(node, charge)


def replay_case(log: Log, fault: tuple[int, int] | None = None) -> Case:
    node = log.signer.node
    return Case(file_of(log.cast, node, log.replay()), None if fault is None else node, fault)


def honest_log(random: Random, kind: Kind = None, most: int = 12, kept: int = 0, version: int = LOG_1) -> Log:
    cast = Cast(random, kind, 3 if kept else 1, version)
    cast.kept = kept
    log = Log(cast)
    log.run(random.randint(0, most))
    cast.kept = 0
    return log


# Replays.

def honest_server(random: Random) -> Case:
    return replay_case(honest_log(random, SERVER, 25))


def honest_client(random: Random) -> Case:
    return replay_case(honest_log(random, CLIENT, 20))


def with_fault(random: Random, fault: Fault, kind: Kind = None, version: int = LOG_1) -> tuple[Log, tuple[int, int]]:
    """An honest log, an entry with the fault, and perhaps some after it."""
    log = honest_log(random, SERVER if fault == Fault.WRONG_REPLY else kind, 6, 6, version)
    log.append(FAULTS[fault](log), honest=False)
    number = log.numbers[-1]
    for _ in range(random.choice([0, 0, 1, 3])):
        log.append(any_entry(log), honest=False)
    return log, (fault, number)


def fault_kind(fault: Fault):
    return lambda random: replay_case(*with_fault(random, fault))


def other_start(random: Random) -> Case:
    """A replay that doesn't begin at 1 with zeros, though all that it says is signed."""
    log, _ = with_fault(random, Fault.BAD_RECEIVE)
    first, opening = random.choice([(0, ZEROS), (2, ZEROS), (1, random.randbytes(32)), (2**63, ZEROS)])
    hashes = chain(opening, first, links_of(log))
    closing = log.signer.sign(first + len(log.entries) - 1, hashes[-1])
    charge = Replay(log.signer.node, first, opening, log.entries, closing)
    return Case(file_of(log.cast, log.signer.node, charge))


def wrong_closing(random: Random) -> Case:
    log, _ = with_fault(random, Fault.BAD_RECEIVE)
    charge = log.replay()
    closing, member = charge.closing, log.cast.members[1]
    number, last = closing.word, closing.hash
    closing = random.choice([
        replace(closing, word=number + 1), replace(closing, node=member.node),
        replace(closing, hash=flipped(log, last)),
        replace(closing, signature=changed_signature(log, closing.signature)),
        log.cast.stranger.sign(number, last, node=log.signer.node), log.cast.stranger.sign(number, last),
        member.sign(number, last), log.cast.stranger.sign(number, last, node=member.node)])
    return Case(file_of(log.cast, log.signer.node, replace(charge, closing=closing)))


def misplaced_closing(random: Random) -> Case:
    """A closing that the node signed, but at another number or over another hash."""
    log, _ = with_fault(random, Fault.BAD_RECEIVE)
    number, last = len(log.entries), log.hashes[-1]
    closing = random.choice([(number + 1, last), (number - 1, log.hashes[-2]), (number, log.hashes[-2]),
                             (number, ZEROS), (GREATEST_PLACE, last)])
    charge = Replay(log.signer.node, 1, ZEROS, log.entries, log.signer.sign(*closing))
    return Case(file_of(log.cast, log.signer.node, charge))


def changed_entries(random: Random) -> Case:
    """Entries that are changed, left out, put in or exchanged after the closing was signed."""
    log, _ = with_fault(random, Fault.BAD_RECEIVE)
    charge, entries = log.replay(), list(log.entries)
    at = random.randrange(len(entries))
    choice = random.randrange(3)
    if choice == 0:
        del entries[at]
    elif choice == 1:
        entries.insert(at, Clock(1, 0))
    else:
        entries[at] = Send(1, random.randbytes(5))
    return Case(file_of(log.cast, log.signer.node, replace(charge, entries=entries)))


def other_nodes(random: Random) -> Case:
    """Evidence that names another node than its segment, or whose node is no member."""
    log, _ = with_fault(random, Fault.BAD_RECEIVE)
    cast, charge, node = log.cast, log.replay(), log.signer.node
    without = [member for member in cast.roster().values() if member.node != node]
    other = random.choice([cast.members[1].node, cast.stranger.node, 0, 2**32 - 1])
    return Case(random.choice([
        file_of(cast, other, charge), file_of(cast, node, replace(charge, node=other)),
        file_of(cast, other, replace(charge, node=other)),
        file_of(cast, node, charge, without), file_of(cast, node, charge, [])]))


def other_key(random: Random) -> Case:
    """A roster that has another root or height for the accused."""
    log, _ = with_fault(random, Fault.BAD_RECEIVE)
    roster = log.cast.roster()
    member = roster[log.signer.node]
    height = random.choice([each for each in range(1, 17) if each != member.height])
    roster[member.node] = random.choice([
        replace(member, root=flipped(log, member.root)), replace(member, height=height),
        replace(member, root=log.cast.members[1].tree.root())])
    return Case(file_of(log.cast, log.signer.node, log.replay(), list(roster.values())))


def other_members(random: Random) -> Case:
    """An honest log under a roster without one of those who sent a message, which exposes it."""
    log = honest_log(random, CLIENT, 8, kept=6)
    log.append(log.message(b'by one whom the roster lacks'))
    sender = log.entries[-1].sender
    numbered = list(enumerate(log.entries, start=1))
    unsigned = [(at, Fault.BAD_RECEIVE) for at, entry in numbered
                if entry.kind == RECV and entry.sender == sender]
    unsigned += [(at, Fault.BAD_ACK) for at, entry in numbered if entry.kind == ACK and entry.to == sender]
    number, fault = min(unsigned)
    members = [member for member in log.cast.roster().values() if member.node != sender]
    node = log.signer.node
    return Case(file_of(log.cast, node, log.replay(), members), node, (fault, number))


def other_kind(random: Random) -> Case:
    """A client's log, which begins with CLOCK, under a roster that calls it a server; or the other way."""
    kind = random.choice([SERVER, CLIENT])
    log = Log(Cast(random, kind, least_height=3))
    caller = Caller(random, log.state.world)
    for _ in range(3):
        if kind == SERVER:
            log.exchange(caller.call())
        else:
            log.append(log.clock())
    roster, node = log.cast.roster(), log.signer.node
    roster[node] = replace(roster[node], kind=SERVER + CLIENT - kind)
    fault = (Fault.BAD_FORM, 1) if kind == CLIENT else None
    data = file_of(log.cast, node, log.replay(), list(roster.values()))
    return Case(data, node if fault else None, fault)


def long_clocks(random: Random) -> Case:
    """A client's log of CLOCKs, as many as evidence has at most or one more; perhaps back at the end."""
    log = Log(Cast(random, CLIENT))
    count = random.choice([MAX_ENTRIES, MAX_ENTRIES + 1])
    for at in range(count - 1):
        log.append(Clock(1, at))
    back = random.choice([True, False])
    log.append(Clock(0, 0) if back else Clock(2, 0))
    return replay_case(log, (Fault.CLOCK_BACK, count) if back and count == MAX_ENTRIES else None)


# Calls of which a reader may be in doubt.

def call_as(program: int, version: int, procedure: int, arguments: bytes, machine: bytes = b'm') -> bytes:
    credential = word(AUTH_SYS) + opaque(word(0) + opaque(machine) + word(0, 0, 0))
    return word(7, 0, 2, program, version, procedure) + credential + word(0, 0) + arguments


def nfs_as_user_0(procedure: int, arguments: bytes) -> bytes:
    return call_as(NFS, 2, procedure, arguments)


def ended(log: Log, random: Random) -> Case:
    """The log as it is, or with a reply behind it that isn't owed."""
    if random.random() < 0.5:
        return replay_case(log)
    log.append(Send(log.cast.members[1].node, b'nobody asked'), honest=False)
    return replay_case(log, (Fault.WRONG_REPLY, len(log.entries)))


def full_disk(random: Random) -> Case:
    """Regular files that take all blocks, and then one more; and a write and a size that find no room."""
    log = Log(Cast(random, SERVER, least_height=6))
    root, ignored = log.state.world.files.handle(ROOT), word(*[2**32 - 1] * 3)
    for at in range(17):
        arguments = root + opaque(b'big%d' % at) + ignored + word(1048576) + word(*[2**32 - 1] * 4)
        log.exchange(nfs_as_user_0(9, arguments))
    for at in range(random.randint(1, 8)):
        log.exchange(Caller(random, log.state.world).nfs(random.choice([2, 8, 9, 13, 14, 17])))
    log.append(log.check())
    return ended(log, random)


def many_mounts(random: Random) -> Case:
    """As many mounts as a server has at most, and then one more."""
    log = Log(Cast(random, SERVER, least_height=6))
    for at in range(42):
        log.exchange(call_as(MOUNT, 1, 1, opaque(b'/'), b'machine %d' % (at % 41)))
    log.exchange(call_as(MOUNT, 1, 2, b''))
    log.append(log.check())
    return ended(log, random)


def long_write(random: Random) -> Case:
    """WRITEs of 8,192 bytes, and a READ of them."""
    log = Log(Cast(random, SERVER, least_height=3))
    handle, data = log.state.world.files.handle(2), random.randbytes(8192)
    log.exchange(nfs_as_user_0(8, handle + word(0, random.choice([0, 3, 100000]), 0) + opaque(data)))
    log.exchange(nfs_as_user_0(6, handle + word(random.choice([0, 3, 6]), 8192, 0)))
    log.append(log.check())
    return ended(log, random)


def odd_name(random: Random) -> Case:
    """A file whose name has a back quote, a line feed and bytes that are no characters."""
    log = Log(Cast(random, SERVER, least_height=3))
    root, name = log.state.world.files.handle(ROOT), random.choice([b'`\n', b'\xff`\n\x80', b'a`b\nc\x1b[0m'])
    log.exchange(nfs_as_user_0(9, root + opaque(name) + word(*[2**32 - 1] * 8)))
    log.exchange(nfs_as_user_0(4, root + opaque(name)))
    log.exchange(nfs_as_user_0(16, root + word(0, 8192)))
    log.append(log.check())
    return ended(log, random)


def other_handle(random: Random) -> Case:
    """A call with the handle of another server's file."""
    log = Log(Cast(random, SERVER, least_height=3))
    other = word(log.signer.node % 64 + 1, ROOT) + bytes(24)
    log.exchange(nfs_as_user_0(random.choice([1, 5, 17]), other))
    log.exchange(nfs_as_user_0(4, other + opaque(b'hello')))
    return ended(log, random)


# Calls of each kind, which are shown where the entry after them has a fault.

def shown_call(random: Random, place: int) -> Case:
    """A server that heard one of all calls, and then says what it doesn't owe."""
    log = honest_log(random, SERVER, 6, kept=2)
    log.append(log.message(Caller(random, log.state.world).each_call()[place]))
    log.append(log.clock())
    owed = log.state.owed
    if owed is None:
        log.append(log.clock(), honest=False)
        return replay_case(log, (Fault.BAD_FORM, len(log.entries)))
    log.append(replace(owed, body=flipped(log, owed.body)), honest=False)
    return replay_case(log, (Fault.WRONG_REPLY, len(log.entries)))


def shown_by_client(random: Random, place: int) -> Case:
    """A client that made one of all calls, and then reads no time."""
    log = honest_log(random, CLIENT, 3, kept=2)
    server = log.cast.members[1].node
    world = World(Files(server))
    log.append(Send(server, Caller(random, world).each_call()[place]))
    log.append(Clock(log.state.clock[0], 1000000), honest=False)
    return replay_case(log, (Fault.BAD_FORM, len(log.entries)))


CALLS = len(Caller(Random(0), World(Files(1))).each_call())


# Forks.

def links_of(log: Log) -> list[Link]:
    return [Link(entry.kind, digest(entry.content()), skipped) for entry, skipped in zip(log.entries, log.skips)]


def showing_of(log: Log, first: int, last: int) -> Showing:
    """A showing of the entries from one place to another; of none where they are out of order by one."""
    return Showing(log.signer.node, log.numbers[first - 1] + 1, log.hashes[first - 1], links_of(log)[first - 1:last],
                   log.signer.sign(log.words[last], log.hashes[last]), log.signer.log)


def two_logs(random: Random, version: int = LOG_1) -> tuple[Log, Log, int]:
    """Two logs of one node that part after so many entries."""
    first = honest_log(random, kept=6, most=5, version=version)
    while len(first.entries) < 3:
        first.append(Send(1, b'filled'), honest=False)
    common = random.randrange(len(first.entries))
    second = Log(first.cast)
    for entry, skipped in zip(first.entries[:common], first.skips):
        second.append(entry, honest=False, skipped=skipped)
    for _ in range(random.randint(1, 4)):
        second.append(Send(2, random.randbytes(8)), honest=False)
    return first, second, common


def fork_case(log: Log, at: int, showings: list[Showing], exposes: bool) -> Case:
    node = log.signer.node
    return Case(file_of(log.cast, node, Fork(at, showings)), node if exposes else None)


def fork(random: Random) -> Case:
    """Two showings that show two hashes at a number, or one hash, or not both one there."""
    first, second, common = two_logs(random)
    showings, spans = [], []
    for log in (first, second):
        last = random.randint(0, len(log.entries))
        start = random.randint(1, last + 1)
        showings.append(showing_of(log, start, last))
        spans.append(range(start - 1, last + 1))
    if random.random() < 0.5:
        showings, spans = showings[::-1], spans[::-1]
    at = random.choice([random.randint(0, 8), *spans[0]])
    return fork_case(first, at, showings, all(at in span for span in spans) and at > common)


def fork_of_authenticators(random: Random) -> Case:
    """Two authenticators alone, at any number, even the greatest; the same one twice, too."""
    log = Log(Cast(random))
    at = random.choice([0, 1, 5, 2**63, GREATEST_PLACE])
    hashes = [random.randbytes(32), random.randbytes(32)]
    differ = random.random() < 0.6
    claims = [log.signer.sign(at, hashes[0]), log.signer.sign(at, hashes[differ])]
    showings = [Showing(log.signer.node, at + 1, claim.hash, [], claim) for claim in claims]
    asked = random.choice([at, at, at, at - 1 if at else 1, at // 2 + 7])
    return fork_case(log, asked, showings, differ and asked == at)


def fork_from_opening(random: Random) -> Case:
    """One showing: it exposes where it begins at 1 behind another hash than zeros, whatever `at` is."""
    log = Log(Cast(random))
    opening = random.choice([ZEROS, random.randbytes(32), bytes(31) + b'\1'])
    first = random.choice([1, 1, 1, 2, 2**63])
    links = [Link(random.randint(SEND, CHECK), random.randbytes(32)) for _ in range(random.choice([0, 0, 1, 3]))]
    closing = log.signer.sign(first + len(links) - 1, chain(opening, first, links)[-1])
    showing = Showing(log.signer.node, first, opening, links, closing)
    return fork_case(log, random.choice([0, 1, GREATEST_PLACE]), [showing], first == 1 and opening != ZEROS)


def open_showing(random: Random) -> Case:
    """A fork of which one showing isn't closed: by its first, its node, its closing or the signature."""
    log = Log(Cast(random))
    signer, node, opening = log.signer, log.signer.node, random.randbytes(32)
    links = [Link(SEND, random.randbytes(32)), Link(CLOCK, random.randbytes(32))]
    hashes = chain(opening, 1, links)
    good = Showing(node, 1, opening, links, signer.sign(2, hashes[-1]))
    other, stranger = log.cast.members[1].node, log.cast.stranger
    zero, changed_one = chain(opening, 0, links), changed_signature(log, good.closing.signature)
    bad = random.choice([
        replace(good, first=0, closing=log.cast.members[1].sign(1, zero[-1], node=node)),
        replace(good, first=2), replace(good, first=2**64 - 1), replace(good, node=other),
        replace(good, closing=replace(good.closing, node=other)), replace(good, links=links[:1]),
        replace(good, links=links[::-1]), replace(good, links=[links[0]._replace(kind=CHECK), links[1]]),
        replace(good, opening=flipped(log, opening)),
        replace(good, closing=stranger.sign(2, hashes[-1], node=node)),
        replace(good, closing=replace(good.closing, signature=changed_one))])
    second = Showing(node, 3, ZEROS, [], signer.sign(2, ZEROS))
    return fork_case(log, 2, random.choice([[bad, second], [second, bad], [bad]]), False)


def first_0(random: Random) -> Case:
    """Showings with first 0, signed by the node over all that they say: they show nothing."""
    log = Log(Cast(random))
    link = Link(SEND, random.randbytes(32))
    opening = random.randbytes(32)
    closing = log.signer.sign(0, chain(opening, 0, [link])[-1])
    showing = Showing(log.signer.node, 0, opening, [link], closing)
    second = Showing(log.signer.node, 1, ZEROS, [], log.signer.sign(0, ZEROS))
    return fork_case(log, 0, random.choice([[showing], [showing, second], [second, showing]]), False)


def fork_of_others(random: Random) -> Case:
    """Showings of two nodes, or of another node than the evidence names, or of a stranger."""
    log = Log(Cast(random))
    cast, node = log.cast, log.signer.node
    signers = random.choice([(cast.members[0], cast.members[1]), (cast.members[1], cast.members[1]),
                             (cast.stranger, cast.stranger)])
    claims = [signer.sign(3, random.randbytes(32)) for signer in signers]
    showings = [Showing(claim.node, 4, claim.hash, [], claim) for claim in claims]
    named = cast.stranger.node if signers[0] is cast.stranger else node
    return Case(file_of(cast, named, Fork(3, showings)))


def many_links(random: Random) -> Case:
    """A showing with as many links as it has at most, or with one more."""
    log = Log(Cast(random))
    count = random.choice([MAX_LINKS, MAX_LINKS + 1])
    links = [Link(CLOCK, digest(word(at))) for at in range(count)]
    opening = random.randbytes(32)
    closing = log.signer.sign(count, chain(opening, 1, links)[-1])
    return fork_case(log, 0, [Showing(log.signer.node, 1, opening, links, closing)], count == MAX_LINKS)


# Bytes that are cut, changed, or no text.

def any_evidence(random: Random) -> tuple[Log, Fork | Replay]:
    """Evidence that exposes its node, a replay or a fork."""
    if random.random() < 0.6:
        log, _ = with_fault(random, random.choice(list(Fault)))
        return log, log.replay()
    first, second, _ = two_logs(random)
    at = len(second.entries)
    second_at = min(at, len(first.entries))
    showings = [showing_of(first, 1, len(first.entries)),
                showing_of(second, random.randint(1, second_at + 1), at)]
    return first, Fork(second_at, showings)


def cut(random: Random) -> Case:
    log, charge = any_evidence(random)
    data = file_of(log.cast, log.signer.node, charge)
    length = len(data)
    at = random.choice([random.randrange(length), random.randrange(200), length - random.randint(1, 40)])
    return Case(data[:at])


def changed(random: Random) -> Case:
    """A bit changed anywhere behind the roster but in the charge's last byte and a fork's `at`, or in the root of the
    accused."""
    log, charge = any_evidence(random)
    members = list(log.cast.roster().values())
    data = file_of(log.cast, log.signer.node, charge)
    start = len(roster_text(members))
    root = 4 + 44 * [member.node for member in members].index(log.signer.node) + 8
    skipped = range(start + 7, start + 16 if isinstance(charge, Fork) else start + 8)
    places = [random.randrange(start, len(data)), random.randrange(start, start + 200),
              random.randrange(root, root + 32), random.randrange(len(data) - 300, len(data))]
    at = random.choice([place for place in places if place not in skipped])
    return Case(data[:at] + bytes([data[at] ^ 1 << random.randrange(8)]) + data[at + 1:])


def more_bytes(random: Random) -> Case:
    log, charge = any_evidence(random)
    return Case(file_of(log.cast, log.signer.node, charge) + bytes(random.choice([1, 4, 100])))


def odd_roster(random: Random) -> Case:
    """A roster that doesn't decode, before evidence that would expose."""
    log, _ = with_fault(random, Fault.BAD_RECEIVE)
    roster, node = log.cast.roster(), log.signer.node
    members, member = list(roster.values()), roster[node]
    odd = random.choice([
        replace(member, node=0), replace(member, node=65), replace(member, kind=0), replace(member, kind=3),
        replace(member, height=0), replace(member, height=17), None, None])
    if odd is None:
        members = random.choice([members[::-1], [members[0], *members], members + [members[-1]]])
    else:
        members[members.index(member)] = odd
    return Case(file_of(log.cast, node, log.replay(), members))


def long_roster(random: Random) -> Case:
    """A roster of 64 members; or of 65, which is too long."""
    log = Log(Cast(random))
    opening, node = random.randbytes(32), log.signer.node
    members = [Member(each, CLIENT, random.randbytes(32), 16) for each in range(1, MAX_MEMBERS + 1)]
    members[node - 1] = log.signer.member()
    more = random.choice([[], [Member(65, CLIENT, bytes(32), 1)]])
    showing = Showing(node, 1, opening, [], log.signer.sign(0, opening))
    return Case(file_of(log.cast, node, Fork(0, [showing]), members + more), None if more else node)


NO_TEXTS = 9


def no_text(random: Random, place: int | None = None) -> Case:
    """Words that have no such value: kinds, a charge, a flag, places of all ones, counts above bounds."""
    log, _ = with_fault(random, Fault.BAD_RECEIVE)
    node, charge = log.signer.node, log.replay()
    start = len(roster_text(list(log.cast.roster().values())))
    good = file_of(log.cast, node, charge)
    entries_at = start + 4 + 4 + 4 + 8 + 32
    ones = b'\xff' * 8
    opening = ZEROS[:-1] + b'\1'
    claim = log.signer.sign(0, opening)
    fork, signed = good[:start + 4] + word(1), word(0) + authenticator_text(claim)
    begun = word(node) + bytes(7) + b'\1' + opening
    link = word(1, random.choice([0, 6, 2**32 - 1])) + bytes(32) + authenticator_text(claim)
    choices = [
        good[:start + 4] + word(random.choice([0, 5])) + good[start + 8:],
        good[:start + 12] + ones + good[start + 20:],
        good[:entries_at] + word(MAX_ENTRIES + 1) + good[entries_at + 4:],
        good[:entries_at + 4] + word(random.choice([0, 6, 2**32 - 1])) + good[entries_at + 8:],
        fork + bytes(8) + word(node) + bytes(8) + ZEROS + signed + word(2),
        fork + ones + begun + signed + word(0), fork + bytes(8) + begun + link + word(0),
        file_of(log.cast, node, replace(charge, closing=replace(charge.closing, word=2**64 - 1))),
        file_of(log.cast, node, Fork(0, [Showing(node, 1, opening, [], replace(claim, word=2**64 - 1))])),
    ]
    return Case(random.choice(choices) if place is None else choices[place])


def long_body(random: Random) -> Case:
    """A body of 12,288 bytes, or a longer one; perhaps padding that isn't zero."""
    log = Log(Cast(random, CLIENT))
    node, to = log.signer.node, log.cast.members[1].node
    length = random.choice([12285, 12288, 12289, 20000])
    log.append(Send(to, random.randbytes(length)))
    log.append(log.message(b'abc'))
    log.append(Clock(5, 1000000), honest=False)
    data = file_of(log.cast, node, log.replay())
    padded = random.random() < 0.5
    if padded:
        text = opaque(b'abc')
        data = data.replace(text, text[:-1] + b'\1', 1)
    decodes = length <= 12288 and not padded
    return Case(data, node if decodes else None, (Fault.BAD_FORM, 3) if decodes else None)


def greatest_places(random: Random, place: int | None = None) -> Case:
    """Numbers of all ones in a RECV or an ACK, of a log that would be exposed by its last entry."""
    log = Log(Cast(random, CLIENT, least_height=3))
    log.append(Send(log.cast.members[1].node, b'body'))
    message, ack = log.message(b'abc'), log.acknowledgement(1)
    ones = 2**64 - 1
    places = [replace(message, seq=ones), replace(ack, seq=ones), replace(ack, number=ones)]
    odd = random.choice(places) if place is None else places[place]
    log.append(odd, honest=False)
    return replay_case(log)


def long_path(random: Random) -> Case:
    """A path of 17 hashes, in a closing or in an entry, doesn't decode: an entry would have fault 2 else."""
    log = Log(Cast(random, CLIENT, least_height=3))
    message = log.message(b'abc')
    signed = message.signature
    count = random.choice([16, 17])
    text = signed.text[:-32 * len(signed.path) - 4] + word(count) + bytes(32 * count)
    log.append(replace(message, signature=replace(signed, path=[bytes(32)] * count, text=text)), honest=False)
    return replay_case(log, (Fault.BAD_RECEIVE, 1) if count == 16 else None)


KINDS = {
    'honest_server': (honest_server, 24),
    'honest_client': (honest_client, 12),
    **{fault.name.lower(): (fault_kind(fault), 9) for fault in Fault},
    'other_start': (other_start, 3),
    'wrong_closing': (wrong_closing, 4),
    'misplaced_closing': (misplaced_closing, 3),
    'changed_entries': (changed_entries, 3),
    'other_nodes': (other_nodes, 4),
    'other_key': (other_key, 3),
    'other_members': (other_members, 3),
    'other_kind': (other_kind, 2),
    'long_clocks': (long_clocks, 0.4),
    'full_disk': (full_disk, 0.6),
    'many_mounts': (many_mounts, 0.6),
    'long_write': (long_write, 2),
    'odd_name': (odd_name, 2),
    'other_handle': (other_handle, 2),
    'fork': (fork, 12),
    'fork_of_authenticators': (fork_of_authenticators, 6),
    'fork_from_opening': (fork_from_opening, 6),
    'open_showing': (open_showing, 8),
    'first_0': (first_0, 2),
    'fork_of_others': (fork_of_others, 3),
    'many_links': (many_links, 1),
    'cut': (cut, 8),
    'changed': (changed, 16),
    'more_bytes': (more_bytes, 2),
    'odd_roster': (odd_roster, 4),
    'long_roster': (long_roster, 2),
    'no_text': (no_text, 4),
    'long_body': (long_body, 3),
    'greatest_places': (greatest_places, 2),
    'long_path': (long_path, 2),
}

# Files of which each is made once, whatever the seed: a name, how many there are, and what makes one.
EACH = [('shown_call', CALLS, shown_call), ('shown_by_client', CALLS, shown_by_client), ('no_text', NO_TEXTS, no_text),
        ('greatest_places', 3, greatest_places)]
