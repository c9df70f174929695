"""Files of evidence of logs of version 2, whose numbers have gaps, each with the verdict that is owed."""

import os
from dataclasses import replace
from random import Random

from verifier.evidence import MAX_ENTRIES, MAX_LINKS, Fork, Link, Replay, Showing, chain, words_from
from verifier.keys import CLIENT, MAX_MEMBERS, SECOND_FORM, SERVER, ZEROS, Member, digest
from verifier.log import CHECK, SEND, Check, Clock, Recv, Send, hash_after, send_content
from verifier.nfs import ROOT
from verifier.replay import Fault
from verifier.words import LOG_1, LOG_2, MAX_SKIPPED, NO_PLACE, NUMBERS, number_in, word_of
from verifier.xdr import array, hyper, opaque, word

from .kinds import Case, file_of, honest_log, links_of, nfs_as_user_0, replay_case, showing_of, two_logs, with_fault
from .logs import Cast, Log
from .signer import KeyTree, Signer
from .texts import evidence_text, roster_text

NO_TEXT = 'the file is not a roster with evidence after it'
ANOTHER_NODE = 'what is shown is of another node'
OTHER_VERSION = "the evidence is of another log version than the node's"
NO_START = 'the log is not shown from its first entry on'
NOT_CLOSED = 'what is shown does not end in what closes it'
NO_KEY = 'the roster has no key of the node, so nobody can tell who signed'
NO_TWO_MARKS = 'no two marks are shown at the number'
NO_FAULT = 'the log has no fault'

# Bytes of a roster of three members in the second form, and from there to items of a fork and of a replay; of a link.
ROSTER = 8 + 3 * 48
TO_BEFORE, TO_LINKS, LINK = 4 + 4 + 8 + 4, 4 + 4 + 8 + 4 + 8 + 32 + 4, 8 + 4 + 32
TO_ENTRIES = 4 + 4 + 4 + 8 + 32 + 4


class Three(Cast):
    """Node 1, who is accused, client 2 with a log of version 1, and client 3 with one of version 2."""

    def __init__(self, kind: int = SERVER, log: int = LOG_2):
        self.random = Random('gaps')
        self.members = [Signer(1, kind, 'signer 0', 4, log), Signer(2, CLIENT, 'signer 1', 3),
                        Signer(3, CLIENT, 'signer 2', 3, LOG_2)]
        self.stranger = Signer(4, CLIENT, 'stranger', 3)
        self.kept = 0


def fork_owed(cast: Cast, at: int, showings: list[Showing], reason: str | None = None,
              members: list[Member] | None = None) -> Case:
    """A fork that exposes its node, or for this reason doesn't."""
    node = cast.accused().node
    return Case(file_of(cast, node, Fork(at, showings), members), None if reason else node, reason=reason)


def replay_owed(log: Log, charge: Replay, reason: str, members: list[Member] | None = None) -> Case:
    return Case(file_of(log.cast, log.signer.node, charge, members), reason=reason)


def roster_of(cast: Cast) -> bytes:
    return roster_text(list(cast.roster().values()))


def alone(signer: Signer, entry_word: int, at: bytes) -> Showing:
    """An authenticator alone."""
    return Showing(signer.node, number_in(LOG_2, entry_word) + 1, at, [], signer.sign(entry_word, at), LOG_2)


def linked(signer: Signer, before: int, opening: bytes, skips: list[int], closing: int | None = None) -> Showing:
    """A showing with so many numbers skipped before each link, closed by the last link's word or by another."""
    links = [Link(CHECK, digest(word(at)), skipped) for at, skipped in enumerate(skips)]
    last = [before, *words_from(before + 1, links)][-1]
    claim = signer.sign(last if closing is None else closing, chain(opening, before + 1, links)[-1])
    return Showing(signer.node, before + 1, opening, links, claim, LOG_2)


def worded(signer: Signer, before: int, words: list[int]) -> tuple[Showing, list[int]]:
    """A showing whose links have any words, all of which are hashed and signed as they stand."""
    links = [Link(CHECK, digest(word(at))) for at in range(len(words))]
    last = ZEROS
    for entry_word, link in zip(words, links):
        last = hash_after(last, entry_word, link.kind, link.content_hash)
    return Showing(signer.node, before + 1, ZEROS, links, signer.sign(words[-1], last), LOG_2), words


# Numbers that are hidden.

def hidden_entry(random: Random, place: int) -> Case:
    """Numbers 3 and 4 are signed, and a segment has entries 2 and 4 alone. Both ways round; and where the two agree."""
    cast = Three()
    learned = alone(cast.accused(), word_of(0, 3), random.randbytes(32))
    segment = linked(cast.accused(), 0, ZEROS, [1, 1])
    at, both = [3, 3, 0, 1, 2, 4][place], [learned, segment]
    return fork_owed(cast, at, both[::-1] if place % 2 else both, None if at == 3 else NO_TWO_MARKS)


def learned_in_gap(random: Random, place: int) -> Case:
    """A segment from 10 to 75 with one entry, and an authenticator at each end of the gap, and of what is beside it."""
    cast = Three()
    number = [9, 10, 11, 12, 74, 75, 76][place // 2]
    learned = alone(cast.accused(), word_of(0, number), random.randbytes(32))
    both = [linked(cast.accused(), 10, random.randbytes(32), [MAX_SKIPPED]), learned]
    return fork_owed(cast, number, both[::-1] if place % 2 else both, None if 10 <= number <= 75 else NO_TWO_MARKS)


def same_gap(random: Random, place: int) -> Case:
    """Two showings that skip the same number. They have one mark there, and two hashes at the number after it."""
    cast, at = Three(), [3, 4, 5][place]
    both = [linked(cast.accused(), 2, random.randbytes(32), [1]) for _ in range(2)]
    return fork_owed(cast, at, both, None if at == 4 else NO_TWO_MARKS)


def gap_against_entry(random: Random, place: int) -> Case:
    """Two showings that agree on 1; then the one has entry 2, and the other skips it. Both have an entry 3."""
    cast, at = Three(), [0, 1, 2, 3, 4][place // 2]
    both = [linked(cast.accused(), 0, ZEROS, [0, 0, 0]), linked(cast.accused(), 0, ZEROS, [0, 1])]
    return fork_owed(cast, at, both[::-1] if place % 2 else both, None if at in (2, 3) else NO_TWO_MARKS)


def exchange(skipped: int = 5, kind: int = SERVER) -> Log:
    """A server's log of a call whose first number comes after so many others: RECV, CLOCK, and a reply that is owed."""
    log = Log(Three(kind))
    log.append(log.message(nfs_as_user_0(4, log.state.world.files.handle(ROOT) + opaque(b'hello'))), skipped=skipped)
    log.append(log.clock(), skipped=0)
    return log


def other_before(random: Random, place: int) -> Case:
    """A showing from 0 on whose first entry is 6, beside the same links and closing with 3 as what stands before, and so with
    2 skipped. The count is in the hash: it ends in another one. Signed anew it is a fork."""
    log = exchange()
    log.append(log.state.owed, skipped=0)
    whole = showing_of(log, 1, 3)
    links = [whole.links[0]._replace(skipped=2), *whole.links[1:]]
    other = replace(whole, first=4, links=links)
    if place >= 2:
        other = replace(other, closing=log.signer.sign(log.words[3], chain(ZEROS, 4, links)[-1]))
    both = [whole, other]
    return fork_owed(log.cast, 3, both[::-1] if place % 2 else both, None if place >= 2 else NOT_CLOSED)


def other_closing(random: Random, place: int) -> Case:
    """A segment that hides entry 3, closed by the hash at its end under another word than its last entry's."""
    cast = Three()
    learned = alone(cast.accused(), word_of(0, 3), random.randbytes(32))
    closing = word_of(*[(1, 4), (0, 4), (2, 4), (1, 5), (1, 3), (0, 3), (NUMBERS - 1, 4)][place])
    segment = linked(cast.accused(), 0, ZEROS, [1, 1], closing)
    return fork_owed(cast, 3, [learned, segment], None if place == 0 else NOT_CLOSED)


def counts_of_authenticators(random: Random, place: int) -> Case:
    """Two authenticators alone with one number, whose words say any counts: what is skipped isn't looked at. So it is no
    fork where their hashes are one, and where the one's number is what the other's word skips."""
    cast = Three()
    one, other, at, same = [
        ((0, 7), (5, 7), 7, False), ((5, 7), (6, 7), 7, True), ((NUMBERS - 1, 7), (0, 7), 7, False),
        ((NUMBERS - 2, NUMBERS - 1), (65, NUMBERS - 1), NUMBERS - 1, False), ((9, 0), (0, 0), 0, False),
        ((5, 7), (0, 6), 6, False), ((5, 7), (0, 2), 2, False)][place]
    hashes = [random.randbytes(32), random.randbytes(32)]
    both = [alone(cast.accused(), word_of(*one), hashes[0]), alone(cast.accused(), word_of(*other), hashes[not same])]
    exposes = at == one[1] == other[1] and not same
    return fork_owed(cast, at, both, None if exposes else NO_TWO_MARKS)


def opening(random: Random, place: int) -> Case:
    """One showing: it exposes where it begins at 0 after another hash than zeros, whatever it skips and whatever `at` is."""
    cast, odd = Three(), random.randbytes(32)
    before, begins, skips, exposes = [
        (0, odd, [5], True), (0, ZEROS, [5], False), (1, odd, [5], False), (0, odd, [], True), (0, odd, [0, 3], True),
        (NUMBERS, odd, [], False)][place]
    closing = word_of(9, 0) if not skips and before == 0 else None
    showing = linked(cast.accused(), before, begins, skips, closing)
    reason = None if exposes else NOT_CLOSED if before == NUMBERS else NO_TWO_MARKS
    return fork_owed(cast, [0, 3, NO_PLACE - 1][place % 3], [showing], reason)


def random_fork(random: Random, place: int) -> Case:
    """Two logs of one node that part somewhere, each shown in part, at any number."""
    showings, shown = [], []
    logs = two_logs(random, LOG_2)[:2]
    for log in logs:
        last = random.randint(0, len(log.entries))
        start = random.randint(1, last + 1)
        showings.append(showing_of(log, start, last))
        shown.append(dict.fromkeys(range(log.numbers[start - 1], log.numbers[last])))
        shown[-1].update(zip(log.numbers[start - 1:last + 1], log.hashes[start - 1:last + 1]))
    at = random.choice([*shown[0], *shown[1], *logs[1].numbers, *logs[1].numbers])
    exposes = all(at in marks for marks in shown) and shown[0][at] != shown[1][at]
    return fork_owed(logs[0].cast, at, showings, None if exposes else NO_TWO_MARKS)


# Words that don't follow, and numbers at their ends.

def most_skipped(random: Random, place: int) -> Case:
    """As many numbers are skipped as may be, or one more; all of it is hashed and signed."""
    cast, skipped = Three(), [63, 64, 65, 66, 2**31][place]
    learned = alone(cast.accused(), word_of(0, 9), random.randbytes(32))
    segment = linked(cast.accused(), 4, random.randbytes(32), [skipped])
    if skipped <= MAX_SKIPPED:
        return fork_owed(cast, 9, [segment, learned])
    return Case(file_of(cast, 1, Fork(9, [segment, learned])), reason=NO_TEXT, byte=ROSTER + TO_LINKS)


ODD_WORDS = [(0, [(1, 3)]), (0, [(1, 1)]), (0, [(0, 0)]), (0, [(0, 2)]), (0, [(3, 2)]), (0, [(0, 1), (0, 3)]),
             (0, [(0, 1), (1, 2)]), (0, [(0, 1), (0, 1)]), (0, [(2, 3), (0, 2)]), (7, [(0, 1)]), (7, [(0, 9)]),
             (NUMBERS - 1, [(0, 0)]), (NUMBERS - 1, [(1, 0)]), (NUMBERS, [(0, 1)]), (NUMBERS, [(1, 1)]),
             (NO_PLACE - 1, [(0, NUMBERS - 1)])]


def odd_words(random: Random, place: int) -> Case:
    """Words of links of which the last doesn't follow, though all are hashed and signed as they stand."""
    cast = Three()
    before, words = ODD_WORDS[place]
    showing, spelled = worded(cast.accused(), before, [word_of(*each) for each in words])
    learned = alone(cast.accused(), word_of(0, words[-1][1]), random.randbytes(32))
    text = evidence_text(1, Fork(words[-1][1], [showing, learned]), spelled)
    return Case(roster_of(cast) + text, reason=NO_TEXT, byte=ROSTER + TO_LINKS + LINK * (len(words) - 1))


def odd_entry(random: Random, place: int) -> Case:
    """The same of the words of entries, of a log with a fault."""
    log = Log(Three())
    log.append(Clock(1, 0), honest=False, skipped=0)
    log.append(Clock(1, 0), honest=False, skipped=0)
    words = [(0, 1), [(0, 3), (1, 2), (0, 1), (65, 67), (NUMBERS - 1, 2)][place]]
    last = hash_after(log.hashes[1], word_of(*words[1]), log.entries[1].kind, digest(log.entries[1].content()))
    charge = replace(log.replay(), closing=log.signer.sign(word_of(*words[1]), last))
    text = evidence_text(1, charge, [word_of(*each) for each in words])
    return Case(roster_of(log.cast) + text, reason=NO_TEXT, byte=ROSTER + TO_ENTRIES + 8 + 12)


def greatest_numbers(random: Random, place: int) -> Case:
    """The greatest number that an entry has, and one more, which no word can spell."""
    cast, number = Three(), NUMBERS - 1 + place // 2
    learned = alone(cast.accused(), NUMBERS - 1, random.randbytes(32))
    skipped = [0, MAX_SKIPPED][place % 2]
    segment = linked(cast.accused(), number - skipped - 1, random.randbytes(32), [skipped])
    if place < 2:
        return fork_owed(cast, number, [segment, learned])
    return Case(file_of(cast, 1, Fork(NUMBERS - 1, [segment, learned])), reason=NO_TEXT, byte=ROSTER + TO_LINKS)


def odd_before(random: Random, place: int) -> Case:
    """The greatest hyper before a showing, or but for one; no log has such a number."""
    cast, before = Three(), NO_PLACE - place
    showing = replace(linked(cast.accused(), NUMBERS - 1, ZEROS, []), first=before + 1)
    learned = alone(cast.accused(), NUMBERS - 1, random.randbytes(32))
    case = fork_owed(cast, NUMBERS - 1, [showing, learned], NOT_CLOSED)
    return case if place else replace(case, reason=NO_TEXT, byte=ROSTER + TO_BEFORE)


def greatest_word(random: Random, place: int) -> Case:
    """A closing whose word is the greatest hyper."""
    cast, at = Three(), random.randbytes(32)
    showing = Showing(1, NUMBERS, at, [], cast.accused().sign(NO_PLACE, at), LOG_2)
    data = file_of(cast, 1, Fork(NUMBERS - 1, [showing, alone(cast.accused(), NUMBERS - 1, ZEROS)]))
    return Case(data, reason=NO_TEXT, byte=ROSTER + TO_LINKS + 4)


def many_links(random: Random, place: int) -> Case:
    """As many links as a showing has, a number skipped before each; or one more."""
    cast, count = Three(), MAX_LINKS + place
    showing = linked(cast.accused(), 0, ZEROS, [1] * count)
    both = [showing, alone(cast.accused(), word_of(0, 2 * MAX_LINKS - 1), ZEROS)]
    if place == 0:
        return fork_owed(cast, 2 * MAX_LINKS - 1, both)
    return Case(file_of(cast, 1, Fork(1, both)), reason=NO_TEXT, byte=ROSTER + TO_LINKS - 4)


# Rosters and versions.

def versions(random: Random, place: int) -> Case:
    """Evidence of each kind, of logs that skip nothing and so have one chain in both versions, under rosters that give
    the node the one version and the other."""
    is_fork, log, member_log = place & 1, [LOG_1, LOG_2][place >> 1 & 1], [LOG_1, LOG_2][place >> 2]
    cast = Three(log=log)
    members = [replace(cast.accused().member(), log=member_log), *[each.member() for each in cast.members[1:]]]
    reason = None if log == member_log else OTHER_VERSION
    if is_fork:
        showings = [replace(linked(cast.accused(), 0, ZEROS, [0]), log=log), replace(
            alone(cast.accused(), 1, random.randbytes(32)), log=log)]
        return fork_owed(cast, 1, showings, reason, members)
    made = Log(cast)
    made.append(Clock(1, 0), honest=False, skipped=0)
    if reason:
        return replay_owed(made, made.replay(), reason, members)
    return Case(file_of(cast, 1, made.replay(), members), 1, (Fault.BAD_FORM, 1))


def other_nodes(random: Random, place: int) -> Case:
    """Evidence of a log of version 2 that names another node, with either version, or whose node is no member."""
    cast = Three()
    both = [alone(cast.accused(), 1, random.randbytes(32)) for _ in range(2)]
    without = [each.member() for each in cast.members[1:]]
    named, members, reason = [(2, None, ANOTHER_NODE), (3, None, ANOTHER_NODE), (4, None, ANOTHER_NODE),
                              (1, without, NO_KEY)][place]
    return Case(file_of(cast, named, Fork(1, both), members), reason=reason)


def rosters(random: Random, place: int) -> Case:
    """Texts of rosters before evidence that would expose: of the second form, or that drop what it has."""
    cast = Three()
    members = [each.member() for each in cast.members]
    ones = [replace(each, log=LOG_1) for each in members]
    text = evidence_text(1, Fork(1, [alone(cast.accused(), 1, random.randbytes(32)) for _ in range(2)]))
    head, reason, byte = [
        (roster_text(members), None, None),
        (roster_text(members, False), OTHER_VERSION, None),
        (roster_text(ones, True), NO_TEXT, ROSTER - 4),
        (roster_text([], True), NO_TEXT, 4),
        (roster_text([replace(members[0], log=0), *members[1:]], True), NO_TEXT, 52),
        (roster_text([replace(members[0], log=3), *members[1:]], True), NO_TEXT, 52),
        (roster_text(members[::-1], True), NO_TEXT, 56),
        (word(SECOND_FORM, MAX_MEMBERS + 1) + roster_text(members)[8:], NO_TEXT, 4),
        (word(SECOND_FORM + 1) + roster_text(members)[4:], NO_TEXT, 0),
        (word(SECOND_FORM) + roster_text(members), NO_TEXT, 4),
        (roster_text(members)[4:], NO_TEXT, None),
    ][place]
    return Case(head + text, None if reason else 1, reason=reason, byte=byte)


def beside_others(random: Random, place: int) -> Case:
    """Evidence of a node with a log of version 1 under a roster in which another has one of version 2. It stays."""
    cast = Three(log=LOG_1)
    if place == 0:
        hashes = [random.randbytes(32), random.randbytes(32)]
        claims = [cast.accused().sign(2**63, at) for at in hashes]
        return fork_owed(cast, 2**63, [Showing(1, 2**63 + 1, claim.hash, [], claim) for claim in claims])
    log = Log(cast)
    log.append(log.message(b'no call', sender=cast.members[2]))
    log.append(log.clock())
    log.append(log.clock(), honest=False)
    return replay_case(log, (Fault.BAD_FORM, 3))


# Replays.

def with_each_fault(random: Random, place: int) -> Case:
    fault = list(Fault)[place % len(Fault)]
    return replay_case(*with_fault(random, fault, version=LOG_2))


def honest(random: Random, place: int) -> Case:
    log = honest_log(random, [SERVER, CLIENT][place % 2], 8, 6, LOG_2)
    log.append(log.check())
    return replace(replay_case(log), reason=NO_FAULT)


def lying() -> Log:
    """A server's log whose entries are 6, 7 and 8: the reply has another last byte than the one that is owed."""
    log = exchange()
    log.append(replace(log.state.owed, body=log.state.owed.body[:-1] + b'\1'), honest=False, skipped=0)
    return log


def lie(random: Random, place: int) -> Case:
    if place == 0:
        return replay_case(lying(), (Fault.WRONG_REPLY, 8))
    log = exchange()
    log.append(log.state.owed, skipped=0)
    return replace(replay_case(log), reason=NO_FAULT)


SCRIPTS = os.path.join(os.path.dirname(__file__), '..', 'scripts')


class Scripted(Cast):
    """Server 1 and client 2 of a script, whose keys anybody knows."""

    def __init__(self, log: int):
        self.random = Random('scripts')
        self.members = [Signer(1, SERVER, 'signer 0', 3, log), Signer(2, CLIENT, 'signer 1', 3)]
        for member in self.members:
            member.tree = KeyTree(bytes(28) + word(member.node), 3)
        self.kept = 0


def story(random: Random, place: int) -> Case:
    """What is to be put as evidence in two stories of a lie, of a server with a log of version 1 and of one that skips five
    numbers: the call runs at as many seconds as its line has, and the first of the server's keys signed its RECV."""
    script, version, skipped, fault_at = [('lie.script', LOG_1, 0, 3), ('gaps/lie.script', LOG_2, 5, 8)][place]
    with open(os.path.join(SCRIPTS, script)) as file:
        line, call = next((at, each) for at, each in enumerate(file, start=1) if each.startswith('call '))
    log, body = Log(Scripted(version)), bytes.fromhex(call.split()[3])
    client = log.cast.members[1]
    sent = client.sign(1, hash_after(ZEROS, 1, SEND, digest(send_content(1, digest(body)))))
    log.append(Recv(2, 1, ZEROS, body, sent.signature), skipped=skipped)
    log.signer.leaf = 1
    log.append(Clock(line, 0), skipped=0)
    owed = log.state.owed
    log.append(replace(owed, body=owed.body[:-1] + bytes([owed.body[-1] ^ 1])), honest=False, skipped=0)
    return replay_case(log, (Fault.WRONG_REPLY, fault_at))


def other_start(random: Random, place: int) -> Case:
    """A replay that doesn't begin at 0 with zeros, though all that it says is signed."""
    log = lying()
    before, begins = [(5, ZEROS), (2, ZEROS), (0, bytes(31) + b'\1')][place]
    skips = (log.numbers[1] - before - 1, *log.skips[1:])
    charge = replace(log.replay(), first=before + 1, opening=begins, skips=skips)
    last = chain(begins, before + 1, charge.links())[-1]
    return replay_owed(log, replace(charge, closing=log.signer.sign(log.words[-1], last)), NO_START)


def closing_of_replay(random: Random, place: int) -> Case:
    """A log with a fault, closed by its last hash under another word than its last entry's."""
    log = Log(Three())
    log.append(Clock(1, 0), honest=False, skipped=2)
    entry_word = word_of(*[(0, 3), (3, 3), (2, 4), (2, 1), (0, 1)][place])
    charge = replace(log.replay(), closing=log.signer.sign(entry_word, log.hashes[-1]))
    return replay_owed(log, charge, NOT_CLOSED)


def counts_in_acks(random: Random, place: int) -> Case:
    """A client's ACK of a message that it sent as number 4, after 3 others, by the word with that count and by others."""
    log = Log(Three(CLIENT))
    log.append(Send(3, b'body'), skipped=3)
    seq = word_of([3, 0, 2, NUMBERS - 1][place], 4)
    if place == 0:
        log.append(log.acknowledgement(seq))
        log.append(log.check())
        return replace(replay_case(log), reason=NO_FAULT)
    sent = log.state.sent[log.words[1]]
    log.state.sent[seq] = sent
    ack = log.acknowledgement(seq)
    log.append(ack, honest=False, skipped=1)
    return replay_case(log, (Fault.BAD_ACK, 6))


def order_of_sends(random: Random, place: int) -> Case:
    """A checkpoint after three messages: what is sent stands in the order of whole words, not of numbers."""
    log = Log(Three(CLIENT))
    for skipped in (0, 5, 0):
        log.append(Send(2, b'body'), skipped=skipped)
    if place == 0:
        log.append(log.check())
        return replace(replay_case(log), reason=NO_FAULT)
    sent = [hyper(seq) + word(each.to) + each.prev + each.body_hash for seq, each in log.state.sent.items()]
    text = log.state.text().replace(array(sorted(sent)), array(sent))
    log.append(Check(digest(text)), honest=False, skipped=0)
    return replay_case(log, (Fault.WRONG_CHECKPOINT, 9))


def words_of_messages(random: Random, place: int) -> Case:
    """Messages of a node with a log of version 2: another word is another message, whatever the number."""
    log = Log(Three(CLIENT))
    sender = log.cast.members[2]
    for skipped in (0, 2, 2**31):
        log.append(log.message_at(word_of(skipped, 5), b'body', sender))
    log.append(log.check())
    if place == 0:
        return replace(replay_case(log), reason=NO_FAULT)
    if place == 1:
        log.append(log.entries[0], honest=False)
        return replay_case(log, (Fault.REPEATED, log.numbers[-1]))
    log.append(replace(log.entries[1], seq=word_of(1, 5)), honest=False)
    return replay_case(log, (Fault.BAD_RECEIVE, log.numbers[-1]))


def many_entries(random: Random, place: int) -> Case:
    """A log whose last number is above the greatest count of entries; or, after that count, entries that are fewer."""
    if place:
        data = lie(random, 0).data
        at = ROSTER + TO_ENTRIES - 4
        return Case(data[:at] + word(MAX_ENTRIES + 1) + data[at + 4:], reason=NO_TEXT, byte=at)
    log = Log(Three(CLIENT))
    while log.numbers[-1] <= MAX_ENTRIES:
        log.append(Clock(1, log.numbers[-1]), skipped=MAX_SKIPPED)
    log.append(Clock(0, 0), honest=False, skipped=1)
    return replay_case(log, (Fault.CLOCK_BACK, log.numbers[-1]))


# Bytes that are cut or changed.

def cut(random: Random, place: int) -> Case:
    case = hidden_entry(random, 0) if place % 2 else lie(random, 0)
    at = [0, 3, 4, 8, ROSTER - 1, ROSTER + 7, ROSTER + 20, ROSTER + 60, ROSTER + 70, -4][place // 2]
    return Case(case.data[:at], reason=NO_TEXT)


def changed(random: Random, place: int) -> Case:
    """A bit changed in a word of a link or an entry, in what stands before them, or in the logs of the roster."""
    is_fork = place % 2 == 1
    case = hidden_entry(random, 1) if is_fork else lie(random, 0)
    start = ROSTER + (TO_LINKS if is_fork else TO_ENTRIES)
    spans = [range(start, start + 8), range(start - 44, start - 36), range(52, 56), range(ROSTER + 4, ROSTER + 8)]
    at = random.choice(random.choice(spans))
    return Case(case.data[:at] + bytes([case.data[at] ^ 1 << random.randrange(8)]) + case.data[at + 1:])


GAPS = [
    ('hidden_entry', 6, hidden_entry),
    ('learned_in_gap', 14, learned_in_gap),
    ('same_gap', 3, same_gap),
    ('gap_against_entry', 10, gap_against_entry),
    ('other_before', 4, other_before),
    ('other_closing', 7, other_closing),
    ('counts_of_authenticators', 7, counts_of_authenticators),
    ('opening', 6, opening),
    ('random_fork', 30, random_fork),
    ('most_skipped', 5, most_skipped),
    ('odd_words', len(ODD_WORDS), odd_words),
    ('odd_entry', 5, odd_entry),
    ('greatest_numbers', 4, greatest_numbers),
    ('odd_before', 2, odd_before),
    ('greatest_word', 1, greatest_word),
    ('many_links', 2, many_links),
    ('versions', 8, versions),
    ('other_nodes', 4, other_nodes),
    ('rosters', 11, rosters),
    ('beside_others', 2, beside_others),
    ('with_each_fault', 4 * len(Fault), with_each_fault),
    ('honest', 6, honest),
    ('lie', 2, lie),
    ('story', 2, story),
    ('other_start', 3, other_start),
    ('closing_of_replay', 5, closing_of_replay),
    ('counts_in_acks', 4, counts_in_acks),
    ('order_of_sends', 2, order_of_sends),
    ('words_of_messages', 3, words_of_messages),
    ('many_entries', 2, many_entries),
    ('cut', 20, cut),
    ('changed', 40, changed),
]
