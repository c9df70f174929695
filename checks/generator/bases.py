"""Files of evidence of a replay from a base, each with the verdict that is owed."""

from dataclasses import replace
from random import Random

from verifier.evidence import Base, Based, Replay, Showing, chain, words_from
from verifier.keys import CLIENT, SERVER, ZEROS, digest
from verifier.log import CLOCK, Check, Clock
from verifier.nfs import ROOT
from verifier.replay import Fault, Sent
from verifier.words import LOG_1, LOG_2
from verifier.xdr import opaque, word

from .faults import FAULTS, any_entry
from .gaps import ANOTHER_NODE, NO_FAULT, NO_KEY, NO_TEXT, NOT_CLOSED, OTHER_VERSION, Three
from .kinds import Case, file_of, nfs_as_user_0
from .logs import Log
from .texts import roster_text

NOT_GOOD = 'the base is not a good one'
NOT_FROM_BASE = 'the log does not go on from the base'
NOT_SIGNED = "what closes it does not verify by the node's key"


class Story:
    """A log with a CHECK, a base there, and what is logged after it."""

    def __init__(self, version: int, kind: int = SERVER):
        self.log = Log(Three(kind, version))
        self.node = self.log.signer.node
        if kind == SERVER:
            self.exchange()
        else:
            self.log.append(Clock(1, 0))
        self.log.append(self.log.check())
        self.check = len(self.log.entries)
        self.state = self.log.state.text()

    def exchange(self):
        log = self.log
        log.append(log.message(nfs_as_user_0(4, log.state.world.files.handle(ROOT) + opaque(b'hello'))))
        log.append(log.clock())
        log.append(log.state.owed)

    def lie(self):
        """An exchange whose reply has another last byte."""
        log = self.log
        log.append(log.message(nfs_as_user_0(4, log.state.world.files.handle(ROOT) + opaque(b'hello'))))
        log.append(log.clock())
        log.append(replace(log.state.owed, body=log.state.owed.body[:-1] + b'\1'), honest=False)

    def showing(self, first: int, last: int) -> Showing:
        """The entries with these places, counted from 1, as a showing."""
        log = self.log
        links = log.replay_of(first, last).links()
        closing = log.signer.sign(log.words[last], log.hashes[last])
        return Showing(self.node, log.numbers[first - 1] + 1, log.hashes[first - 1], links, closing, log.signer.log)

    def base(self, first: int | None = None, last: int | None = None) -> Base:
        """The base at the CHECK, which shows the entry after it, too, or others."""
        first, last = first or self.check, last or self.check + 1
        return Base(self.showing(first, last), self.log.numbers[self.check], self.state)

    def replay(self) -> Replay:
        """The entries after the CHECK."""
        part = self.log.replay_of(self.check + 1, len(self.log.entries))
        return replace(part, closing=self.log.closing())

    def based(self, base: Base | None = None, replay: Replay | None = None) -> Based:
        return Based(base or self.base(), replay or self.replay())

    def case(self, charge: Based, fault: tuple[int, int] | None = None, reason: str | None = None,
             node: int | None = None) -> Case:
        node = self.node if node is None else node
        return Case(file_of(self.log.cast, node, charge), None if fault is None else node, fault, reason)


def lied(version: int) -> tuple[Story, tuple[int, int]]:
    """A story whose reply after the base is a wrong one."""
    story = Story(version)
    story.lie()
    return story, (Fault.WRONG_REPLY, story.log.numbers[-1])


VERSIONS = [LOG_1, LOG_2]


def lie(random: Random, place: int) -> Case:
    """A wrong reply after a base, whose showing has the CHECK alone or more before it, and after it."""
    story, fault = lied(VERSIONS[place % 2])
    spans = [(4, 5), (1, 5), (4, 4), (2, 7), (1, 4)]
    return story.case(story.based(story.base(*spans[place // 2])), fault)


def honest(random: Random, place: int) -> Case:
    story = Story(VERSIONS[place % 2], [SERVER, CLIENT][place // 2])
    if place // 2 == 0:
        story.exchange()
    else:
        story.log.append(Clock(2, 0))
    return story.case(story.based(), reason=NO_FAULT)


def after_a_lie(random: Random, place: int) -> Case:
    """A wrong reply before the base isn't found: the state there is what the log itself says."""
    story = Story(VERSIONS[place])
    story.lie()
    later = Story(VERSIONS[place])
    later.log, later.check = story.log, 0
    story.log.state.owed = None
    story.log.append(story.log.check())
    later.check, later.state = len(story.log.entries), story.log.state.text()
    later.exchange()
    return later.case(later.based(), reason=NO_FAULT)


def with_each_fault(random: Random, place: int) -> Case:
    """Each fault, after a base of a server or a client."""
    faults = list(Fault)
    version, place = VERSIONS[place % 2], place // 2
    kind = SERVER if place < len(faults) or faults[place % len(faults)] == Fault.WRONG_REPLY else CLIENT
    story, fault = Story(version, kind), faults[place % len(faults)]
    story.log.append(FAULTS[fault](story.log), honest=False)
    number = story.log.numbers[-1]
    story.log.append(any_entry(story.log), honest=False)
    return story.case(story.based(), (fault, number))


def other_state(random: Random, place: int) -> Case:
    """Bytes that are no state's text, or another state's."""
    story, _ = lied(VERSIONS[place % 2])
    text, other = story.state, Story(VERSIONS[place % 2])
    other.exchange()
    states = [
        text.replace(b'hello\n', b'iello\n'), text.replace(b'hello\0', b'iello\0'), text + b'\0\0\0\0', text[:-4], b'',
        text[:4] + word(2) + text[8:], text[:8] + word(CLIENT) + text[12:],
        text.replace(word(0o777), word(0o10777)), random.randbytes(100),
        other.log.state.text(),
    ]
    return story.case(story.based(replace(story.base(), state=states[place // 2])), reason=NOT_GOOD)


def other_place(random: Random, place: int) -> Case:
    """A number that isn't that of a CHECK among the links, or of one that holds another digest."""
    story, _ = lied(VERSIONS[place % 2])
    base, log = story.base(1, 6), story.log
    at = [log.numbers[story.check] + 1, log.numbers[story.check] - 1, 0, 2**64 - 2, log.numbers[6]][place // 2]
    return story.case(story.based(replace(base, at=at)), reason=NOT_GOOD)


def other_check(random: Random, place: int) -> Case:
    """A CHECK of another digest, of the digest itself in place of its H, or a link of another kind with that content."""
    story = Story(VERSIONS[place % 2])
    log = story.log
    good = log.state.digest()
    if place // 2 == 0:
        log.entries[-1] = Check(digest(good))
    story.lie()
    fault_showing = story.base()
    links = list(fault_showing.showing.links)
    links[0] = [links[0]._replace(content_hash=digest(digest(good))), links[0]._replace(content_hash=good),
                links[0]._replace(kind=CLOCK)][place // 2]
    showing = signed_again(story, replace(fault_showing.showing, links=links))
    return story.case(story.based(replace(fault_showing, showing=showing)), reason=NOT_GOOD)


def signed_again(story: Story, showing: Showing) -> Showing:
    """The showing with a closing that fits what it has."""
    last = words_from(showing.first, showing.links)[-1]
    closing = story.log.signer.sign(last, chain(showing.opening, showing.first, showing.links)[-1])
    return replace(showing, closing=closing)


def other_opening(random: Random, place: int) -> Case:
    """A base that shows another hash than zeros before the first entry; and one from 1 on that shows zeros there."""
    version = VERSIONS[place % 2]
    story, fault = lied(version)
    if place // 2 == 0:
        return story.case(story.based(story.base(1)), fault)
    story.log.hashes[0] = random.randbytes(32)
    whole = signed_again(story, replace(story.base(1).showing, opening=story.log.hashes[0]))
    return story.case(story.based(replace(story.base(1), showing=whole)), reason=NOT_GOOD)


def other_start(random: Random, place: int) -> Case:
    """Entries that begin after the one next to the base, at the CHECK itself, or after another hash."""
    story, _ = lied(VERSIONS[place % 2])
    log, whole = story.log, story.replay()
    last = len(log.entries)
    parts = [log.replay_of(story.check + 2, last), log.replay_of(story.check, last),
             replace(whole, opening=random.randbytes(32)), replace(whole, first=whole.first + 1)]
    part = replace(parts[place // 2], closing=log.closing())
    return story.case(story.based(replay=part), reason=NOT_FROM_BASE)


def other_closing(random: Random, place: int) -> Case:
    """What closes the base, or the entries after it, ends elsewhere or isn't signed by the node."""
    story, _ = lied(VERSIONS[place % 2])
    base, part, log = story.base(), story.replay(), story.log
    stranger = log.cast.stranger
    of_base = replace(base, showing=replace(base.showing, closing=log.signer.sign(log.words[4], log.hashes[4])))
    forged = replace(base, showing=replace(base.showing, closing=stranger.sign(log.words[5], log.hashes[5], story.node)))
    cases = [(of_base, part, NOT_CLOSED), (forged, part, NOT_SIGNED),
             (base, replace(part, closing=log.signer.sign(log.words[5], log.hashes[5])), NOT_CLOSED),
             (base, replace(part, closing=stranger.sign(log.words[-1], log.hashes[-1], story.node)), NOT_SIGNED)]
    base, part, reason = cases[place // 2]
    return story.case(Based(base, part), reason=reason)


def other_nodes(random: Random, place: int) -> Case:
    """Evidence against another node than the base's or the entries', or against no member."""
    story, _ = lied(VERSIONS[place % 2])
    base, part = story.base(), story.replay()
    if place // 2 == 0:
        return story.case(Based(base, part), reason=ANOTHER_NODE, node=2)
    if place // 2 == 1:
        return story.case(Based(base, replace(part, node=2)), reason=ANOTHER_NODE)
    members = [member for member in story.log.cast.roster().values() if member.node != story.node]
    return Case(file_of(story.log.cast, story.node, Based(base, part), members), reason=NO_KEY)


def other_kind(random: Random, place: int) -> Case:
    """A roster that has the node as a client, or its log as one of the other version."""
    story, _ = lied(VERSIONS[place % 2])
    log_version = LOG_2 if place % 2 == 0 else LOG_1
    change = {'kind': CLIENT} if place // 2 == 0 else {'log': log_version}
    members = [replace(member, **change) if member.node == story.node else member
               for member in story.log.cast.roster().values()]
    case = file_of(story.log.cast, story.node, story.based(), members)
    return Case(case, reason=NOT_GOOD if place // 2 == 0 else OTHER_VERSION)


def check_again(story: Story):
    """Puts a CHECK of another state in the place of the last entry."""
    log = story.log
    for each in (log.hashes, log.numbers, log.words, log.skips, log.entries):
        each.pop()
    log.append(log.check())


def known_messages(random: Random, place: int) -> Case:
    """A client's state that knows 65,536 messages of a kind, or one more, all of which its log is said to have."""
    count = [65536, 65537][place % 2]
    story = Story(LOG_1, CLIENT)
    log = story.log
    log.state.received = {(2, seq, ZEROS) for seq in range(count)}
    check_again(story)
    story.state = log.state.text()
    log.append(Clock(0, 0), honest=False)
    fault = (Fault.CLOCK_BACK, log.numbers[-1])
    return story.case(story.based(), fault if count == 65536 else None, None if count == 65536 else NOT_GOOD)


def sent_at_the_base(random: Random, place: int) -> Case:
    """A client's state that sent a message under a number below the base's, or under its own."""
    story = Story(LOG_1, CLIENT)
    log = story.log
    log.state.sent = {[1, 2][place]: Sent(2, ZEROS, ZEROS)}
    check_again(story)
    story.state = log.state.text()
    log.append(Clock(0, 0), honest=False)
    fault = (Fault.CLOCK_BACK, log.numbers[-1])
    return story.case(story.based(), fault if place == 0 else None, None if place == 0 else NOT_GOOD)


def odd_versions(random: Random, place: int) -> Case:
    """A base's version that is none."""
    story, _ = lied(LOG_1)
    data = story.case(story.based()).data
    at = len(roster_text(list(story.log.cast.roster().values()))) + 8
    number = [0, 3, 5, 2**32 - 1][place]
    return Case(data[:at] + word(number) + data[at + 4:], reason=NO_TEXT, byte=at)


BASES = [
    ('based_lie', 10, lie),
    ('based_honest', 4, honest),
    ('based_after_a_lie', 2, after_a_lie),
    ('based_with_each_fault', 4 * len(Fault), with_each_fault),
    ('based_other_state', 20, other_state),
    ('based_other_place', 10, other_place),
    ('based_other_check', 6, other_check),
    ('based_other_opening', 4, other_opening),
    ('based_other_start', 8, other_start),
    ('based_other_closing', 8, other_closing),
    ('based_other_nodes', 6, other_nodes),
    ('based_other_kind', 4, other_kind),
    ('based_known_messages', 2, known_messages),
    ('based_sent_at_the_base', 2, sent_at_the_base),
    ('based_odd_versions', 4, odd_versions),
]
