"""What a witness keeps of one node, and what it says of it: signatures, an audit, challenges, and evidence."""

import time
from dataclasses import dataclass, field

from verifier.evidence import (NO_ENTRY, Base, Based, Charge, Fork, Link, Mark, Replay, Showing, chain, numbers_from,
                               state_of_base, words_from)
from verifier.keys import ZEROS, Authenticator, Member, Roster, digest
from verifier.log import ACK, RECV, Entry, hash_after, message_hash, recv_content
from verifier.replay import State, fault_of, opening_state, step
from verifier.words import number_in

from .texts import Acknowledgement, Envelope

MAX_KEPT = 256
MAX_MESSAGES = 16
MAX_ASKED = 4096
MAX_AUDITED = 65536
TAKEN, BEFORE = 0, 10
KEPT_FULL, MESSAGES_FULL, NOT_ASKED, BELOW_BASE = 20, 21, 26, 31
TRUSTED, SUSPECTED, EXPOSED = 1, 2, 3


def showing_of(claim: Authenticator, log: int) -> Showing:
    """An authenticator alone, as part of a log without entries."""
    return Showing(claim.node, number_in(log, claim.word) + 1, claim.hash, [], claim, log)


def showing_of_segment(segment: Replay) -> Showing:
    return Showing(segment.node, segment.first, segment.opening, segment.links(), segment.closing, segment.log)


def marks_of(first: int, opening: bytes, links: list[Link]) -> dict[int, Mark]:
    """What a part of a log shows at its numbers: a hash, or that no entry has it."""
    marks: dict[int, Mark] = {first - 1: opening}
    for number, link, after in zip(numbers_from(first, links), links, chain(opening, first, links)[1:]):
        marks.update(dict.fromkeys(range(number - link.skipped, number), NO_ENTRY))
        marks[number] = after
    return marks


def shown_by(state: State, entry: Entry) -> Authenticator | None:
    """What another node signed, as an entry without fault shows it."""
    if entry.kind == RECV:
        return Authenticator(entry.sender, entry.seq, message_hash(state.node, entry), entry.signature)
    if entry.kind == ACK:
        sent = state.sent[entry.seq]
        content = recv_content(state.node, entry.seq, sent.prev, sent.body_hash, entry.mine)
        at = hash_after(entry.prev, entry.number, RECV, digest(content))
        return Authenticator(entry.to, entry.number, at, entry.signature)
    return None


@dataclass
class Book:
    member: Member
    roster: Roster
    state: State = field(init=False)
    end: int = 0
    marks: dict[int, tuple[Mark, Showing | None]] = field(default_factory=lambda: {0: (ZEROS, None)})
    kept: dict[int, Authenticator] = field(default_factory=dict)
    audit: tuple[int, int] | None = None
    audit_since: float = 0
    messages: dict[tuple[int, int, bytes], tuple[Envelope, float]] = field(default_factory=dict)
    entries: list[Entry] = field(default_factory=list)
    skips: list[int] = field(default_factory=list)
    charge: Charge | None = None
    last_shown: Authenticator | None = None
    base: Base | None = None

    def __post_init__(self):
        self.state = opening_state(self.member.node, self.member.kind)

    def begin_at(self, base: Base):
        """The audit is to begin at a base, if that is a good one of this node: then what it shows up to there is known."""
        state = state_of_base(self.roster, self.member.node, base)
        if state is None:
            return
        showing = base.showing
        marks = marks_of(showing.first, showing.opening, showing.links)
        self.marks = {number: (mark, showing) for number, mark in marks.items() if number <= base.at}
        self.base, self.state, self.end = base, state, base.at

    # ---- what is handed in; all of it is signed

    def learn(self, claim: Authenticator) -> int:
        number = self.place(claim)
        if self.charge is not None:
            return TAKEN
        if number < min(self.marks):
            return BELOW_BASE
        known = self.marks.get(number)
        if known is not None and known[0] == claim.hash:
            return BEFORE
        if known is None and number > self.end and len(self.kept) >= MAX_KEPT:
            return KEPT_FULL
        self.show({number: claim.hash}, showing_of(claim, self.member.log))
        if number > self.end:
            self.kept[number] = claim
        return TAKEN

    def show_last(self, claim: Authenticator) -> int:
        """Learns what a packet shows: what isn't refused counts as shown, where its number is greater."""
        answer = self.learn(claim)
        if answer in (TAKEN, BEFORE) and (self.last_shown is None or self.place(self.last_shown) < self.place(claim)):
            self.last_shown = claim
        return answer

    def place(self, claim: Authenticator) -> int:
        return number_in(self.member.log, claim.word)

    def show(self, marks: dict[int, Mark], showing: Showing):
        """Holds what is shown against what was shown before. Two marks at one number are a fork."""
        for number, mark in marks.items():
            known = self.marks.setdefault(number, (mark, showing))
            if known[0] != mark and self.charge is None:
                self.charge = Fork(number, [known[1], showing] if known[1] else [showing])

    def challenge(self, envelope: Envelope) -> int:
        if envelope.name() in self.messages:
            return BEFORE
        if len(self.messages) >= MAX_MESSAGES:
            return MESSAGES_FULL
        self.messages[envelope.name()] = envelope, time.monotonic()
        return TAKEN

    def acknowledge(self, ack: Acknowledgement) -> int:
        return NOT_ASKED if self.messages.pop(ack.message(), None) is None else TAKEN

    # ---- audits

    def open_audit(self):
        """Asks for the log up to what is known of it, where that is more than was audited and nothing is asked for."""
        if self.audit is None and self.charge is None:
            most = MAX_AUDITED + (self.base.at if self.base else 0)
            near = [number for number in self.kept if self.end < number <= min(self.end + MAX_ASKED, most)]
            if near:
                self.audit, self.audit_since = (self.end + 1, max(near)), time.monotonic()

    def answer(self, segment: Replay) -> tuple[int, list[Authenticator]]:
        """Takes a part of the log, and replays it: what is answered, and what it shows of others."""
        links = segment.links()
        if self.audit != (segment.first, numbers_from(segment.first, links)[-1]):
            return NOT_ASKED, []
        self.audit = None
        self.show(marks_of(segment.first, segment.opening, links), showing_of_segment(segment))
        for entry in segment.entries:
            if entry.kind == RECV:
                self.messages.pop((entry.sender, entry.seq, message_hash(self.member.node, entry)), None)
        return TAKEN, [] if self.charge else self.replay(segment, links)

    def replay(self, segment: Replay, links: list[Link]) -> list[Authenticator]:
        self.entries += segment.entries
        self.skips += segment.skips
        shown = []
        hashes = chain(segment.opening, segment.first, links)
        for entry, entry_word, before in zip(segment.entries, words_from(segment.first, links), hashes):
            if fault_of(self.state, self.roster, entry) is not None:
                self.charge = self.replayed(segment.closing)
                return []
            claim = shown_by(self.state, entry)
            if claim is not None:
                shown.append(claim)
            step(self.state, entry_word, before, entry)
        self.end = number_in(self.member.log, segment.closing.word)
        self.kept = {number: claim for number, claim in self.kept.items() if number > self.end}
        return shown

    def replayed(self, closing: Authenticator) -> Charge:
        """The entries from where the audit began, closed so."""
        first, opening = (self.base.at + 1, self.marks[self.base.at][0]) if self.base else (1, ZEROS)
        replay = Replay(self.member.node, first, opening, self.entries, closing, self.member.log, tuple(self.skips))
        return Based(self.base, replay) if self.base else replay

    # ---- what is told

    def told(self) -> tuple[int, int, int, int]:
        """The indication, the open challenges, the end, and the seconds of the oldest open challenge."""
        since = [since for _, since in self.messages.values()] + [self.audit_since] * (self.audit is not None)
        indication = EXPOSED if self.charge else SUSPECTED if since else TRUSTED
        seconds = int(time.monotonic() - min(since)) if since else 0
        return indication, len(since), self.end, seconds
