"""Packets, of logs of version 2 above all, each with the refusal that is owed."""

from collections.abc import Iterator
from dataclasses import dataclass, replace

from verifier.evidence import Replay, chain
from verifier.keys import CLIENT, SERVER, Roster, digest
from verifier.log import RECV, SEND, Clock, hash_after, recv_content, send_content
from verifier.packets import MAX_SEGMENT
from verifier.words import LOG_1, LOG_2, MAX_SKIPPED, NO_PLACE, NUMBERS, word_of
from verifier.xdr import hyper, opaque, word

from .gaps import Three, exchange
from .logs import Log
from .signer import Signer
from .texts import authenticator_text, part_text, segment_text

UNKNOWN_NODE, GARBAGE, BAD_SIGNATURE = 1, 2, 3


@dataclass(frozen=True)
class Packet:
    """A packet, the roster under which it is judged, and the number of the refusal that is owed, if one is."""
    name: str
    roster: Roster
    data: bytes
    refused: int | None = None


def part_of(log: Log, first: int, last: int) -> Replay:
    """A segment of the entries from one place to another."""
    return Replay(log.signer.node, log.numbers[first - 1] + 1, log.hashes[first - 1], log.entries[first - 1:last],
                  log.signer.sign(log.words[last], log.hashes[last]), log.signer.log, tuple(log.skips[first - 1:last]))


def packet_of(segment: Replay, words: list[int] | None = None) -> bytes:
    return word(3 if segment.log == LOG_1 else 5) + segment_text(segment, words)


def anew(log: Log, segment: Replay) -> Replay:
    """The segment, closed over what it now says."""
    last = chain(segment.opening, segment.first, segment.links())[-1]
    return replace(segment, closing=replace(log.signer.sign(segment.closing.word, last), node=segment.closing.node))


def closed_by(log: Log, segment: Replay, entry_word: int) -> Replay:
    return replace(segment, closing=log.signer.sign(entry_word, segment.closing.hash))


def clocks(signer: Signer, skips: list[int]) -> Log:
    """A log of readings of the clock, which are signed where no turn is asked for."""
    log = Log(Three(log=signer.log))
    log.signer = signer
    for skipped in skips:
        log.append(Clock(1, 0), honest=False, skipped=skipped)
    return log


def segments() -> Iterator[Packet]:
    """Segments of version 2: RECV 6, CLOCK 7 and SEND 9, of which the last one has number 8 skipped."""
    log = exchange()
    log.append(log.state.owed, skipped=1)
    roster, whole = log.cast.roster(), part_of(log, 1, 3)
    yield Packet('whole', roster, packet_of(whole))
    yield Packet('from_its_second_entry', roster, packet_of(part_of(log, 2, 3)))
    yield Packet('one_entry', roster, packet_of(part_of(log, 3, 3)))
    in_gap = replace(whole, first=4, skips=(2, 0, 1))
    yield Packet('from_within_a_gap', roster, packet_of(in_gap), GARBAGE)
    yield Packet('from_within_a_gap_signed_anew', roster, packet_of(anew(log, in_gap)))
    yield Packet('no_entries', roster, word(5) + part_text(whole, word(0)), GARBAGE)
    yield Packet('more_bytes', roster, packet_of(whole) + word(0), GARBAGE)
    for number, skipped in (9, 0), (9, 2), (8, 1), (10, 1), (6, 5):
        data = packet_of(closed_by(log, whole, word_of(skipped, number)))
        yield Packet(f'closed_by_{skipped}_{number}', roster, data, GARBAGE)
    for place, words in enumerate([[(5, 6), (0, 7), (0, 9)], [(5, 6), (1, 7), (1, 9)], [(4, 6), (0, 7), (1, 9)]]):
        yield Packet(f'odd_words_{place}', roster, packet_of(whole, [word_of(*each) for each in words]), GARBAGE)
    other = replace(whole, closing=log.cast.members[2].sign(whole.closing.word, whole.closing.hash, node=1))
    yield Packet('signed_by_another', roster, packet_of(other), BAD_SIGNATURE)
    yield Packet('closed_for_another', roster, packet_of(replace(whole, closing=replace(whole.closing, node=3))), GARBAGE)
    yield Packet('of_an_unknown_node', {2: roster[2]}, packet_of(whole), UNKNOWN_NODE)
    broken = replace(whole, opening=digest(b''))
    yield Packet('broken_of_an_unknown_node', {2: roster[2]}, packet_of(broken), GARBAGE)
    ones = {node: replace(member, log=LOG_1) for node, member in roster.items()}
    yield Packet('for_a_log_of_version_1', ones, packet_of(whole), GARBAGE)
    yield Packet('signed_by_another_for_version_1', ones, packet_of(other), GARBAGE)
    for at in (*range(0, 72, 4), 1, 3, 17, 61, -4):
        yield Packet(f'cut_at_{at}', roster, packet_of(whole)[:at], GARBAGE)


def without_gaps() -> Iterator[Packet]:
    """The same entries, hashes and signatures as a segment of either version, for members with logs of both."""
    for log in LOG_1, LOG_2:
        made = clocks(Three(log=log).accused(), [0, 0])
        roster, segment = made.cast.roster(), part_of(made, 1, 2)
        other = replace(segment, log=LOG_1 + LOG_2 - log)
        yield Packet(f'version_{log}', roster, packet_of(segment))
        yield Packet(f'not_version_{log}', roster, packet_of(other), GARBAGE)
        yield Packet(f'unknown_with_version_{log}', {2: roster[2]}, packet_of(segment), UNKNOWN_NODE)


def limits() -> Iterator[Packet]:
    """As many entries and skipped numbers as there may be, or one more."""
    signer = Three().accused()
    for count in MAX_SEGMENT, MAX_SEGMENT + 1:
        log = clocks(signer, [1] * count)
        refused = None if count == MAX_SEGMENT else GARBAGE
        yield Packet(f'entries_{count}', log.cast.roster(), packet_of(part_of(log, 1, count)), refused)
    for skipped in MAX_SKIPPED, MAX_SKIPPED + 1:
        log = clocks(signer, [0, skipped])
        refused = None if skipped == MAX_SKIPPED else GARBAGE
        yield Packet(f'skipped_{skipped}', log.cast.roster(), packet_of(part_of(log, 1, 2)), refused)


def alone() -> Iterator[Packet]:
    """Authenticators, whose words are any but the greatest, whatever their node's log is."""
    cast = Three(CLIENT)
    for signer in cast.members[0], cast.members[1]:
        for entry_word in word_of(NUMBERS - 1, 3), NO_PLACE - 1, NO_PLACE:
            claim = signer.sign(entry_word, digest(b'any'))
            refused = GARBAGE if entry_word == NO_PLACE else None
            yield Packet(f'authenticator_{signer.node}_{entry_word}', cast.roster(), word(1) + authenticator_text(claim),
                         refused)


def messages() -> Iterator[Packet]:
    """An envelope of a node with a log of version 2, and its acknowledgement, with their words and with others."""
    cast, prev = Three(SERVER), digest(b'before')
    sender, receiver = cast.members[2], cast.members[0]
    seq, entry_word = word_of(3, 4), word_of(7, 9)
    body, mark = b'body', digest(b'signature')
    sent = sender.sign(seq, hash_after(prev, seq, SEND, digest(send_content(1, digest(body)))))
    content = recv_content(3, seq, prev, digest(body), mark)
    received = receiver.sign(entry_word, hash_after(prev, entry_word, RECV, digest(content)))

    def envelope(seq: int) -> bytes:
        return word(2, 3, 1) + hyper(seq) + prev + opaque(body) + sent.signature.text

    def ack(entry_word: int, seq: int) -> bytes:
        message = word(3) + hyper(seq) + prev + digest(body) + mark
        return word(4, 1) + hyper(entry_word) + prev + message + received.signature.text

    for name, data, refused in [
            ('envelope', envelope(seq), None), ('envelope_0_4', envelope(word_of(0, 4)), BAD_SIGNATURE),
            ('envelope_of_none', envelope(NO_PLACE), GARBAGE), ('ack', ack(entry_word, seq), None),
            ('ack_by_0_9', ack(9, seq), BAD_SIGNATURE), ('ack_of_0_4', ack(entry_word, 4), BAD_SIGNATURE)]:
        yield Packet(name, cast.roster(), data, refused)
    yield Packet('packet_6', cast.roster(), word(6) + envelope(seq)[4:], GARBAGE)


def packets() -> Iterator[Packet]:
    for make in segments, without_gaps, limits, alone, messages:
        yield from make()
