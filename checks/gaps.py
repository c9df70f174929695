#!/usr/bin/env python3
"""Sees that the second verifier gives each file of evidence of a log of version 2, whose numbers have gaps, and of a replay
from a base, the verdict that is owed: the node that is exposed, of a replay the fault and its entry's number, and of what is no evidence the reason and
the byte at which the first item begins that doesn't decode. So it does with packets, and why they are refused. Then errors are
planted in the verifier, and each must be seen.

usage: checks/gaps.py                   compares, in a few seconds, without a program
       checks/gaps.py --write FOLDER    writes each file, NAME.evidence, and each packet, NAME.packet, with its roster,
                                        NAME.roster, and prints what is owed
       checks/gaps.py PROGRAM           compares what `nfsacc check` says of each, as checks/generate.py does. Several
                                        programs, with a comma between them, must say the same
"""

import os
import sys
from collections.abc import Iterator
from random import Random

sys.dont_write_bytecode = True
import generate  # noqa: E402
from generator.bases import BASES  # noqa: E402
from generator.gaps import GAPS  # noqa: E402
from generator.kinds import Case  # noqa: E402
from generator.packets import Packet, packets  # noqa: E402
from generator.texts import roster_text  # noqa: E402
from verifier import evidence, keys, replay, words  # noqa: E402
from verifier import packets as judged_packets  # noqa: E402
from verifier.evidence import NO_ENTRY, Verdict, judge  # noqa: E402
from verifier.explain import Detail, explain  # noqa: E402
from verifier.keys import ZEROS, digest  # noqa: E402
from verifier.log import Clock, hash_after  # noqa: E402
from verifier.packets import refusal  # noqa: E402
from verifier.words import LOG_2, NUMBERS, number_in, skipped_in, word_of  # noqa: E402

# The hash that docs/FORMATS.md has of a CLOCK of (1, 0) as a log's first entry, with 1 to 5 skipped.
FIRST_CLOCK = 'dbc61d45e1aa359c5952a352c5ea8afa1ae4cdbd3827c220bcef9bced5e83a98'
# The digest that docs/CHECKING.md has of server 1's opening state.
OPENING_STATE = 'f76828427b61afa0d539d5f3cb0c584a77a911f1e87222bb1ba03c8148b496fe'


def all_made() -> Iterator[tuple[str, int, Case]]:
    for name, count, make in GAPS + BASES:
        for place in range(count):
            yield name, place, make(Random(f'{name} {place}'), place)


def owed(case: Case) -> str:
    """The line that is owed, and what is more to be said."""
    said = Verdict(case.exposed, case.fault).line()
    if case.fault is not None:
        said += f', fault {case.fault[0]:d} at {case.fault[1]}'
    said += '' if case.reason is None else f': {case.reason}'
    return said + ('' if case.byte is None else f', byte {case.byte}')


def wrong_in(case: Case) -> list[str]:
    """What is said otherwise than it is owed."""
    judged, meant, told = judge(case.data), Verdict(case.exposed, case.fault), explain(case.data, 'checks/gaps.py')
    wrong = [] if judged == meant else [f'judged as {judged}']
    if told['verdict'] != meant.line():
        wrong.append(f'explained as {told["verdict"]}')
    for name, value in ('reason', case.reason), ('first_byte_that_does_not_decode', case.byte):
        if value is not None and told.get(name) != value:
            wrong.append(f'{name}: {told.get(name)}')
    return wrong


# Errors, each as what stands in the place of a function of the verifier.

marks_shown, fault_shown, step = evidence.marks_shown, evidence.fault_shown, replay.step
state_of_base = evidence.state_of_base
read_closed = judged_packets.read_closed


def no_mark(roster, node, showing):
    return {number: mark for number, mark in marks_shown(roster, node, showing).items() if mark is not NO_ENTRY}


def many_marks(roster, node, showing):
    return {number: object() if mark is NO_ENTRY else mark for number, mark in marks_shown(roster, node, showing).items()}


def no_opening(roster, node, showing):
    marks = marks_shown(roster, node, showing)
    marks.pop(showing.first - 1 if showing.links else None, None)
    return marks


def marks_of_word(roster, node, showing):
    """An authenticator alone shows what its word skips, too."""
    marks, entry_word = marks_shown(roster, node, showing), showing.closing.word
    number, skipped = number_in(showing.log, entry_word), min(skipped_in(showing.log, entry_word), words.MAX_SKIPPED)
    return dict.fromkeys(range(number - skipped, number)) | marks if marks else marks


def without_counts(opening, first, links):
    hashes = [opening]
    for number, link in zip(evidence.numbers_from(first, links), links):
        hashes.append(evidence.hash_after(hashes[-1], number, link.kind, link.content_hash))
    return hashes


def whatever_number(reader, before):
    return skipped_in(LOG_2, words.read_place(reader)) % (words.MAX_SKIPPED + 1)


def by_number(showing):
    last = [showing.first - 1, *evidence.numbers_from(showing.first, showing.links)][-1]
    return number_in(showing.log, showing.closing.word) == last


def by_whole_word(showing):
    return showing.closing.word == [showing.first - 1, *evidence.words_from(showing.first, showing.links)][-1]


def kept_by_number(state, entry_word, before, entry):
    step(state, entry_word % NUMBERS if entry.kind == 1 else entry_word, before, entry)


def at_place(roster, node, charge):
    found = fault_shown(roster, node, charge)
    return found and (found[0], evidence.numbers_from(charge.first, charge.links()).index(found[1]) + 1)


def of_any_version(reader, _, log):
    return read_closed(reader, {}, log)


def opening_of_base(roster, node, base):
    state = state_of_base(roster, node, base)
    return state and replay.opening_state(node, state.kind)


class AnyHash(bytes):
    """Is every hash."""

    def __eq__(self, other):
        return True

    def __ne__(self, other):
        return False

    __hash__ = bytes.__hash__


PLANTED = [
    ('a skipped number shows no mark', evidence, 'marks_shown', no_mark),
    ('two marks of no entry differ', evidence, 'marks_shown', many_marks),
    ('what stands before a link is not shown', evidence, 'marks_shown', no_opening),
    ('an authenticator alone shows what its word skips', evidence, 'marks_shown', marks_of_word),
    ('the chain is made of numbers', evidence, 'chain', without_counts),
    ('any count decodes', words, 'MAX_SKIPPED', NUMBERS),
    ('as many as 65 are skipped', words, 'MAX_SKIPPED', 65),
    ('63 at most are skipped', words, 'MAX_SKIPPED', 63),
    ("a word's number is not looked at", words, 'read_skipped', whatever_number),
    ("a closing's count is not looked at", evidence, 'ends_in_closing', by_number),
    ("an authenticator's count is looked at", evidence, 'ends_in_closing', by_whole_word),
    ('any kind of evidence is of any version', evidence, 'is_of_its_version', lambda roster, node, _: node in roster),
    ('a roster of logs 1 alone has the second form', keys, 'has_gaps', lambda _: True),
    ('a sent message is kept under its number', replay, 'step', kept_by_number),
    ("a fault's number is its place", evidence, 'fault_shown', at_place),
    ("a segment's version is not looked at", judged_packets, 'read_closed', of_any_version),
    ("the digest of a base's state is not looked at", evidence, 'is_check_at', lambda base, state: True),
    ('the state of a base knows any messages', evidence, 'knows_little', lambda base, state: True),
    ('a replay after a base begins with the opening state', evidence, 'state_of_base', opening_of_base),
    ('a base shows any hash before the first entry', evidence, 'ZEROS', AnyHash()),
]


def is_seen(cases: list[Case], handed: list[Packet], module, name: str, wrong) -> bool:
    """Whether a verdict, a refusal or a text that doesn't decode is another one with an error in the verifier."""
    right = getattr(module, name)
    setattr(module, name, wrong)
    try:
        return any(map(is_judged_otherwise, cases)) or any(map(is_refused_otherwise, handed))
    finally:
        setattr(module, name, right)


def is_judged_otherwise(case: Case) -> bool:
    if judge(case.data) != Verdict(case.exposed, case.fault):
        return True
    return case.byte is not None and explain(case.data, '').get('first_byte_that_does_not_decode') != case.byte


def is_refused_otherwise(packet: Packet) -> bool:
    return refusal(packet.roster, packet.data) != packet.refused


def wrong_words() -> list[str]:
    """What is explained otherwise than docs/CHECKING.md says, of a log of 6, 7 and 8 and of a hidden entry 3."""
    def told(name: str, **detail) -> dict:
        make = next(make for each, _, make in GAPS if each == name)
        return explain(make(Random(f'{name} 0'), 0).data, '', Detail(**detail))

    log, fork = told('lie', entries=True), told('hidden_entry')
    link, closing = fork['showings'][1]['links'][1], fork['showings'][1]['closing']
    before = {number: told('lie', state=number)['state'] for number in (1, 3, 6, 7, 9)}
    there, ack = told('words_of_messages', entries=True)['all_entries'], told('counts_in_acks', entries=True)['all_entries'][1]
    with open(os.path.join(os.path.dirname(__file__), '../docs/CHECKING.md')) as page:
        worked = page.read()
    said = [
        ('the accused', log['accused'], 'node 1, a server, log version 2'),
        ('members', [each.get('log_version') for each in log['roster']['members']], [2, None, 2]),
        ('numbers', [(each['number'], each.get('skipped')) for each in log['all_entries']],
         [('6', 5), ('7', None), ('8', None)]),
        ('first', (log['log']['first'], fork['showings'][0]['first']), ('1', '4')),
        ('a link', (link['number'], link['skipped']), ('4', 1)),
        ('a closing', (closing['number'], closing['skipped']), ('4', 1)),
        ('numbers there', [(each['number_there'], each.get('skipped_there')) for each in there[:3]],
         [('5', None), ('5', 2), ('5', 2**31)]),
        ('the number of an acknowledged message', (ack['its_number'], ack['its_skipped']), ('4', 3)),
        ('worked bytes', [each['closing']['hash'] in worked for each in fork['showings']], [True, True]),
        ('marks', (fork['two_marks']['number'], fork['two_marks']['second_showing']), ('3', 'no entry')),
        ('opening states', {before[number]['digest'] for number in (1, 3, 6)}, {OPENING_STATE}),
        ('messages before 7', len(before[7]['received']), 1),
        ('a state past a fault', before[9].get('none'), 'an entry before it has a fault'),
    ]
    return [f'{what}: {here}, where it is {owed_here}' for what, here, owed_here in said if here != owed_here]


def compare() -> int:
    cases, handed, failed = list(all_made()), list(packets()), 0
    for name, place, case in cases:
        wrong = wrong_in(case)
        failed += bool(wrong)
        if wrong:
            print(f'{name} {place}: {owed(case)}, is owed', *wrong, sep='\n  ', file=sys.stderr)
    exposing = sum(case.exposed is not None for _, _, case in cases)
    for each in filter(is_refused_otherwise, handed):
        print(f'packet {each.name}: {each.refused} is owed', file=sys.stderr)
        failed += 1
    for wrong in wrong_words():
        print(wrong, file=sys.stderr)
        failed += 1
    clock = Clock(1, 0)
    if hash_after(ZEROS, word_of(5, 6), clock.kind, digest(clock.content())).hex() != FIRST_CLOCK:
        print('another hash than docs/FORMATS.md has', file=sys.stderr)
        failed += 1
    print(f'{len(cases)} files, of which {exposing} expose, and {len(handed)} packets: {failed} are judged otherwise than '
          'it is owed')
    for what, *error in PLANTED:
        seen = is_seen([case for _, _, case in cases], handed, *error)
        print(f'planted: {what}: {"seen" if seen else "NOT SEEN"}')
        failed += not seen
    return 1 if failed else 0


def put(folder: str, name: str, data: bytes):
    with open(os.path.join(folder, name), 'wb') as file:
        file.write(data)


def write(folder: str) -> int:
    for name, place, case in all_made():
        print(f'{name}_{place}: {owed(case)}')
        put(folder, f'{name}_{place}.evidence', case.data)
    for each in packets():
        print(f'{each.name}: {"accepted" if each.refused is None else f"refused {each.refused}"}')
        put(folder, f'{each.name}.packet', each.data)
        put(folder, f'{each.name}.roster', roster_text(list(each.roster.values())))
    return 0


def compare_programs(programs: str, cases: Iterator[tuple[str, int, Case]]) -> int:
    judged, wrong = generate.compare(programs.split(','), cases)
    print(f'{judged} files were judged, {wrong} otherwise than they are meant to be')
    return 1 if wrong else 0


def main() -> int:
    if len(sys.argv) == 3 and sys.argv[1] == '--write':
        return write(sys.argv[2])
    if len(sys.argv) == 2 and not sys.argv[1].startswith('-'):
        return compare_programs(sys.argv[1], all_made())
    if len(sys.argv) == 1:
        return compare()
    print(__doc__, file=sys.stderr)
    return 2


if __name__ == '__main__':
    sys.exit(main())
