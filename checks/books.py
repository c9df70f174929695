#!/usr/bin/env python3
"""What one node's book replies and holds, step by step, beside what the definitions say of all steps.

The definitions of `witness_spec` (functions of a node's own steps) and the equations of `witness_book_laws` (a book, and the
book after a step) are written out here a second time, over plain values: a hash is a word, a replay is sound where no
entry is marked as bad. Random steps are made, and after each the reply and all parts are compared. The limits are small,
so that every refusal of a node's own step is reached; then errors are planted in the equations, and each must be seen.

All of it is done with a log of version 1, and then with one of version 2, whose numbers have gaps; and then of both again
where the audit begins at a base: at number 1, at 5, and at the last but one of all numbers. A base is a showing of the log,
with a CHECK at one of its numbers and the state there.

    checks/books.py [HISTORIES]     prints how many steps were compared, which replies came, and what was planted; of
                                    version 2 without a base half as many histories are tried
"""
import random
import sys
import zlib
from collections import Counter, namedtuple
from functools import lru_cache

LEARNED, CHALLENGES = 3, 2
# The limits that are of numbers: how many are asked for, audited, and wait in the outbox. Numbers with gaps need more.
Reach = namedtuple('Reach', 'asked audited outbox')
REACH = {1: Reach(3, 8, 4), 2: Reach(6, 10, 6)}
SKIPS = [0, 0, 0, 0, 1, 1, 2]
NODE = 1
ZEROS = 0
NO_ENTRY = None
# The greatest number that an entry may have, and those at which bases stand.
GREATEST = 2 ** 64 - 2
STARTS = [1, 5, GREATEST - 1]

# `skipped` is how many numbers are skipped just before an entry; a log of version 1 skips none.
Authenticator = namedtuple('Authenticator', 'number hash skipped', defaults=(0,))
Segment = namedtuple('Segment', 'first opening entries closing')
Job = namedtuple('Job', 'node number state segment')
Done = namedtuple('Done', 'job verdict')
Entry = namedtuple('Entry', 'kind word skipped', defaults=(0,))
State = namedtuple('State', 'number hash')
# A part of the log that is shown, the number of a CHECK in it, and the state there.
Base = namedtuple('Base', 'showing at state')
Book = namedtuple('Book', 'base end state stage begun learned segments challenges outbox evidence')
OPENING = State(0, ZEROS)
version = 1
# The base from which the node is watched, or None.
watched = None


def refused(number):
    return ('refused', number)


def link(before, number, entry):
    return zlib.crc32(repr((before, number, entry)).encode()) & 0xffff | 1


def pair_of(a):
    return (a.number, a.hash)


def numbered(s):
    """The entries of a segment, each after its number."""
    number, found = s.first - 1, []
    for entry in s.entries:
        number += entry.skipped + 1
        found.append((number, entry))
    return found


def segment_marks(s):
    """What a segment shows at each number: a hash, or no entry."""
    marks, hash_ = [(s.first - 1, s.opening)], s.opening
    for number, entry in numbered(s):
        hash_ = link(hash_, number, entry)
        marks += [(skipped, NO_ENTRY) for skipped in range(number - entry.skipped, number)]
        marks.append((number, hash_))
    return marks


def verdict_on(state, s):
    """Sound, with the state after it and what it shows of others, or a fault."""
    if s.first != state.number + 1 or s.opening != state.hash or any(e.kind == 'bad' for e in s.entries):
        return ('fault',)
    found = tuple(('other', e.word, number) for number, e in numbered(s) if e.kind == 'recv')
    return ('sound', State(s.closing.number, s.closing.hash), found)


# ---- where an audit begins: at the log's first entry, or at a base

def start_number(base):
    return base.at if base else 0


def start_state(base):
    return base.state if base else OPENING


def start_hash(base):
    return dict(segment_marks(base.showing))[base.at] if base else ZEROS


def base_pairs(base):
    """What a base shows up to its number."""
    return tuple(pair for pair in segment_marks(base.showing) if pair[0] <= base.at) if base else ()


def is_below(base, number):
    """The number lies below all that the base's showing marks."""
    return base is not None and number < base.showing.first - 1


def start_showing(base, number):
    return base.showing if base and number <= base.at else None


# ---- the definitions: functions of own steps, a linked list with the newest first, (step, reply, earlier steps)

memo = lru_cache(None)


def noted(step, reply):
    return step[1] if step[0] == 'learn' and reply == 'noted' else None


def accepted(step, reply):
    return step[1] if step[0] == 'answer' and reply == 'accepted' else None


def filed(step, reply):
    return step[1].job if step[0] == 'file' and reply == 'filed' else None


def begun(step, reply):
    return step[0] == 'begin' and reply[0] == 'job'


def forwarded(step, reply):
    return step[0] == 'forward' and reply[0] == 'forwarded'


@memo
def end_of(past):
    """The last number that was audited, and the state there."""
    if past is None:
        return start_number(watched), start_state(watched)
    step, reply, rest = past
    job, end = filed(step, reply), end_of(rest)
    if job is None:
        return end
    verdict = verdict_on(end[1], job.segment)
    return (job.segment.closing.number, verdict[1]) if verdict[0] == 'sound' else end


@memo
def verdict_filed(past):
    """The verdict of the newest step, if it filed a job."""
    job = filed(past[0], past[1])
    return None if job is None else verdict_on(end_of(past[2])[1], job.segment)


@memo
def has_fault(past):
    return past is not None and ((verdict_filed(past) or ('',))[0] == 'fault' or has_fault(past[2]))


@memo
def audited(past):
    if past is None:
        return ()
    sound = (verdict_filed(past) or ('',))[0] == 'sound'
    return audited(past[2]) + (filed(past[0], past[1]).segment.entries if sound else ())


@memo
def all_found(past):
    if past is None:
        return ()
    verdict = verdict_filed(past)
    return all_found(past[2]) + (verdict[2] if verdict and verdict[0] == 'sound' else ())


def is_fork(pair, pairs):
    return any(pair[0] == other[0] and pair[1] != other[1] for other in pairs)


def has_fork(pairs):
    return any(is_fork(pair, pairs[place + 1:]) for place, pair in enumerate(pairs))


@memo
def shown(past):
    if past is None:
        return ((0, ZEROS),) + base_pairs(watched)
    step, reply, rest = past
    a, c = noted(step, reply), accepted(step, reply)
    new = () if a is None or is_exposed(rest) else (pair_of(a),)
    return new + (tuple(segment_marks(c)) if c else ()) + shown(rest)


@memo
def is_exposed(past):
    return has_fork(shown(past)) or has_fault(past)


@memo
def noted_before(past):
    if past is None:
        return ()
    a = noted(past[0], past[1])
    return (() if a is None or is_exposed(past) else (a,)) + noted_before(past[2])


def kept(past):
    return tuple(a for a in noted_before(past) if end_of(past)[0] < a.number)


@memo
def all_accepted(past):
    if past is None:
        return ()
    c = accepted(past[0], past[1])
    return ((c,) if c else ()) + all_accepted(past[2])


@memo
def stage_of(past):
    if past is None:
        return ('none',)
    step, reply, rest = past
    if step[0] == 'audit' and reply[0] == 'asked':
        return ('wanted', reply[1], reply[2])
    if accepted(step, reply):
        return ('given', step[1])
    if begun(step, reply):
        return ('out', reply[1].segment)
    if step[0] == 'putback' and reply == 'returned':
        return ('given', step[1].segment)
    return ('none',) if filed(step, reply) else stage_of(rest)


@memo
def begins(past):
    return 0 if past is None else begins(past[2]) + begun(past[0], past[1])


@memo
def forwards(past):
    return 0 if past is None else forwards(past[2]) + forwarded(past[0], past[1])


def outbox(past):
    return all_found(past)[forwards(past):]


def job_out(past):
    stage = stage_of(past)
    return Job(NODE, begins(past), end_of(past)[1], stage[1]) if stage[0] == 'out' else None


def is_answered(s, challenge):
    return challenge[0] == 'audit' or any(e.kind == 'recv' and e.word == challenge[1] for e in s.entries)


@memo
def open_challenges(past):
    if past is None:
        return ()
    step, reply, rest = past
    old = open_challenges(rest)
    if step[0] == 'audit' and reply[0] == 'asked':
        return old + (('audit', reply[1], reply[2]),)
    if step[0] == 'send' and reply == 'opened':
        return old + (('message', step[1]),)
    if accepted(step, reply):
        return tuple(x for x in old if not is_answered(step[1], x))
    if step[0] == 'ack' and reply == 'closed':
        return tuple(x for x in old if x != ('message', step[1]))
    return old


def first_fork(new, pairs):
    return next((pair[0] for pair in new if is_fork(pair, pairs)), None)


def kept_before(learned, segments, number):
    """What showed the number: an authenticator that is kept, else a segment that holds it."""
    old = next((a for a in learned if a.number == number), None)
    return old or next((s for s in segments if s.first <= number <= s.closing.number), None)


def fork_of(base, learned, segments, new, number):
    """The fork that a new showing makes at a number, if it makes one."""
    if number is None:
        return None
    old = start_showing(base, number)
    if number == 0 and old is None:
        return ('fork', 0, new, None)
    old = old or kept_before(learned, segments, number)
    return old and ('fork', number, old, new)


def replay_from(base, entries, closing):
    """What shows the fault of a replay: all audited entries, after the base where there is one."""
    log = Segment(start_number(base) + 1, start_hash(base), entries, closing)
    return ('replay from a base', base, log) if base else ('replay', log)


@memo
def evidence(past):
    if past is None:
        return None
    step, reply, rest = past
    if is_exposed(rest):
        return evidence(rest)
    a, c, job = noted(step, reply), accepted(step, reply), filed(step, reply)
    if a or c:
        new = [pair_of(a)] if a else segment_marks(c)
        return fork_of(watched, kept(rest), all_accepted(rest), a or c, first_fork(new, shown(rest)))
    if job and verdict_filed(past)[0] == 'fault':
        return replay_from(watched, audited(rest) + job.segment.entries, job.segment.closing)
    return None


def indication(past):
    return 'exposed' if is_exposed(past) else 'suspected' if open_challenges(past) else 'trusted'


def last_in_reach(end, learned):
    return max((a.number for a in learned if a.number <= end + REACH[version].asked), default=0)


def ask_up_to(start, end, waiting, last):
    if last == 0:
        return refused(7)
    if start + REACH[version].audited < last:
        return refused(13)
    return refused(6) if REACH[version].outbox < waiting + last - end else ('asked', end + 1, last)


def learn_reply(past, a):
    pairs = shown(past)
    if is_exposed(past):
        return 'noted'
    if is_below(watched, a.number):
        return refused(15)
    if pair_of(a) in pairs:
        return 'already'
    full = end_of(past)[0] < a.number and LEARNED <= len(kept(past))
    return refused(4) if full and not is_fork(pair_of(a), pairs) else 'noted'


def challenge_reply(challenges, word):
    if ('message', word) in challenges:
        return 'already'
    return refused(5) if CHALLENGES <= sum(x[0] == 'message' for x in challenges) else 'opened'


def answer_reply(stage, s):
    return 'accepted' if stage == ('wanted', s.first, s.closing.number) else refused(10)


def audit_reply(past):
    if stage_of(past)[0] != 'none':
        return refused(9)
    if is_exposed(past) or not kept(past):
        return refused(8)
    end = end_of(past)[0]
    return ask_up_to(start_number(watched), end, len(outbox(past)), last_in_reach(end, kept(past)))


def begin_reply(past):
    stage = stage_of(past)
    if stage[0] == 'out':
        return refused(9)
    if stage[0] != 'given' or is_exposed(past):
        return refused(8)
    return ('job', Job(NODE, begins(past) + 1, end_of(past)[1], stage[1]))


def back_reply(out, job, good):
    return refused(11) if out is None else good if out == job else refused(12)


def owed(past, step):
    """The reply that is owed to a step."""
    kind = step[0]
    if kind == 'learn':
        return learn_reply(past, step[1])
    if kind == 'send':
        return challenge_reply(open_challenges(past), step[1])
    if kind == 'answer':
        return answer_reply(stage_of(past), step[1])
    if kind == 'ack':
        return 'closed' if ('message', step[1]) in open_challenges(past) else refused(10)
    if kind == 'audit':
        return audit_reply(past)
    if kind == 'begin':
        return begin_reply(past)
    if kind == 'file':
        return back_reply(job_out(past), step[1].job, 'filed')
    if kind == 'putback':
        return back_reply(job_out(past), step[1], 'returned')
    if kind == 'forward':
        return ('forwarded', outbox(past)[0]) if outbox(past) else 'empty'
    return {'indication': indication, 'challenges': open_challenges, 'evidence': evidence}[step[1]](past)


# ---- the equations: a book, its lists with the oldest first

ERRORS = [
    'what exposed the node is not shown', 'forks are sought among learned alone', 'openings are not shown',
    "a job's number is ignored", "a job's state is ignored", 'an exposed book says Already',
    'a fork is refused where it is full', 'an audit counts as a message', 'a job of an exposed node begins',
    'the last evidence stays', 'an exposed book keeps', 'an answer closes the audit alone', 'jobs are not counted',
    'what lies below the end stays',
]
# Errors that a log without gaps doesn't show.
GAP_ERRORS = [
    'skipped numbers are not shown', 'no segment has a number that it skips', 'hashes come before skipped numbers',
    'a joined log loses its counts', 'the end counts entries', 'an authenticator with another count is another',
    'an authenticator shows what it skips',
]
# Errors that only a base shows, and of a base those that only a log with gaps shows.
BASE_ERRORS = [
    "the first job has the node's opening state", "the base's marks are not shown",
    "the base's marks above its number are shown", 'a pair that is shown is not below',
    'an exposed book is asked whether it is below', 'below is below the CHECK',
    'a fork up to the base is sought in what is kept', 'a fork up to the base has the new showing first',
    'a fork at 0 has no base', 'evidence of a replay has no base', 'evidence of a replay begins with the first entry',
    'a book is full at a number', 'sums wrap',
]
BASE_GAP_ERRORS = ['numbers skipped before the CHECK are not shown', "the base's opening is not shown"]
planted = None


def has(error):
    return planted == error


def exposing_pairs(found):
    if found is None or found[0] != 'fork' or has('what exposed the node is not shown'):
        return []
    newer = found[2] if found[3] is None else found[3]
    return [pair_of(newer.closing if isinstance(newer, Segment) else newer)]


def shown_of_base(base):
    if base is None or has("the base's marks are not shown"):
        return []
    above = has("the base's marks above its number are shown")
    pairs = segment_marks(base.showing) if above else list(base_pairs(base))
    if has('numbers skipped before the CHECK are not shown'):
        return [pair for pair in pairs if pair[1] is not NO_ENTRY]
    return pairs[1:] if has("the base's opening is not shown") else pairs


def book_shown(b):
    pairs = [(0, ZEROS)] + exposing_pairs(b.evidence) + [pair_of(a) for a in b.learned] + shown_of_base(b.base)
    if has('an authenticator shows what it skips'):
        pairs += [(number, NO_ENTRY) for a in b.learned for number in range(a.number - a.skipped, a.number)]
    if has('forks are sought among learned alone'):
        return pairs
    for s in b.segments:
        pairs += segment_marks(s)[1:] if has('openings are not shown') else segment_marks(s)
    return [pair for pair in pairs if pair[1] is not NO_ENTRY] if has('skipped numbers are not shown') else pairs


def book_job(b):
    return Job(NODE, b.begun, b.state, b.stage[1]) if b.stage[0] == 'out' else None


def book_audited(b):
    return tuple(e for s in b.segments if s.closing.number <= b.end for e in s.entries)


def as_compared(job):
    if job is not None and has("a job's number is ignored"):
        return job._replace(number=0)
    if job is not None and has("a job's state is ignored"):
        return job._replace(state=OPENING)
    return job


def lies_below(base, number):
    return number < base.at if base and has('below is below the CHECK') else is_below(base, number)


def is_shown_below(b, a):
    return has('a pair that is shown is not below') and pair_of(a) in book_shown(b)


def reply_to_learn(b, a):
    pairs = book_shown(b)
    if lies_below(b.base, a.number) and has('an exposed book is asked whether it is below'):
        return refused(15)
    if b.evidence is not None and not has('an exposed book says Already'):
        return 'noted'
    if lies_below(b.base, a.number) and not is_shown_below(b, a):
        return refused(15)
    others = [each for each in b.learned if has('an authenticator with another count is another') and each != a]
    if pair_of(a) in pairs and pair_of(a) not in [pair_of(each) for each in others]:
        return 'already'
    full = b.end < a.number and LEARNED <= len(b.learned)
    return refused(4) if full and (has('a fork is refused where it is full') or not is_fork(pair_of(a), pairs)) else 'noted'


def reply_to_send(b, word):
    if has('an audit counts as a message') and CHALLENGES <= len(b.challenges):
        return refused(5)
    return challenge_reply(b.challenges, word)


def book_reach(b):
    """The greatest number within reach, by differences: a sum could pass the greatest number of all."""
    most = REACH[version].asked
    if has('sums wrap'):
        return max((a.number for a in b.learned if a.number <= (b.end + most) % 2 ** 64), default=0)
    return max((a.number for a in b.learned if a.number - b.end <= most), default=0)


def book_asks_up_to(b, last):
    begin = 0 if has('a book is full at a number') else start_number(b.base)
    if last == 0:
        return refused(7)
    if REACH[version].audited < last - begin:
        return refused(13)
    return refused(6) if REACH[version].outbox < len(b.outbox) + (last - b.end) else ('asked', b.end + 1, last)


def reply_to_audit(b):
    if b.stage[0] != 'none':
        return refused(9)
    if b.evidence is not None or not b.learned:
        return refused(8)
    return book_asks_up_to(b, book_reach(b))


def reply_to_begin(b):
    if b.stage[0] == 'out':
        return refused(9)
    if b.stage[0] != 'given' or b.evidence is not None and not has('a job of an exposed node begins'):
        return refused(8)
    return ('job', Job(NODE, b.begun + 1, b.state, b.stage[1]))


def reply_to_ask(b, question):
    if question == 'indication':
        return 'exposed' if b.evidence is not None else 'suspected' if b.challenges else 'trusted'
    return b.challenges if question == 'challenges' else b.evidence


def book_reply(b, step):
    """What the book replies to a step."""
    kind = step[0]
    if kind == 'learn':
        return reply_to_learn(b, step[1])
    if kind == 'send':
        return reply_to_send(b, step[1])
    if kind == 'answer':
        return answer_reply(b.stage, step[1])
    if kind == 'ack':
        return 'closed' if ('message', step[1]) in b.challenges else refused(10)
    if kind == 'audit':
        return reply_to_audit(b)
    if kind == 'begin':
        return reply_to_begin(b)
    if kind == 'file':
        return back_reply(as_compared(book_job(b)), as_compared(step[1].job), 'filed')
    if kind == 'putback':
        return back_reply(as_compared(book_job(b)), as_compared(step[1]), 'returned')
    if kind == 'forward':
        return ('forwarded', b.outbox[0]) if b.outbox else 'empty'
    return reply_to_ask(b, step[1])


def first_evidence(old, new):
    return new if old is None or has('the last evidence stays') else old


def fork_evidence(b, showing, pairs):
    if has('hashes come before skipped numbers'):
        pairs = sorted(pairs, key=lambda pair: pair[1] is NO_ENTRY)
    number, segments = first_fork(pairs, book_shown(b)), b.segments
    if has('no segment has a number that it skips'):
        segments = [s for s in segments if number in dict(numbered(s))]
    return first_evidence(b.evidence, book_fork(b, segments, showing, number))


def book_fork(b, segments, showing, number):
    base = None if has('a fork up to the base is sought in what is kept') else b.base
    if number == 0 and has('a fork at 0 has no base'):
        return ('fork', 0, showing, None)
    found = fork_of(base, b.learned, segments, showing, number)
    if found and start_showing(b.base, number) and has('a fork up to the base has the new showing first'):
        return ('fork', number, showing, b.base.showing)
    return found


def book_replay(b, entries, closing):
    found = replay_from(b.base, entries, closing)
    if b.base and has('evidence of a replay has no base'):
        return ('replay', found[-1])
    if has('evidence of a replay begins with the first entry'):
        return found[:-1] + (found[-1]._replace(first=1, opening=ZEROS),)
    return found


def after_learn(b, a):
    found = fork_evidence(b, a, [pair_of(a)])
    keeps = found is None or has('an exposed book keeps')
    return b._replace(learned=b.learned + ((a,) if keeps else ()), evidence=found)


def after_answer(b, s):
    audits = has('an answer closes the audit alone')
    left = tuple(x for x in b.challenges if not (x[0] == 'audit' if audits else is_answered(s, x)))
    found = fork_evidence(b, s, segment_marks(s))
    return b._replace(stage=('given', s), segments=b.segments + (s,), challenges=left, evidence=found)


def having_filed(b, s, verdict):
    if verdict[0] == 'fault':
        joined = book_audited(b) + s.entries
        if has('a joined log loses its counts'):
            joined = tuple(entry._replace(skipped=0) for entry in joined)
        charge = book_replay(b, joined, s.closing)
        return b._replace(stage=('none',), evidence=first_evidence(b.evidence, charge))
    above = tuple(a for a in b.learned if s.closing.number < a.number or has('what lies below the end stays'))
    end = b.end + len(s.entries) if has('the end counts entries') else s.closing.number
    moved = b._replace(end=end, state=verdict[1], stage=('none',))
    return moved._replace(learned=above, outbox=b.outbox + verdict[2], evidence=first_evidence(b.evidence, None))


def book_starting(base):
    """The book of a node at first, from its base if there is one."""
    state = OPENING if has("the first job has the node's opening state") else start_state(base)
    return Book(base, start_number(base), state, ('none',), 0, (), (), (), (), None)


def book_after(b, step, reply):
    """What the book holds after a step with its reply."""
    kind = step[0]
    if kind == 'learn' and reply == 'noted':
        return after_learn(b, step[1])
    if kind == 'send' and reply == 'opened':
        return b._replace(challenges=b.challenges + (('message', step[1]),))
    if kind == 'answer' and reply == 'accepted':
        return after_answer(b, step[1])
    if kind == 'ack' and reply == 'closed':
        return b._replace(challenges=tuple(x for x in b.challenges if x != ('message', step[1])))
    if kind == 'audit' and reply[0] == 'asked':
        return b._replace(stage=('wanted',) + reply[1:], challenges=b.challenges + (('audit',) + reply[1:],))
    if kind == 'begin' and reply[0] == 'job':
        return b._replace(stage=('out', reply[1].segment), begun=b.begun + (not has('jobs are not counted')))
    if kind == 'file' and reply == 'filed':
        return having_filed(b, step[1].job.segment, step[1].verdict)
    if kind == 'putback' and reply == 'returned':
        return b._replace(stage=('given', step[1].segment))
    if kind == 'forward' and reply[0] == 'forwarded':
        return b._replace(outbox=b.outbox[1:])
    return b


# ---- random steps

def some_entry(rng, bad):
    kind, word = rng.choices(['send', 'recv', 'clock', 'bad'], [3, 4, 3, bad])[0], rng.randrange(4)
    return Entry(kind, word, rng.choice(SKIPS) if version == 2 else 0)


def with_entry(log, entry):
    """A log, its number and hash before the first entry, then its entries with both; and an entry more."""
    _, before, hash_ = log[-1]
    number = before + entry.skipped + 1
    return log + [(entry, number, link(hash_, number, entry))]


def grown(rng, log, length, bad):
    """A log, and so many further entries, or as many as there are numbers for."""
    for _ in range(length):
        longer = with_entry(log, some_entry(rng, bad))
        log = longer if longer[-1][1] <= GREATEST else log
    return log


def checked_log(rng, at):
    """A log that ends in a CHECK at a number: from its first entry on, or from a few entries before."""
    log = [(None, 0, ZEROS)] if at < 9 else [(None, at - rng.randrange(1, 6), 3)]
    while log[-1][1] < at - 1:
        longer = with_entry(log, some_entry(rng, 0))
        if longer[-1][1] < at:
            log = longer
        elif rng.random() < .5:
            break
    return with_entry(log, Entry('check', 0, at - 1 - log[-1][1]))


def base_in(rng, log, at):
    """A base at a CHECK of a log: shown from there or from before, up to there or to a few entries after."""
    place = next(i for i, (_, number, _) in enumerate(log) if number == at)
    begin, last = rng.randrange(place), min(place + rng.randrange(3), len(log) - 1)
    _, before, opening = log[begin]
    showing = closed(Segment(before + 1, opening, tuple(e for e, _, _ in log[begin + 1:last + 1]), None))
    return Base(showing, at, State(at, log[place][2]))


def made_logs(rng, log):
    """A log, longer; one that forks from it, and one that begins with another hash."""
    log = grown(rng, log, 14, .1)
    cut = rng.randrange(1, min(10, len(log)))
    return [log, grown(rng, log[:cut], 15 - cut, 1), grown(rng, [(None, log[0][1], log[0][2] + 1)], 14, 1)]


def watched_logs(rng, at):
    """The logs of a history, and the base at a number of the first, or none at 0."""
    logs = made_logs(rng, checked_log(rng, at) if at else [(None, 0, ZEROS)])
    return logs, base_in(rng, logs[0], at) if at else None


def closed(s):
    """A segment with the closing that it ends in."""
    number, hash_ = segment_marks(s)[-1]
    return s._replace(closing=Authenticator(number, hash_, s.entries[-1].skipped))


def segment_of(log, first, last):
    """The entries from one number to another, with another one at the last number where the log has none there."""
    opening, number, entries = ZEROS, first - 1, []
    for entry, at, hash_ in log:
        if at < first:
            opening = hash_
        elif at <= last:
            entries.append(entry._replace(skipped=at - number - 1))
            number = at
    if number < last:
        entries.append(Entry('clock', 0, last - number - 1))
    return closed(Segment(first, opening, tuple(entries), None))


def without_one(rng, s):
    """A segment that hides an entry: its number is skipped."""
    entries = list(s.entries)
    if len(entries) > 1:
        at = rng.randrange(len(entries) - 1)
        gone = entries.pop(at)
        entries[at] = entries[at]._replace(skipped=entries[at].skipped + gone.skipped + 1)
    return closed(s._replace(entries=tuple(entries)))


def learned_one(rng, log, end):
    """An authenticator of a log, near the end that was audited, or one with another hash; in a log with gaps sometimes with
    another count, or of a number that may be skipped."""
    at = sum(number <= end for _, number, _ in log[1:])
    place = rng.randrange(min(at + 6, len(log))) if rng.random() < .5 else min(len(log) - 1, at + 1 + rng.randrange(5))
    entry, number, hash_ = log[place]
    a = Authenticator(number, hash_ if rng.random() < .985 else 7, entry.skipped if entry else 0)
    if version == 2 and rng.random() < .05:
        return a._replace(skipped=a.skipped + 1)
    if version == 2 and rng.random() < .02:
        return a._replace(number=max(a.number - 1, 0), hash=7)
    return a


def some_job(rng, past, log, old):
    """The job that is out, or another."""
    job = job_out(past)
    if job is None or rng.random() < .15:
        first = start_number(watched) + 1
        job = rng.choice(old) if old else Job(NODE, 1, start_state(watched), segment_of(log, first, first + 1))
        if rng.random() < .3:
            job = job._replace(state=State(9, 9))
        if rng.random() < .3:
            job = job._replace(number=job.number + 1)
    return job


KINDS = {'learn': 9, 'send': 3, 'answer': 6, 'ack': 2, 'audit': 5, 'begin': 5, 'file': 6, 'putback': 1, 'forward': 2, 'ask': 1}


def next_step(rng, past, logs, old):
    log = logs[0] if rng.random() < .93 else rng.choice(logs)
    kind = rng.choices(list(KINDS), list(KINDS.values()))[0]
    end, stage = end_of(past)[0], stage_of(past)
    if kind == 'learn':
        return kind, learned_one(rng, log, end)
    if kind in ('send', 'ack'):
        return kind, rng.randrange(4)
    if kind == 'answer':
        some = sorted(start_number(watched) + 1 + rng.randrange(8) for _ in range(2))
        first, last = stage[1:] if stage[0] == 'wanted' and rng.random() < .9 else some
        segment = segment_of(log, first, last)
        return kind, without_one(rng, segment) if version == 2 and rng.random() < .05 else segment
    if kind == 'putback':
        return kind, some_job(rng, past, log, old)
    if kind == 'file':
        job = some_job(rng, past, log, old)
        return kind, Done(job, verdict_on(job.state, job.segment))
    return (kind, rng.choice(['indication', 'challenges', 'evidence'])) if kind == 'ask' else (kind,)


# ---- both beside each other

def agree(past, b):
    """The book holds what the steps say."""
    return (
        (b.end, b.state) == end_of(past) and b.stage == stage_of(past) and b.begun == begins(past)
        and b.learned == kept(past)[::-1] and b.segments == all_accepted(past)[::-1]
        and b.challenges == open_challenges(past) and b.outbox == outbox(past) and b.evidence == evidence(past)
        and set(book_shown(b)) == set(shown(past)) and (b.evidence is not None) == is_exposed(past)
        and book_audited(b) == audited(past)
    )


def name_of(step, reply):
    if isinstance(reply, tuple) and reply and reply[0] == 'refused':
        return f'{step[0]}: refused {reply[1]}'
    return f'{step[0]}: {reply}' if isinstance(reply, str) else f'{step[0]}: with a value'


def exposed_by(charge):
    """How a node was exposed."""
    if charge[0] != 'fork':
        return f'exposed by a {charge[0]}'
    return 'exposed by a fork up to the base' if start_showing(watched, charge[1]) else 'exposed by a fork'


def walk(rng, seen, most, starts):
    """One history: gives the number of its steps, and the first in which book and definitions differ."""
    global watched
    at = rng.choice(starts)
    logs, watched = watched_logs(rng, at)
    past, book, old = None, book_starting(watched), []
    if not agree(past, book):
        return 0, f'a start at {at}'
    for count in range(1, rng.randrange(2, most)):
        step = next_step(rng, past, logs, old)
        reply = owed(past, step)
        seen[name_of(step, reply)] += 1
        if is_exposed(past):
            seen[f'{step[0]} in an exposed book'] += 1
        if book_reply(book, step) != reply:
            return count, step
        was_exposed = is_exposed(past)
        book, past = book_after(book, step, reply), (step, reply, past)
        if is_exposed(past) and not was_exposed:
            seen[exposed_by(evidence(past))] += 1
        if begun(step, reply):
            old.append(reply[1])
        if not agree(past, book):
            return count, step
    return count, None


MEMOS = [
    end_of, verdict_filed, has_fault, audited, all_found, shown, is_exposed, noted_before, all_accepted, stage_of,
    begins, forwards, open_challenges, evidence,
]


def compare(seed, histories, seen, starts):
    """Gives the steps that were compared, and the first that differs."""
    rng, steps = random.Random(seed), 0
    for _ in range(histories):
        for function in MEMOS:
            function.cache_clear()
        count, wrong = walk(rng, seen, 90, starts)
        steps += count
        if wrong:
            return steps, wrong
    return steps, None


def replies_to(steps):
    """What is owed to steps of a node, where the book replies the same."""
    past, book, replies = None, book_starting(watched), []
    for step in steps:
        reply = owed(past, step)
        if book_reply(book, step) != reply:
            return None
        book, past = book_after(book, step, reply), (step, reply, past)
        replies.append(reply)
    return replies


def is_hidden_entry_shown():
    """A node signs 3 and 4 and gives entries 2 and 4 alone. It is exposed at 3, whether 3 is learned before or after that."""
    s = closed(Segment(1, ZEROS, (Entry('clock', 0, 1), Entry('clock', 1, 1)), None))
    hidden, last = Authenticator(3, 5), s.closing
    before = replies_to([('learn', hidden), ('learn', last), ('audit',), ('answer', s), ('ask', 'evidence')])
    after = replies_to([('learn', last), ('audit',), ('answer', s), ('learn', hidden), ('ask', 'evidence')])
    return (before == ['noted', 'noted', ('asked', 1, 4), 'accepted', ('fork', 3, hidden, s)]
            and after == ['noted', ('asked', 1, 4), 'accepted', 'noted', ('fork', 3, s, hidden)])


EXPOSED = ['exposed by a fork', 'exposed by a replay']
EXPOSED_FROM_BASES = ['exposed by a fork', 'exposed by a fork up to the base', 'exposed by a replay from a base']


def not_reached(seen, starts):
    """What should have come, and didn't: refusals, and ways in which a node is exposed."""
    numbers = list(range(4, 14)) + [15] * any(starts)
    missing = [f'refused {n}' for n in numbers if not any(name.endswith(f'refused {n}') for name in seen)]
    return missing + [name for name in (EXPOSED_FROM_BASES if any(starts) else EXPOSED) if name not in seen]


def try_version(log, starts, histories, errors):
    """Compares with a log of this version, from these starts, and plants errors: whether all is as it should be."""
    global planted, version
    seen, planted, version = Counter(), None, log
    steps, wrong = compare(1, histories, seen, starts)
    print(f'{steps} steps:', 'none differs' if wrong is None else f'this one differs: {wrong}')
    for name in sorted(seen):
        print(f'{seen[name]:8} {name}')
    good = wrong is None
    for planted in errors:
        steps, wrong = compare(2, 1000, Counter(), starts)
        print(f'planted: {planted}:', 'NOT SEEN' if wrong is None else f'seen after {steps} steps')
        good = good and wrong is not None
    missing = not_reached(seen, starts)
    if missing:
        print('not reached:', ', '.join(missing))
    return good and not missing


def main(histories):
    global planted, watched
    good = try_version(1, [0], histories, ERRORS)
    print('a log of version 2, whose numbers have gaps:')
    good, planted = try_version(2, [0], histories // 2, GAP_ERRORS) and good, None
    if not is_hidden_entry_shown():
        print('an entry that is hidden, but was signed, is not shown')
        good = False
    print('from a base:')
    good = try_version(1, STARTS, histories, BASE_ERRORS) and good
    print('from a base, with a log of version 2:')
    good = try_version(2, STARTS, histories, BASE_GAP_ERRORS) and good
    return 0 if good else 1


if __name__ == '__main__':
    sys.exit(main(int(sys.argv[1]) if len(sys.argv) > 1 else 500))
