"""The entries that have each fault: a function brings a log to where it can be, and gives the entry."""

from dataclasses import replace

from verifier.keys import CLIENT, SERVER, Signature
from verifier.log import Check, Clock, Entry, Send, message_hash
from verifier.replay import Fault

from .calls import Caller
from .logs import Log
from .signer import signature


def flipped(log: Log, data: bytes) -> bytes:
    """The bytes with one bit changed."""
    at = log.random.randrange(len(data))
    return data[:at] + bytes([data[at] ^ 1 << log.random.randrange(8)]) + data[at + 1:]


def answered_call(log: Log) -> bytes:
    return Caller(log.random, log.state.world).nfs()


def hear(log: Log):
    """Brings a server to where it heard a message."""
    log.append(log.message(answered_call(log)))


def owe(log: Log):
    """Brings a server to where it owes a reply."""
    hear(log)
    log.append(log.clock())


def send_somewhere(log: Log) -> int:
    """Has a message sent to another member; gives its word."""
    if log.signer.kind == SERVER:
        log.exchange(answered_call(log))
    else:
        log.append(Send(log.random.choice(log.cast.others()).node, b'body'))
    return log.words[-1]


def any_entry(log: Log) -> Entry:
    """An entry of any kind but CLOCK, which may well have a fault of its own."""
    choice = log.random.randrange(3)
    if choice == 0 and log.cast.others():
        return log.message(b'heard')
    return Check(log.random.randbytes(32)) if choice == 1 else Send(log.cast.members[1].node, b'anything')


def bad_form(log: Log) -> Entry:
    if log.signer.kind == CLIENT:
        return Clock(log.random.choice([0, 2**32 - 1]), log.random.choice([1000000, 2**32 - 1]))
    choice = log.random.randrange(4)
    if choice == 0:
        return log.clock()
    if choice == 1:
        owe(log)
        return log.clock()
    hear(log)
    if choice == 2:
        return Clock(log.random.choice([0, 2**32 - 1]), log.random.choice([1000000, 2**32 - 1]))
    return any_entry(log)


def bad_receive(log: Log) -> Entry:
    random, message = log.random, log.message(b'heard')
    choice = random.randrange(9)
    if choice == 0:
        return log.message(b'to itself', sender=log.signer)
    if choice == 1:
        return log.message(b'by a stranger', sender=log.cast.stranger)
    if choice == 2:
        return replace(message, sender=log.cast.stranger.node)
    if choice == 3:
        return replace(message, seq=message.seq ^ 4)
    if choice == 4:
        return replace(message, body=flipped(log, message.body))
    if choice == 5:
        return replace(message, prev=flipped(log, message.prev))
    if choice == 6:
        return log.message(b'to another', to=log.signer.node % 64 + 1)
    return replace(message, signature=changed_signature(log, message.signature))


def changed_signature(log: Log, signed: Signature) -> Signature:
    """A signature that is no longer one: another leaf, path, or byte."""
    random, leaf, path = log.random, signed.leaf, list(signed.path)
    shown, other = signed.shown, signed.other
    choice = random.randrange(7)
    if choice == 0:
        leaf = random.choice([leaf + 2**len(path), leaf ^ 1, 2**32 - 1])
    elif choice == 1:
        path = path[:-1]
    elif choice == 2 and len(path) < 16:
        path = path + [bytes(32)]
    elif choice == 3:
        at = random.randrange(len(path))
        path[at] = flipped(log, path[at])
    elif choice == 4:
        shown, other = other, shown
    elif choice == 5:
        shown = flipped(log, shown)
    else:
        other = flipped(log, other)
    return signature(leaf, shown, other, path)


def repeated(log: Log) -> Entry:
    body = answered_call(log)
    sender = log.random.choice(log.cast.others())
    message = log.message(body, sender)
    log.append(message)
    if log.signer.kind == SERVER:
        log.append(log.clock())
        if log.state.owed is not None:
            log.append(log.state.owed)
    if log.random.random() < 0.5 or not log.cast.others():
        return message
    # The same message, signed by another leaf.
    again = sender.sign(message.seq, message_hash(log.signer.node, message))
    return replace(message, signature=again.signature)


def wrong_reply(log: Log) -> Entry:
    choice = log.random.randrange(6)
    if choice == 0:
        return Send(log.cast.members[1].node, b'nobody asked')
    owe(log)
    owed = log.state.owed
    if choice == 1:
        return replace(owed, to=log.random.choice([owed.to % 64 + 1, log.signer.node, 0]))
    if choice == 2:
        return replace(owed, body=owed.body[:-4])
    if choice == 3:
        return replace(owed, body=owed.body + bytes(4))
    if choice == 4:
        return replace(owed, body=flipped(log, owed.body))
    return any_entry(log)


def clock_back(log: Log) -> Entry:
    if log.signer.kind == CLIENT:
        log.append(Clock(log.state.clock[0] + 2, 7))
    else:
        hear(log)
        log.append(Clock(log.state.clock[0] + 2, 7))
        log.append(log.state.owed)
        hear(log)
    seconds, microseconds = log.state.clock
    return log.random.choice([Clock(seconds, microseconds - 1), Clock(seconds - 1, 999999), Clock(0, 0)])


def bad_ack(log: Log) -> Entry:
    random, seq = log.random, send_somewhere(log)
    ack = log.acknowledgement(seq)
    choice = random.randrange(9)
    if choice == 0:
        log.append(ack)
        return ack
    if choice == 1:
        log.append(ack)
        return replace(ack, seq=random.choice([0, seq + 1, 2**64 - 2]))
    if choice == 2:
        return replace(ack, to=random.choice([ack.to % 64 + 1, 0, log.cast.stranger.node]))
    if choice == 3:
        return replace(ack, mine=flipped(log, ack.mine))
    if choice == 4:
        return replace(ack, number=ack.number ^ 4)
    if choice == 5:
        return replace(ack, prev=flipped(log, ack.prev))
    if choice == 6:
        return log.acknowledgement(seq, log.cast.stranger)
    return replace(ack, signature=changed_signature(log, ack.signature))


def wrong_checkpoint(log: Log) -> Entry:
    """A digest that is another state's: changed, or of the state before the last exchange."""
    before = log.state.digest()
    seq = send_somewhere(log)
    choice = log.random.randrange(4)
    if choice == 0:
        return Check(before)
    if choice == 1:
        before = log.state.digest()
        log.append(log.acknowledgement(seq))
        return Check(before)
    if choice == 2:
        return Check(bytes(32))
    return Check(flipped(log, log.state.digest()))


FAULTS = {
    Fault.BAD_FORM: bad_form,
    Fault.BAD_RECEIVE: bad_receive,
    Fault.REPEATED: repeated,
    Fault.WRONG_REPLY: wrong_reply,
    Fault.CLOCK_BACK: clock_back,
    Fault.WRONG_CHECKPOINT: wrong_checkpoint,
    Fault.BAD_ACK: bad_ack,
}
