"""What `nfsacc check --json` says of a file, worked out a second time from the file: a dictionary in its order."""

import json
from bisect import bisect_left
from dataclasses import dataclass

from .evidence import (MAX_KNOWN, Base, Based, Charge, Fork, Mark, Replay, Showing, chain, ends_in_closing, fault_after_base,
                       fault_shown, is_fork, marks_shown, numbers_from, read_file, state_of_base, words_from)
from .keys import (MAX_MEMBERS, SECOND_FORM, SERVER, ZEROS, Authenticator, Member, Roster, Signature, digest, is_signed,
                   roster_text)
from .log import ACK, CHECK, CLOCK, RECV, SEND, Entry, Recv, hash_after, message_hash, recv_content
from .nfs import DIRECTORY, REGULAR, Time
from .replay import Fault, State, fault_of, is_acknowledged, opening_state, step
from .rpc import AUTH_SYS, MAX_AUTH, MOUNT, NFS
from .states import read_state
from .words import LOG_1, LOG_2, number_in, skipped_in
from .xdr import Reader, Undecodable, hyper, word

KINDS = {SEND: 'SEND', RECV: 'RECV', ACK: 'ACK', CLOCK: 'CLOCK', CHECK: 'CHECK'}
FAULTS = {
    Fault.BAD_FORM: ('BadForm', 'the entry is out of turn, or shows no time'),
    Fault.BAD_RECEIVE: ('BadReceive', 'the message is not signed by a member that is another node'),
    Fault.REPEATED: ('Repeated', 'the message was received before'),
    Fault.WRONG_REPLY: ('WrongReply', 'the reply is not the one that is owed'),
    Fault.CLOCK_BACK: ('ClockBack', 'the clock goes back'),
    Fault.WRONG_CHECKPOINT: ('WrongCheckpoint', 'the digest is not that of the state'),
    Fault.BAD_ACK: ('BadAck', 'the acknowledgement is of no message sent, or not signed by its receiver'),
}
STATS = {0: 'NFS_OK', 1: 'NFSERR_PERM', 2: 'NFSERR_NOENT', 5: 'NFSERR_IO', 6: 'NFSERR_NXIO', 13: 'NFSERR_ACCES',
         17: 'NFSERR_EXIST', 19: 'NFSERR_NODEV', 20: 'NFSERR_NOTDIR', 21: 'NFSERR_ISDIR', 27: 'NFSERR_FBIG',
         28: 'NFSERR_NOSPC', 30: 'NFSERR_ROFS', 63: 'NFSERR_NAMETOOLONG', 66: 'NFSERR_NOTEMPTY', 69: 'NFSERR_DQUOT',
         70: 'NFSERR_STALE', 99: 'NFSERR_WFLUSH'}
MOUNTED = {0: 'mounted', 2: 'ENOENT', 13: 'EACCES', 28: 'ENOSPC'}
TYPES = {0: 'NFNON', 1: 'NFREG', 2: 'NFDIR', 3: 'NFBLK', 4: 'NFCHR', 5: 'NFLNK'}
FLAVORS = {0: 'AUTH_NONE', 1: 'AUTH_SYS', 2: 'AUTH_SHORT', 3: 'AUTH_DH'}
ACCEPT = {0: 'SUCCESS', 1: 'PROG_UNAVAIL', 2: 'PROG_MISMATCH', 3: 'PROC_UNAVAIL', 4: 'GARBAGE_ARGS', 5: 'SYSTEM_ERR'}
AUTH = {1: 'AUTH_BADCRED', 2: 'AUTH_REJECTEDCRED', 5: 'AUTH_TOOWEAK'}
PREMISES = ["the roster is the service's own: all of its members, each with its own number, kind, height and key",
            'nobody forged a signature that the file shows: none verifies for a number and a hash that the node did '
            'not sign',
            'no two of the texts that were hashed have the same SHA-256 digest']
BASE_PREMISE = ("the state at the base is the one whose digest the log has there, by the signature that closes the base's "
                'showing; another signature closes the entries after it, and what the log has before the base is not looked at')


@dataclass(frozen=True)
class Detail:
    """What is asked beside what a finding rests on: all entries of a log, the state before an entry."""
    entries: bool = False
    state: int | None = None


def named(table: dict[int, str], number: int):
    return f'{table[number]} ({number})' if number in table else str(number)


def octal(mode: int) -> str:
    return f'{"0" if mode else ""}{mode:o} (octal)'


def quoted(data: bytes) -> str:
    def shown(byte: int) -> str:
        if byte in b'"\\':
            return '\\' + chr(byte)
        return chr(byte) if 32 <= byte < 127 else f'\\x{byte:02x}'
    return '"' + ''.join(map(shown, data)) + '"'


# ---- items of calls and replies, each with its name

class Items:
    """Takes items of a server's call or reply, and says what they are, up to the first that doesn't decode."""

    def __init__(self, server: int, data: bytes):
        self.server, self.reader = server, Reader(data)

    def take(self, form: str):
        start = self.reader.at
        try:
            return getattr(self, form)()
        except Undecodable:
            self.reader.at = start
            raise

    def word(self):
        return self.reader.word()

    def mode(self):
        return octal(self.reader.word())

    def given(self):
        word = self.reader.word()
        return None if word == 0xffffffff else word

    def given_mode(self):
        word = self.reader.word()
        return None if word in (0xffffffff, 0xffff) else octal(word)

    def time(self):
        seconds = self.reader.word()
        return f'{seconds} s {self.reader.word()} us'

    def given_time(self):
        seconds, microseconds = self.reader.word(), self.reader.word()
        if seconds == 0xffffffff:
            return None
        return 'the time of the call' if microseconds > 999999 else f'{seconds} s {microseconds} us'

    def handle(self):
        handle = self.reader.fixed(32)
        if int.from_bytes(handle[:4], 'big') != self.server or any(handle[8:]):
            return 'no handle of this server: ' + handle.hex()
        return f'file {int.from_bytes(handle[4:8], "big")}'

    def type(self):
        return named(TYPES, self.reader.word())

    def eof(self):
        return named({0: 'FALSE', 1: 'TRUE'}, self.reader.word())

    def name(self):
        return quoted(self.reader.opaque(255))

    def path(self):
        return quoted(self.reader.opaque(1024))

    def data(self):
        return quoted(self.reader.opaque(8192))

    def add(self, said: dict, fields: str):
        """Fields are 'name:form', or a form alone that is the name; `_` stands for a blank in a name."""
        for field in fields.split():
            name, _, form = field.rpartition(':')
            said[name or form] = self.take(form)

    def add_list(self, said: dict, name: str, fields: str, below=None):
        said[name] = []
        while self.reader.flag():
            item = {}
            said[name].append(item)
            self.add(item, fields)
            if below:
                self.add_list(item, *below)


SATTR = 'mode:given_mode uid:given gid:given size:given atime:given_time mtime:given_time'
PLACE = 'directory:handle name'
ATTRIBUTES = ('type mode nlink:word uid:word gid:word size:word blocksize:word rdev:word blocks:word fsid:word '
              'fileid:word atime:time mtime:time ctime:time')
FROM_TO = 'to_directory:handle to_name:name'
NFS_PROCEDURES = [
    ('NULL', '', None), ('GETATTR', 'file:handle', 'attributes'), ('SETATTR', 'file:handle ' + SATTR, 'attributes'),
    ('ROOT', '', None), ('LOOKUP', PLACE, 'file'), ('READLINK', 'file:handle', 'target:path'),
    ('READ', 'file:handle offset:word count:word totalcount:word', 'read'), ('WRITECACHE', '', None),
    ('WRITE', 'file:handle beginoffset:word offset:word totalcount:word data', 'attributes'),
    ('CREATE', PLACE + ' ' + SATTR, 'file'), ('REMOVE', PLACE, ''),
    ('RENAME', 'from_directory:handle from_name:name ' + FROM_TO, ''), ('LINK', 'file:handle ' + FROM_TO, ''),
    ('SYMLINK', PLACE + ' target:path ' + SATTR, ''), ('MKDIR', PLACE + ' ' + SATTR, 'file'), ('RMDIR', PLACE, ''),
    ('READDIR', 'directory:handle cookie:word count:word', 'entries'),
    ('STATFS', 'file:handle', 'tsize:word bsize:word blocks:word bfree:word bavail:word')]
MOUNT_PROCEDURES = [('NULL', '', None), ('MNT', 'directory:path', 'mounted'), ('DUMP', '', 'mounts'),
                    ('UMNT', 'directory:path', None), ('UMNTALL', '', None), ('EXPORT', '', 'exports')]


def procedure_of(program: int, version: int, number: int):
    table = {(NFS, 2): NFS_PROCEDURES, (MOUNT, 1): MOUNT_PROCEDURES}.get((program, version), [])
    return table[number] if number < len(table) else None


def add_rest(said: dict, reader: Reader, decoded: bool):
    rest = reader.data[reader.at:]
    if decoded and rest:
        said['bytes_after_that'] = rest.hex()
    if not decoded:
        said.update({'bytes_that_do_not_decode': rest.hex()} if rest
                    else {'what_follows': 'nothing, though more is wanted'})


def header_of(reader: Reader):
    """The header of a call, or None; of another RPC version the transaction's number alone."""
    try:
        xid = reader.word()
        if reader.word() != 0:
            return None
        if reader.word() != 2:
            return xid, None
        numbers = reader.word(), reader.word(), reader.word()
        return xid, (numbers, (reader.word(), reader.opaque(MAX_AUTH)), (reader.word(), reader.opaque(MAX_AUTH)))
    except Undecodable:
        return None


def credential_of(flavor: int, body: bytes) -> dict:
    said = {'flavor': named(FLAVORS, flavor)}
    if flavor != AUTH_SYS:
        return said | ({'body': body.hex()} if body else {})
    reader = Reader(body)
    try:
        stamp, machine, uid, gid = reader.word(), reader.opaque(255), reader.word(), reader.word()
        gids = reader.array(16, Reader.word)
        reader.end()
    except Undecodable:
        return said | {'body_that_does_not_decode': body.hex()}
    return said | {'stamp': stamp, 'machine': quoted(machine), 'uid': uid, 'gid': gid,
                   'gids': [{'gid': each} for each in gids]}


def verifier_of(flavor: int, body: bytes) -> dict:
    return {'verifier': named(FLAVORS, flavor)} | ({"verifier's_body": body.hex()} if body else {})


def call_of(server: int, body: bytes) -> dict:
    return {'length': len(body)} | call_words(server, body) | {'bytes': body.hex()}


def call_words(server: int, body: bytes) -> dict:
    reader = Reader(body)
    header = header_of(reader)
    if header is None:
        return {'call': 'none: its header does not decode'}
    said = {'xid': header[0]}
    if header[1] is None:
        return said | {'call': 'of another RPC version than 2'}
    (program, version, number), credential, verifier = header[1]
    said |= {'credential': credential_of(*credential)} | verifier_of(*verifier)
    said |= {'program': named({NFS: 'NFS', MOUNT: 'MOUNT'}, program), 'version': version}
    procedure = procedure_of(program, version, number)
    if procedure is None:
        return said | {'procedure': number}
    said |= {'procedure': f'{procedure[0]} ({number})', 'arguments': {}}
    items, decoded = Items(server, body[reader.at:]), True
    try:
        items.add(said['arguments'], procedure[1])
    except Undecodable:
        decoded = False
    add_rest(said, items.reader, decoded)
    return said


def add_results(said: dict, items: Items, results: str | None):
    if results is None:
        return
    if results in ('mounts', 'exports'):
        if results == 'mounts':
            items.add_list(said, 'mounts', 'hostname:name directory:path')
        else:
            items.add_list(said, 'exports', 'directory:path', ('groups', 'group:name'))
        return
    stat = items.take('word')
    said['stat'] = named(MOUNTED if results == 'mounted' else STATS, stat)
    if stat != 0:
        return
    if results in ('file', 'mounted'):
        items.add(said, 'file:handle')
    if results in ('attributes', 'file', 'read'):
        said['attributes'] = {}
        items.add(said['attributes'], ATTRIBUTES)
    if results == 'read':
        items.add(said, 'data')
    if results == 'entries':
        items.add_list(said, 'entries', 'fileid:word name cookie:word')
        items.add(said, 'eof')
    if ':' in results or results == '':
        items.add(said, results)


def add_reply(said: dict, items: Items, procedure):
    said['xid'] = items.take('word')
    if items.take('word') != 1:
        said['reply'] = "none: the message's type is another"
        return
    stat = items.take('word')
    said['reply'] = named({0: 'MSG_ACCEPTED', 1: 'MSG_DENIED'}, stat)
    if stat == 0:
        flavor = items.take('word')
        said |= {'verifier': named(FLAVORS, flavor)}
        said |= verifier_of(flavor, items.reader.opaque(MAX_AUTH))
        status = items.take('word')
        said['status'] = named(ACCEPT, status)
        if status == 0 and procedure is not None:
            add_results(said, items, procedure[2])
        elif status == 2:
            items.add(said, 'lowest_version:word highest_version:word')
    elif stat == 1:
        status = items.take('word')
        said['status'] = named({0: 'RPC_MISMATCH', 1: 'AUTH_ERROR'}, status)
        if status == 0:
            items.add(said, 'lowest_version:word highest_version:word')
        else:
            said['why'] = named(AUTH, items.take('word'))
    else:
        raise Undecodable


def reply_of(server: int, call: bytes, body: bytes) -> dict:
    header = header_of(Reader(call))
    procedure = procedure_of(*header[1][0]) if header and header[1] else None
    said, items, decoded = {'length': len(body)}, Items(server, body), True
    try:
        add_reply(said, items, procedure)
    except Undecodable:
        decoded = False
    add_rest(said, items.reader, decoded)
    said['bytes'] = body.hex()
    return said


# ---- what is signed

def joined(*parts: bytes | str) -> str:
    """How a digest is made, of bytes and of what has a name."""
    return f'SHA-256({" | ".join(part if isinstance(part, str) else part.hex() for part in parts)})'


def numbered(log: int, entry_word: int, name: str, skipped: str) -> dict:
    """The number in an entry's word, and how many numbers it skips, where it skips any."""
    said = {name: str(number_in(log, entry_word))}
    return said | ({skipped: skipped_in(log, entry_word)} if skipped_in(log, entry_word) else {})


def place_of(number: int, skipped: int) -> dict:
    """The number of an entry or a link of what is shown."""
    return {'number': place(number)} | ({'skipped': skipped} if skipped else {})


def signed_digest(node: int, entry_word: int, at: bytes, name: str) -> dict:
    return {'signed_digest': digest(word(node) + hyper(entry_word) + at).hex(),
            'signed_digest_is': joined(word(node), hyper(entry_word), name)}


def verdict_on(roster: Roster, node: int, entry_word: int, at: bytes, signature: Signature) -> dict:
    return {'verifies': 'yes' if is_signed(roster, Authenticator(node, entry_word, at, signature)) else 'no'}


def closing_of(roster: Roster, log: int, closing: Authenticator) -> dict:
    said = {'node': closing.node} | numbered(log, closing.word, 'number', 'skipped') | {'hash': closing.hash.hex()}
    said |= signed_digest(closing.node, closing.word, closing.hash, 'hash')
    return said | {'leaf': closing.signature.leaf, 'key_of': node_words(roster, closing.node)} | verdict_on(
        roster, closing.node, closing.word, closing.hash, closing.signature)


# ---- entries

class Log:
    """A log under what a roster says of its node."""

    def __init__(self, roster: Roster, replay: Replay, base: Base | None = None):
        self.roster, self.node, self.entries, self.log = roster, replay.node, replay.entries, replay.log
        self.base, self.first, self.opening = base, replay.first, replay.opening
        self.links = replay.links()
        self.numbers, self.words = numbers_from(replay.first, self.links), words_from(replay.first, self.links)
        self.kind = roster[self.node].kind if self.node in roster else None

    def start(self) -> State | None:
        """The state before the first entry: that of the base, if the log has one."""
        if self.base is None:
            return opening_state(self.node, self.kind)
        state = read_state(self.base.state)
        return state if state is not None and max(len(state.received), len(state.sent)) <= MAX_KNOWN else None

    def state_before(self, at: int) -> State | None:
        """The state before an entry, where those before it have no fault."""
        state, before = self.start(), self.opening
        if state is None:
            return None
        for entry, entry_word in zip(self.entries[:at], self.words):
            if fault_of(state, self.roster, entry) is not None:
                return None
            step(state, entry_word, before, entry)
            before = hash_after(before, entry_word, entry.kind, digest(entry.content()))
        return state

    def node_words(self, node: int) -> str:
        return node_words(self.roster, node)

    def call_before(self, at: int) -> bytes:
        bodies = [entry.body for entry in self.entries[:at] if entry.kind == RECV]
        return bodies[-1] if bodies else b''

    def all_entries(self, first: int, opening: bytes) -> list[dict]:
        return [self.entry(at) | {'hash_after_it': after.hex()}
                for at, after in enumerate(chain(opening, first, self.links)[1:])]

    def place_there(self, node: int, entry_word: int, prev: bytes) -> dict:
        """A place in the log of another node: of a stranger nobody knows the version."""
        log = self.roster[node].log if node in self.roster else LOG_1
        return numbered(log, entry_word, 'number_there', 'skipped_there') | {'hash_before_it_there': prev.hex()}

    def entry(self, at: int) -> dict:
        entry = self.entries[at]
        said = place_of(self.numbers[at], self.links[at].skipped) | {'kind': KINDS[entry.kind]}
        if entry.kind == SEND:
            said['to'] = self.node_words(entry.to)
            if self.kind == SERVER:
                return said | {'reply': reply_of(self.node, self.call_before(at), entry.body)}
            return said | ({'call': call_of(entry.to, entry.body)} if self.kind else {'body': entry.body.hex()})
        if entry.kind == RECV:
            return said | self.received(entry)
        if entry.kind == ACK:
            said |= {'of_message_to': self.node_words(entry.to)}
            said |= numbered(self.log, entry.seq, 'its_number', 'its_skipped')
            said |= {'digest_of_its_signature': entry.mine.hex()} | self.place_there(entry.to, entry.number, entry.prev)
            return said | {'leaf': entry.signature.leaf, "signature's_sha256": digest(entry.signature.text).hex()}
        if entry.kind == CLOCK:
            return said | {'time': f'{entry.seconds} s {entry.microseconds} us'}
        return said | {'digest': entry.digest.hex()}

    def received(self, entry: Recv) -> dict:
        at, is_server = message_hash(self.node, entry), self.kind == SERVER
        body = joined('bytes' if is_server else 'body')
        said = {'from': self.node_words(entry.sender)} | self.place_there(entry.sender, entry.seq, entry.prev)
        said |= {'hash_there': at.hex(), 'hash_there_is': joined('hash before it there', hyper(entry.seq), word(SEND),
                                                                joined(word(self.node), body))}
        said |= signed_digest(entry.sender, entry.seq, at, 'hash there')
        said |= {'leaf': entry.signature.leaf, "signature's_sha256": digest(entry.signature.text).hex()}
        said |= verdict_on(self.roster, entry.sender, entry.seq, at, entry.signature)
        return said | ({'call': call_of(self.node, entry.body)} if is_server else {'body': entry.body.hex()})


class Faulty(Log):
    """A log with a fault, and the state before the entry that has it."""

    def __init__(self, roster: Roster, replay: Replay, number: int, base: Base | None = None):
        super().__init__(roster, replay, base)
        self.at = self.numbers.index(number)
        self.state: State = self.state_before(self.at)

    def concerned(self, fault: Fault) -> list[int]:
        """The entries that a fault concerns, the faulty one last."""
        earlier, own = self.entries[:self.at], self.entries[self.at]
        if fault in (Fault.WRONG_REPLY, Fault.BAD_FORM):
            return [*range(max(self.at - 2, 0), self.at + 1)]
        if fault == Fault.REPEATED:
            hash_there = message_hash(self.node, own)
            same = [at for at, entry in enumerate(earlier) if entry.kind == RECV and
                    (entry.sender, entry.seq, message_hash(self.node, entry)) == (own.sender, own.seq, hash_there)]
            return [same[0], self.at]
        if fault == Fault.CLOCK_BACK:
            return [at for at, entry in enumerate(earlier) if entry.kind == CLOCK][-1:] + [self.at]
        if fault == Fault.BAD_ACK and number_in(self.log, own.seq) in self.numbers[:self.at]:
            return [self.numbers.index(number_in(self.log, own.seq)), self.at]
        return [self.at]

    def comparison(self, fault: Fault) -> dict:
        entry, state = self.entries[self.at], self.state
        if fault == Fault.WRONG_REPLY:
            return self.replies(entry)
        if fault == Fault.BAD_FORM:
            return {'owed': self.turn(), 'given': KINDS[entry.kind]}
        if fault == Fault.CLOCK_BACK:
            return {'owed_at_least': '{} s {} us'.format(*state.clock),
                    'given': f'{entry.seconds} s {entry.microseconds} us'}
        if fault == Fault.WRONG_CHECKPOINT:
            owed = state.digest()
            return {'owed': owed.hex(), 'given': entry.digest.hex()} | difference(owed, entry.digest)
        if fault == Fault.BAD_RECEIVE:
            given = ('a message whose sender is the node itself' if entry.sender == self.node
                     else 'a message whose sender is no member of the roster' if entry.sender not in self.roster
                     else "a message whose signature does not verify by the sender's key for its number and hash there")
            return {'owed': 'a message that another member signed', 'given': given}
        if fault == Fault.REPEATED:
            return {'owed': 'a message that was not received before',
                    'given': 'one that an earlier entry has: the same sender, number there, hash before it there and '
                             'body'}
        return self.receipt(entry)

    def turn(self) -> str:
        if self.kind != SERVER:
            return 'CLOCK with microseconds below 1000000'
        if self.state.heard is not None:
            return 'of a server that heard a message: CLOCK, with microseconds below 1000000'
        if self.state.owed is not None:
            return 'of a server that owes a reply: its SEND'
        return 'of a server that owes nothing: RECV, ACK or CHECK'

    def receipt(self, entry: Entry) -> dict:
        sent = self.state.sent.get(entry.seq)
        assert not is_acknowledged(self.state, self.roster, entry)
        said = {'owed': 'an acknowledgement of a message that was sent to that node and has none yet, signed by it'}
        if sent is None:
            return said | {'given': 'one of a number under which no message waits for an acknowledgement'}
        said['given'] = ('one of a message that went to another node' if sent.to != entry.to else
                         "one whose signature does not verify by the receiver's key for its number and hash there")
        content = recv_content(self.node, entry.seq, sent.prev, sent.body_hash, entry.mine)
        at = hash_after(entry.prev, entry.number, RECV, digest(content))
        made = joined(word(self.node), hyper(entry.seq), 'hash before its SEND', 'digest of its body',
                      'digest of its signature')
        said |= {'message_went_to': self.node_words(sent.to), 'hash_before_its_SEND': sent.prev.hex(),
                 'digest_of_its_body': sent.body_hash.hex(), 'hash_there': at.hex(),
                 'hash_there_is': joined('hash before it there', hyper(entry.number), word(RECV), made)}
        return said | signed_digest(entry.to, entry.number, at, 'hash there') | verdict_on(
            self.roster, entry.to, entry.number, at, entry.signature)

    def replies(self, entry: Entry) -> dict:
        call, owed = self.call_before(self.at), self.state.owed
        said = {'owed': 'no reply'} if owed is None else {
            'owed_to': self.node_words(owed.to), 'owed': reply_of(self.node, call, owed.body)}
        if entry.kind != SEND:
            return said | {'given': KINDS[entry.kind]}
        said |= {'given_to': self.node_words(entry.to), 'given': reply_of(self.node, call, entry.body)}
        if owed is None:
            return said
        if owed.to != entry.to:
            said['difference'] = 'it went to another node than the one that it is owed to'
        return said | difference(owed.body, entry.body)


def place(number: int) -> str:
    return str(number) if number < 2**64 else f'above {2**64 - 1}'


def difference(owed: bytes, given: bytes) -> dict:
    if owed == given:
        return {}
    at = next((at for at, (one, other) in enumerate(zip(owed, given)) if one != other), min(len(owed), len(given)))

    def byte(text: bytes) -> str:
        return text[at:at + 1].hex() or 'none, it ends there'
    return {'first_difference': {'byte': at, 'owed': byte(owed), 'given': byte(given)}}


# ---- the whole

def node_words(roster: Roster, node: int) -> str:
    if node not in roster:
        return f'node {node}, no member'
    return f'node {node}, a ' + kind_word(roster[node].kind)


def accused_words(roster: Roster, node: int) -> str:
    has_gaps = node in roster and roster[node].log == LOG_2
    return node_words(roster, node) + (', log version 2' if has_gaps else '')


def kind_word(kind: int) -> str:
    return 'server' if kind == SERVER else 'client'


def roster_facts(data: bytes, roster: Roster) -> dict:
    members = [member_facts(member) for member in roster.values()]
    return {'sha256': digest(data).hex(), 'count': len(members), 'members': members}


def member_facts(member: Member) -> dict:
    said = {'node': member.node, 'kind': kind_word(member.kind), 'key': member.root.hex(), 'height': member.height}
    return said | ({'log_version': member.log} if member.log == LOG_2 else {})


HEAD = 65_536
LONGEST = 1_984_385_256
ADVICE = ("to be compared as a whole with the service's own roster: by its sha256, or by the count of its members and "
          "each one's number, kind, height and key")
ANOTHER_NODE = 'what is shown is of another node'
OTHER_VERSION = "the evidence is of another log version than the node's"
BEGINS_AT_ZERO = "a showing begins at number 0, and a log's first entry is number 1"
NOT_CLOSED = 'what is shown does not end in what closes it'
NO_KEY = 'the roster has no key of the node, so nobody can tell who signed'
NOT_SIGNED = "what closes it does not verify by the node's key"
UNDATED = 'a signature has no date: nothing here says when the node signed'
CLEARS_NOBODY = 'no evidence clears nobody: it does not say that a node is honest'


def rests_on(rules: str, *further: str) -> dict:
    return {'rests_on': [{'premise': premise}
                         for premise in [*PREMISES, *further, 'the rules of docs/CHECKING.md' + rules]],
            'note': UNDATED}


def no_evidence(reason: str) -> dict:
    return {'reason': reason, 'note': CLEARS_NOBODY}


def showing_facts(roster: Roster, each: Showing) -> dict:
    links = [place_of(number, link.skipped) | {'kind': KINDS[link.kind], 'digest_of_its_content': link.content_hash.hex()}
             for number, link in zip(numbers_from(each.first, each.links), each.links)]
    return {'node': each.node, 'first': str(each.first), 'hash_before_it': each.opening.hex(), 'links': links,
            'closing': closing_of(roster, each.log, each.closing)}


def fork_facts(roster: Roster, fork: Fork, detail: Detail) -> dict:
    said = {'charge': 'it keeps two logs', 'at': str(fork.at)} if len(fork.showings) == 2 else {
        'charge': 'its log begins after another hash than 32 zero bytes'}
    return said | {'contents': 'not in the file: of the entries between it has the kinds and the digests of the contents '
                               'alone',
                   'showings': [showing_facts(roster, each) for each in fork.showings]} | state_facts(None, detail)


def log_facts(roster: Roster, replay: Replay, detail: Detail) -> dict:
    log = Log(roster, replay)
    contents = (f'all entries from 1 to {log.numbers[-1]}, which --entries lists; what is owed at an entry follows from those '
                'before it, and --state K shows the state before entry K' if replay.first == 1
                else 'its entries, which --entries lists, without those before them')
    said = {'charge': 'its log has a fault', 'log': {
        'node': replay.node, 'first': str(replay.first), 'hash_before_it': replay.opening.hex(),
        'count': len(replay.entries), 'contents': contents, 'closing': closing_of(roster, replay.log, replay.closing)}}
    if detail.entries:
        said['all_entries'] = log.all_entries(replay.first, replay.opening)
    return said | state_facts(log if replay.first == 1 else None, detail)


def base_facts(roster: Roster, base: Base) -> dict:
    """What a base says, and its state in numbers."""
    said, state = showing_facts(roster, base.showing) | {'at': str(base.at)}, read_state(base.state)
    of_state = {'length_of_its_text': len(base.state)}
    if state is None:
        return said | {'state': of_state | {'none': "the bytes are not a state's text"}}
    of_state |= {'digest': state.digest().hex(), 'received': len(state.received), 'sent': len(state.sent)}
    if state.kind == SERVER:
        of_state['files'] = len(state.world.files.files)
    return said | {'state': of_state}


def based_facts(roster: Roster, based: Based, detail: Detail) -> dict:
    base, replay = based.base, based.replay
    log = Log(roster, replay, base)
    contents = ("its entries after the base, which --entries lists; what is owed at an entry follows from the base's state, in "
                'place of the one that the node begins with, and from the entries between, and --state K shows the state '
                'before entry K')
    said = {'charge': 'its log has a fault after a base', 'base': base_facts(roster, base), 'log': {
        'node': replay.node, 'first': str(replay.first), 'hash_before_it': replay.opening.hex(),
        'count': len(replay.entries), 'contents': contents, 'closing': closing_of(roster, replay.log, replay.closing)}}
    if detail.entries:
        said['all_entries'] = log.all_entries(replay.first, replay.opening)
    return said | state_facts(log, detail)


def state_facts(log: Log | None, detail: Detail) -> dict:
    """The state after all entries below a number, where it is asked for."""
    if detail.state is None:
        return {}
    said = {'before_entry': str(detail.state)}
    if log is None or not log.first <= detail.state <= log.numbers[-1] + 1:
        return {'state': said | {'none': 'the file does not have all entries before it'}}
    if log.kind is None:
        return {'state': said | {'none': 'the roster does not say what the node is'}}
    if log.start() is None:
        return {'state': said | {'none': 'no log begins with the state of the base'}}
    at = bisect_left(log.numbers, detail.state)
    state = log.state_before(at)
    if state is None:
        return {'state': said | {'none': 'an entry before it has a fault'}}
    return {'state': said | state_words(log, at, state)}


def state_words(log: Log, at: int, state: State) -> dict:
    def time(at: Time) -> str:
        return f'{at[0]} s {at[1]} us'

    def file_words(number: int, file) -> dict:
        said = {'fileid': number, 'type': named(TYPES, file.kind), 'mode': octal(file.mode), 'uid': file.uid,
                'gid': file.gid, 'atime': time(file.atime), 'mtime': time(file.mtime), 'ctime': time(file.ctime)}
        if file.kind == DIRECTORY:
            entries = [{'fileid': below, 'name': quoted(name), 'cookie': cookie}
                       for name, (below, cookie) in file.entries.items()]
            return said | {'next_cookie': file.next_cookie, 'entries': entries}
        if file.kind == REGULAR:
            return said | {'size': len(file.data), 'data': quoted(file.data)}
        return said | {'target': quoted(file.data)}

    said = {'digest': state.digest().hex(), 'length_of_its_text': len(state.text()), 'clock': time(state.clock)}
    said['received'] = [received_words(log, *each) for each in sorted(state.received)]
    said['sent_without_acknowledgement'] = [
        numbered(log.log, seq, 'number', 'skipped') | {
            'to': log.node_words(sent.to), 'hash_before_its_SEND': sent.prev.hex(),
            'digest_of_its_body': sent.body_hash.hex()} for seq, sent in sorted(state.sent.items())]
    if state.kind != SERVER:
        return said
    if state.heard is not None:
        said |= {'stage': 'it heard a message', 'from': log.node_words(state.heard.sender),
                 'call': call_of(log.node, state.heard.body)}
    elif state.owed is not None:
        said |= {'stage': 'it owes a reply', 'to': log.node_words(state.owed.to),
                 'reply': reply_of(log.node, log.call_before(at), state.owed.body)}
    else:
        said['stage'] = 'it owes nothing'
    said['next_fileid'] = state.world.files.next_number
    said['mounts'] = [{'hostname': quoted(machine), 'directory': quoted(path)} for machine, path in state.world.mounts]
    return said | {'files': [file_words(number, file) for number, file in sorted(state.world.files.files.items())]}


def received_words(log: Log, sender: int, seq: int, there: bytes) -> dict:
    of_sender = log.roster[sender].log if sender in log.roster else LOG_1
    return {'from': log.node_words(sender)} | numbered(of_sender, seq, 'number_there', 'skipped_there') | {
        'hash_there': there.hex()}


def mark_words(mark: Mark) -> str:
    return 'no entry' if mark is None else mark.hex()


def fork_finding(roster: Roster, node: int, fork: Fork) -> dict:
    shown = [marks_shown(roster, node, showing) for showing in fork.showings]
    if len(shown) == 1:
        return {'hash_before_entry_1': {'owed': ZEROS.hex(), 'given': shown[0][0].hex()}} | rests_on(
            ': a log begins after 32 zero bytes')
    marks = {'number': str(fork.at), 'first_showing': mark_words(shown[0][fork.at]),
             'second_showing': mark_words(shown[1][fork.at])}
    if fork.log == LOG_2:
        return {'two_marks': marks} | rests_on(': a log has one entry at each number, or none')
    return {'two_hashes': marks} | rests_on(': a log has one hash at each number')


def fault_finding(roster: Roster, replay: Replay, fault: Fault, number: int, base: Base | None = None) -> dict:
    log = Faulty(roster, replay, number, base)
    name, meaning = FAULTS[fault]
    said = {'fault': {'fault': int(fault), 'name': name, 'meaning': meaning, 'entry': str(number)},
            'entries': [log.entry(at) for at in log.concerned(fault)]}
    rules = ', which stand on RFC 1094, RFC 4506 and RFC 5531'
    return said | log.comparison(fault) | rests_on(rules, *([] if base is None else [BASE_PREMISE]))


def not_signed(roster: Roster, node: int) -> str:
    return NOT_SIGNED if node in roster else NO_KEY


def showing_lack(roster: Roster, node: int, showing: Showing) -> str | None:
    """What a showing lacks first."""
    closing = showing.closing
    if showing.node != node:
        return ANOTHER_NODE
    if node in roster and roster[node].log != showing.log:
        return OTHER_VERSION
    if showing.first == 0:
        return BEGINS_AT_ZERO
    if closing.node != node or not ends_in_closing(showing):
        return NOT_CLOSED
    if closing.hash != chain(showing.opening, showing.first, showing.links)[-1]:
        return NOT_CLOSED
    return None if is_signed(roster, closing) else not_signed(roster, node)


def log_lack(roster: Roster, node: int, replay: Replay) -> str:
    """What the log of a replay lacks first in which no fault is shown."""
    if replay.node != node:
        return ANOTHER_NODE
    if node in roster and roster[node].log != replay.log:
        return OTHER_VERSION
    if replay.first != 1 or replay.opening != ZEROS:
        return 'the log is not shown from its first entry on'
    return closing_lack(roster, node, replay) or 'the log has no fault'


def closing_lack(roster: Roster, node: int, replay: Replay) -> str | None:
    """What the closing of entries lacks first."""
    closing, links = replay.closing, replay.links()
    if closing.node != node or closing.word != words_from(replay.first, links)[-1]:
        return NOT_CLOSED
    if closing.hash != chain(replay.opening, replay.first, links)[-1]:
        return NOT_CLOSED
    return None if is_signed(roster, closing) else not_signed(roster, node)


def based_lack(roster: Roster, node: int, based: Based) -> str:
    """What a base and the log after it lack first in which no fault is shown."""
    base, replay = based.base, based.replay
    lack = showing_lack(roster, node, base.showing)
    if lack in (ANOTHER_NODE, OTHER_VERSION):
        return lack
    if replay.node != node:
        return ANOTHER_NODE
    if lack is not None:
        return lack
    if state_of_base(roster, node, base) is None:
        return 'the base is not a good one'
    there = marks_shown(roster, node, base.showing).get(base.at)
    if (replay.first, replay.opening) != (base.at + 1, there):
        return 'the log does not go on from the base'
    return closing_lack(roster, node, replay) or 'the log has no fault'


def finding(roster: Roster, node: int, charge: Charge) -> dict:
    """What is found in a charge: that it is accepted and why, or the reason why it isn't."""
    if isinstance(charge, Fork):
        if is_fork(roster, node, charge):
            return fork_finding(roster, node, charge)
        lacks = [showing_lack(roster, node, showing) for showing in charge.showings]
        shown = 'marks' if charge.log == LOG_2 else 'hashes'
        return no_evidence(next(filter(None, lacks), f'no two {shown} are shown at the number'))
    if isinstance(charge, Based):
        fault = fault_after_base(roster, node, charge)
        if fault is None:
            return no_evidence(based_lack(roster, node, charge))
        return fault_finding(roster, charge.replay, *fault, charge.base)
    fault = fault_shown(roster, node, charge)
    if fault is None:
        return no_evidence(log_lack(roster, node, charge))
    return fault_finding(roster, charge, *fault)


def is_read_in_part(data: bytes) -> bool:
    """Whether a file isn't read to its end: it is longer than evidence can be, or of some length, and its first words are
    those of no evidence."""
    if len(data) < HEAD:
        return False
    second = data[:4] == word(SECOND_FORM)
    members = data[4:] if second else data
    count, length = int.from_bytes(members[:4], 'big'), 48 if second else 44
    charge = int.from_bytes(members[length * count + 8:length * count + 12], 'big')
    return len(data) > LONGEST or count > MAX_MEMBERS or charge not in (1, 2, 3, 4, 5)


def explain(data: bytes, program: str, detail: Detail = Detail(), trusted: Roster | None = None) -> dict:
    """All that a program of this name and version says of a file, under a roster that is trusted or under its own."""
    file = {'read': 'not to its end'} if is_read_in_part(data) else {'length': len(data), 'sha256': digest(data).hex()}
    said = {'verdict': 'no evidence', 'file': file, 'program': program}
    reader = Reader(data)
    try:
        roster, node, charge = read_file(reader)
    except Undecodable:
        return said | {'reason': 'the file is not a roster with evidence after it',
                       'first_byte_that_does_not_decode': reader.at, 'note': CLEARS_NOBODY}
    said['roster'] = {'advice': ADVICE} | roster_facts(roster_text(roster), roster)
    if trusted is not None:
        said["trusted_roster's_sha256"] = digest(roster_text(trusted)).hex()
    said['accused'] = accused_words(roster, node)
    facts = {Fork: fork_facts, Replay: log_facts, Based: based_facts}[type(charge)]
    said |= facts(roster, charge, detail)
    if trusted not in (None, roster):
        return said | no_evidence('its roster is not the one that is trusted')
    found = finding(roster, node, charge)
    if 'reason' not in found:
        said['verdict'] = f'exposed {node}'
    return said | found


def differences(data: bytes, json_text: str, lines: str, detail: Detail = Detail(),
                trusted: Roster | None = None) -> list[str]:
    """What a program says of a file, as JSON and in lines, otherwise than the file shows."""
    said = json.loads(json_text)
    own = explain(data, said['program'], detail, trusted)
    wrong = [f'{name}: {said.get(name)!r}, where it is {own.get(name)!r}'
             for name in own | said if own.get(name) != said.get(name)]
    if list(said) != list(own):
        wrong.append(f'in this order: {list(said)}')
    verdict = own.pop('verdict')
    if lines.split('\n') != [verdict, *lines_of(own), '']:
        wrong.append('lines that are not those of the JSON object')
    if not all(32 <= ord(each) < 127 for text in (json_text, lines) for each in text.replace('\n', '')):
        wrong.append('characters that a terminal would not show as they are')
    return wrong


def lines_of(said: dict, depth: int = 0) -> list[str]:
    """The lines of an explanation, after its first, by the JSON object that says the same."""
    lines = []
    for name, value in said.items():
        start = '  ' * depth + name.replace('_', ' ') + ':'
        if isinstance(value, dict):
            lines += [start, *lines_of(value, depth + 1)]
        elif isinstance(value, list):
            lines.append(start)
            for item in value:
                inner = lines_of(item, depth + 2)
                if inner:
                    lines += ['  ' * (depth + 1) + '- ' + inner[0].lstrip(' '), *inner[1:]]
        else:
            lines.append(f'{start} {"not given" if value is None else value}')
    return lines
