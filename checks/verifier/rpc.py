"""ONC RPC (RFC 5531) before NFS and MOUNT: the reply that is owed to a call."""

from . import mount, nfs
from .mount import World
from .nfs import Caller, Time
from .xdr import Reader, Undecodable, word

CALL, REPLY = 0, 1
ACCEPTED, DENIED = 0, 1
SUCCESS, PROG_UNAVAIL, PROG_MISMATCH, PROC_UNAVAIL, GARBAGE_ARGS = range(5)
RPC_MISMATCH, AUTH_ERROR = 0, 1
BADCRED, REJECTEDCRED, TOOWEAK = 1, 2, 5
AUTH_NONE, AUTH_SYS = 0, 1
MAX_AUTH = 400
NFS, MOUNT = 100003, 100005
RPC_VERSION = 2
VERSIONS = {NFS: 2, MOUNT: 1}
PROCEDURES = {NFS: nfs.PROCEDURES, MOUNT: mount.PROCEDURES}
NOBODY = Caller(65534, 65534, [])


class Unanswered(Exception):
    """The reply says this, and the procedure isn't performed."""

    def __init__(self, reply: bytes):
        super().__init__()
        self.reply = reply


def accepted(stat: int, *more: int) -> bytes:
    return word(ACCEPTED, AUTH_NONE, 0, stat, *more)


def denied(stat: int, *more: int) -> bytes:
    return word(DENIED, stat, *more)


def reply_to(world: World, body: bytes, now: Time) -> bytes | None:
    """The reply that a server owes to a body that it heard, or None; the world changes as the call asks."""
    call = Reader(body)
    try:
        xid, kind, version = call.word(), call.word(), call.word()
        if kind != CALL:
            return None
        if version != RPC_VERSION:
            return word(xid, REPLY) + denied(RPC_MISMATCH, RPC_VERSION, RPC_VERSION)
        program, version, procedure = call.word(), call.word(), call.word()
        flavor, credential = call.word(), call.opaque(MAX_AUTH)
        call.word(), call.opaque(MAX_AUTH)
    except Undecodable:
        return None
    try:
        who = caller_of(flavor, credential)
        check_procedure(program, version, procedure, who)
        result = accepted(SUCCESS) + results(world, program, procedure, who, now, call)
    except Unanswered as refusal:
        result = refusal.reply
    except Undecodable:
        result = accepted(GARBAGE_ARGS)
    return word(xid, REPLY) + result


def caller_of(flavor: int, credential: bytes) -> Caller:
    if flavor == AUTH_NONE:
        return NOBODY
    if flavor != AUTH_SYS:
        raise Unanswered(denied(AUTH_ERROR, REJECTEDCRED))
    reader = Reader(credential)
    try:
        _stamp, machine, uid, gid = reader.word(), reader.opaque(255), reader.word(), reader.word()
        gids = reader.array(16, Reader.word)
        reader.end()
    except Undecodable:
        raise Unanswered(denied(AUTH_ERROR, BADCRED)) from None
    return Caller(uid, gid, gids, machine)


def check_procedure(program: int, version: int, procedure: int, who: Caller):
    if program not in VERSIONS:
        raise Unanswered(accepted(PROG_UNAVAIL))
    if version != VERSIONS[program]:
        raise Unanswered(accepted(PROG_MISMATCH, VERSIONS[program], VERSIONS[program]))
    if procedure >= len(PROCEDURES[program]):
        raise Unanswered(accepted(PROC_UNAVAIL))
    if program == MOUNT and procedure in mount.OF_A_MACHINE and who.machine is None:
        raise Unanswered(denied(AUTH_ERROR, TOOWEAK))


def results(world: World, program: int, procedure: int, who: Caller, now: Time, arguments: Reader) -> bytes:
    if program == NFS:
        return nfs.perform(procedure, nfs.Call(world.files, who, now, arguments))
    return mount.PROCEDURES[procedure](world, who.machine, arguments)
