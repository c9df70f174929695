"""Calls at random on names that all clients use, so that what is owed to a call depends on those that were heard before
it."""

from random import Random

from verifier.rpc import NFS
from verifier.xdr import opaque, word

from .client import ROOT, call, mount_call, sattr

GIVES_HANDLE = (4, 9)
MOUNTS = 0
NAMES = [opaque(b'name%d' % number) for number in range(12)]


class Calls:
    """The calls of a client, which has a number of its own. Keeps the handle that a reply gave last."""

    def __init__(self, number: int):
        self.random = Random(number)
        self.xid = number << 16
        self.handle = ROOT

    def name(self) -> bytes:
        return ROOT + self.random.choice(NAMES)

    def next_call(self) -> bytes:
        self.xid += 1
        place = self.random.randrange(600)
        data = opaque(self.random.randbytes(self.random.choice([1, 40, 512, 3000])))
        calls = {
            2: ROOT + sattr(0o777), 4: self.name(), 6: self.handle + word(place, 1000, 0),
            8: self.handle + word(0, place, 0) + data, 9: self.name() + sattr(0o644), 10: self.name(),
            11: self.name() + self.name(), 14: self.name() + sattr(0o755), 15: self.name(), 16: ROOT + word(0, 2000),
        }
        procedure = self.random.choice([*calls, 8, 9, 9, MOUNTS])
        if procedure == MOUNTS:
            return mount_call(self.xid, self.random.choice([1, 2, 3]), opaque(b'/'))
        return call(self.xid, procedure, calls[procedure])

    def take(self, body: bytes, reply: bytes):
        """Keeps the handle that the reply to a call gives, if it gives one."""
        procedure = int.from_bytes(body[20:24], 'big')
        if body[12:16] == word(NFS) and procedure in GIVES_HANDLE and reply[24:28] == word(0):
            self.handle = reply[28:60]
