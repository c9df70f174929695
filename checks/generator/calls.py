"""Random calls of NFS and MOUNT, many of them to be refused for one reason or another."""

from random import Random

from verifier.mount import World
from verifier.rpc import AUTH_NONE, AUTH_SYS, CALL, MOUNT, NFS, RPC_VERSION
from verifier.xdr import array, opaque, word

GREATEST = 0xffffffff
NAMES = [b'a', b'b', b'c', b'd', b'e', b'hello', b'`\n', b'\xff\xfe\x80', b'it\'s "$(x)" \\', b'n' * 255]
ODD_NAMES = [b'', b'.', b'..', b'a/b', b'x\0y', b'n' * 256]
USERS = [(0, 0, [])] * 4 + [(0, 5, [7]), (1000, 100, []), (1001, 100, [200, 7]), (1002, 200, [100]),
                               (65534, 65534, []), (GREATEST, GREATEST, list(range(16)))]
MACHINES = [b'm', b'host.example', b'', b'\x07`\n', b'x' * 255]
MODES = [0o777] * 6 + [0o755, 0o700, 0o644, 0o600, 0o111, 0o444, 0, 0o7777, 0xffff, 0x1ffff, GREATEST]
OWNERS = [0, 5, 7, 100, 200, 1000, 1001, 1002, 65534]
SIZES = [0, 1, 6, 511, 512, 513, 8192, 100000, 1048576, 1048577, GREATEST - 1]
TIMES = [(0, 0), (7, 999999), (7, 1000000), (GREATEST - 1, GREATEST), (GREATEST, 0), (GREATEST, GREATEST)]
LENGTHS = [0, 1, 5, 100, 512, 513, 2000, 8192]
OFFSETS = [0, 0, 0, 1, 6, 511, 600, 9000, 1040384, 1048575, 1048576, GREATEST]
COUNTS = [0, 1, 15, 16, 19, 20, 39, 40, 60, 64, 100, 500, 8191, 8192, GREATEST]
PATHS = [b'/', b'/', b'///', b'', b'a', b'/a', b'/a/b', b'/hello', b'//a//', b'/.', b'/..', b'/hello/x',
         b'/a/../b', b'/' + b'p' * 1023, b'/' * 1025]
PROCEDURES = [1, 2, 2, 4, 5, 6, 6, 8, 8, 9, 9, 9, 10, 11, 11, 12, 13, 14, 14, 14, 15, 16, 16, 17]

PARMS = word(0) + opaque(b'm') + word(0, 0)
ODD_CREDENTIALS = [
    word(AUTH_NONE) + opaque(b'ignored'), word(2) + opaque(b''), word(GREATEST) + opaque(bytes(400)),
    word(AUTH_SYS) + opaque(b''), word(AUTH_SYS) + opaque(PARMS), word(AUTH_SYS) + opaque(PARMS + word(0) + word(0)),
    word(AUTH_SYS) + opaque(PARMS + array([word(1)] * 17)), word(0) + opaque(bytes(401)), word(0, 1) + b'abcd']


class Caller:
    """Makes random calls to a server, whose world it looks at to name files that are there."""

    def __init__(self, random: Random, world: World):
        self.random = random
        self.world = world

    def handle(self, kinds: tuple[int, ...] = (1, 2, 5)) -> bytes:
        files = self.world.files
        among = [number for number, file in files.files.items() if file.kind in kinds]
        if among and self.random.random() < 0.93:
            return files.handle(self.random.choice(among))
        number = self.random.choice([0, 1, 2, files.next_number, GREATEST, *files.files])
        odd = [files.handle(number), word(files.node % 64 + 1, number) + bytes(24),
               word(files.node, number) + bytes(23) + b'\1', self.random.randbytes(32)]
        return self.random.choice(odd)

    def directory(self) -> bytes:
        return self.handle((2,)) if self.random.random() < 0.95 else self.handle()

    def name(self) -> bytes:
        if self.random.random() < 0.1:
            return opaque(self.random.choice(ODD_NAMES))
        return opaque(self.random.choice(NAMES[:6] if self.random.random() < 0.6 else NAMES))

    def operands(self) -> bytes:
        """A directory and a name, which is often one of its own."""
        handle = self.directory()
        file = self.world.files.files.get(int.from_bytes(handle[4:8], 'big'))
        if file is not None and file.entries and self.random.random() < 0.5:
            return handle + opaque(self.random.choice(list(file.entries)))
        return handle + self.name()

    def sattr(self) -> bytes:
        def some(choices, none, among=0.3):
            return self.random.choice(choices) if self.random.random() < among else none
        numbers = word(some(MODES, GREATEST, 0.4), some(OWNERS, GREATEST, 0.15), some(OWNERS, GREATEST, 0.15),
                       some(SIZES, GREATEST))
        return numbers + word(*some(TIMES, (GREATEST, 0)), *some(TIMES, (GREATEST, 0)))

    def arguments(self, procedure: int) -> bytes:
        pick = self.random.choice
        if procedure in (1, 5, 17):
            return self.handle((5,) if procedure == 5 and pick([True, False]) else (1, 2, 5))
        if procedure == 2:
            return self.handle() + self.sattr()
        if procedure == 6:
            return self.handle((1,)) + word(pick(OFFSETS), pick(COUNTS), pick(COUNTS))
        if procedure == 8:
            data = self.random.randbytes(pick(LENGTHS))
            return self.handle((1,)) + word(pick(OFFSETS), pick(OFFSETS), pick(OFFSETS)) + opaque(data)
        if procedure in (9, 14):
            return self.operands() + self.sattr()
        if procedure == 11:
            return self.operands() + self.operands()
        if procedure == 12:
            return self.handle((1, 5)) + self.operands()
        if procedure == 13:
            target = opaque(pick([b'', b'hello', b'/a/b', b't' * 1024, b'\0\n']))
            return self.operands() + target + self.sattr()
        if procedure == 16:
            return self.directory() + word(pick([0, 0, 0, 1, 2, 3, 4, 5, GREATEST]), pick(COUNTS))
        return self.operands() if procedure in (4, 10, 15) else b''

    def credential(self) -> bytes:
        if self.random.random() < 0.1:
            return word(AUTH_NONE) + opaque(b'')
        return self.auth_sys()

    def auth_sys(self, machine: bytes | None = None) -> bytes:
        uid, gid, gids = self.random.choice(USERS)
        machine = self.random.choice(MACHINES) if machine is None else machine
        groups = array([word(each) for each in gids])
        return word(AUTH_SYS) + opaque(word(0) + opaque(machine) + word(uid, gid) + groups)

    def odd_credential(self) -> bytes:
        return self.random.choice(ODD_CREDENTIALS)

    def header(self, program: int, version: int, procedure: int, credential: bytes) -> bytes:
        verifier = self.random.choice([word(0, 0), word(0, 0), word(7) + opaque(b'any')])
        xid = self.random.getrandbits(32)
        return word(xid, CALL, RPC_VERSION, program, version, procedure) + credential + verifier

    def nfs(self, procedure: int | None = None) -> bytes:
        procedure = self.random.choice(PROCEDURES) if procedure is None else procedure
        return self.header(NFS, 2, procedure, self.credential()) + self.arguments(procedure)

    def mount(self, procedure: int | None = None) -> bytes:
        procedure = self.random.choice([0, 1, 1, 1, 2, 2, 3, 4, 5]) if procedure is None else procedure
        path = opaque(self.random.choice(PATHS)) if procedure in (1, 3) else b''
        return self.header(MOUNT, 1, procedure, self.credential()) + path

    def odd_calls(self) -> list[bytes]:
        """Calls with something unusual in their headers, their arguments or their ends."""
        random, good = self.random, self.nfs()
        procedure = random.choice([0, 3, 7, 18, GREATEST])
        program, version = random.choice([(NFS, 1), (NFS, 3), (MOUNT, 2), (100000, 2), (NFS + 1, 2),
                                          (GREATEST, 0)])
        padded = self.header(NFS, 2, 4, self.credential()) + self.handle((2,)) + word(1) + b'aaaa'
        return [
            b'', good[:random.randrange(12)], good[:random.randrange(len(good))],
            good + b'\0', good + b'more', word(1, 1, 2) + good[12:],
            word(1, 0, random.choice([0, 1, 3, GREATEST])), word(1, 0, 3) + good[12:],
            self.header(NFS, 2, procedure, self.credential()), self.header(MOUNT, 1, 6, self.credential()),
            self.header(program, version, 1, self.credential()), padded, padded,
            self.header(NFS, 2, 0, self.odd_credential()),
            self.header(MOUNT, 1, 1, self.odd_credential()) + opaque(b'/'),
            self.header(NFS, 2, 1, self.odd_credential()) + self.handle(),
            self.header(MOUNT, 1, random.choice([1, 3, 4]), word(0, 0))
            + random.choice([b'', b'x', opaque(b'/')])]

    def odd(self) -> bytes:
        return self.random.choice(self.odd_calls())

    def call(self) -> bytes:
        return self.random.choices([self.nfs, self.mount, self.odd], [80, 8, 12])[0]()

    def each_call(self) -> list[bytes]:
        """A call of each procedure, one with each odd credential, and odd ones."""
        bodies = [self.nfs(procedure) for procedure in range(18)] + [self.mount(procedure) for procedure in range(6)]
        bodies += [self.header(NFS, 2, 1, each) + self.handle() for each in ODD_CREDENTIALS]
        return bodies + self.odd_calls()
