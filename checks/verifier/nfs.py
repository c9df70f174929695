"""NFS version 2 (RFC 1094) over files in memory: the eighteen procedures, with their checks in order."""

from dataclasses import dataclass, field

from .xdr import Reader, linked, opaque, word

REGULAR, DIRECTORY, SYMLINK = 1, 2, 5
TYPE_BITS = {REGULAR: 0o100000, DIRECTORY: 0o040000, SYMLINK: 0o120000}

OK, PERM, NOENT, NXIO, ACCES, EXIST, NOTDIR, ISDIR = 0, 1, 2, 6, 13, 17, 20, 21
FBIG, NOSPC, NOTEMPTY, STALE = 27, 28, 66, 70

MAX_DATA = 8192
MAX_NAME = 255
MAX_TARGET = 1024
MAX_FILE_SIZE = 1048576
MAX_FILES = 8192
MAX_ENTRIES = 16384
MAX_BLOCKS = 32768
BLOCK = 512
ROOT = 1
MAX_NUMBER = 0xffffffff
IGNORED = 0xffffffff
READ, WRITE, SEARCH = 4, 2, 1

Time = tuple[int, int]


class Refused(Exception):
    """A call gets this stat, and changes nothing."""

    def __init__(self, stat: int):
        super().__init__(stat)
        self.stat = stat


@dataclass(frozen=True)
class Caller:
    uid: int
    gid: int
    gids: list[int]
    machine: bytes | None = None

    def is_in(self, gid: int) -> bool:
        return gid == self.gid or gid in self.gids


@dataclass
class File:
    """`data` is a file's bytes or a symbolic link's target; a directory has entries and the next cookie."""
    kind: int
    mode: int
    uid: int
    gid: int
    atime: Time
    mtime: Time
    ctime: Time
    data: bytes = b''
    next_cookie: int = 3
    entries: dict[bytes, tuple[int, int]] = field(default_factory=dict)

    def size(self) -> int:
        return BLOCK if self.kind == DIRECTORY else len(self.data)

    def permits(self, who: Caller, bits: int) -> bool:
        """Whether the caller's class has one of these bits."""
        if who.uid == self.uid:
            return bool(self.mode >> 6 & bits)
        if who.is_in(self.gid):
            return bool(self.mode >> 3 & bits)
        return bool(self.mode & bits)

    def may_search(self, who: Caller) -> bool:
        return who.uid == 0 or self.permits(who, SEARCH)

    def may(self, who: Caller, bits: int) -> bool:
        return who.uid in (0, self.uid) or self.permits(who, bits)

    def touch(self, now: Time):
        self.mtime = self.ctime = now


@dataclass(frozen=True)
class Attributes:
    """The attributes that a call brings: None where one is to be ignored."""
    mode: int | None
    uid: int | None
    gid: int | None
    size: int | None
    atime: Time | None
    mtime: Time | None

    def any_given(self) -> bool:
        return any(given is not None for given in vars(self).values())


def blocks_of(size: int) -> int:
    return (size + BLOCK - 1) // BLOCK


def is_name(name: bytes) -> bool:
    return name not in (b'', b'.', b'..') and not any(byte in name for byte in b'\0/')


class Files:
    """The files of a server by their numbers."""

    def __init__(self, node: int):
        start = (0, 0)
        self.node = node
        self.next_number = 3
        self.files = {
            1: File(DIRECTORY, 0o777, 0, 0, start, start, start, next_cookie=4, entries={b'hello': (2, 3)}),
            2: File(REGULAR, 0o644, 0, 0, start, start, start, data=b'hello\n'),
        }

    def handle(self, number: int) -> bytes:
        return word(self.node, number) + bytes(24)

    def number_in(self, handle: bytes) -> int:
        number = int.from_bytes(handle[4:8], 'big')
        if number not in self.files or handle != self.handle(number):
            raise Refused(STALE)
        return number

    def file_at(self, handle: bytes) -> File:
        return self.files[self.number_in(handle)]

    def directory_at(self, handle: bytes) -> File:
        directory = self.file_at(handle)
        if directory.kind != DIRECTORY:
            raise Refused(NOTDIR)
        return directory

    def directories(self) -> list[File]:
        """Those that have entries."""
        return [file for file in self.files.values() if file.entries]

    def names_of(self, number: int) -> int:
        """How many entries name a file."""
        return sum([place for place, _ in file.entries.values()].count(number) for file in self.directories())

    def above(self, number: int) -> int:
        """The directory that has an entry of this directory; the root for the root."""
        for above, file in self.files.items():
            if any(place[0] == number for place in file.entries.values()):
                return above
        return ROOT

    def links(self, number: int) -> int:
        file = self.files[number]
        if file.kind != DIRECTORY:
            return self.names_of(number)
        return 2 + sum(self.files[below].kind == DIRECTORY for below, _ in file.entries.values())

    def blocks_used(self) -> int:
        return sum([blocks_of(len(file.data)) for file in self.files.values() if file.data and file.kind == REGULAR])

    def attributes(self, number: int) -> bytes:
        file = self.files[number]
        mode = TYPE_BITS[file.kind] | file.mode
        return (word(file.kind, mode, self.links(number), file.uid, file.gid, file.size(), BLOCK, 0)
                + word(blocks_of(file.size()), self.node, number, *file.atime, *file.mtime, *file.ctime))

    def check_room(self, files: int = 0, blocks: int = 0, directory: File | None = None):
        """NOSPC where so many files and blocks more, and an entry more of a directory, would pass a limit."""
        entries = sum(len(file.entries) for file in self.directories()) + (directory is not None)
        cookie = directory.next_cookie + 1 if directory else 0
        if (len(self.files) + files > MAX_FILES or entries > MAX_ENTRIES
                or self.blocks_used() + blocks > MAX_BLOCKS
                or max(self.next_number + files, cookie) > MAX_NUMBER):
            raise Refused(NOSPC)

    def add_entry(self, directory: File, name: bytes, number: int, now: Time):
        directory.entries[name] = (number, directory.next_cookie)
        directory.next_cookie += 1
        directory.touch(now)

    def add_file(self, directory: File, name: bytes, file: File, now: Time) -> int:
        number = self.next_number
        self.next_number += 1
        self.files[number] = file
        self.add_entry(directory, name, number, now)
        return number

    def take_name(self, directory: File, name: bytes, now: Time):
        """Takes an entry out, and with its last name the file."""
        number, _ = directory.entries.pop(name)
        file = self.files[number]
        if file.kind == DIRECTORY or self.names_of(number) == 0:
            del self.files[number]
        else:
            file.ctime = now
        directory.touch(now)


@dataclass(frozen=True)
class Call:
    """What a procedure works with: the files, who calls and when, and the arguments to be read."""
    fs: Files
    who: Caller
    now: Time
    args: Reader

    def handle(self) -> bytes:
        return self.args.fixed(32)

    def operands(self) -> tuple[bytes, bytes]:
        """diropargs: a directory's file handle and a name."""
        return self.handle(), self.args.opaque(MAX_NAME)

    def sattr(self) -> Attributes:
        mode, uid, gid, size = (self.args.word() for _ in range(4))
        atime, mtime = ((self.args.word(), self.args.word()) for _ in range(2))
        kept_mode = None if mode in (IGNORED, 0xffff) else mode & 0o7777
        return Attributes(kept_mode, given(uid), given(gid), given(size), self.time_given(atime),
                          self.time_given(mtime))

    def time_given(self, time: Time) -> Time | None:
        if time[0] == IGNORED:
            return None
        return time if time[1] <= 999999 else self.now


def given(number: int) -> int | None:
    return None if number == IGNORED else number


# Checks that procedures share.

def check_kind(file: File):
    """ISDIR and NXIO, of what asks for a regular file."""
    if file.kind == DIRECTORY:
        raise Refused(ISDIR)
    if file.kind == SYMLINK:
        raise Refused(NXIO)


def check(passes: bool, stat: int):
    if not passes:
        raise Refused(stat)


def check_edit(who: Caller, directory: File, name: bytes):
    check(is_name(name) and directory.may_search(who) and directory.may(who, WRITE), ACCES)


def check_new_name(call: Call, directory: File, name: bytes, files: int):
    check_edit(call.who, directory, name)
    check(name not in directory.entries, EXIST)
    call.fs.check_room(files=files, directory=directory)


def entry_of(directory: File, name: bytes) -> int:
    check(name in directory.entries, NOENT)
    return directory.entries[name][0]


def found(fs: Files, number: int) -> bytes:
    return word(OK) + fs.handle(number) + fs.attributes(number)


def attributes_of(fs: Files, number: int) -> bytes:
    return word(OK) + fs.attributes(number)


# The procedures.

def null(_call: Call) -> bytes:
    return b''


def getattr_(call: Call) -> bytes:
    return attributes_of(call.fs, call.fs.number_in(call.handle()))


def setattr_(call: Call) -> bytes:
    handle, sattr = call.handle(), call.sattr()
    number = call.fs.number_in(handle)
    apply_attributes(call, call.fs.files[number], sattr)
    return attributes_of(call.fs, number)


def apply_attributes(call: Call, file: File, sattr: Attributes):
    check_attributes(call, file, sattr)
    if sattr.mode is not None:
        file.mode = sattr.mode
    if sattr.uid is not None:
        file.uid = sattr.uid
    if sattr.gid is not None:
        file.gid = sattr.gid
    if sattr.size is not None:
        file.data = resized(file.data, sattr.size)
        file.mtime = call.now
    file.atime = sattr.atime or file.atime
    file.mtime = sattr.mtime or file.mtime
    if sattr.any_given():
        file.ctime = call.now


def check_attributes(call: Call, file: File, sattr: Attributes):
    who = call.who
    owns = who.uid == file.uid
    if (sattr.mode, sattr.atime, sattr.mtime) != (None, None, None):
        check(owns or who.uid == 0, PERM)
    check(sattr.uid is None or who.uid == 0 or (owns and sattr.uid == file.uid), PERM)
    if sattr.gid is not None:
        check(who.uid == 0 or (owns and (sattr.gid == file.gid or who.is_in(sattr.gid))), PERM)
    if sattr.size is not None:
        check_kind(file)
        check(file.may(who, WRITE), ACCES)
        check(sattr.size <= MAX_FILE_SIZE, FBIG)
        call.fs.check_room(blocks=blocks_of(sattr.size) - blocks_of(file.size()))


def resized(data: bytes, size: int) -> bytes:
    return data[:size] + bytes(max(0, size - len(data)))


def lookup(call: Call) -> bytes:
    handle, name = call.operands()
    directory = call.fs.directory_at(handle)
    check(directory.may_search(call.who), ACCES)
    number = call.fs.number_in(handle)
    if name == b'..':
        number = call.fs.above(number)
    elif name != b'.':
        number = entry_of(directory, name)
    return found(call.fs, number)


def readlink(call: Call) -> bytes:
    file = call.fs.file_at(call.handle())
    check(file.kind == SYMLINK, NXIO)
    return word(OK) + opaque(file.data)


def read(call: Call) -> bytes:
    handle = call.handle()
    offset, count, _totalcount = (call.args.word() for _ in range(3))
    number = call.fs.number_in(handle)
    file = call.fs.files[number]
    check_kind(file)
    check(file.may(call.who, READ | SEARCH), ACCES)
    return attributes_of(call.fs, number) + opaque(file.data[offset:offset + min(count, MAX_DATA)])


def write(call: Call) -> bytes:
    handle = call.handle()
    _beginoffset, offset, _totalcount = (call.args.word() for _ in range(3))
    data = call.args.opaque(MAX_DATA)
    number = call.fs.number_in(handle)
    file = call.fs.files[number]
    check_kind(file)
    check(file.may(call.who, WRITE), ACCES)
    if data:
        end = offset + len(data)
        check(end <= MAX_FILE_SIZE, FBIG)
        size = max(end, len(file.data))
        call.fs.check_room(blocks=blocks_of(size) - blocks_of(len(file.data)))
        file.data = resized(file.data, size)[:offset] + data + file.data[end:]
        file.touch(call.now)
    return attributes_of(call.fs, number)


def new_file(call: Call, kind: int, mode: int, sattr: Attributes, data: bytes = b'') -> File:
    who, now = call.who, call.now
    uid, gid = who.uid, who.gid
    if uid == 0:
        uid = uid if sattr.uid is None else sattr.uid
        gid = gid if sattr.gid is None else sattr.gid
    mode = mode if sattr.mode is None else sattr.mode
    return File(kind, mode, uid, gid, sattr.atime or now, sattr.mtime or now, now, data)


def create(call: Call) -> bytes:
    (handle, name), sattr = call.operands(), call.sattr()
    fs, directory = call.fs, call.fs.directory_at(handle)
    check(is_name(name) and directory.may_search(call.who), ACCES)
    if name in directory.entries:
        number = directory.entries[name][0]
        check(fs.files[number].kind == REGULAR, EXIST)
        apply_attributes(call, fs.files[number], sattr)
    else:
        size = sattr.size or 0
        check(directory.may(call.who, WRITE), ACCES)
        check(size <= MAX_FILE_SIZE, FBIG)
        fs.check_room(files=1, blocks=blocks_of(size), directory=directory)
        number = fs.add_file(directory, name, new_file(call, REGULAR, 0o644, sattr, bytes(size)), call.now)
    return found(fs, number)


def remove(call: Call) -> bytes:
    handle, name = call.operands()
    directory = call.fs.directory_at(handle)
    check_edit(call.who, directory, name)
    check(call.fs.files[entry_of(directory, name)].kind != DIRECTORY, ISDIR)
    call.fs.take_name(directory, name, call.now)
    return word(OK)


def rename(call: Call) -> bytes:
    (from_handle, old), (to_handle, new) = call.operands(), call.operands()
    fs, who = call.fs, call.who
    source, target = fs.directory_at(from_handle), fs.directory_at(to_handle)
    check_edit(who, source, old)
    check_edit(who, target, new)
    number = entry_of(source, old)
    if target.entries.get(new, (None,))[0] == number:
        return word(OK)
    check(not is_at_or_above(fs, number, fs.number_in(to_handle)), ACCES)
    if new in target.entries:
        check_replaced(fs.files[number], fs.files[entry_of(target, new)])
    check(target.next_cookie < MAX_NUMBER, NOSPC)
    if new in target.entries:
        fs.take_name(target, new, call.now)
    del source.entries[old]
    source.touch(call.now)
    fs.add_entry(target, new, number, call.now)
    fs.files[number].ctime = call.now
    return word(OK)


def check_replaced(moved: File, replaced: File):
    """The stats of what stands at RENAME's new name."""
    if moved.kind == DIRECTORY:
        check(replaced.kind == DIRECTORY, NOTDIR)
    else:
        check(replaced.kind != DIRECTORY, ISDIR)
    check(not replaced.entries, NOTEMPTY)


def is_at_or_above(fs: Files, number: int, below: int) -> bool:
    while below not in (number, ROOT):
        below = fs.above(below)
    return below == number


def link(call: Call) -> bytes:
    handle, (to_handle, name) = call.handle(), call.operands()
    number = call.fs.number_in(handle)
    file = call.fs.files[number]
    check(file.kind != DIRECTORY, ISDIR)
    directory = call.fs.directory_at(to_handle)
    check_new_name(call, directory, name, files=0)
    call.fs.add_entry(directory, name, number, call.now)
    file.ctime = call.now
    return word(OK)


def symlink(call: Call) -> bytes:
    (handle, name), target, _sattr = call.operands(), call.args.opaque(MAX_TARGET), call.sattr()
    directory = call.fs.directory_at(handle)
    check_new_name(call, directory, name, files=1)
    nothing = Attributes(None, None, None, None, None, None)
    call.fs.add_file(directory, name, new_file(call, SYMLINK, 0o777, nothing, target), call.now)
    return word(OK)


def mkdir(call: Call) -> bytes:
    (handle, name), sattr = call.operands(), call.sattr()
    directory = call.fs.directory_at(handle)
    check_new_name(call, directory, name, files=1)
    number = call.fs.add_file(directory, name, new_file(call, DIRECTORY, 0o755, sattr), call.now)
    return found(call.fs, number)


def rmdir(call: Call) -> bytes:
    handle, name = call.operands()
    directory = call.fs.directory_at(handle)
    check_edit(call.who, directory, name)
    file = call.fs.files[entry_of(directory, name)]
    check(file.kind == DIRECTORY, NOTDIR)
    check(not file.entries, NOTEMPTY)
    call.fs.take_name(directory, name, call.now)
    return word(OK)


def readdir(call: Call) -> bytes:
    handle, cookie, count = call.handle(), call.args.word(), call.args.word()
    directory = call.fs.directory_at(handle)
    check(directory.may(call.who, READ), ACCES)
    number = call.fs.number_in(handle)
    listed = [(number, b'.', 1), (call.fs.above(number), b'..', 2)]
    listed += [(below, name, at) for name, (below, at) in directory.entries.items()]
    left = [entry for entry in listed if entry[2] > cookie]
    room, page = min(count, MAX_DATA), []
    for below, name, at in left:
        spelled = word(below) + opaque(name) + word(at)
        room -= 4 + len(spelled)
        if room < 0:
            break
        page.append(spelled)
    return word(OK) + linked(page) + word(len(page) == len(left))


def statfs(call: Call) -> bytes:
    call.fs.number_in(call.handle())
    free = MAX_BLOCKS - call.fs.blocks_used()
    return word(OK, MAX_DATA, BLOCK, MAX_BLOCKS, free, free)


PROCEDURES = [null, getattr_, setattr_, null, lookup, readlink, read, null, write, create, remove, rename,
              link, symlink, mkdir, rmdir, readdir, statfs]


def perform(number: int, call: Call) -> bytes:
    """The results of a procedure. Raises Undecodable where the arguments don't decode."""
    try:
        return PROCEDURES[number](call)
    except Refused as refused:
        return word(refused.stat)
