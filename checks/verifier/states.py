"""The state of a node from its text (FORMATS, "The state of a node")."""

from .keys import CLIENT, SERVER, read_hash
from .log import MAX_BODY, Recv, Send
from .mount import MAX_MOUNTS, MAX_PATH, World
from .nfs import (DIRECTORY, MAX_BLOCKS, MAX_ENTRIES, MAX_FILES, MAX_FILE_SIZE, MAX_NAME, MAX_TARGET, REGULAR, ROOT,
                  SYMLINK, File, Files, Time, blocks_of, is_name)
from .replay import MAX_MICROSECONDS, STATE_VERSION, Sent, State
from .xdr import Reader, Undecodable

MAX_MESSAGES = 131072
MAX_HOST = 255
MAX_MODE = 0o7777
FIRST_COOKIE = 3
IDLE, HEARD, OWES = 0, 1, 2


class NotAState(Exception):
    """The bytes are spelled as a state's text is, and no state says what they say."""


def require(holds: bool):
    if not holds:
        raise NotAState


def read_state(data: bytes) -> State | None:
    """The state whose text the bytes are, if they are one's."""
    try:
        reader = Reader(data)
        state = read_parts(reader)
        reader.end()
        check_state(state)
    except (Undecodable, NotAState):
        return None
    return state


def read_time(reader: Reader) -> Time:
    return reader.word(), reader.word()


def read_received(reader: Reader) -> tuple[int, int, bytes]:
    return reader.word(), reader.hyper(), read_hash(reader)


def read_sent(reader: Reader) -> tuple[int, Sent]:
    return reader.hyper(), Sent(reader.word(), read_hash(reader), read_hash(reader))


def read_mount(reader: Reader) -> tuple[bytes, bytes]:
    return reader.opaque(MAX_HOST), reader.opaque(MAX_PATH)


def read_entry(reader: Reader) -> tuple[bytes, int, int]:
    return reader.opaque(MAX_NAME), reader.word(), reader.word()


def read_file(reader: Reader) -> tuple[int, File]:
    number, kind = reader.word(), reader.word()
    if kind not in (REGULAR, DIRECTORY, SYMLINK):
        raise Undecodable
    file = File(kind, reader.word(), reader.word(), reader.word(), read_time(reader), read_time(reader), read_time(reader))
    if kind != DIRECTORY:
        file.data = reader.opaque(MAX_FILE_SIZE if kind == REGULAR else MAX_TARGET)
        return number, file
    file.next_cookie = reader.word()
    entries = reader.array(MAX_ENTRIES, read_entry)
    require(rises([cookie for _, _, cookie in entries]))
    file.entries = {name: (below, cookie) for name, below, cookie in entries}
    require(len(file.entries) == len(entries))
    return number, file


def read_stage(reader: Reader, kind: int) -> tuple[Recv | None, Send | None]:
    """The message that a server heard, or the reply that it owes."""
    stage = reader.word_among(IDLE, OWES if kind == SERVER else IDLE)
    if stage == IDLE:
        return None, None
    other, body = reader.word(), reader.opaque(MAX_BODY)
    return (Recv(other, 0, b'', body, None), None) if stage == HEARD else (None, Send(other, body))


def read_parts(reader: Reader) -> State:
    reader.word_among(STATE_VERSION, STATE_VERSION)
    node, kind, clock = reader.word(), reader.word_among(SERVER, CLIENT), read_time(reader)
    received, sent = reader.array(MAX_MESSAGES, read_received), reader.array(MAX_MESSAGES, read_sent)
    heard, owed = read_stage(reader, kind)
    world = World(Files(node))
    if kind == SERVER:
        world.files.next_number = reader.word()
        world.mounts = reader.array(MAX_MOUNTS, read_mount)
        files = reader.array(MAX_FILES, read_file)
        require(rises([number for number, _ in files]))
        world.files.files = dict(files)
    require(rises(received) and rises([seq for seq, _ in sent]))
    return State(node, kind, world, clock, set(received), dict(sent), heard, owed)


def rises(items: list) -> bool:
    return all(one < other for one, other in zip(items, items[1:]))


def check_state(state: State):
    require(is_time(state.clock))
    if state.kind == SERVER:
        check_world(state.world)


def is_time(time: Time) -> bool:
    return time[1] <= MAX_MICROSECONDS


def check_world(world: World):
    files = world.files.files
    require(all(directory == b'/' for _, directory in world.mounts))
    require(len(set(world.mounts)) == len(world.mounts))
    require(all(0 < number < world.files.next_number for number in files))
    for file in files.values():
        check_file(file)
    require(sum(len(file.entries) for file in files.values()) <= MAX_ENTRIES)
    require(sum(blocks_of(len(file.data)) for file in files.values() if file.kind == REGULAR) <= MAX_BLOCKS)
    check_tree(files)


def check_file(file: File):
    require(file.mode <= MAX_MODE and all(is_time(time) for time in (file.atime, file.mtime, file.ctime)))
    require(all(is_name(name) for name in file.entries))
    require(all(FIRST_COOKIE <= cookie < file.next_cookie for _, cookie in file.entries.values()))
    require(file.kind != DIRECTORY or file.next_cookie >= FIRST_COOKIE)


def check_tree(files: dict[int, File]):
    """The root is a directory that no entry names; each other file has a name, a directory one, and all are reached."""
    require(ROOT in files and files[ROOT].kind == DIRECTORY)
    named = [number for file in files.values() for number, _ in file.entries.values()]
    require(set(named) == set(files) - {ROOT})
    directories = [number for number in named if files[number].kind == DIRECTORY]
    require(len(set(directories)) == len(directories))
    reached, next_ones = {ROOT}, [ROOT]
    while next_ones:
        below = {number for number, _ in files[next_ones.pop()].entries.values()} - reached
        reached |= below
        next_ones += below
    require(reached == set(files))
