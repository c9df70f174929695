"""MOUNT version 1 (RFC 1094, appendix A): the root is the one export, for every machine."""

from dataclasses import dataclass, field

from .nfs import ACCES, NOENT, NOSPC, OK, ROOT, Files
from .xdr import Reader, linked, opaque, word

MAX_PATH = 1024
MAX_MOUNTS = 40


@dataclass
class World:
    """A server's files, and its mounts in order: a machine's name and a directory each."""
    files: Files
    mounts: list[tuple[bytes, bytes]] = field(default_factory=list)


def names_on(path: bytes) -> list[bytes]:
    return [name for name in path.split(b'/') if name]


def is_of_root(path: bytes) -> bool:
    return path.startswith(b'/') and not names_on(path)


def reaches(files: Files, path: bytes) -> bool:
    """Whether a walk by the entries of directories reaches something."""
    number = ROOT
    for name in names_on(path):
        entry = files.files[number].entries.get(name)
        if entry is None:
            return False
        number = entry[0]
    return True


def null(_world: World, _machine: bytes | None, _args: Reader) -> bytes:
    return b''


def mnt(world: World, machine: bytes, args: Reader) -> bytes:
    path = args.opaque(MAX_PATH)
    if not path.startswith(b'/'):
        return word(NOENT)
    if names_on(path):
        return word(ACCES if reaches(world.files, path) else NOENT)
    if (machine, b'/') not in world.mounts:
        if len(world.mounts) >= MAX_MOUNTS:
            return word(NOSPC)
        world.mounts.append((machine, b'/'))
    return word(OK) + world.files.handle(ROOT)


def dump(world: World, _machine: bytes | None, _args: Reader) -> bytes:
    return linked([opaque(machine) + opaque(path) for machine, path in world.mounts])


def umnt(world: World, machine: bytes, args: Reader) -> bytes:
    if is_of_root(args.opaque(MAX_PATH)):
        return umntall(world, machine, args)
    return b''


def umntall(world: World, machine: bytes, _args: Reader) -> bytes:
    world.mounts = [mount for mount in world.mounts if mount[0] != machine]
    return b''


def export(_world: World, _machine: bytes | None, _args: Reader) -> bytes:
    no_groups = linked([])
    return linked([opaque(b'/') + no_groups])


PROCEDURES = [null, mnt, dump, umnt, umntall, export]

# The procedures that are about the caller's machine: MNT, UMNT and UMNTALL.
OF_A_MACHINE = (1, 3, 4)
