"""A client of NFS version 2 and MOUNT over TCP (RFC 5531, RFC 1094), as small as the tries of `nfsacc serve` need."""

import socket
import struct

from verifier.rpc import AUTH_SYS, CALL, MOUNT, NFS, RPC_VERSION
from verifier.xdr import array, opaque, word

UNSET = 0xffffffff
ROOT = word(1, 1) + bytes(24)
PATIENCE = 60


def credential(uid: int = 0, gid: int = 0, machine: bytes = b'm') -> bytes:
    return word(AUTH_SYS) + opaque(word(0) + opaque(machine) + word(uid, gid) + array([]))


def call(xid: int, procedure: int, arguments: bytes = b'', program: int = NFS, who: bytes | None = None) -> bytes:
    version = 2 if program == NFS else 1
    who = credential() if who is None else who
    return word(xid, CALL, RPC_VERSION, program, version, procedure) + who + word(0, 0) + arguments


def mount_call(xid: int, procedure: int, arguments: bytes = b'') -> bytes:
    return call(xid, procedure, arguments, MOUNT)


def sattr(mode: int = UNSET, size: int = UNSET) -> bytes:
    return word(mode, UNSET, UNSET, size, UNSET, UNSET, UNSET, UNSET)


def record(body: bytes, *cuts: int) -> bytes:
    """The record of a body, cut into fragments at these places."""
    ends = [*cuts, len(body)]
    text, start = b'', 0
    for end in ends:
        mark = (end - start) | (0x80000000 if end == len(body) else 0)
        text += struct.pack('>I', mark) + body[start:end]
        start = end
    return text


class Connection:
    """A connection to a server that listens on this machine."""

    def __init__(self, port: int, small: bool = False, address: str = '127.0.0.1'):
        self.socket = socket.socket()
        if small:
            self.socket.setsockopt(socket.SOL_SOCKET, socket.SO_RCVBUF, 4096)
        self.socket.settimeout(PATIENCE)
        self.socket.connect((address, port))
        self.socket.setsockopt(socket.IPPROTO_TCP, socket.TCP_NODELAY, 1)

    def send(self, data: bytes):
        self.socket.sendall(data)

    def take(self, count: int) -> bytes:
        data = b''
        while len(data) < count:
            more = self.socket.recv(count - len(data))
            if not more:
                raise EOFError(f'the server closed after {len(data)} of {count} bytes')
            data += more
        return data

    def reply(self) -> bytes:
        """The next reply: one record, which the server sends as one fragment."""
        mark, = struct.unpack('>I', self.take(4))
        assert mark & 0x80000000, 'a reply in more than one fragment'
        return self.take(mark & 0x7fffffff)

    def ask(self, body: bytes) -> bytes:
        self.send(record(body))
        return self.reply()

    def ends(self) -> bool:
        """Whether the server closes, and sends nothing before."""
        return self.socket.recv(1) == b''

    def is_cut(self) -> bool:
        """Whether nothing comes until the connection is gone."""
        try:
            return self.ends()
        except ConnectionResetError:
            return True

    def close(self):
        self.socket.close()

    def finish(self):
        """Sends no more, and waits for the server to close."""
        self.socket.shutdown(socket.SHUT_WR)
        while self.socket.recv(65536):
            pass
        self.close()

    def reset(self):
        self.socket.setsockopt(socket.SOL_SOCKET, socket.SO_LINGER, struct.pack('ii', 1, 0))
        self.close()
