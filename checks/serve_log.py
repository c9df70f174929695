#!/usr/bin/env python3
"""Sixteen clients at once, whose replies are those that one service alone owes in the order of the server's log. The
program of crates/serve_log serves them, compares its log with the service, and prints the log's records and replies,
which are compared here with what each client sent and got over TCP.

usage: checks/serve_log.py PROGRAM [CALLS]    CALLS of each client, 125 if not given, with a record that is none after
                                              each 42 of them; at most 1,000
"""

import subprocess
import sys
from concurrent.futures import ThreadPoolExecutor

sys.dont_write_bytecode = True
from serve.calls import Calls  # noqa: E402
from serve.client import Connection, record  # noqa: E402
from serve.service import trusted  # noqa: E402

CLIENTS = 16
MOST_CALLS = 1000
NO_CALL = b'no call'
NO_CALL_AFTER = 42
PATIENCE = 600


class Client(Calls):
    """Makes calls, and keeps what it sent and what it got over TCP."""

    def __init__(self, port: int, number: int):
        super().__init__(number)
        self.connection = Connection(port)
        self.records: list[bytes] = []
        self.replies: list[bytes] = []

    def take(self, body: bytes, reply: bytes):
        self.records.append(body)
        self.replies.append(reply)
        super().take(body, reply)

    def make(self, calls: int):
        for number in range(1, calls + 1):
            body = self.next_call()
            self.take(body, self.connection.ask(body))
            if number % NO_CALL_AFTER == 0:
                self.records.append(NO_CALL)
                self.connection.send(record(NO_CALL))
        self.connection.finish()


def heights(calls: int) -> tuple[int, int]:
    """The least heights of the server's and a client's tree of keys: a record takes a key of each, a reply too."""
    keys = 2 * (calls + calls // NO_CALL_AFTER)
    client = (keys - 1).bit_length()
    return client + (CLIENTS - 1).bit_length(), client


def listening(process: subprocess.Popen) -> int:
    line = process.stdout.readline()
    assert line.startswith('listening '), f'it printed {line!r}'
    return int(line.split()[1])


def compare(lines: list[str], clients: list[Client]) -> int:
    """Sees that the log has all that each client sent and got, in its order; gives how many replies these are."""
    logged: dict[int, tuple[list[bytes], list[bytes]]] = {number + 2: ([], []) for number in range(CLIENTS)}
    for line in lines:
        node, body, reply = line.split()
        records, replies = logged[int(node)]
        records.append(bytes.fromhex(body))
        if reply != '-':
            replies.append(bytes.fromhex(reply))
    for node, (records, replies) in logged.items():
        client = clients[node - 2]
        assert records == client.records, f'node {node} sent other records than the log has'
        assert replies == client.replies, f'node {node} got other replies than the log has'
    return sum(len(client.replies) for client in clients)


def serve(process: subprocess.Popen, calls: int) -> tuple[list[str], list[Client]]:
    """Makes so many calls of each client; gives what the program printed after the run's lines, and the clients."""
    port = listening(process)
    # One after the other, which is the order of their nodes.
    clients = [Client(port, number) for number in range(CLIENTS)]
    with ThreadPoolExecutor(CLIENTS) as pool:
        list(pool.map(lambda client: client.make(calls), clients))
    printed, _ = process.communicate(timeout=PATIENCE)
    assert process.returncode == 0, f'status {process.returncode}'
    assert printed.startswith(trusted(CLIENTS)), printed[:1000]
    return printed.removeprefix(trusted(CLIENTS)).splitlines(), clients


def main():
    calls = int(sys.argv[2]) if len(sys.argv) > 2 else 125
    assert 1 <= calls <= MOST_CALLS, 'there are no keys for so many calls'
    server, client = heights(calls)
    process = subprocess.Popen([sys.argv[1], str(server), str(client), '0'], stdin=subprocess.DEVNULL,
                               stdout=subprocess.PIPE, text=True)
    try:
        lines, clients = serve(process, calls)
    finally:
        process.kill()
    replies = compare(lines, clients)
    assert replies == CLIENTS * calls, f'{replies} replies'
    print(f'{replies} replies to {len(lines)} records, by sixteen connections at once, are owed in the order of the '
          f"server's log, and were got")


if __name__ == '__main__':
    main()
