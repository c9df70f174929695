#!/usr/bin/env python3
"""Calls through one program and through three, one after the other by one connection: GETATTR of `hello`.

usage: bench/hosts.py PROGRAM DIGESTS CALLS MILLISECONDS..    a way to the server of so long, each way, for each number

DIGESTS is the program that bench/digests.rs makes.
"""

import os
import subprocess
import sys
import threading
import time
from pathlib import Path

sys.dont_write_bytecode = True
sys.path.insert(0, str(Path(__file__).resolve().parents[1] / 'checks'))
from hosts.logs import last_signed  # noqa: E402
from hosts.parties import Hosts, Party  # noqa: E402
from hosts.proxy import Delay  # noqa: E402
from peer.gateway import told_of  # noqa: E402
from peer.wire import NODE, WITNESS, Address, Caller  # noqa: E402
from serve.client import Connection, call  # noqa: E402
from serve.service import Service, all_good  # noqa: E402
from verifier.keys import CLIENT, SERVER  # noqa: E402
from verifier.xdr import word  # noqa: E402

HELLO = word(1, 2) + bytes(24)
GETATTR = call(7, 1, HELLO)
REPLY_BYTES = 96
PAUSE = 0.1

# The compressions of SHA-256 that a call costs its server, which signs the receipt and the reply, and checks the call and
# the acknowledgement of the reply. A signature has a secret for each of 256 bits and a hash for the other value, whose
# secret is made, too. A check hashes 256 secrets, the leaf's text of 16,385 bytes, and a text of 65 bytes a level. The
# texts of three signatures are digested whole for the log: of the call's, the reply's and the acknowledgement's.
SIGNING = 3 * 256
CHECK = 256 + 257
LEVEL = 2
SIGNATURE_TEXT = 258
TICKS = os.sysconf('SC_CLK_TCK')


def height(calls: int) -> int:
    """The least height of keys for so many calls."""
    return max(1, (2 * calls - 1).bit_length())


def call_times(port: int, calls: int) -> list[float]:
    """How long each call took, in seconds."""
    connection, times = Connection(port), []
    for _ in range(calls):
        start = time.perf_counter()
        reply = connection.ask(GETATTR)
        times.append(time.perf_counter() - start)
        assert len(reply) == REPLY_BYTES
    connection.finish()
    return times


def print_times(name: str, times: list[float]):
    in_order = sorted(times)
    median, most = (1000 * in_order[int(share * len(times))] for share in (0.5, 0.95))
    rate = len(times) / sum(times)
    print(f'{name}: {rate:.0f} calls a second; a call: median {median:.2f} ms, 95th percentile {most:.2f} ms')


def peak_of(process: int) -> int:
    """The most memory that a process had, in MiB."""
    for line in Path(f'/proc/{process}/status').read_text().splitlines():
        if line.startswith('VmHWM:'):
            return int(line.split()[1]) // 1024
    raise ValueError('no VmHWM')


def compressions(levels: int) -> int:
    """How many compressions a call costs its server, where the client's keys have so many levels."""
    return 2 * SIGNING + 2 * (CHECK + LEVEL * levels) + 3 * SIGNATURE_TEXT


def processor_time(process: int) -> float:
    """The seconds of a processor that a process took, and the system for it."""
    fields = Path(f'/proc/{process}/stat').read_text().rsplit(')', 1)[1].split()
    return sum(map(int, fields[11:13])) / TICKS


def seconds_of(digests: str, count: int) -> float:
    """The seconds of a processor that so many digests of one block take."""
    return float(subprocess.run([digests, str(count)], check=True, stdout=subprocess.PIPE, text=True).stdout)


def server_alone(program: str, digests: str, calls: int):
    """What a call costs its server beside the digests that it can't do without: nobody audits."""
    with Hosts(program) as hosts:
        levels = height(calls)
        hosts.rosters(hosts.member('one', 1, SERVER, levels), hosts.member('two', 2, CLIENT, levels))
        server = hosts.server('one')
        gateway = hosts.gateway('two', '2-2', server.address())
        before = processor_time(server.process.pid)
        call_times(gateway.address()[1], calls)
        took = (processor_time(server.process.pid) - before) / calls
        count = compressions(levels)
        plain = seconds_of(digests, calls * count) / calls
    print(f'a server alone: {1000 * took:.2f} ms of a processor for a call, {took / plain:.2f} of {count} digests')


def by_one(program: str, calls: int):
    keys = str(height(calls))
    service = Service(program, 1, '--server-height', keys, '--client-height', keys)
    print_times('one program', call_times(service.port, calls))
    peak = peak_of(service.process.pid)
    all_good(service, 1)
    print(f'  {peak} MiB after the calls, {service.peak:.0f} with the audits')


class Lag(threading.Thread):
    """Sees again and again how far a witness is behind what a server has signed."""

    def __init__(self, hosts: Hosts, server: Address, witness: Address):
        super().__init__(daemon=True)
        self.server = Caller(server, NODE)
        self.witness = Caller(witness, WITNESS)
        self.roster = hosts.roster()
        self.behind: list[int] = []
        self.ended = threading.Event()
        self.after = 0.0
        self.start()

    def end(self) -> int:
        return told_of(self.witness, 1).end

    def last(self) -> int:
        end = self.end()
        return last_signed(self.server, self.roster, 1, end) or end

    def run(self):
        while not self.ended.wait(PAUSE):
            last = self.last()
            self.behind.append(last - self.end())
        started, last = time.monotonic(), self.last()
        while self.end() < last:
            time.sleep(PAUSE / 4)
        self.after = time.monotonic() - started

    def finish(self):
        """Waits until the witness has audited all."""
        self.ended.set()
        self.join()


def by_three(program: str, calls: int, milliseconds: float):
    with Hosts(program) as hosts:
        hosts.rosters(hosts.member('one', 1, SERVER, height(calls)), hosts.member('two', 2, CLIENT, height(calls)))
        server = hosts.server('one')
        witness = hosts.witness({1: server.address()})
        way = hosts.keep(Delay(server.address(), milliseconds / 1000)).address if milliseconds else server.address()
        gateway = hosts.gateway('two', '2-2', way, witness.address())
        port, lag = gateway.address()[1], Lag(hosts, server.address(), witness.address())
        times = call_times(port, calls)
        lag.finish()
        print_times(f'three, {milliseconds:g} ms each way' if milliseconds else 'three programs', times)
        print_lag(lag)
        print_peaks({'server': server, 'gateway': gateway, 'witness': witness})


def print_lag(lag: Lag):
    behind = lag.behind or [0]
    print(f'  the witness is {sum(behind) / len(behind):.0f} entries behind on the mean, {max(behind)} at most, '
          f'and has all of them {lag.after:.1f} s after the last call')


def print_peaks(parties: dict[str, Party]):
    print('  ' + ', '.join(f'{name} {peak_of(party.process.pid)} MiB' for name, party in parties.items()))


def main():
    program, digests, calls = sys.argv[1], sys.argv[2], int(sys.argv[3])
    by_one(program, calls)
    server_alone(program, digests, calls)
    for milliseconds in 0, *map(float, sys.argv[4:]):
        by_three(program, min(calls, int(10000 / milliseconds)) if milliseconds else calls, milliseconds)


if __name__ == '__main__':
    main()
