#!/usr/bin/env python3
"""The parties, the way between them and the virtual machine of checks/kernel_mount.sh.

usage: checks/kernel/run.py PROGRAM KERNEL FILES
"""

import re
import subprocess
import sys
import threading
import time
from collections.abc import Iterator
from pathlib import Path

sys.dont_write_bytecode = True
sys.path.insert(0, str(Path(__file__).resolve().parents[1]))
from hosts.logs import log_of  # noqa: E402
from hosts.parties import Hosts  # noqa: E402
from hosts.proxy import Switch  # noqa: E402
from verifier.keys import CLIENT, SERVER  # noqa: E402

HEIGHT = 10
CUT = 10
PATIENCE = 600


def machine(kernel: str, files: str, port: int) -> Iterator[str]:
    """The lines of a virtual machine. It reaches a listener of this one at 10.0.2.2."""
    words = ['qemu-system-x86_64', '-machine', 'accel=tcg', '-m', '512', '-display', 'none', '-serial', 'stdio',
             '-monitor', 'none', '-no-reboot', '-netdev', 'user,id=net', '-device', 'e1000,netdev=net',
             '-kernel', kernel, '-initrd', files,
             '-append', f'console=ttyS0 quiet panic=-1 rdinit=/init nfsport={port}']
    process = subprocess.Popen(words, stdin=subprocess.DEVNULL, stdout=subprocess.PIPE, text=True, errors='replace')
    watch = threading.Timer(PATIENCE, process.kill)
    watch.start()
    try:
        for line in process.stdout:
            yield line.rstrip('\r\n')
    finally:
        watch.cancel()
        process.kill()
        process.wait()


def cut(way: Switch):
    way.off()
    time.sleep(CUT)
    way.on()


def work(way: Switch, kernel: str, files: str, port: int) -> list[str]:
    """What the machine said. The way is cut once it says so."""
    said = []
    for line in machine(kernel, files, port):
        if not line.startswith('guest: '):
            continue
        print(line, flush=True)
        said.append(line.removeprefix('guest: '))
        if said[-1] == 'the way is cut':
            threading.Thread(target=cut, args=(way,), daemon=True).start()
    return said


def main():
    program, kernel, files = sys.argv[1:]
    with Hosts(program) as hosts:
        hosts.rosters(hosts.member_lines('one', 1, SERVER, HEIGHT, '1'),
                      hosts.member_lines('two', 2, CLIENT, HEIGHT, '1'))
        server = hosts.server('one')
        way = hosts.keep(Switch(server.address()))
        witness = hosts.witness({1: server.address()})
        gateway = hosts.gateway('two', '2', way.address, witness.address())
        said = work(way, kernel, files, gateway.address()[1])
        assert said and said[-1] == 'all is done', said[-1:]
        [seconds] = [int(line.split()[-1]) for line in said if line.startswith('seconds of cp: ')]
        assert seconds >= CUT - 2, seconds
        logged = log_of(server.address(), hosts.roster())
        assert all(each.sender == 2 for each in logged.calls)
        hosts.wait_until(witness.address(), lambda told: all(word == 'trusted' for word, _, _ in told.values())
                         and told[1][2] >= len(logged.entries))
        for line in gateway.said().splitlines():
            print('gateway:', re.sub(r'^\S+Z ', '', line))
    print(f'a kernel\'s mount: {len(logged.calls)} calls, and cp took {seconds} seconds with a cut of {CUT} in it; '
          'everybody is trusted')


if __name__ == '__main__':
    main()
