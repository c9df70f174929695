#!/usr/bin/env bash
# Parties on hosts of their own: a server, a gateway and a witness as processes on loopback, each also with the others of
# checks/peer, which were written from docs/WIRE.md; servers that lie; and the story of README for two machines. It tries
# the programs that the gate left in crates/nfsacc/out, the second compiler's by some of the parts; where none is there,
# rt run makes one.
set -euo pipefail
cd "$(dirname "$0")/.."
. checks/scratch_crate.sh
. checks/built_programs.sh

built_programs
python3 checks/hosts.py "${made[0]}"
python3 checks/two_machines.py "${made[0]}"
for program in "${made[@]:1}"; do
    python3 checks/hosts.py "$program" server three rows lie calls in_flight away
done
