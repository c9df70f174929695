#!/usr/bin/env bash
# nfsacc secret, member and rosters from outside: files, lines and rosters, and what is refused. It tries the programs that
# the gate left in crates/nfsacc/out; where none is there, rt run makes one.
set -euo pipefail
cd "$(dirname "$0")/.."
. checks/scratch_crate.sh
. checks/built_programs.sh

built_programs
for program in "${made[@]}"; do
    python3 checks/keys.py "$program"
done
