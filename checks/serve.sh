#!/usr/bin/env bash
# nfsacc serve from outside: clients at once, hostile ones among them, each reply as it is owed, the lines in the end, files
# and devices, and command lines that are refused. It tries the programs that the gate left in crates/nfsacc/out; where none
# is there, rt run makes one.
set -euo pipefail
cd "$(dirname "$0")/.."
. checks/scratch_crate.sh
. checks/built_programs.sh

built_programs
for program in "${made[@]}"; do
    python3 checks/serve.py "$program"
done
