#!/usr/bin/env bash
# Replies in the order of the server's log: sixteen clients at once make 320 calls over TCP of the program of
# crates/serve_log, which serves them by `serving::serve`. Each reply in its log is the one that one service alone owes
# in that order, byte for byte, nothing else was sent, each reply was acknowledged, and each client sent and got what stands
# there.
#
#     checks/serve_log.sh [CALLS]    of each client, 20 if not given; at most 1,000
#
# It tries the programs that the gate left in crates/serve_log/out, one for each compiler; where none is there, rt run
# makes one.
set -euo pipefail
cd "$(dirname "$0")/.."
. checks/scratch_crate.sh
. checks/built_programs.sh

built_programs serve_log
for program in "${made[@]}"; do
    python3 checks/serve_log.py "$program" "${1:-20}"
done
