#!/usr/bin/env bash
# Makes evidence of 65,536 entries, of which the last alone has a fault, and prints how long it takes to read and check it,
# and the peak memory: of a client's readings of its clock, of its messages, and of a server's calls, whose file has 372 MB;
# each of a log of version 1, and of the same log in version 2.
# Needs rt and GNU time, and two gigabytes of memory to make the files.
set -euo pipefail
cd "$(dirname "$0")/.."
readonly IN_VERSION_2=$PWD/bench/evidence/version_2.py
. checks/scratch_crate.sh

proved_scratch_crate evidence_bench bench/evidence/main.rt.txt anyhow challenge secure_log authenticator merkle_keys
rt run -- clocks "$work/clocks" > "$work/log" 2>&1 || { tail -40 "$work/log" >&2; exit 1; }
for name in clocks messages calls; do
    out/evidence_bench $name "$work/file"
    echo "$name:"
    /usr/bin/time -f 'peak memory: %M KiB' out/evidence_bench check "$work/file"
    "$IN_VERSION_2" "$work/file" "$work/file_2"
    echo "$name, in version 2:"
    /usr/bin/time -f 'peak memory: %M KiB' out/evidence_bench check "$work/file_2"
done
