#!/usr/bin/env bash
# Prints how long it takes to read, check and write the states of large trees, beside the time of the digest of the same
# bytes; how long a CHECK takes after one WRITE, beside the digests that it can't do without; and the peak memory of it
# all. Needs rt and GNU time.
set -euo pipefail
cd "$(dirname "$0")/.."
. checks/scratch_crate.sh

proved_scratch_crate state_bench bench/state/main.rt.txt anyhow checkpoint nfs_items sha2
rt run > "$work/log" 2>&1 || { tail -40 "$work/log" >&2; exit 1; }
/usr/bin/time -f 'peak memory: %M KiB' out/state_bench
