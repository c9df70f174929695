#!/usr/bin/env bash
# Prints how long a round of sixteen jobs takes, of 4,092 entries down to 252 and the longest first: by one worker, by two,
# and by two threads with fixed shares. And how long the audit of a server's log of 65,532 entries takes, in sixteen rounds,
# beside the replays alone; what each part showed of others is taken from the book before the next. Needs rt, GNU time, some
# six gigabytes of memory, and two processors with nothing else to do.
set -euo pipefail
cd "$(dirname "$0")/.."
. checks/scratch_crate.sh

proved_scratch_crate audit_bench bench/audit/main.rt.txt anyhow witness_calls nodes node_logs authenticator merkle_keys nfs_items
rt run > "$work/log" 2>&1 || { tail -40 "$work/log" >&2; exit 1; }
/usr/bin/time -f 'peak memory: %M KiB' out/audit_bench
