#!/usr/bin/env bash
# Prints the time of an append to a log that is empty and to one of a million entries, of all appends the ratio to a
# plain loop that makes the same digests, and the peak memory. Needs rt and GNU time.
set -euo pipefail
cd "$(dirname "$0")/.."
. checks/scratch_crate.sh

proved_scratch_crate log_bench bench/log/main.rt.txt anyhow secure_log sha2
rt run > "$work/log" 2>&1 || { tail -40 "$work/log" >&2; exit 1; }
/usr/bin/time -f 'peak memory: %M KiB' out/log_bench
