#!/usr/bin/env bash
# Prints how long it takes to copy a closed segment of 4,096 signed entries and to compare it with the copy, and to compare
# two states with 16 MiB of files, beside copying and comparing as many bytes in one piece, and the peak memory. Needs rt
# and GNU time.
set -euo pipefail
cd "$(dirname "$0")/.."
. checks/scratch_crate.sh

proved_scratch_crate copies_bench bench/copies/main.rt.txt anyhow checkpoint secure_log authenticator merkle_keys
rt run > "$work/log" 2>&1 || { tail -40 "$work/log" >&2; exit 1; }
/usr/bin/time -f 'peak memory: %M KiB' out/copies_bench
