#!/usr/bin/env bash
# Prints the time to make signers of height 10, 12 and 16, signatures and verifications a second, and of each the
# ratio to as many digests of one block by a plain loop; and the time of height 16 by up to four threads. It builds a copy of the crates with the program of
# bench/keys beside them.
set -euo pipefail
cd "$(dirname "$0")/.."
. checks/scratch_crate.sh

proved_scratch_crate keys_bench bench/keys/main.rt.txt anyhow merkle_keys sha2
rt run > "$work/log" 2>&1 || { tail -40 "$work/log" >&2; exit 1; }
grep -E ' of the plain loop| where one thread takes ' "$work/log"
