#!/usr/bin/env bash
# Prints how long it takes to admit the packet of an authenticator whose signature a cache keeps, and of one that is checked,
# beside the check of a signature alone, and the peak memory with 511 signatures kept. Needs rt and GNU time.
#
#     bench/admit.sh [VERSION]    logs of version 1, if it isn't given, or 2
set -euo pipefail
cd "$(dirname "$0")/.."
. checks/scratch_crate.sh

proved_scratch_crate admit_bench bench/admit/main.rt.txt anyhow witness_service packets authenticator merkle_keys
have_version "${1:-1}"
rt run > "$work/log" 2>&1 || { tail -40 "$work/log" >&2; exit 1; }
/usr/bin/time -f 'peak memory: %M KiB' out/admit_bench
