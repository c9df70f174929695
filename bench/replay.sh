#!/usr/bin/env bash
# Prints how long replays of segments of 4,096 entries take, beside their hashes, their signatures and the calls in them by
# themselves. Needs rt and GNU time.
#
#     bench/replay.sh [VERSION]    logs of version 1, if it isn't given, or 2
set -euo pipefail
cd "$(dirname "$0")/.."
. checks/scratch_crate.sh

proved_scratch_crate replay_bench bench/replay/main.rt.txt anyhow replay checkpoint state_machine nfs_items secure_log authenticator merkle_keys
have_version "${1:-1}"
rt run > "$work/log" 2>&1 || { tail -40 "$work/log" >&2; exit 1; }
/usr/bin/time -f 'peak memory: %M KiB' out/replay_bench
