#!/usr/bin/env bash
# Prints how many calls a second go through a gateway over a client and a server that are joined, with all that both log
# and sign: the first thousand and the last, and all, each beside a plain loop over as many digests as the signatures owe,
# by processor time by turns of a hundred calls; and the peak memory.
#
#     bench/calls.sh [THOUSANDS [VERSION]]    20 thousand, if not given, and at most 32; logs of version 1 or 2
#
# Needs rt and GNU time. Keys of height 16 are made four times, which takes two minutes.
set -euo pipefail
cd "$(dirname "$0")/.."
. checks/scratch_crate.sh

thousands=${1:-20}

proved_scratch_crate calls_bench bench/calls/main.rt.txt anyhow nodes gateway nfs_items rpc commitment authenticator sha2
have_version "${2:-1}"
rt run > "$work/log" 2>&1 || { tail -40 "$work/log" >&2; exit 1; }
/usr/bin/time -f 'peak memory: %M KiB' out/calls_bench "$thousands"
