#!/usr/bin/env bash
# Prints what a call takes through one program (nfsacc serve) and through three on loopback (a server, a gateway and a
# witness), and through three with 1, 10 and 50 milliseconds to the server and back; how far the witness is behind, and the
# peak memory of each; and what a call costs a server alone beside a plain loop over as many digests as it owes.
# GETATTR of `hello` is asked by one connection, one call after the other.
#
#     bench/hosts.sh [CALLS]    2,000 if not given; fewer over a long way; at most 16,000
#
# Needs rt, rustc and Python 3. Keys are made before anything is measured; the heights are the least that allow the calls.
set -euo pipefail
cd "$(dirname "$0")/.."

(cd crates/nfsacc && rt run -- --version)
folder=$(mktemp -d)
trap 'rm -rf "$folder"' EXIT
rustc -O --edition 2024 -o "$folder/digests" bench/digests.rs
python3 bench/hosts.py crates/nfsacc/out/nfsacc "$folder/digests" "${1:-2000}" 1 10 50
