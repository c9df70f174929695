#!/usr/bin/env bash
# Digests by lanes beside another implementation: of messages of each length from 0 to 55, of long ones with up to five
# blocks or a leaf's length, and of single ones in pieces. checks/digests/messages.py makes them with their digests by
# Python's hashlib, with the standard's printed examples among them. The program of crates/digests reads them. It tries
# the programs that the gate left there, one for each compiler; where none is there, rt run makes one.
set -euo pipefail
cd "$(dirname "$0")/.."
. checks/scratch_crate.sh
. checks/built_programs.sh

built_programs digests
work=$(mktemp -d)
trap 'rm -rf "$work"' EXIT
python3 checks/digests/messages.py > "$work/messages"
for program in "${made[@]}"; do
    "$program" < "$work/messages" > "$work/log" 2>&1 || fail 'it found another digest, or failed' "$work/log"
    [ "$(cat "$work/log")" = 'digests of all lengths from 0 to 55, of long messages and of single ones are right' ] || fail 'it said' "$work/log"
    # It would see a digest that differs: one of the last message.
    { head -c -1 "$work/messages"; printf '\0'; } > "$work/changed"
    if cmp -s "$work/messages" "$work/changed"; then fail 'nothing was changed'; fi
    if "$program" < "$work/changed" > "$work/log" 2>&1; then fail 'it missed a digest that differs' "$work/log"; fi
    echo "${program##*/}: digests of all lengths from 0 to 55, of long messages and of single ones are right"
done
