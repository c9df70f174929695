#!/usr/bin/env bash
# Tries the wrong bodies of crates: `checks/wrong_bodies.sh NAME..`. Each file of crates/NAME/wrong-bodies is an edit in
# the form of crates/NAME/must-fail, which the prover must refuse. They are tried as must-fail edits of a copy of the
# crate; the last line of each crate says how many were tried and how many refused. Ends with 1 where one wasn't refused,
# and with 2 where one wasn't judged, as where a crate below isn't built. Not a part of the gate, since each takes half a
# minute of processor time: to be run for each crate that a change touches.
set -euo pipefail
cd "$(dirname "$0")/.."
. checks/scratch_crate.sh

if [ $# -eq 0 ]; then
    echo "usage: checks/wrong_bodies.sh NAME.." >&2
    exit 2
fi

work=$(mktemp -d)
trap 'rm -rf "$work"' EXIT
mkdir "$work/crates"
crates_below "$@" > "$work/crates.txt"
# Of what is proved the libraries alone: what a check keeps besides takes much room.
for crate in $(names_below "$@"); do
    copy_parts "$crate" src specs proofs
    if [ -d "crates/$crate/out/rlib" ]; then
        mkdir "$work/crates/$crate/out"
        cp -r "crates/$crate/out/rlib" "$work/crates/$crate/out/"
    fi
done

# Counts the edits of a crate of which rt said this.
said() {
    grep -c "^rt: must-fail $1/.*: $2" "$work/log" || true
}

# Tries the wrong bodies of a crate. Gives 1 where one wasn't refused, 2 where one wasn't judged.
try_bodies() {
    local name=$1 tried refused kept ended=0
    cp -r "crates/$name/wrong-bodies" "$work/crates/$name/must-fail"
    tried=$(find "$work/crates/$name/must-fail" -name '*.edit' | wc -l)
    (cd "$work" && rt must-fail "$name") > "$work/log" 2>&1 || ended=$?
    grep "^rt: must-fail $name/" "$work/log" | cut -c1-200 || true
    refused=$(said "$name" 'refused, as it must be')
    kept=$(said "$name" 'NOT REFUSED')
    echo "$name: $tried tried, $refused refused"
    if [ $((refused + kept)) -ne "$tried" ]; then
        echo "$name: $((tried - refused - kept)) not judged; rt ended with $ended, and said last:" >&2
        tail -20 "$work/log" >&2
        return 2
    fi
    [ "$kept" -eq 0 ]
}

status=0
for name in "$@"; do
    if [ ! -d "crates/$name/wrong-bodies" ]; then
        echo "$name: no wrong bodies"
        continue
    fi
    ended=0
    try_bodies "$name" || ended=$?
    if [ "$ended" -gt "$status" ]; then
        status=$ended
    fi
done
exit $status
