#!/usr/bin/env bash
# Two programs judge the same evidence: `nfsacc check`, and checks/verify.py, which was written from
# the pages of docs alone, without a look into the crates. The files are those of checks/evidence, made ones that show a call
# of each kind, and COUNT others (200 where none is said), of which the generator knows what each must give. All that is explained of each is compared, too, with
# what the second program finds in the file. PROGRAM is an nfsacc that is built already; without one those are tried that the
# gate left in crates/nfsacc/out.
# usage: checks/verify.sh [COUNT [PROGRAM]]
set -euo pipefail
cd "$(dirname "$0")/.."
. checks/scratch_crate.sh
. checks/built_programs.sh
cases=$PWD/checks/evidence
count=${1:-200}

if [ $# -ge 2 ]; then made=("$2"); else built_programs; fi

files=$(mktemp -d)
trap 'rm -rf "$files"' EXIT

# The verdicts of the stored files.
verdicts() {
    local said
    for said in "$cases"/*.said; do
        echo "$(basename "$said" .said) $(head -1 "$said")"
    done
}

# judged WANTED COMMAND..: the command says this line, with its status.
judged() {
    local wanted=$1 said status=0 right=0
    shift
    if [ "$wanted" = 'no evidence' ]; then right=1; fi
    said=$("$@" 2> /dev/null) || status=$?
    if [ "$said" != "$wanted" ] || [ "$status" -ne "$right" ]; then
        echo "'$said' with status $status, where '$wanted' is wanted, of: $*" >&2
        exit 1
    fi
}

# explained NAME: what the program shows of a stored file, in lines and as JSON, is what the second verifier finds in it, and
# so with each option.
explained() {
    local options
    for options in '' "--roster $cases/fork.evidence" --entries '--state 1' '--state 3 --entries' '--state 9'; do
        "$program" check --json $options "$cases/$1.evidence" > "$files/json" 2> /dev/null || true
        "$program" check --explain $options "$cases/$1.evidence" > "$files/lines" 2> /dev/null || true
        checks/verify.py "$cases/$1.evidence" "$files/json" "$files/lines" $options || {
            echo "$1 is explained otherwise than it shows, with the options: $options" >&2
            exit 1
        }
    done
}

check_stored() {
    local name verdict stored=0
    while read -r name verdict; do
        judged "$verdict" checks/verify.py "$cases/$name.evidence"
        for program in "${made[@]}"; do
            judged "$verdict" "$program" check "$cases/$name.evidence"
            explained "$name"
        done
        stored=$((stored + 1))
    done < <(verdicts)
    if [ "$stored" -ne "$(ls "$cases"/*.evidence | wc -l)" ]; then
        echo "a file of $cases has no verdict" >&2
        exit 1
    fi
}

# The generator's files are made again, byte for byte.
check_made_again() {
    local name
    checks/generate.py --stored "$files"
    for name in "$files"/*.evidence; do
        cmp "$name" "$cases/${name##*/}"
    done
}

check_stored
check_made_again
checks/generate.py "$(IFS=,; echo "${made[*]}")" "$count" evidence
echo "the second verifier and nfsacc check agree on the stored files and the made ones, and on what each shows"
