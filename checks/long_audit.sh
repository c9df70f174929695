#!/usr/bin/env bash
# Witnesses follow one server over 120,000 entries, one after another, with the script that checks/long_audit.py writes: the
# second, third and fourth begin at bases at about 30,000, 60,000 and 90,000. All that they say is compared. A lie at the
# end is found, and its evidence, which holds the third base and all that was audited since, is accepted by `nfsacc check`
# and by the second verifier. Prints the peak memory of the run, of the same nodes without a witness, and of both up to the
# first base. Not a part of the gate: it takes some minutes, six gigabytes of memory and half of one on the disk.
#
#     checks/long_audit.sh [ENTRIES]      the log's length, 120,000 if not given
set -euo pipefail
cd "$(dirname "$0")/.."
. checks/scratch_crate.sh
. checks/built_programs.sh
checks=$PWD/checks

built_programs
program=${made[0]}

work=$(mktemp -d)
trap 'rm -rf "$work"' EXIT
cd "$work"

# peak SCRIPT WORDS: runs a script, leaves what it prints in `out`, and tells its peak memory and how long it took.
peak() {
    /usr/bin/time -f '%M %e' -o took "$program" run "$1" < /dev/null > out 2> said || fail "a run of $1" said out
    awk -v of="$2" '{ printf "%s: %d MiB, %d seconds\n", of, $1 / 1024, $2 }' took
}

"$checks/long_audit.py" script printed nodes evidence "${1:-120000}"
sed '/^join /,$d' script > first_script
grep -E '^(node|call|mark) ' first_script > first_nodes
peak first_nodes 'the nodes alone up to the first base'
peak first_script 'the nodes and one witness up to the first base'
peak nodes 'the nodes alone'
peak script 'the nodes and four witnesses'
cmp -s out printed || {
    diff out printed > differs || true
    fail 'the run printed otherwise than it should' differs
}

echo "the evidence has $(wc -c < evidence) bytes"
"$program" check --json evidence > json
"$program" check --explain evidence > lines
[ "$("$program" check evidence)" = 'exposed 1' ] || fail 'the evidence of the lie' lines
[ "$(python3 "$checks/verify.py" evidence)" = 'exposed 1' ] || fail 'the second verifier takes no evidence of the lie' lines
python3 "$checks/verify.py" evidence json lines || fail 'the second verifier finds otherwise than is explained' lines
echo 'all was sound up to the lie, which is shown to anybody'
