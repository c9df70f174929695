#!/usr/bin/env bash
# Prints how many events of each kind a second the books of 64 nodes take at an empty and at a full book, what comes once
# in an audit of 4,096 entries in the first and in the last of sixteen, how long a flood of refused and repeated
# authenticators takes at a full book beside one that only learned, the peak memory, and what a book of 65,536 audited
# entries holds beside its segments. Needs rt and GNU time.
#
#     bench/books.sh [VERSION]    logs of version 1, if it isn't given, or 2
set -euo pipefail
cd "$(dirname "$0")/.."
. checks/scratch_crate.sh

proved_scratch_crate books_bench bench/books/main.rt.txt anyhow witness_books node_book packets envelopes secure_log authenticator merkle_keys
have_version "${1:-1}"
rt run > "$work/log" 2>&1 || { tail -40 "$work/log" >&2; exit 1; }
/usr/bin/time -f 'peak memory: %M KiB' out/books_bench < /dev/null

# peak_of LETTER: the peak memory of a run that keeps the segments (s), or has a book audit them besides (b).
peak_of() {
    printf %s "$1" | /usr/bin/time -o "$work/peak" -f %M out/books_bench
    cat "$work/peak"
}

segments=$(peak_of s)
book=$(peak_of b)
echo "a book of 65,536 audited entries holds at most $((book - segments)) KiB beside its segments; with their log and keys these take $segments KiB"
