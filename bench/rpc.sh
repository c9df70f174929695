#!/usr/bin/env bash
# Measures `nfsacc rpc` by processor time against three plain Rust programs that answer the same records and prove
# nothing: one writes each reply by itself, one holds replies as long as a whole record is at hand, one also reads such a
# record where it lies. They run by turns; what the four write is compared. First GETATTR and LOOKUP by turns, from a
# file and through a pipe; then each procedure of NFS once, from a file. Prints how many times as fast as each of the
# three `nfsacc` is, and peak memory.
#
#     bench/rpc.sh [RECORDS]    a million, if not given; a tenth as many of each procedure
#
# Needs rt, rustc and GNU time.
set -euo pipefail
cd "$(dirname "$0")/.."
. bench/measure.sh

records=${1:-1000000}
rounds=10

build bench/rpc.rs
mv "$folder/plain" "$folder/calls"
rustc -O --edition 2024 -o "$folder/files" bench/files.rs

# busy FROM INPUT OUTPUT COMMAND.. prints the processor seconds of a command that reads a file, or a pipe with its bytes.
busy() {
    local from=$1 input=$2 output=$3 TIMEFORMAT='%3U %3S'
    shift 3
    if [ "$from" = pipe ]; then
        cat "$input" | { time "$@" 2>/dev/null; } 2>"$folder/busy" | cat >"$output"
    else
        { time "$@" <"$input" >"$output" 2>/dev/null; } 2>"$folder/busy"
    fi
    awk '{ print $1 + $2 }' "$folder/busy"
}

# by_turns FROM INPUT PLAIN ROUNDS runs the four, and prints nfsacc's processor seconds, and how many times as fast it is
# as the plain program that writes each reply, as the one that holds them, and as the one that reads records in place.
by_turns() {
    local from=$1 input=$2 plain=$3 round
    rm -f "$folder"/took.*
    for ((round = 0; round < $4; round++)); do
        busy "$from" "$input" "$folder/nfsacc.out" "$nfsacc" rpc >>"$folder/took.nfsacc"
        busy "$from" "$input" "$folder/each.out" "$plain" answer >>"$folder/took.each"
        busy "$from" "$input" "$folder/held.out" "$plain" hold >>"$folder/took.held"
        busy "$from" "$input" "$folder/place.out" "$plain" place >>"$folder/took.place"
        cmp "$folder/nfsacc.out" "$folder/each.out"
        cmp "$folder/nfsacc.out" "$folder/held.out"
        cmp "$folder/nfsacc.out" "$folder/place.out"
    done
    paste "$folder"/took.nfsacc "$folder"/took.each "$folder"/took.held "$folder"/took.place |
        awk '{ n += $1; e += $2; h += $3; p += $4 } END { printf "%.3f %.2f %.2f %.2f\n", n / NR, e / n, h / n, p / n }'
}

"$folder/calls" stream "$records" >"$folder/records"
printf '%-24s %18s %22s %18s %18s\n' '' 'records a second' 'each reply written' 'replies held' 'read in place'
for from in file pipe; do
    read -r seconds each held place < <(by_turns $from "$folder/records" "$folder/calls" $rounds)
    awk -v from="GETATTR, LOOKUP: $from" -v records="$records" -v seconds="$seconds" -v each="$each" -v held="$held" \
        -v place="$place" 'BEGIN { printf "%-24s %18.0f %22s %18s %18s\n", from, records / seconds, each, held, place }'
done

procedures=(NULL GETATTR SETATTR ROOT LOOKUP READLINK READ WRITECACHE WRITE CREATE REMOVE RENAME LINK SYMLINK MKDIR RMDIR
    READDIR STATFS)
for procedure in "${!procedures[@]}"; do
    count=$((records / 10))
    "$folder/files" alone "$procedure" "$count" >"$folder/alone"
    read -r seconds each held place < <(by_turns file "$folder/alone" "$folder/files" 3)
    awk -v name="${procedures[procedure]}" -v count="$count" -v seconds="$seconds" -v each="$each" -v held="$held" \
        -v place="$place" 'BEGIN { printf "%-24s %18.0f %22s %18s %18s\n", name, count / seconds, each, held, place }'
done

few=10000
"$folder/calls" stream "$few" >"$folder/few"
measure "$folder/few" "$folder/few.out" "$nfsacc" rpc >"$folder/few.times"
measure "$folder/records" "$folder/nfsacc.out" "$nfsacc" rpc >"$folder/times"
printf 'peak memory %d KiB at %d records, %d KiB at %d\n' "$(cut -d' ' -f3 "$folder/few.times")" "$few" \
    "$(cut -d' ' -f3 "$folder/times")" "$records"
