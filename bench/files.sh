#!/usr/bin/env bash
# Measures `nfsacc rpc` on mixed calls of all procedures, half of them READ and WRITE of 4,096 and 8,192 bytes, against a
# plain Rust program that answers the same records, and compares what the two write: in a tree of 2 files, in one of
# 8,000 in 93 directories, and in one of 8,000 in a single directory. Prints records a second, the ratio to the plain
# program, the ratio of the times of a record in the large trees and in the small one, and peak memory.
#
#     bench/files.sh [ROUNDS]    of 32 calls each; 3000, if not given
#
# Needs rt, rustc and GNU time.
set -euo pipefail
cd "$(dirname "$0")/.."
. bench/measure.sh

rounds=${1:-3000}
turns=5

build bench/files.rs

# tree NAME DIRECTORIES FILES measures the calls after those that make the tree, by processor time.
tree() {
    local name=$1 turn program run
    "$folder/plain" stream "$2" "$3" 0 >"$folder/make"
    "$folder/plain" stream "$2" "$3" "$rounds" >"$folder/whole"
    for ((turn = 0; turn < turns; turn++)); do
        for run in make whole; do
            compare "$folder/$run" "$folder/$name.$run"
        done
    done
    for program in nfsacc plain; do
        read -r _ made _ < <(summed "$folder/$name.make.$program")
        read -r _ all most < <(summed "$folder/$name.whole.$program")
        awk -v all="$all" -v made="$made" -v most="$most" 'BEGIN { print all - made, most, made }' >"$folder/$name.$program"
    done
    read -r nfsacc_seconds nfsacc_kib nfsacc_made <"$folder/$name.nfsacc"
    read -r plain_seconds plain_kib plain_made <"$folder/$name.plain"
    awk -v name="$name" -v calls=$((32 * rounds)) -v nfsacc="$nfsacc_seconds" -v plain="$plain_seconds" \
        -v nfsacc_made="$nfsacc_made" -v plain_made="$plain_made" -v mine="$nfsacc_kib" -v its="$plain_kib" 'BEGIN {
        printf "%s: nfsacc rpc %.0f records a processor second, the plain program %.0f, ratio %.2f\n",
            name, calls / nfsacc, calls / plain, plain / nfsacc
        printf "    making the tree %.2f and %.2f seconds, peak memory %d and %d KiB\n", nfsacc_made, plain_made, mine, its
    }'
}

tree 2-files 0 0
tree 8000-files 93 85
tree one-directory 0 7998
# PROGRAM NAME: how many times as long as in 2 files a record takes in a tree.
grown() {
    awk 'NR == FNR { small = $1; next } { printf "%.2f", $1 / small }' "$folder/2-files.$1" "$folder/$2.$1"
}
for name in 8000-files one-directory; do
    echo "$name: a record takes $(grown nfsacc "$name") of the time in 2 files, the plain program $(grown plain "$name")"
done
echo "both programs wrote the same bytes"
