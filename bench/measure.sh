# To be sourced at the top of the repository: builds `nfsacc` and a plain program, runs them and sums up what they took.
# What they read and write is kept in $folder, which is gone when the script ends.

nfsacc=$PWD/crates/nfsacc/out/nfsacc
folder=$(mktemp -d)
trap 'rm -rf "$folder"' EXIT

# build FILE builds nfsacc, and the plain program of a file as $folder/plain.
build() {
    (cd crates/nfsacc && rt run -- rpc </dev/null >"$folder/build.log" 2>&1) || {
        cat "$folder/build.log"
        exit 1
    }
    rustc -O --edition 2024 -o "$folder/plain" "$1"
}

# measure INPUT OUTPUT COMMAND.. runs a command on a file of records, and prints its seconds, its processor seconds and
# its peak memory in KiB.
measure() {
    local input=$1 output=$2
    shift 2
    /usr/bin/time -f '%e %U %S %M' -o "$folder/time" "$@" <"$input" >"$output"
    awk '{ print $1, $2 + $3, $4 }' "$folder/time"
}

# compare INPUT TIMES measures both programs, one after the other, so that both meet what else the machine does. It adds
# what they took to the files TIMES.nfsacc and TIMES.plain, and sees that they wrote the same.
compare() {
    measure "$1" "$folder/nfsacc.out" "$nfsacc" rpc >>"$2.nfsacc"
    measure "$1" "$folder/plain.out" "$folder/plain" answer >>"$2.plain"
    cmp "$folder/nfsacc.out" "$folder/plain.out"
}

# summed TIMES prints the least seconds and processor seconds of all runs, and the most memory.
summed() {
    awk 'NR == 1 || $1 < least { least = $1 } NR == 1 || $2 < busy { busy = $2 } $3 > most { most = $3 }
        END { print least, busy, most }' "$1"
}
