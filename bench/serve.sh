#!/usr/bin/env bash
# Prints how many calls a second nfsacc serve answers over loopback, by 1, 4 and 16 connections at once, by the clock and by
# the program's processor time: the calls alone, without the time for keys and audits; and the peak memory of the program.
# GETATTR of `hello` is asked, and each connection waits for a reply before it asks again; in the last line it sends eight
# calls before it waits.
#
#     bench/serve.sh [CALLS [OTHER]]    CALLS of all connections together, 2,000 if not given; at most 16,000
#
# OTHER is the program of another tree. One connection then asks each of the two five times, by turns, and a line says how
# the middle ones of their times compare.
#
# Needs rt, rustc and GNU time. The heights are the least that allow the calls, and are printed. Compare it with
# bench/calls.sh, which makes the same calls on one thread and prints the bare digests beside them.
set -euo pipefail
cd "$(dirname "$0")/.."
calls=${1:-2000}
other=${2:-}

(cd crates/nfsacc && rt run -- --version)
nfsacc=$PWD/crates/nfsacc/out/nfsacc
folder=$(mktemp -d)
trap 'rm -rf "$folder"' EXIT
rustc -O --edition 2024 -o "$folder/asks" bench/serve.rs

# height CALLS prints the least height of keys that allows so many calls.
height() {
    local height=1
    while [ $((1 << (height - 1))) -lt "$1" ]; do height=$((height + 1)); done
    echo $height
}

# measure PROGRAM CONNECTIONS DEPTH makes the calls, and prints a line of them and a line of memory.
measure() {
    local program=$1 connections=$2 depth=$3 each server client port
    each=$((calls / connections))
    server=$(height $((each * connections)))
    client=$(height $each)
    : > "$folder/lines"
    /usr/bin/time -f '%M %U %S' -o "$folder/time" "$program" serve 0 "$connections" --server-height "$server" \
        --client-height "$client" > "$folder/lines" &
    until [ -s "$folder/lines" ]; do sleep 0.1; done
    port=$(sed -n 's/^listening //p' "$folder/lines")
    echo "$connections connections, $each calls each, $depth at once, heights $server and $client:" \
        "$("$folder/asks" "$port" "$(pgrep -P $!)" "$connections" $each "$depth")"
    wait
    awk -v calls=$((each * connections)) \
        '{ printf "  peak memory %d MiB, %d KiB a call; processor %s + %s s, with keys and audits\n", $1 / 1024, $1 / calls, $2, $3 }' \
        "$folder/time"
    [ "$(grep -c ' trusted 0$' "$folder/lines")" -eq $((connections + 1)) ] || { cat "$folder/lines" >&2; exit 1; }
}

# rate PROGRAM prints how many calls a second one connection makes.
rate() {
    measure "$1" 1 1 | sed -n 's/.*: \([0-9]*\) calls a second.*/\1/p'
}

# middle prints the middle one of five numbers.
middle() {
    sort -n | sed -n 3p
}

for turn in '1 1' '4 1' '16 1' '1 8'; do
    read -r connections depth <<< "$turn"
    measure "$nfsacc" "$connections" "$depth"
done

[ -n "$other" ] || exit 0
for _ in 1 2 3 4 5; do
    rate "$other" >> "$folder/other"
    rate "$nfsacc" >> "$folder/own"
done
echo "one connection, by turns: $(paste -s -d ' ' "$folder/own") calls a second; of the other program" \
    "$(paste -s -d ' ' "$folder/other")"
awk -v own="$(middle < "$folder/own")" -v other="$(middle < "$folder/other")" \
    'BEGIN { printf "  a call takes %.2f times as long as with the other program, by the middle ones\n", other / own }'
