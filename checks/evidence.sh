#!/usr/bin/env bash
# `nfsacc check` from outside. The files of checks/evidence are evidence of each kind, and a log without a fault, each
# with what the program says of it; checks/refused_memory.sh and checks/verify.sh make them again. They are judged whole,
# cut and with a byte or a bit changed, as are files that are none: an empty one, one of 2 GiB, a folder, one that isn't
# there, and some that have no end. It tries the programs that the gate left in crates/nfsacc/out, as
# checks/command_line.sh does.
set -euo pipefail
cd "$(dirname "$0")/.."
. checks/scratch_crate.sh
. checks/built_programs.sh
cases=$PWD/checks/evidence

built_programs

files=$(mktemp -d)
trap 'rm -rf "$files"' EXIT

# judged STATUS LINE WORD.. wants of `nfsacc check WORD..` this status, and this line first.
judged() {
    local status=$1 line=$2 got=0
    shift 2
    "$program" check "$@" > "$files/out" 2> "$files/said" || got=$?
    [ "$got" -eq "$status" ] || fail "status $got where $status is wanted, of: $*" "$files/said"
    [ "$(head -1 "$files/out")" = "$line" ] || fail "not '$line' of: $*" "$files/out"
}

# The stored files, whole: the line alone, and all that is explained.
check_whole() {
    local name status line count=0
    for name in "$cases"/*.said; do
        name=${name%.said}
        line=$(head -1 "$name.said")
        status=0
        if [ "$line" = 'no evidence' ]; then status=1; fi
        judged $status "$line" "$name.evidence"
        [ "$(wc -l < "$files/out")" -eq 1 ] || fail "more than a line of $name" "$files/out"
        judged $status "$line" --explain "$name.evidence"
        cmp -s "$files/out" "$name.said" || fail "$name is explained otherwise" "$files/out"
        count=$((count + 1))
    done
    [ "$count" -eq 23 ] || fail "$count files were tried"
}

# Files that are cut, at each of the first 208 bytes, at each 64th after them, by the last byte and in each part, and one
# with a byte more.
check_cuts() {
    local name size cut
    for name in wrong_reply fork hidden_entry wrong_reply_after_gap; do
        size=$(wc -c < "$cases/$name.evidence")
        for cut in $(seq 0 208) $(seq 256 64 "$size") $((size - 1)) $((size - 4)) $((size - 16500)); do
            head -c "$cut" "$cases/$name.evidence" > "$files/case"
            judged 1 'no evidence' "$files/case"
        done
        { cat "$cases/$name.evidence"; printf '\0'; } > "$files/case"
        judged 1 'no evidence' "$files/case"
    done
}

# changed NAME AT: the file with the lowest bit of a byte changed.
changed() {
    local byte
    byte=$(od -An -tu1 -j "$2" -N 1 "$cases/$1.evidence")
    cp "$cases/$1.evidence" "$files/case"
    printf "\\x$(printf %x $((byte ^ 1)))" | dd of="$files/case" bs=1 seek="$2" conv=notrunc status=none
}

# A bit changed anywhere: in the roster, the evidence's node, the log, its entries and its closing.
check_changes() {
    local name size at
    for name in wrong_reply fork hidden_entry wrong_reply_after_gap; do
        size=$(wc -c < "$cases/$name.evidence")
        for ((at = 3; at < size; at += size / 60)); do
            changed $name $at
            # The other member's key doesn't bear on a fork of this one.
            if [ $name = fork ] && [ $at -ge 48 ] && [ $at -lt 92 ]; then continue; fi
            judged 1 'no evidence' "$files/case"
        done
        changed $name $((size - 1))
        judged 1 'no evidence' "$files/case"
    done
}

# A file of another roster: the one's roster before the other's evidence.
check_rosters() {
    changed bad_form 20
    judged 1 'no evidence' "$files/case"
}

# why PATTERN WORD..: `nfsacc check WORD..` says `no evidence`, and on standard error just this line.
why() {
    local pattern=$1
    shift
    judged 1 'no evidence' "$@"
    grep -qx "$pattern" "$files/said" || fail "no line '$pattern' of: $*" "$files/said"
    [ "$(wc -l < "$files/said")" -eq 1 ] || fail "more than a line of: $*" "$files/said"
}

# lacks WORDS FILE: it is told that the file's evidence isn't accepted, and what it lacks.
lacks() {
    why "nfsacc: .*: the evidence is not accepted: $1" "$2"
}

# with_byte NAME AT BYTE: the file with another byte at a place, in octal digits.
with_byte() {
    cp "$cases/$1.evidence" "$files/case"
    printf "\\$3" | dd of="$files/case" bs=1 seek="$2" conv=notrunc status=none
}

# The same of logs of version 2. In hidden_entry.evidence node 1's log version ends at 56, the roster at 152, the charge
# stands at 156, `at` at 160, the first showing at 168 with `before` at 172, its count of links at 212 and its closing's word
# at 220; the second showing at 16784 with `before` at 16788, its links at 16832 and 16876, its closing's word at 16924.
check_gap_reasons() {
    local cut
    for cut in 56:56 151:148 156:156 159:156 160:160 172:172 179:172 212:212 16831:16828 16832:16832 16839:16832 \
        16840:16840 16876:16876 16883:16876 16920:16920 16931:16924; do
        head -c "${cut%:*}" "$cases/hidden_entry.evidence" > "$files/case"
        why "nfsacc: $files/case: not a roster .* byte ${cut#*:} does not decode" "$files/case"
    done
    # The count in the first link's word, its number, and what stands before it: then the word doesn't follow.
    for cut in 16835 16839 16795; do
        changed hidden_entry $cut
        why "nfsacc: $files/case: not a roster .* byte 16832 does not decode" "$files/case"
    done
    # No charge is 0 or 6.
    for cut in 0 6; do
        with_byte hidden_entry 159 $cut
        why "nfsacc: $files/case: not a roster .* byte 156 does not decode" "$files/case"
    done
    changed hidden_entry 155
    lacks 'what is shown is of another node' "$files/case"
    with_byte hidden_entry 55 1
    lacks "the evidence is of another log version than the node's" "$files/case"
    changed hidden_entry 167
    lacks 'no two marks are shown at the number' "$files/case"
    # What the word of a closing without links skips isn't looked at; but it is signed.
    changed hidden_entry 223
    lacks "what closes it does not verify by the node's key" "$files/case"
    changed hidden_entry 16927
    lacks 'what is shown does not end in what closes it' "$files/case"
    lacks 'what is shown does not end in what closes it' "$cases/other_before.evidence"
}

# So of a replay. In wrong_reply_after_gap.evidence the roster ends at 152, the charge stands at 156, the segment's node at
# 160, `before` at 164, the opening hash at 172, its count of entries at 204, the first entry's word at 208, its kind at 216.
check_replay_reasons() {
    local cut
    for cut in 160:160 164:164 171:164 172:172 204:204 207:204 208:208 215:208 216:216; do
        head -c "${cut%:*}" "$cases/wrong_reply_after_gap.evidence" > "$files/case"
        why "nfsacc: $files/case: not a roster .* byte ${cut#*:} does not decode" "$files/case"
    done
    # The count in the first entry's word, its number, and what stands before it: then the word doesn't follow.
    for cut in 211 215 171; do
        changed wrong_reply_after_gap $cut
        why "nfsacc: $files/case: not a roster .* byte 208 does not decode" "$files/case"
    done
    changed wrong_reply_after_gap 155
    lacks 'what is shown is of another node' "$files/case"
    with_byte wrong_reply_after_gap 55 1
    lacks "the evidence is of another log version than the node's" "$files/case"
    changed wrong_reply_after_gap 203
    lacks 'the log is not shown from its first entry on' "$files/case"
}

# A file that is no evidence is told as which of three it is: by the byte at which an item begins that doesn't decode, by
# its roster, or by what it lacks. In fork.evidence the roster ends at 92, the charge is at 96, `at` at 100, the first
# showing at 108 with its links at 152, its closing's signature at 200, its path at 16588, the second's flag at 16688.
check_reasons() {
    local cut digest
    for cut in 0:0 3:0 4:4 8:8 12:12 43:12 44:44 48:48 92:92 96:96 99:96 100:100 107:100 108:108 116:112 124:120 \
        152:152 156:156 200:200 204:204 8395:204 8396:8396 16588:16588 16592:16592 16687:16656 16688:16688 33271:33240; do
        head -c "${cut%:*}" "$cases/fork.evidence" > "$files/case"
        why "nfsacc: $files/case: not a roster .* byte ${cut#*:} does not decode" "$files/case"
    done
    { cat "$cases/fork.evidence"; printf '\0'; } > "$files/case"
    why "nfsacc: $files/case: not a roster .* byte 33272 does not decode" "$files/case"
    # A CLOCK at 148: its kind, and at 152 and 156 its seconds and its microseconds.
    for cut in 154:152 156:156 158:156; do
        head -c "${cut%:*}" "$cases/bad_form.evidence" > "$files/case"
        why "nfsacc: $files/case: not a roster .* byte ${cut#*:} does not decode" "$files/case"
    done
    lacks 'the log has no fault' "$cases/no_fault.evidence"
    lacks "a showing begins at number 0, and a log's first entry is number 1" "$cases/first_0.evidence"
    changed fork 95
    lacks 'what is shown is of another node' "$files/case"
    changed fork 107
    lacks 'no two hashes are shown at the number' "$files/case"
    changed fork 111
    lacks 'what is shown is of another node' "$files/case"
    changed fork 199
    lacks 'what is shown does not end in what closes it' "$files/case"
    changed fork 33271
    lacks "what closes it does not verify by the node's key" "$files/case"
    # The roster has node 3 in the place of node 1, whom the evidence and its closings name.
    {
        printf '\0\0\0\1\0\0\0\3'
        head -c 48 "$cases/fork.evidence" | tail -c 40
        tail -c +93 "$cases/fork.evidence"
    } > "$files/case"
    lacks 'the roster has no key of the node, so nobody can tell who signed' "$files/case"
    changed wrong_reply 110
    lacks 'the log is not shown from its first entry on' "$files/case"
    check_gap_reasons
    check_replay_reasons
    why "nfsacc: .*: its roster is not the one that is trusted" --roster "$cases/client_clock.evidence" "$cases/fork.evidence"
    judged 1 'no evidence' --explain "$cases/fork.evidence" --roster "$cases/client_clock.evidence"
    grep -qx 'reason: its roster is not the one that is trusted' "$files/out" || fail 'another roster' "$files/out"
    # The roster of two members has 92 bytes.
    digest=$(head -c 92 "$cases/client_clock.evidence" | sha256sum | cut -d ' ' -f 1)
    grep -qx "trusted roster's sha256: $digest" "$files/out" || fail 'the trusted roster' "$files/out"
    [ ! -s "$files/said" ] || fail 'an explanation has its reason' "$files/said"
}

# The roster that is trusted: that of another file, or a roster alone. What `nfsacc roster` says is the same of both.
check_trusted() {
    local name got=0
    head -c 92 "$cases/fork.evidence" > "$files/roster"
    judged 0 'exposed 1' --roster "$files/roster" "$cases/fork.evidence"
    judged 0 'exposed 1' --roster "$cases/wrong_reply.evidence" "$cases/fork.evidence"
    "$program" roster "$files/roster" > "$files/out"
    "$program" roster "$cases/fork.evidence" | cmp - "$files/out"
    grep -qx "sha256: $(sha256sum < "$files/roster" | cut -d ' ' -f 1)" "$files/out" || fail 'H of a roster' "$files/out"
    [ "$(grep -c 'key: [0-9a-f]\{64\}$' "$files/out")" -eq 2 ] || fail 'the keys of a roster' "$files/out"
    head -c 91 "$cases/fork.evidence" > "$files/case"
    "$program" roster "$files/case" > "$files/out" 2> "$files/said" || got=$?
    [ $got -eq 1 ] && [ ! -s "$files/out" ] || fail "status $got of no roster" "$files/said"
    # No roster to trust is a fault of the command line, and not of the file.
    judged 2 '' --roster "$files/case" "$cases/fork.evidence"
    grep -qx "nfsacc: $files/case: neither a roster nor one with evidence after it" "$files/said" || fail 'no roster' "$files/said"
    judged 4 '' --roster "$files" "$cases/fork.evidence"
    # The file's own roster is no other word than the file's.
    ln -sf "$cases/fork.evidence" "$files/link"
    for name in "$cases/fork.evidence" "$files/link"; do
        judged 0 'exposed 1' --roster "$name" "$cases/fork.evidence"
        grep -qx "nfsacc: $name: the roster that is trusted is the file's own" "$files/said" || fail 'its own roster' "$files/said"
    done
    judged 0 'exposed 1' --explain --roster "$files/roster" "$cases/fork.evidence"
    [ ! -s "$files/said" ] || fail 'a remark on another roster' "$files/said"
    grep -qx "trusted roster's sha256: $(sha256sum < "$files/roster" | cut -d ' ' -f 1)" "$files/out" || fail 'the trusted roster' "$files/out"
}

# `-` is standard input, of the file and of the roster, of one of them at a time.
check_standard_input() {
    local got=0
    head -c 92 "$cases/fork.evidence" > "$files/roster"
    judged 0 'exposed 1' - < "$cases/fork.evidence"
    judged 0 'exposed 1' --roster "$files/roster" - < "$cases/fork.evidence"
    judged 0 'exposed 1' --roster - "$cases/fork.evidence" < "$files/roster"
    judged 1 'no evidence' --roster - "$cases/first_0.evidence" < "$files/roster"
    judged 2 '' --roster - "$cases/fork.evidence" < /dev/null
    grep -qx 'nfsacc: standard input: neither a roster nor one .*' "$files/said" || fail 'no roster' "$files/said"
    judged 2 '' --roster - - < "$cases/fork.evidence"
    judged 1 'no evidence' - < /dev/null
    grep -qx 'nfsacc: standard input: not a roster .* byte 0 does not decode' "$files/said" || fail 'nothing' "$files/said"
    judged 4 '' - < "$files"
    grep -qx 'nfsacc: standard input: Is a directory.*' "$files/said" || fail 'a folder' "$files/said"
    "$program" roster - < "$files/roster" > "$files/out"
    "$program" roster "$files/roster" | cmp - "$files/out"
    "$program" roster - < /dev/null > "$files/out" 2> "$files/said" || got=$?
    [ $got -eq 1 ] && [ ! -s "$files/out" ] || fail "status $got of no roster" "$files/said"
    # A file of that name is named with its folder.
    cp "$cases/fork.evidence" "$files/-"
    (cd "$files" && judged 0 'exposed 1' ./- < /dev/null)
}

# All entries of a log, and the state before one of them: there is none past a fault, nor past the log.
check_details() {
    local number
    judged 0 'exposed 1' --entries "$cases/wrong_reply.evidence"
    grep -qx 'all entries:' "$files/out" && grep -qx 'accused: node 1, a server' "$files/out" || fail --entries "$files/out"
    [ "$(grep -c '^    hash after it: ' "$files/out")" -eq 3 ] || fail 'the hashes after the entries' "$files/out"
    # The last is the one that the closing has.
    [ "$(grep '^    hash after it: ' "$files/out" | tail -1 | cut -d ' ' -f 8)" = \
        "$(grep -m 1 '^    hash: ' "$files/out" | cut -d ' ' -f 6)" ] || fail 'the hash of the closing' "$files/out"
    judged 0 'exposed 1' --state 1 "$cases/wrong_reply.evidence"
    # As docs/CHECKING.md has the opening state of server 1.
    grep -qx '  digest: f76828427b61afa0d539d5f3cb0c584a77a911f1e87222bb1ba03c8148b496fe' "$files/out" || fail 'the opening state' "$files/out"
    grep -qx '  length of its text: 172' "$files/out" || fail 'the opening state' "$files/out"
    "$program" check --state 3 --json "$cases/wrong_reply.evidence" > "$files/out"
    grep -q '"stage":"it owes a reply"' "$files/out" || fail 'the state before a reply' "$files/out"
    judged 0 'exposed 1' --state=4 "$cases/wrong_reply.evidence"
    grep -qx '  none: an entry before it has a fault' "$files/out" || fail 'a state past a fault' "$files/out"
    judged 1 'no evidence' --state 9 "$cases/no_fault.evidence"
    grep -qx '  none: the file does not have all entries before it' "$files/out" || fail 'a state past the log' "$files/out"
    for number in 0 4259842 +1 -1 x '' 1.5; do
        judged 2 '' "--state=$number" "$cases/no_fault.evidence"
        grep -qx 'nfsacc: --state is a number from 1 to 4259841' "$files/said" || fail "--state=$number" "$files/said"
    done
    judged 1 'no evidence' --state 4259841 "$cases/no_fault.evidence"
}

# Two honest nodes under rosters that anybody can make of a service's own: without another member, and with another kind of
# the accused. The first premise is what isn't so, and the roster that is trusted shows it.
check_other_rosters() {
    local name own
    for name in member_left_out:other_handle kind_changed:client_clock; do
        own=$cases/${name#*:}.evidence
        name=$cases/${name%:*}.evidence
        judged 0 'exposed 1' --explain "$name"
        grep -q "premise: the roster is the service's own: all of its members, each with its own number, kind, " "$files/out" ||
            fail "what $name rests on" "$files/out"
        why "nfsacc: $name: its roster is not the one that is trusted" --roster "$own" "$name"
    done
}

# One JSON object and nothing else, with the status of plain `check`.
check_json() {
    local name status
    for name in fork no_fault; do
        status=0
        if [ $name = no_fault ]; then status=1; fi
        judged $status "$("$program" check --json "$cases/$name.evidence")" --json "$cases/$name.evidence"
        [ "$(wc -l < "$files/out")" -eq 1 ] && [ ! -s "$files/said" ] || fail "--json of $name" "$files/out" "$files/said"
        python3 -c 'import json, sys; assert list(json.load(sys.stdin))[0] == "verdict"' < "$files/out"
    done
    printf x > "$files/case"
    judged 1 '{"verdict":"no evidence","file":{"length":1,"sha256":"2d711642b726b04401627ca9fbac32f5c8530fb1903cc4db02258717921a4881"},"program":"nfsacc 0.1.0","reason":"the file is not a roster with evidence after it","first_byte_that_does_not_decode":0,"note":"no evidence clears nobody: it does not say that a node is honest"}' --json "$files/case"
}

# Files that are no text at all, and those that can't be read.
check_others() {
    : > "$files/case"
    judged 1 'no evidence' "$files/case"
    truncate -s 2G "$files/case"
    judged 1 'no evidence' "$files/case"
    rm "$files/case"
    judged 4 '' "$files/case"
    grep -qx "nfsacc: $files/case: .*" "$files/said" || fail 'a missing file' "$files/said"
    judged 4 '' "$files"
    grep -qx "nfsacc: $files: Is a directory.*" "$files/said" || fail 'a folder' "$files/said"
    judged 4 '' ''
    grep -qx "nfsacc: '': No such file.*" "$files/said" || fail 'a file without a name' "$files/said"
    judged 2 ''
    judged 2 '' "$cases/fork.evidence" "$cases/fork.evidence"
    judged 2 '' --fast "$cases/fork.evidence"
    judged 2 '' --explain
    judged 2 '' --explain --explain "$cases/fork.evidence"
    judged 0 'exposed 1' "$cases/fork.evidence" --explain
    judged 0 'exposed 1' -- "$cases/fork.evidence"
    judged 4 '' -- --explain
    local got=0
    "$program" check "$cases/fork.evidence" > /dev/full 2> "$files/said" || got=$?
    [ $got -eq 4 ] || fail "status $got on a full device" "$files/said"
    grep -qx 'nfsacc: standard output: No space left on device.*' "$files/said" || fail 'a full device' "$files/said"
}

# unread AT FILE: a file that isn't read to its end is no evidence, and is told as that in each format; nor is it a roster.
unread() {
    local at=$1 name=$2 got=0
    timeout 60 "$program" check "$name" > "$files/out" 2> "$files/said" || got=$?
    [ $got -eq 1 ] && [ "$(cat "$files/out")" = 'no evidence' ] || fail "status $got of $name" "$files/said"
    grep -qx "nfsacc: $name: not a roster .* byte $at does not decode" "$files/said" || fail "$name" "$files/said"
    got=0
    timeout 60 "$program" check --explain "$name" > "$files/out" 2> "$files/said" || got=$?
    [ $got -eq 1 ] && grep -qx '  read: not to its end' "$files/out" || fail "--explain of $name" "$files/out"
    grep -qx "first byte that does not decode: $at" "$files/out" || fail "--explain of $name" "$files/out"
    got=0
    timeout 60 "$program" check --json "$name" > "$files/out" 2> "$files/said" || got=$?
    [ $got -eq 1 ] && grep -q '"file":{"read":"not to its end"}' "$files/out" || fail "--json of $name" "$files/out"
    got=0
    timeout 60 "$program" roster "$name" > "$files/out" 2> "$files/said" || got=$?
    [ $got -eq 1 ] && [ ! -s "$files/out" ] || fail "status $got of the roster of $name" "$files/said"
    got=0
    timeout 60 "$program" check --roster "$name" "$cases/fork.evidence" > "$files/out" 2> "$files/said" || got=$?
    [ $got -eq 2 ] && [ ! -s "$files/out" ] || fail "status $got under the roster $name" "$files/said"
}

# Files without an end are refused by the count of members or the charge, once 65,536 bytes were read: a device of zeros, a
# pipe, a file that grows while it is read. A shorter one is read to its end, whatever its first words are.
check_endless() {
    local writer
    unread 8 /dev/zero
    mkfifo "$files/pipe"
    setsid bash -c 'while :; do yes > "$1"; done' bash "$files/pipe" 2> "$files/piped" &
    writer=$!
    unread 0 "$files/pipe"
    kill -- "-$writer"
    wait "$writer" || :
    rm "$files/pipe"
    head -c 65536 /dev/zero > "$files/case"
    setsid bash -c 'while sleep 0.01; do head -c 65536 /dev/zero >> "$1"; done' bash "$files/case" &
    writer=$!
    unread 8 "$files/case"
    kill -- "-$writer"
    wait "$writer" || :
    head -c 65535 /dev/zero > "$files/case"
    why "nfsacc: $files/case: not a roster .* byte 8 does not decode" "$files/case"
    judged 1 'no evidence' --explain "$files/case"
    grep -qx '  length: 65535' "$files/out" || fail 'a file of 65,535 bytes' "$files/out"
}

# A file that begins like evidence of 65,536 entries and has no end is read up to the longest evidence, 1,984,385,256
# bytes, and a byte more.
check_longest() {
    { head -c 144 "$cases/wrong_reply.evidence"; printf '\0\1\0\0'; } > "$files/case"
    [ "$(od -An -tx1 -j 92 -N 8 "$files/case" | tr -d ' ')" = 0000000100000002 ] || fail 'evidence of a replay' "$files/case"
    truncate -s 1984385257 "$files/case"
    unread 148 "$files/case"
    truncate -s 100G "$files/case"
    unread 148 "$files/case"
    rm "$files/case"
}

for program in "${made[@]}"; do
    check_whole
    check_cuts
    check_changes
    check_rosters
    check_reasons
    check_trusted
    check_other_rosters
    check_standard_input
    check_details
    check_json
    check_others
    check_endless
done
# Logs of version 2: forks, replays, evidence of logs of version 1 under rosters in the second form, and texts that are none.
checks/gaps.py "$(IFS=,; echo "${made[*]}")"
# It takes 2 GiB of memory, so one program is enough.
program=${made[0]}
check_longest

echo "evidence is judged as it should be, as ${#made[@]} of the compilers build it"
