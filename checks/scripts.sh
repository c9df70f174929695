#!/usr/bin/env bash
# nfsacc run from outside: stories that scripts tell, with what they print, the evidence that they leave, lines that are
# bad, and how a script ends. It tries the programs that the gate left in crates/nfsacc/out; where none is there, rt run makes one.
set -euo pipefail
cd "$(dirname "$0")/.."
. checks/scratch_crate.sh
. checks/built_programs.sh
stories=$PWD/checks/scripts

built_programs

work=$(mktemp -d)
trap 'rm -rf "$work"' EXIT
cd "$work"

# run STATUS WORD.. runs the program and wants this status; it writes to `out` and to `said`.
run() {
    local status=$1 got=0
    shift
    "$program" "$@" < in > out 2> said || got=$?
    [ "$got" -eq "$status" ] || fail "status $got where $status is wanted, of: $*" said
}

# said_is LINE: the program said this line alone.
said_is() {
    [ "$(cat said)" = "$1" ] || fail "it didn't say: $1" said
}

# Each story prints what stands beside it, from a file and from standard input.
check_stories() {
    local story
    for story in lie later_lie fork accusation challenged challenges no_keys last_keys any_order nothing times round flood \
        gaps/honest gaps/lie gaps/skips bases/joins bases/another_check bases/lie bases/earlier_lie bases/below bases/without_base \
        bases/last_check bases/challenged bases/again bases/gaps; do
        : > in
        run 0 run "$stories/$story.script"
        cmp -s out "$stories/$story.printed" || fail "$story: it printed" out
        cp "$stories/$story.script" in
        run 0 run -
        cmp -s out "$stories/$story.printed" || fail "$story from standard input: it printed" out
    done
    sed 's/^flood .*/#/' "$stories/flood.script" > in
    run 0 run -
    grep -v -e '^flooded ' -e '^none$' "$stories/flood.printed" | cmp -s out - || fail 'the same without floods: it printed' out
    : > in
    run 0 check lie.evidence
    [ "$(cat out)" = 'exposed 1' ] || fail 'the evidence of the lie' out
    run 0 check fork.evidence
    [ "$(cat out)" = 'exposed 2' ] || fail 'the evidence of the fork' out
    run 0 check gaps_lie.evidence
    [ "$(cat out)" = 'exposed 1' ] || fail 'the evidence of the lie after a gap' out
    [ ! -e none.evidence ] || fail 'there is evidence of a false accusation' out
    echo 'twenty-six stories print what they should, and leave evidence where somebody is exposed'
}

# Evidence of a lie after a base is accepted as it is; with the last name in the base's state changed there is none. A client
# gives no base, and a line that would have it log a CHECK is bad.
check_bases() {
    local at
    run 0 check base_lie.evidence
    [ "$(cat out)" = 'exposed 1' ] || fail 'the evidence of a lie after a base' out
    cp base_lie.evidence changed.evidence
    at=$(LC_ALL=C grep -abo hello base_lie.evidence | tail -n 1)
    printf i | dd of=changed.evidence bs=1 seek="${at%%:*}" conv=notrunc status=none
    [ "$(cmp -l base_lie.evidence changed.evidence | wc -l)" -eq 1 ] || fail 'more than a byte was changed' said
    run 1 check changed.evidence
    [ "$(cat out)" = 'no evidence' ] || fail 'evidence with another state in its base' out
    grep -v '^#' "$stories/bases/client.script" > in
    run 1 run -
    said_is 'line 7: bad'
    cmp -s out "$stories/bases/client.printed" || fail 'a client gives no base: it printed' out
    echo "evidence that rests on a base holds for that state alone, and a client gives no base"
}

# refused_base WORDS FILE: a run that begins with the base in a file ends with these words after the file's name.
refused_base() {
    run 1 run --base "$2" again.script
    said_is "nfsacc: $2: $1"
    [ ! -s out ] || fail "lines ran after $1" out
}

# Bases that a run writes are judged by `nfsacc base`, and another run's first witness begins with one. There the server has
# the same log again, or another one, which is a fork with what the base shows. Bases that aren't good, or of another server.
check_base_files() {
    : > in
    run 0 run --base-out base "$stories/bases/joins.script"
    cmp -s out "$stories/bases/joins.printed" || fail 'a run that writes bases printed' out
    [ "$(echo base.*)" = base.1.5 ] || fail 'other bases than one were written' out
    run 0 base base.1.5
    [ "$(cat out)" = 'base 1 5' ] || fail 'a base' out
    { head -n 7 "$stories/bases/joins.script"; printf '%s\n' 'learn 1 3' 'learn 1 8' 'audit 1' 'answer 1' 'ask 1'; } > again.script
    run 0 run --base base.1.5 again.script
    [ "$(tail -n 6 out | tr '\n' ,)" = 'refused 15,noted,asked 6 8,accepted,1 trusted 0,closed ok,' ] ||
        fail 'a run that begins with a base' out
    { echo '#'; cat again.script; echo 'evidence 1 base_fork.evidence'; } > other.script
    run 0 run --base base.1.5 other.script
    [ "$(tail -n 4 out | tr '\n' ,)" = 'accepted,1 exposed 0,written,closed ok,' ] || fail 'another log than that of the base' out
    run 0 check base_fork.evidence
    [ "$(cat out)" = 'exposed 1' ] || fail 'the evidence of another log than that of the base' out
    head -c -1 base.1.5 > cut
    run 1 base cut
    [ "$(cat out)" = 'no base' ] || fail 'a base without its last byte' out
    refused_base 'refused 2' cut
    sed 's/^node 1 server 4/node 1 server 5/' again.script > taller.script
    mv taller.script again.script
    refused_base 'start fault 2' base.1.5
    echo 'a witness begins with a base that another run wrote, if it is good and of a member, and sees where the log is another'
}

# Lines that are bad, as the first one and after others; one of a megabyte; thousands that are passed over before one.
check_bad_lines() {
    local line count=0
    while IFS= read -r line; do
        case $line in '#'*) continue ;; esac
        printf "$line" > in
        run 1 run -
        said_is 'line 1: bad'
        [ ! -s out ] || fail "a bad line printed: $line" out
        count=$((count + 1))
    done < "$stories/bad_lines"
    while IFS= read -r line; do
        case $line in '#'*) continue ;; esac
        printf "node 1 server 1\nnode 2 client 1\nask 2\n$line" > in
        run 1 run -
        said_is 'line 4: bad'
        [ "$(cat out)" = '2 trusted 0' ] || fail "what was printed before a bad line: $line" out
        count=$((count + 1))
    done < "$stories/bad_after"
    head -c 1048576 /dev/zero | tr '\0' a > in
    run 1 run -
    said_is 'line 1: bad'
    { head -c 10000 /dev/zero | tr '\0' '\n'; echo 'ask 1'; } > in
    run 1 run -
    said_is 'line 10001: bad'
    { printf '#'; head -c 1048576 /dev/zero | tr '\0' a; echo; echo 'ask 1'; } > in
    run 1 run -
    said_is 'line 2: bad'
    { printf 'node 1 server 1\n#'; head -c 65536 /dev/zero; printf '\nask 1\n#'; head -c 70000 /dev/zero; } > in
    run 0 run -
    [ "$(cat out)" = $'1 trusted 0\nclosed ok' ] || fail 'comments of more than 65,536 bytes' out
    { printf ' #'; head -c 65536 /dev/zero | tr '\0' a; } > in
    run 1 run -
    said_is 'line 1: bad'
    printf 'node 1 server 1\nnode 2 client 1\ncall 2 1 %s\n' "$(head -c 24578 /dev/zero | tr '\0' 0)" > in
    run 1 run -
    said_is 'line 3: bad'
    : > in
    run 0 run -
    [ "$(cat out)" = 'closed ok' ] || fail 'an empty script' out
    echo "$count bad lines, one of a megabyte, but no comment of any length, a body above the limit, and one after 10,000 empty lines are told by their numbers"
}

# Each way in which a script ends before its end.
check_ends() {
    printf 'node 1 server 1\nask 1\nask 2\n' > in
    run 1 run -
    [ "$(cat out)" = '1 trusted 0' ] || fail 'what was printed before a bad line' out
    said_is 'line 3: bad'
    : > in
    run 4 run there_is_none
    grep -q '^nfsacc: there_is_none: ' said || fail 'a script that is not there' said
    run 4 run .
    grep -q '^nfsacc: \.: Is a directory' said || fail 'a folder' said
    sed 's/lie.evidence/no_folder\/e/' "$stories/lie.script" > in
    run 4 run -
    grep -q '^nfsacc: no_folder/e: ' said || fail 'evidence that can not be put in its place' said
    if [ -e /dev/full ]; then
        cp "$stories/lie.script" in
        got=0
        "$program" run - < in > /dev/full 2> said || got=$?
        [ "$got" -eq 4 ] && grep -q '^nfsacc: standard output: No space left' said || fail 'a full device' said
    fi
    echo 'a bad line, a script that is not there, a folder, and a full device end with their statuses'
}

# The roster is there before the first line after the nodes runs, and is the one in the evidence.
check_roster() {
    : > in
    run 0 run --roster-out roster "$stories/lie.script"
    cmp -s roster <(head -c "$(wc -c < roster)" lie.evidence) || fail 'the roster is not that of the evidence' said
    printf 'node 1 server 1\nask 2\n' > in
    rm -f roster
    run 1 run --roster-out roster -
    [ -s roster ] || fail 'no roster before a bad line' said
    echo 'the roster is written before the first line runs, as it stands in the evidence'
}

# Evidence takes the place of a file that is there: another link to that file still leads to what it had.
check_replaced() {
    rm -f lie.evidence other
    echo before > lie.evidence
    ln lie.evidence other
    : > in
    run 0 run "$stories/lie.script"
    [ "$(cat other)" = before ] || fail 'a file was written over, and not replaced' other
    run 0 check lie.evidence
    [ "$(cat out)" = 'exposed 1' ] || fail 'evidence in place of a file' out
    rm other
    echo 'evidence takes the place of a file, which another link still leads to'
}

# What a script puts goes by way of a file that wasn't there: what lies beside FILE stays, a link at FILE gives way and is
# not written through, a name may have as many bytes as the system allows, and after a failure nothing is left.
check_beside() {
    local name size=0
    rm -rf beside && mkdir beside && cd beside
    cp "$stories/lie.script" s
    echo mine > lie.evidence.part
    mkdir roster.part
    echo target > target
    ln -s target linked
    ln -s nowhere lost
    ls -A > before
    : > in
    run 0 run --roster-out roster s
    [ "$(cat lie.evidence.part)" = mine ] && [ -d roster.part ] || fail 'what lay beside a file' said
    ls -A | grep -vx -e lie.evidence -e roster -e in -e out -e said | cmp -s before - || fail 'a file was left' before
    for name in linked lost; do
        run 0 run --roster-out "$name" s
        [ -f "$name" ] && [ ! -L "$name" ] && cmp -s "$name" roster || fail "a link at $name" said
    done
    [ "$(cat target)" = target ] && [ ! -e nowhere ] || fail 'a link was written through' target
    for size in 251 255; do
        name=$(printf "%${size}s" '' | tr ' ' n)
        run 0 run --roster-out "$name" s
        cmp -s "$name" roster || fail "a name of $size bytes" said
        rm "$name"
    done
    mkdir folder
    ln -s folder to_folder
    ls -A > before
    for name in folder to_folder; do
        run 4 run --roster-out "$name" s
        grep -q "^nfsacc: $name: Is a directory" said || fail 'a folder in the place of the roster' said
    done
    run 4 run --roster-out "$(printf '%256s' '' | tr ' ' n)" s
    grep -q 'File name too long' said || fail 'a name of 256 bytes' said
    run 4 run --roster-out none/roster s
    grep -q '^nfsacc: none/roster: No such file' said || fail 'a folder that is not there' said
    ls -A | cmp -s before - || fail 'a file was left after a failure' before
    cd ..
    echo 'what lies beside a file stays, links give way to it, names may be long, and failures leave nothing'
}

# What is there and is no file is written to, also by a link; a name of /dev that leads to a file stays.
check_no_files() {
    local size
    cp "$stories/lie.script" s
    : > in
    run 0 run --roster-out roster s
    size=$(wc -c < roster)
    run 0 run --roster-out /dev/null s
    ln -sf /dev/null to_null
    run 0 run --roster-out to_null s
    [ -L to_null ] && [ -c /dev/null ] || fail 'a link to a device' said
    rm -f pipe && mkfifo pipe
    timeout 60 cat pipe > piped &
    run 0 run --roster-out pipe s
    wait $!
    cmp -s piped roster || fail 'a pipe' said
    "$program" run --roster-out /dev/stdout s 2> said | cat > piped
    cmp -s <(head -c "$size" piped) roster || fail 'standard output, a pipe' said
    if [ -L /dev/stdout ]; then
        run 4 run --roster-out /dev/stdout s
        [ -L /dev/stdout ] && [ ! -s out ] || fail 'standard output, a file' out
        grep -q '^nfsacc: /dev/stdout: ' said || fail 'standard output, a file' said
    fi
    echo 'what is no file is written to, also by way of a link'
}

# The roster doesn't take the place of the script, by whichever name.
check_own_name() {
    local name
    mkdir -p folder
    cp "$stories/lie.script" s
    cp s before
    ln -f s hard
    ln -sf s soft
    for name in s ./s folder/../s "$PWD/s" hard soft; do
        : > in
        run 2 run --roster-out "$name" s
        said_is "nfsacc: $name: the roster would take the place of the script"
        [ ! -s out ] && cmp -s s before || fail "the roster in place of the script: $name" out
    done
    got=0
    "$program" run --roster-out s - < s > out 2> said || got=$?
    [ "$got" -eq 2 ] && cmp -s s before || fail 'the roster in place of the script on standard input' said
    cp s other
    : > in
    run 0 run --roster-out other s
    cmp -s other roster || fail 'the roster in place of another file' said
    rm -f hard soft other
    echo 'the roster does not take the place of the script, by whichever name'
}

# The processor time, in milliseconds, of a flood of so many packets that aren't signed.
flood_time() {
    local TIMEFORMAT=%U seconds
    sed "s/^flood 1 3 .*/flood 1 3 $1/" "$stories/flood.script" > in
    seconds=$({ time run 0 run - > /dev/null; } 2>&1)
    grep -qx "flooded $1" out || fail "a flood of $1" out
    echo $((10#${seconds/./}))
}

# Each packet of a flood is checked: to check a signature takes a thirtieth of a millisecond at least.
check_floods() {
    local few many
    few=$(flood_time 1)
    many=$(flood_time 10000)
    [ $((many - few)) -ge 300 ] || fail "10,000 packets took $many milliseconds, and one $few"
    echo 'each packet of a flood is checked'
}

# An answer comes before the next line is sent.
check_answers_at_once() {
    local answer
    mkfifo lines
    "$program" run - < lines > answers 2> said &
    exec 7> lines
    printf 'node 1 server 1\nask 1\n' >&7
    for _ in $(seq 100); do
        [ -s answers ] && break
        sleep 0.1
    done
    answer=$(cat answers)
    exec 7>&-
    wait
    [ "$answer" = '1 trusted 0' ] || fail 'no answer before the next line' answers
    rm lines
    echo 'an answer comes before the next line is sent'
}

for program in "${made[@]}"; do
    check_stories
    check_bases
    check_base_files
    check_bad_lines
    check_ends
    check_roster
    check_replaced
    check_beside
    check_no_files
    check_own_name
    check_floods
    check_answers_at_once
done
