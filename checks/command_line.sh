#!/usr/bin/env bash
# The program nfsacc from outside: what it writes to streams of records, each of its statuses, the lines that it prints,
# a device that fails, and memory that is refused. It tries the programs that the gate left in crates/nfsacc/out, one for
# each compiler; where none is there, or a source is newer, rt run makes one. Needs a C compiler, for what is preloaded to
# refuse memory.
set -euo pipefail
cd "$(dirname "$0")/.."
. checks/scratch_crate.sh
. checks/built_programs.sh
top=$PWD
cases=$top/checks/command_line

built_programs

work=$(mktemp -d)
trap 'rm -rf "$work"' EXIT
mkdir "$work/run" "$work/made"
python3 "$cases/streams.py" "$work/made"
"${CC:-cc}" -shared -fPIC -o "$work/refused_request.so" checks/refused_request.c
cd "$work/run"

# run STATUS WORD.. runs the program on the file `in` and wants this status; it writes to `out` and to `said`.
run() {
    local status=$1 got=0
    shift
    env --default-signal=PIPE "$program" "$@" < in > out 2> said || got=$?
    [ "$got" -eq "$status" ] || fail "status $got where $status is wanted, of: $*" said
}

# A text of words, as checks/command_line/streams.txt has them, as printf writes it.
escaped() {
    awk -v text="$1" 'BEGIN {
        count = split(text, parts, " ")
        for (i = 1; i <= count; i++) {
            times = 1
            word = parts[i]
            if (split(word, pair, "*") == 2) { word = pair[1]; times = pair[2] }
            if (word ~ /^\./) word = substr(word, 2)
            else while (length(word) < 8) word = "0" word
            gsub(/../, "\\x&", word)
            for (j = 0; j < times; j++) printf "%s", word
        }
    }'
}

# Each stream of the table, whole; then those that end with a record fault, in the one line that names it.
check_streams() {
    local line name input output fault='' status=0 count=0
    while IFS= read -r line; do
        case $line in
            '#'* | '') continue ;;
            'record fault '*) fault=$line status=1; continue ;;
        esac
        name=${line%%: *}
        input=${line#*: }
        output=${input#*->}
        printf "$(escaped "${input%%->*}")" > in
        printf "$(escaped "$output")" > owed
        run $status rpc
        cmp -s out owed || fail "$name: it wrote" out
        if [ -n "$fault" ]; then echo "nfsacc: $fault"; fi > line
        cmp -s said line || fail "$name: it said" said
        count=$((count + 1))
    done < "$cases/streams.txt"
    [ "$count" -eq 126 ] || fail "$count streams were tried"
}

# Longer streams, with what the second verifier owes to them: replies with more bytes than are held at once, the longest
# list of mounts, thousands of random calls, and the rows of rows.txt, each limit of a server at its bound and past it among
# them.
check_made_streams() {
    local input count=0
    for input in "$work"/made/*.in; do
        cp "$input" in
        run 0 rpc
        cmp -s out "${input%.in}.owed" || fail "$(basename "$input"): it wrote other replies than are owed"
        count=$((count + 1))
    done
    [ "$count" -eq 22 ] || fail "$count made streams were tried"
}

# The record of NULL, cut anywhere, and its header, cut anywhere and a record again.
check_cuts() {
    local len status size
    printf "$(escaped '80000028 1 0 2 186a3 2 0 0*4')" > null
    for ((len = 0; len <= 44; len++)); do
        head -c $len null > in
        status=1 size=0
        if [ $len -eq 0 ]; then status=0; fi
        if [ $len -eq 44 ]; then status=0 size=28; fi
        run $status rpc
        [ "$(wc -c < out)" -eq $size ] || fail "$len bytes of a record: it wrote" out
        if [ $status -eq 1 ]; then echo 'nfsacc: record fault 5'; fi > line
        cmp -s said line || fail "$len bytes of a record: it said" said
    done
    tail -c 40 null > header
    for ((len = 0; len <= 40; len++)); do
        { printf "$(escaped "$(printf %x $((0x80000000 + len)))")"; head -c $len header; } > in
        size=0
        if [ $len -eq 40 ]; then size=28; fi
        run 0 rpc
        [ "$(wc -c < out)" -eq $size ] && [ ! -s said ] || fail "$len bytes of a header: it wrote" out said
    done
}

# Many records, each of them answered: up to the end, and up to a fault.
check_many_records() {
    local many=70000
    printf "$(escaped '80000028 1 0 2 186a3 2 0 0*4')" > null
    printf "$(escaped '80000018 1 1 0*4')" > reply
    for ((i = 0; i < 100; i++)); do cat null; done > nulls
    for ((i = 0; i < 100; i++)); do cat reply; done > replies
    for ((i = 0; i < many / 100; i++)); do cat nulls; done > in
    for ((i = 0; i < many / 100; i++)); do cat replies; done > owed
    run 0 rpc
    cmp -s out owed || fail "$many records: $(wc -c < out) bytes were written"
    printf '\x80' >> in
    run 1 rpc
    cmp -s out owed || fail "$many records and a cut mark: $(wc -c < out) bytes were written"
}

# says STATUS PATTERN WORD.. wants this status of an empty input, a line of this pattern, and no reply.
says() {
    local status=$1 pattern=$2
    shift 2
    : > in
    run "$status" "$@"
    grep -qxhE "$pattern" out said || fail "no line '$pattern' of: $*" out said
}

# A client that waits: each reply comes before the next record is sent, also where two records come at once, whole or cut.
check_waiting() {
    local to from turn
    printf "$(escaped '80000028 1 0 2 186a3 2 0 0*4')" > null
    printf "$(escaped '80000018 1 1 0*4')" > reply
    cat null null > two
    cat reply reply > owed
    rm -f to from
    mkfifo to from
    env --default-signal=PIPE "$program" rpc < to > from 2> said &
    exec {to}> to {from}< from
    for ((turn = 0; turn < 3; turn++)); do
        cat null >&"$to"
        timeout 20 head -c 28 <&"$from" > out || fail 'no reply to a client that waits' said
        cmp -s out reply || fail 'to a client that waits it wrote' out
        cat two >&"$to"
        timeout 20 head -c 56 <&"$from" > out || fail 'no replies to a client that waits' said
        cmp -s out owed || fail 'to a client that waits it wrote' out
        { cat null; head -c 7 null; } >&"$to"
        timeout 20 head -c 28 <&"$from" > out || fail 'no reply before a record that is cut' said
        cmp -s out reply || fail 'before a record that is cut it wrote' out
        tail -c +8 null >&"$to"
        timeout 20 head -c 28 <&"$from" > out || fail 'no reply to a record that was cut' said
        cmp -s out reply || fail 'to a record that was cut it wrote' out
    done
    exec {to}>&- {from}<&-
    wait $! || fail 'a client that waits, at its end' said
}

# A call of NULL with zeros after it, as long as a record can be, as fragments of this size.
cut_long() {
    local body='00000001 00000000 00000002 000186a3 00000002 00000000 00000000 00000000 00000000 00000000'
    awk -v size="$1" -v hex="${body// /}" 'BEGIN {
        while (length(hex) < 2 * 12288) hex = hex "00"
        for (at = 0; at < 12288; at += size) {
            left = 12288 - at
            len = left < size ? left : size
            text = sprintf("%s%06x", len == left ? "80" : "00", len) substr(hex, 2 * at + 1, 2 * len)
            gsub(/../, "\\x&", text)
            printf "%s", text
        }
    }'
}

# It has the same reply whole and cut into fragments of any size, by itself and between records that stand whole.
check_fragments() {
    local size
    printf "$(cut_long 12288)" > in
    [ "$(wc -c < in)" -eq 12292 ] || fail 'a record of 12,288 bytes was cut wrongly' in
    run 0 rpc
    [ -s out ] || fail 'a record of 12,288 bytes has no reply'
    cat reply out reply out reply > owed
    for size in 1 2 3 4 5 7 16 39 40 41 255 256 4096 8191 8192 12287 12288; do
        printf "$(cut_long $size)" > long
        cat null long null long null > in
        run 0 rpc
        cmp -s out owed || fail "fragments of $size bytes: it wrote" out
    done
}

# So many fragments of a call of NULL, all but the last one empty.
with_fragments() {
    head -c "$((4 * ($1 - 1)))" /dev/zero
    cat null
}

# A record may have 16,384 fragments: the next one is refused at its mark.
check_many_fragments() {
    with_fragments 16384 > in
    run 0 rpc
    cp out owed
    cp null in
    run 0 rpc
    cmp -s out owed || fail 'a call in 16,384 fragments: it wrote' owed
    with_fragments 16385 > in
    run 1 rpc
    [ ! -s out ] || fail 'a call in 16,385 fragments: it wrote' out
    [ "$(cat said)" = 'nfsacc: record fault 3' ] || fail 'a call in 16,385 fragments' said
}

check_words() {
    : > in
    run 0 rpc --
    [ ! -s out ] && [ ! -s said ] || fail 'rpc --' out said
    says 0 'nfsacc 0\.1\.0' --version
    says 0 'Usage: .*' --help
    says 0 ' *rpc +Answers .*' --help
    says 0 ' *check +Says .*' --help
    says 0 ' *roster +Says .*' --help
    says 0 ' *run +Runs .*' --help
    says 0 'Usage: nfsacc[^ ]* rpc.*' help rpc
    says 0 'Usage: nfsacc[^ ]* check.*' help check
    says 0 'Usage: nfsacc[^ ]* check.*' check --help
    says 0 ' *--roster <FILE> .*' check --help
    says 0 ' *--json .*' check --help
    says 0 ' *--entries .*' check --help
    says 0 ' *--state <K> .*' check --help
    says 0 'Usage: nfsacc[^ ]* roster.*' roster --help
    says 0 'Usage: nfsacc[^ ]* run.*' run --help
    says 0 '  node 1 server 4' run --help
    says 2 'Usage: .*'
    says 2 "error: unrecognized subcommand 'serve-all'" serve-all
    says 2 "error: unrecognized subcommand 'RPC'" RPC
    says 2 ".*" -- rpc
    says 2 "error: unexpected argument 'now' found" rpc now
    says 2 "error: unexpected argument 'rpc' found" rpc rpc
    says 2 "error: unexpected argument '--fast' found" rpc --fast
    says 2 'error: the following required arguments were not provided:' check
    says 2 "error: unexpected argument '--version' found" check --version
    says 4 "nfsacc: '': No such file.*" check ''
    says 4 "nfsacc: '': No such file.*" roster ''
    says 4 "nfsacc: '': No such file.*" run ''
    says 4 'nfsacc: /: Is a directory.*' check /
    says 4 'nfsacc: /: Is a directory.*' roster /
    says 4 'nfsacc: /: Is a directory.*' run /
    says 4 'nfsacc: /: Is a directory.*' check --roster / /
    says 2 "error: unexpected argument 'b' found" check a b
    says 2 'error: the following required arguments were not provided:' check --json
    says 2 "error: a value is required for '--roster <FILE>' but none was supplied" check a --roster
    says 2 "error: the argument '--json' cannot be used multiple times" check --json --json a
    says 2 'error: the following required arguments were not provided:' roster
    says 2 'error: the following required arguments were not provided:' run
    says 2 "error: a value is required for '--roster-out <FILE>' but none was supplied" run --roster-out
    says 2 'nfsacc: the command line is no text' $'\xff'
    check_host_words
}

# The words of parties on hosts of their own.
check_host_words() {
    local server=(server --secret s --rosters r --state d --node 1 --listen 127.0.0.1:0) number
    local witness=(witness --rosters r --at 1=a:1 --listen 127.0.0.1:0)
    local gateway=(gateway --secret s --rosters r --state d --nodes 2 --server 1=a:1 --listen 127.0.0.1:0)
    says 0 ' *--check-every <N> .*' server --help
    says 0 ' *--progress .*' gateway --help
    says 0 ' *--join .*' witness --help
    says 0 ' *--state <DIR> .*' ask --help
    for number in 0 16385 x +1 ''; do
        says 2 'nfsacc: --check-every is a number of calls from 1 to 16384' "${server[@]}" --check-every "$number"
    done
    says 2 "error: a value is required for '--check-every <N>' but none was supplied" "${server[@]}" --check-every
    for number in 0 86401 x ''; do
        says 2 'nfsacc: --every is a number of seconds from 1 to 86400' "${witness[@]}" --every "$number"
        says 2 'nfsacc: --every is a number of seconds from 1 to 86400' "${gateway[@]}" --every "$number"
    done
    for number in 86401 -1 x ''; do
        says 2 'nfsacc: --patience is a number of seconds from 0 to 86400' "${witness[@]}" "--patience=$number"
        says 2 'nfsacc: --overlap is a number of seconds from 0 to 86400' "${witness[@]}" "--overlap=$number"
    done
    for number in 16385 -1 x ''; do
        says 2 'nfsacc: --reserve is a number of calls from 0 to 16384' "${gateway[@]}" "--reserve=$number"
    done
    says 2 "error: the argument '--join' cannot be used multiple times" "${witness[@]}" --join --join
    says 2 "error: unexpected value 'x' for '--join' found; no more were expected" "${witness[@]}" --join=x
    says 2 "error: a value is required for '--state <DIR>' but none was supplied" ask a:1 --state
}

# harmless STATUS WORD..: what is written ends with this status, and is lines of printed ASCII, none of which a word made.
harmless() {
    local status=$1
    shift
    run "$status" "$@"
    [ -z "$(cat out said | LC_ALL=C tr -d '\n -~')" ] || fail "bytes that a terminal would take for commands, of: $*" out said
    ! grep -qx 'exposed 7' out said || fail "a line that a name made, of: $*" out said
}

# A file's name, and any other word, may have an end of a line, and what a terminal takes for a command: both are escaped.
check_names() {
    local name=$'a\e[2K\nexposed 7' shown='a\\x1b\[2K\\x0aexposed.7' words
    : > in
    for words in check roster run 'check --explain' 'check --json' 'check f --roster' 'serve 0 1 --master' \
        'serve 0 1 --evidence'; do
        harmless 4 $words "$name"
        grep -qx "nfsacc: $shown: No such file.*" said || fail "$words of a name that is escaped" said
    done
    says 4 'nfsacc: \\xc3\\xa4\\\\x0a: No such file.*' check $'\xc3\xa4\\x0a'
    for words in '' rpc check 'check f' 'check --roster f f' roster 'roster f' run 'run f' serve 'serve 0' 'serve 0 1' help; do
        harmless 2 $words "--$name"
        harmless 2 $words "--$name=$name"
        case $words in check | roster | run | serve | 'serve 0') continue ;; esac
        harmless 2 $words "$name"
    done
    says 2 "error: unrecognized subcommand '\"?$shown\"?'" "${name/ /_}"
    says 2 "error: unrecognized subcommand ''" ''
    harmless 2 serve "$name" 1
    printf x > "$name"
    harmless 1 check "$name"
    grep -qx "nfsacc: $shown: not a roster .*" said || fail 'a file that is escaped' said
    harmless 1 roster "$name"
    harmless 1 run "$name"
    # A script has no such bytes, in names neither.
    sed "s|^evidence 1 .*|evidence 1 /none/$(printf 'a\e[2K')|" "$top/checks/scripts/lie.script" > script
    harmless 1 run script
    rm "$name"
    cp "$program" "$name"
    local program=$PWD/$name
    harmless 0 --help
    harmless 0 check --help
    harmless 2 check
    rm "$name"
}

# Command lines that ask for nothing, as words after the program's name.
REFUSED='rpc 1
rpc -- --
rpc -
-- rpc
check --explain
check -f
check f g
check --explain --explain f
check --roster f
check --state f
check --entries --entries f
check --roster r --roster r f
roster -f
roster f g
run --roster-out f'

# same STATUS LINE..: each of these lines ends with this status, and writes what the first does.
same() {
    local status=$1 line
    shift
    run "$status" $1
    cp out owed
    for line in "$@"; do
        run "$status" $line
        cmp -s out owed || fail "it wrote something else: $line" out
    done
}

# Options stand anywhere, with their words after a blank or a sign; and words after -- are no options.
check_orders() {
    local line
    : > in
    while IFS= read -r line; do
        run 2 $line
        [ ! -s out ] && [ -s said ] || fail "it said nothing of: $line" out said
    done <<< "$REFUSED"
    for file in f r ./-f; do cp "$top/checks/evidence/fork.evidence" "$file"; done
    cp "$top/checks/scripts/lie.script" s
    same 0 'check --explain f' 'check f --explain' 'check --explain -- -f'
    same 0 'roster f' 'roster -- -f'
    same 0 'check --entries --state 1 f' 'check f --state=1 --entries' 'check --explain --state 1 --entries -- -f'
    same 0 'check --roster r --json f' 'check --json f --roster=r' 'check --json --roster=f r'
    same 0 'run s --roster-out g' 'run --roster-out=g s' 'run --roster-out g -- s'
    cmp -s g <(head -c 92 lie.evidence) || fail 'the roster of a script' said
    rm ./-f
}

# A device that fails ends the run with status 4 and a line that names it and says why, never with a signal: a full one, a
# pipe that nobody reads any more, and a folder that is read as a file.
check_devices() {
    local got closed words full=/dev/full evidence=$top/checks/evidence/fork.evidence
    for words in rpc --version --help 'help check' "check $evidence" "check --json $evidence" "roster $evidence" 'run -'; do
        cp "$top/crates/nfsacc/stdin" in
        if [ "$words" = 'run -' ]; then : > in; fi
        got=0
        "$program" $words < in > "$full" 2> said || got=$?
        [ $got -eq 4 ] || fail "status $got of $words on a full device" said
        grep -qx 'nfsacc: standard output: No space left on device.*' said || fail "$words on a full device" said
        [ "$(wc -l < said)" -eq 1 ] || fail "more than a line of $words on a full device" said
    done
    cp "$top/crates/nfsacc/stdin" in
    exec {closed}> >(:)
    wait $!
    got=0
    env --default-signal=PIPE "$program" rpc < in >&"$closed" 2> said || got=$?
    exec {closed}>&-
    [ $got -eq 4 ] || fail "status $got on a closed pipe" said
    grep -qx 'nfsacc: standard output: Broken pipe.*' said || fail 'a closed pipe' said
    for words in rpc 'run -'; do
        got=0
        "$program" $words < / > out 2> said || got=$?
        [ $got -eq 4 ] || fail "status $got of $words of a folder" said
        grep -qx 'nfsacc: standard input: Is a directory.*' said || fail "$words of a folder" said
    done
    got=0
    printf '\x80\x00\x30\x01' > in
    "$program" rpc < in > out 2> "$full" || got=$?
    [ $got -eq 1 ] || fail "status $got of a record fault that can't be told"
}

# Where the program's request for memory of this number is refused it ends with status 3 and a line, or as with memory, and
# then it wrote the same.
without_request() {
    local request=$1 usual=$2 words=$3 status=0
    REFUSED_REQUEST=$request LD_PRELOAD=$work/refused_request.so "$program" $words < in > out 2> said || status=$?
    case $status in
        3) [ "$(cat said)" = 'nfsacc: out of memory' ] || fail "$words without request $request" said ;;
        "$usual") cmp -s out usual || fail "$words without request $request: it wrote" out ;;
        *) fail "status $status of $words without request $request" said ;;
    esac
    echo "$status"
}

# Of each request of a run in turn. A few can be refused without harm, as those for the words of an error's text.
check_memory() {
    local try words input last usual least
    # The input, more requests than its run makes, the status with memory, in how many runs at least memory runs out, and
    # the words of the command line.
    local tries=('crates/nfsacc/stdin 250 0 60 rpc' 'crates/nfsacc/stdin 400 2 80 serve-all'
        'checks/scripts/lie.script 700 0 250 run -')
    for try in "${tries[@]}"; do
        read -r input last usual least words <<< "$try"
        cp "$top/$input" in
        run "$usual" $words
        cp out usual
        for ((request = 1; request <= last; request++)); do
            without_request "$request" "$usual" "$words"
        done > statuses
        [ "$(tail -1 statuses)" = "$usual" ] || fail "$words makes more requests" statuses
        [ "$(grep -cx 3 statuses)" -ge "$least" ] || fail "$words ran out of memory too seldom" statuses
    done
}

for program in "${made[@]}"; do
    check_streams
    check_made_streams
    check_cuts
    check_many_records
    check_waiting
    check_fragments
    check_many_fragments
    check_words
    check_names
    check_orders
    check_devices
    check_memory
done
echo "the program answers, says and ends as it should, as ${#made[@]} of the compilers build it"
