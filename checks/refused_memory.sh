#!/usr/bin/env bash
# Memory refused at any request inside the calls that take memory leaves all as it was, gives no answer, and the same
# call gives what it should when it is made once more: `checks/refused_memory.sh [SUBJECT..]`, all subjects if none is named.
# The program of checks/refused_memory has them as modules. It is built once, and run with each request of a subject's calls
# refused in turn. Three subjects have no request that is refused: `stored` makes ten files of checks/evidence again, byte
# for byte, here since the program is built; `carried` makes what `client` and `server` are given of each other; and by
# `itself` the program copies itself. For `rt try` removes what it builds, and sets up its interpreter anew for each run,
# which takes ten times as long as most runs: so that one is its only run, and the copy makes the others.
set -euo pipefail
cd "$(dirname "$0")/.."
. checks/scratch_crate.sh

# The number of the request that is refused, in all runs: what is made before the calls takes fewer, and a run makes so
# many others then that the next one to be tried is this one.
readonly REFUSED=400

# Of each subject one more than the requests that the calls have, and how many what is made first has, which aren't refused.
declare -rA MOST=(
    [replies]=29 [files]=36 [keys]=4 [log]=78 [gaps]=82 [state]=124 [client]=22 [server]=66 [streams]=19 [steps]=28 [entries]=27
    [segments]=67 [evidence]=107 [fork]=47 [replay2]=67 [books]=34 [filings]=14 [served]=27 [returned]=13 [jobs]=41 [rounds]=64
    [bases]=161 [stored]=0
)
declare -rA MADE=(
    [replies]=0 [files]=8 [keys]=0 [log]=13 [gaps]=13 [state]=1 [client]=10 [server]=39 [streams]=17 [steps]=20 [entries]=28
    [segments]=28 [evidence]=1 [fork]=1 [replay2]=1 [books]=86 [filings]=130 [served]=56 [returned]=120 [jobs]=70 [rounds]=96
    [bases]=5 [stored]=0
)
readonly CHECKS=$PWD/checks

# What a subject reads besides its name.
texts_of() {
    case $1 in
        evidence) cat "$CHECKS/evidence/wrong_checkpoint.evidence" ;;
        fork) cat "$CHECKS/evidence/hidden_entry.evidence" ;;
        replay2) cat "$CHECKS/evidence/wrong_reply_after_gap.evidence" ;;
        client | server) cat "$work/to_calls" ;;
        log) cat "$work/to_logs" ;;
        gaps) cat "$work/to_gaps" ;;
        steps | entries | segments) cat "$work/to_replays" ;;
        bases) cat "$work/to_bases" ;;
        books | filings | served | returned | jobs | rounds) cat "$work/to_books" ;;
    esac
}

# input_of SUBJECT REQUEST
# What a run reads: its subject's name, the texts, and a byte for each of the other requests. The program makes these after
# what is made first. In run 0 the last of them is refused, and in the others a request of the subject's calls.
input_of() {
    echo "$1"
    texts_of "$1"
    head -c $((REFUSED - ${MADE[$1]} - $2)) /dev/zero
}

# run_all SUBJECT [ARGUMENT]
# Writes to $work/runs what the subject's runs printed, each after a line with its number.
run_all() {
    local request
    subject=$1
    shift
    for ((request = 0; request <= ${MOST[$subject]}; request++)); do
        echo "== $request"
        env -i timeout 300 "$work/program" "$@" < <(input_of "$subject" "$request") 2>&1 || echo "ended with status $?"
    done > "$work/runs"
    if grep -q '^ended with status' "$work/runs"; then wrong 'a run failed' "$work/runs"; fi
}

# wrong WORDS FILE: says what is wrong, shows the file, and ends.
wrong() {
    echo "$subject: $1" >&2
    cat "$2" >&2
    exit 1
}

# see_runs SUBJECT
# Runs it, and writes what its runs saw to $work/all_lines, and to $work/lines that of the runs in which a request of its
# calls was refused. All held, run 0 shows that MADE is right, and the last that there are fewer requests than MOST.
see_runs() {
    local front made
    run_all "$1"
    front=$(sed -n 's/^request \([0-9]*\) of the input was refused$/\1/p' "$work/runs" | head -1)
    made=${front:+$((REFUSED - front))}
    if [ "$made" != "${MADE[$subject]}" ]; then
        wrong "what is made first takes ${made:-fewer}, not ${MADE[$subject]} requests" "$work/runs"
    fi
    grep '^refused' "$work/runs" | sed 1d > "$work/all_lines"
    if [ "$(wc -l < "$work/all_lines")" -ne "${MOST[$subject]}" ] || grep -qv ', held true$' "$work/all_lines"; then
        wrong 'a run did not hold' "$work/runs"
    fi
    if ! tail -1 "$work/all_lines" | grep -q '^refused 0'; then
        wrong "there are ${MOST[$subject]} requests or more" "$work/all_lines"
    fi
    grep -v '^refused 0' "$work/all_lines" > "$work/lines"
}

# refused_in CALL: in how many runs a request of this call was refused.
refused_in() {
    grep -c "^refused 1 in $1, " "$work/lines" || true
}

# least_refused LEAST CALL..: of each call at least so many requests were refused.
least_refused() {
    local least=$1 call count
    shift
    for call in "$@"; do
        count=$(refused_in "$call")
        [ "$count" -ge "$least" ] || wrong "$count requests of $call were refused, and not $least" "$work/lines"
        echo "$call: each of $count refused requests leaves all as it was"
    done
}

# exactly_refused COUNT CALL COUNT CALL..: of each call so many requests were refused, and of none else; they are the first.
exactly_refused() {
    local all=0
    while [ $# -gt 0 ]; do
        [ "$(refused_in "$2")" -eq "$1" ] || wrong "not $1 requests of $2 were refused" "$work/lines"
        echo "$2: each of $1 refused requests leaves all as it was"
        all=$((all + $1))
        shift 2
    done
    cmp -s "$work/lines" <(head -n $all "$work/all_lines") || wrong "not $all requests were refused" "$work/all_lines"
}

# All calls of a run gave together what they gave in the others.
gave_the_same() {
    [ "$(grep -o ', gave [0-9]*' "$work/runs" | sort -u | wc -l)" -eq 1 ] || wrong 'runs gave unlike things' "$work/runs"
}

# The files of evidence that the program made are those of checks/evidence.
check_stored() {
    local name
    mkdir "$work/stored"
    run_all stored "$work/stored"
    grep -qx 'refused 1 in no call, held true' "$work/runs" || wrong 'the files were not made' "$work/runs"
    for name in "$work"/stored/*; do
        cmp "$name" "$CHECKS/evidence/${name##*/}.evidence"
    done
    [ "$(ls "$work/stored" | wc -l)" -eq 10 ]
    echo 'ten files of checks/evidence are made again'
}

# check_subject SUBJECT: sees that of each of its calls so many requests were refused as there should be.
check_subject() {
    if [ "$1" = stored ]; then
        check_stored
        return
    fi
    see_runs "$1"
    case $1 in
        # One request to read a record or to see that there is none, and one a reply; of a run 8 to open, 3 for all that it
        # reads and writes, and two of MKDIR.
        replies) exactly_refused 8 Service::opening 3 Service::answer 4 RecordReader::next 13 run_rpc ;;
        # One is for the reply, the others are for what the call does.
        files) least_refused 2 MNT SETATTR WRITE CREATE MKDIR SYMLINK LINK RENAME READDIR ;;
        # A signer takes memory once when it is made and once for each of its two signatures.
        keys) exactly_refused 1 Signer::new 2 Signer::sign ;;
        log | gaps)
            least_refused 1 Roster::read Roster::write Roster::try_clone Authenticator::write check Entry::read \
                Entry::write Log::reserve Log::append OpenSegment::write check_segment
            ;;
        state) least_refused 7 read_state state_text state_digest SharedState::new SharedState::state ;;
        client)
            gave_the_same
            least_refused 3 send take_ack take_reply
            ;;
        server)
            gave_the_same
            least_refused 3 receive take_ack base checkpoint answer_challenge
            ;;
        streams) least_refused 4 serve_stream ;;
        steps)
            gave_the_same
            least_refused 2 opening_state step
            ;;
        entries)
            gave_the_same
            least_refused 2 replay_entries
            ;;
        segments)
            gave_the_same
            least_refused 9 replay ClosedSegment::try_clone
            ;;
        evidence)
            least_refused 9 read_case write_case evidence_text read_evidence check_evidence Evidence::try_clone
            # These two copy a signature, and write no text of it.
            least_refused 6 of_authenticator from_start
            ;;
        fork) least_refused 7 read_case write_case evidence_text read_evidence Evidence::try_clone ;;
        replay2) least_refused 9 read_case write_case evidence_text read_evidence check_evidence Evidence::try_clone ;;
        # Nothing else takes memory: neither AckIn, Begin and PutBack, nor Ask of the indication and of evidence at hand.
        books)
            exactly_refused 4 'Deliver of an authenticator' 1 SendChallenge 5 'Ask of the challenges' \
                13 'Deliver of a segment' 1 Learn 1 Audit 1 Answer 7 'Learn that forks'
            ;;
        # A done value that was refused comes back, and is filed then. This evidence is made when it is asked for.
        filings)
            exactly_refused 1 'File of a sound verdict' 3 Forward 1 'File of a fault' 8 'Ask of the evidence'
            ;;
        # A service also takes memory for its pass, its journal, and two notes of the event and the reply.
        served)
            exactly_refused 8 'Deliver of an authenticator' 1 Audit 15 'Deliver of a segment' 2 PutBack
            ;;
        returned) exactly_refused 3 'File of a sound verdict' 9 Forward ;;
        # Books read a base's state to tell its kind. A copy shares the state.
        bases)
            least_refused 30 check_base_file check_base Books::start
            least_refused 4 Base::try_clone Base::to_text
            ;;
        # Each directory's map asks for more room than it needs, and goes on where that is refused.
        jobs) least_refused 30 ReplayJob::run ;;
        # What opens the round. A job to which memory is refused is run once more at the round's end, and is done then.
        rounds) exactly_refused 16 replay_round ;;
    esac
}

subjects=("$@")
if [ $# -eq 0 ]; then
    subjects=(
        replies files keys log gaps state client server streams steps entries segments evidence fork replay2 books filings served
        returned jobs rounds bases stored
    )
fi
scratch_crate refused_memory checks/refused_memory rpc_streams replay_pool witness_service witness_books node_book packets challenge evidence_showings envelopes replay node_logs checkpoint state_machine gateway service nfs_items rpc commitment secure_log authenticator merkle_keys xdr sha2 anyhow
for to in bases books gaps logs replays; do python3 "$CHECKS/generate.py" --handed $to > "$work/to_$to"; done

# Two runs in which nothing is refused, each of which makes a file.
subject=itself
echo $subject | rt try --steps 1 --seconds 300 --fail-alloc $REFUSED -- "$work/program" > "$work/log" 2>&1 ||
    wrong 'the program was not built or failed' "$work/log"
grep -qx 'refused 0 in no call, held true' "$work/log" || wrong 'the program was not copied' "$work/log"
chmod +x "$work/program"
subject=carried
echo $subject | env -i "$work/program" "$work/to_calls" > "$work/log" 2>&1 || wrong 'the program failed' "$work/log"
grep -qx 'refused 0 in no call, held true' "$work/log" || wrong 'no call was carried' "$work/log"

for subject in "${subjects[@]}"; do check_subject "$subject"; done
