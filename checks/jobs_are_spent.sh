#!/usr/bin/env bash
# A witness's jobs and done values are spent once. Programs that use one twice, that copy it, or that let one go, also
# within an event, a reply or what comes back of a job, must not compile: each is refused at its line marked `refused:`,
# by the words after the mark. Beside them stands a program that runs a job and discards what comes back. No other line is
# refused, so nothing else refuses them. And a book alone makes a job: no other source names what makes one, which is public
# since books stand in a crate above.
set -euo pipefail
cd "$(dirname "$0")/.."
. checks/scratch_crate.sh
. checks/refused_lines.sh

makers=$(find crates -name out -prune -o -name '*.rt' -print | xargs grep -l 'ReplayJob::new')
if [ "$makers" != crates/node_book/src/carry.rt ]; then
    echo "what makes a job is named in: $makers" >&2
    exit 1
fi

good=$(mktemp)
cat > "$good" <<'END'
//! Programs with jobs.
#![tactic(auto)]

use node_book::{Back, Event, Reply, ReplayDone, ReplayJob};
use std::alloc::Global;

pub fn runs_once(alloc: Global, job: ReplayJob) {
    match job.run(alloc) {
        Back::Done(done) => done.discard(),
        Back::Job(job) => job.discard(),
    }
}
END
bad=$(mktemp)
{
    cat "$good"
    cat <<'END'

pub fn runs_twice(alloc: Global, job: ReplayJob) {
    runs_once(alloc, job);
    runs_once(alloc, job); // refused: use of moved value
}

pub fn copies(done: ReplayDone) -> (ReplayDone, ReplayDone) {
    (done, done) // refused: use of moved value
}
END
} > "$bad"
ugly=$(mktemp)
{
    cat "$good"
    cat <<'END'

pub fn lets_a_job_go(job: ReplayJob) { // refused: error[linear-value-let-go]
    let _ = job.node();
}

pub fn lets_a_done_value_go(done: ReplayDone) { // refused: error[linear-value-let-go]
    let _ = done.node();
}

pub fn lets_what_comes_back_go(alloc: Global, job: ReplayJob) {
    let _ = job.run(alloc); // refused: error[linear-value-let-go]
}

pub fn lets_an_event_go(_event: Event) {} // refused: error[linear-value-let-go]

pub fn lets_a_reply_go(_reply: Reply) {} // refused: error[linear-value-let-go]
END
} > "$ugly"

scratch_crate spent "$good" node_book
mv src/main.rt src/lib.rt
log=$work/log

# Compiles the program of a file, with a test, without which there is nothing to compile.
compiles() {
    { cat "$1"; printf '\n#[test]\nfn compiles(_rt: HostRuntime) {}\n'; } > src/lib.rt
    rt try --test > "$log" 2>&1
}

for program in "$bad" "$ugly"; do
    status=0
    compiles "$program" || status=$?
    must_be_refused "$status"
done
