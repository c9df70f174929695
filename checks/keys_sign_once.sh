#!/usr/bin/env bash
# A one-time key signs once. Programs that sign twice with one key, copy it, clone it or let it go, or that copy or clone
# the keys of a master secret, must not compile: they are added to a copy of the crate, and each must be refused at its
# line marked `refused:`, by the words after the mark. Beside them stands a program that signs once, or that takes a key.
# No other line is refused, so nothing else refuses them.
set -euo pipefail
cd "$(dirname "$0")/.."
. checks/scratch_crate.sh
. checks/refused_lines.sh

work=$(mktemp -d)
trap 'rm -rf "$work"' EXIT
mkdir "$work/crates"
crates_below lamport > "$work/crates.txt"
for crate in $(names_below lamport); do copy_parts "$crate" src specs proofs; done
copy=$work/crates/lamport
front=$work/front
log=$work/log

# Compiles the copy with the programs of standard input added, and a test, without which there is nothing to compile.
compiles() {
    { cat "$front" -; printf '\n#[test]\nfn compiles(_rt: HostRuntime) {}\n'; } > "$copy/src/lib.rt"
    (cd "$copy" && rt try --test) > "$log" 2>&1
}

# Each line with a mark must be refused by the mark's words, and no other line.
refused() {
    local status=0
    compiles || status=$?
    (cd "$copy" && must_be_refused "$status")
}

# Programs stand after a copy of the crate, and one that signs once.
cat crates/lamport/src/lib.rt - > "$front" <<'END'

pub fn signs_once(alloc: std::alloc::Global, key: OneTimeKey, digest: &[u8; 32]) {
    match key.sign(alloc, digest) {
        Ok(_) => {}
        Err(refused) => refused.value.discard(),
    }
}
END

refused <<'END'

fn spend(signed: Result<OneTimeSignature, std::alloc::AllocFailed<OneTimeKey>>) {
    match signed {
        Ok(_) => {}
        Err(refused) => refused.value.discard(),
    }
}

pub fn signs_twice(alloc: std::alloc::Global, key: OneTimeKey, digest: &[u8; 32]) {
    spend(key.sign(alloc, digest));
    spend(key.sign(alloc, digest)); // refused: use of moved value
}

pub fn signs_when_discarded(alloc: std::alloc::Global, key: OneTimeKey, digest: &[u8; 32]) {
    key.discard();
    spend(key.sign(alloc, digest)); // refused: use of moved value
}

pub fn copies(key: OneTimeKey) -> (OneTimeKey, OneTimeKey) {
    (key, key) // refused: use of moved value
}

pub fn copies_all(keys: LeafKeys) -> (LeafKeys, LeafKeys) {
    (keys, keys) // refused: use of moved value
}
END

refused <<'END'

pub fn lets_go(key: OneTimeKey) { // refused: error[linear-value-let-go]
    let _ = key.public_hash(0, false);
}

pub fn lets_a_refused_key_go(alloc: std::alloc::Global, key: OneTimeKey, digest: &[u8; 32]) {
    let _ = key.sign(alloc, digest); // refused: error[linear-value-let-go]
}
END

refused <<'END'

pub fn clones(key: &OneTimeKey) -> Result<OneTimeKey, std::alloc::AllocError> {
    key.clone() // refused: `OneTimeKey` is not `Clone`
}

pub fn clones_all(keys: &LeafKeys) -> Result<LeafKeys, std::alloc::AllocError> {
    keys.clone() // refused: `LeafKeys` is not `Clone`
}
END

# In another crate, which sees what lamport offers, no key can be made but by `LeafKeys::take`.
cp crates/lamport/src/lib.rt "$copy/src/lib.rt"
echo 'outside: lamport' >> "$work/crates.txt"
copy=$work/crates/outside
mkdir -p "$copy/src" "$copy/specs"
touch "$copy/specs/Lib.antt"
cat > "$front" <<'END'
//! A crate above.
#![tactic(auto)]

use lamport::{LeafKeys, OneTimeKey};

pub fn takes_once(keys: &mut LeafKeys) -> OneTimeKey
    requires { keys.old.next ≡ 0 }
{
    keys.take()
}
END

refused <<'END'

pub fn makes_again(keys: &LeafKeys, master: [u8; 32]) -> OneTimeKey {
    OneTimeKey::new(master, keys.next()) // refused: private
}

pub fn begins_again(keys: &mut LeafKeys) {
    keys.next = 0; // refused: private
}
END
