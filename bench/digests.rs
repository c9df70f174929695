//! The processor time of digests of one block, one after the other, by a plain SHA-256 (FIPS 180-4): what a program that makes
//! so many can't do without.
//!
//!     digests COUNT    prints the seconds that COUNT digests take, the least of five turns

use std::env;
use std::fs;

/// The first 32 bits of the fractional parts of the cube roots of the first 64 primes (section 4.2.2).
const K: [u32; 64] = [
    0x428a2f98, 0x71374491, 0xb5c0fbcf, 0xe9b5dba5, 0x3956c25b, 0x59f111f1, 0x923f82a4, 0xab1c5ed5, 0xd807aa98, 0x12835b01,
    0x243185be, 0x550c7dc3, 0x72be5d74, 0x80deb1fe, 0x9bdc06a7, 0xc19bf174, 0xe49b69c1, 0xefbe4786, 0x0fc19dc6, 0x240ca1cc,
    0x2de92c6f, 0x4a7484aa, 0x5cb0a9dc, 0x76f988da, 0x983e5152, 0xa831c66d, 0xb00327c8, 0xbf597fc7, 0xc6e00bf3, 0xd5a79147,
    0x06ca6351, 0x14292967, 0x27b70a85, 0x2e1b2138, 0x4d2c6dfc, 0x53380d13, 0x650a7354, 0x766a0abb, 0x81c2c92e, 0x92722c85,
    0xa2bfe8a1, 0xa81a664b, 0xc24b8b70, 0xc76c51a3, 0xd192e819, 0xd6990624, 0xf40e3585, 0x106aa070, 0x19a4c116, 0x1e376c08,
    0x2748774c, 0x34b0bcb5, 0x391c0cb3, 0x4ed8aa4a, 0x5b9cca4f, 0x682e6ff3, 0x748f82ee, 0x78a5636f, 0x84c87814, 0x8cc70208,
    0x90befffa, 0xa4506ceb, 0xbef9a3f7, 0xc67178f2,
];

/// The hash value before the first block (section 5.3.3).
const START: [u32; 8] =
    [0x6a09e667, 0xbb67ae85, 0x3c6ef372, 0xa54ff53a, 0x510e527f, 0x9b05688c, 0x1f83d9ab, 0x5be0cd19];

const TURNS: u32 = 5;

/// Linux tells the processor time of a thread in nanoseconds, as the first word of this file.
fn processor_time() -> f64 {
    let line = fs::read_to_string("/proc/thread-self/schedstat").unwrap();
    line.split_whitespace().next().unwrap().parse::<f64>().unwrap() / 1e9
}

/// The message schedule of a block (section 6.2.2, step 1).
fn schedule(block: &[u32; 16]) -> [u32; 64] {
    let mut words = [0; 64];
    words[..16].copy_from_slice(block);
    for t in 16..64 {
        let (early, late) = (words[t - 15], words[t - 2]);
        let small = early.rotate_right(7) ^ early.rotate_right(18) ^ (early >> 3);
        let large = late.rotate_right(17) ^ late.rotate_right(19) ^ (late >> 10);
        words[t] = words[t - 16].wrapping_add(small).wrapping_add(words[t - 7]).wrapping_add(large);
    }
    words
}

/// The digest of a message of one block (section 6.2.2).
fn digest(block: &[u32; 16]) -> [u32; 8] {
    let words = schedule(block);
    let [mut a, mut b, mut c, mut d, mut e, mut f, mut g, mut h] = START;
    for t in 0..64 {
        let sum = e.rotate_right(6) ^ e.rotate_right(11) ^ e.rotate_right(25);
        let one = h.wrapping_add(sum).wrapping_add((e & f) ^ (!e & g)).wrapping_add(K[t]).wrapping_add(words[t]);
        let sum = a.rotate_right(2) ^ a.rotate_right(13) ^ a.rotate_right(22);
        let two = sum.wrapping_add((a & b) ^ (a & c) ^ (b & c));
        (h, g, f, e, d, c, b, a) = (g, f, e, d.wrapping_add(one), c, b, a, one.wrapping_add(two));
    }
    let end = [a, b, c, d, e, f, g, h];
    std::array::from_fn(|word| START[word].wrapping_add(end[word]))
}

/// A message of 32 bytes as a block: a one bit after it, and its length in bits at the end (section 5.1.1).
fn padded(message: [u32; 8]) -> [u32; 16] {
    let mut block = [0; 16];
    block[..8].copy_from_slice(&message);
    block[8] = 0x8000_0000;
    block[15] = 256;
    block
}

/// The seconds that so many digests take, each of the one before.
fn seconds(count: u64) -> f64 {
    let start = processor_time();
    let mut message = [0; 8];
    for _ in 0..count {
        message = digest(&padded(message));
    }
    let took = processor_time() - start;
    assert_ne!(message, [0; 8]);
    took
}

fn main() {
    // The digest of 32 bytes that are 0.
    assert_eq!(digest(&padded([0; 8]))[..2], [0x66687aad, 0xf862bd77]);
    let count = env::args().nth(1).and_then(|word| word.parse().ok()).expect("usage: digests COUNT");
    let least = (0..TURNS).map(|_| seconds(count)).fold(f64::INFINITY, f64::min);
    println!("{least:.6}");
}
