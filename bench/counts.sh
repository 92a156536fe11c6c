#!/usr/bin/env bash
# How many bytes a second `count_unequal` reads, beside a plain Rust loop over u64 words. Not part of the gate.
# usage: bench/counts.sh, at the top of the repository; it needs rustc beside the kit, and some minutes the first time.
set -eu
. bench/program.sh
work="${COUNTS_FOLDER:-$(mktemp -d)}"
first="256 64 1"
bench_program count_bench u64 index_sizes bit_code <<'RATTLE'
//! Counts unequal places: 64,000 values of 256 places or so against one of them, some rounds, and prints the sum.
//! Words: the places of a value, the number of values, the rounds. Not read by the gate.
#![tactic(auto)]

use bit_code::{count_unequal, is_packed, Bits};
use std::alloc::Global;
use std::process::ExitCode;

fn answer(rt: &HostRuntime) -> Option<u64> {
    let mut words = std::env::args(rt).ok()?.skip(1);
    let places = words.next()?.parse::<u32>().ok()?;
    let values = words.next()?.parse::<u32>().ok()?;
    let rounds = words.next()?.parse::<u32>().ok()?;
    sum(rt.alloc(), places, values, rounds)
}

// The bytes come from a plain generator; a value's unused places can't occur, as the places are a multiple of 8.
fn sum(alloc: Global, places: u32, values: u32, rounds: u32) -> Option<u64> {
    let mut state: u64 = 1;
    let mut all: Vec<Bits> = Vec::new(alloc);
    for _ in 0..values {
        let mut bytes: Vec<u8> = Vec::new(alloc);
        for _ in 0..places / 8 {
            state = state.wrapping_mul(6364136223846793005).wrapping_add(1442695040888963407);
            bytes.push((state >> 56) as u8).ok()?;
        }
        if !is_packed(places, bytes.as_slice()) {
            return None;
        }
        all.push(Bits::from_bytes(alloc, places, bytes.as_slice()).ok()?).ok()?;
    }
    let mut sum: u64 = 0;
    for round in 0..rounds {
        let query = all.get((round % 64) as usize)?;
        for value in all.iter() {
            if value.count() == query.count() {
                sum = sum.wrapping_add(count_unequal(query, value) as u64);
            }
        }
    }
    Some(sum)
}
RATTLE
cat > "$work/plain.rs" <<'RUST'
// The same work in plain Rust: values of u64 words, xor and count_ones.
fn main() {
    let numbers: Vec<usize> = std::env::args().skip(1).map(|word| word.parse().unwrap()).collect();
    let (places, values, rounds) = (numbers[0], numbers[1], numbers[2]);
    let mut state: u64 = 1;
    let mut all: Vec<Vec<u64>> = Vec::new();
    for _ in 0..values {
        let mut bytes: Vec<u8> = Vec::new();
        for _ in 0..places / 8 {
            state = state.wrapping_mul(6364136223846793005).wrapping_add(1442695040888963407);
            bytes.push((state >> 56) as u8);
        }
        all.push(bytes.chunks(8).map(|word| u64::from_le_bytes(word.try_into().unwrap())).collect());
    }
    let mut sum: u64 = 0;
    for round in 0..rounds {
        let query = &all[round % 64];
        for value in &all {
            sum = sum.wrapping_add(query.iter().zip(value).map(|(a, b)| (a ^ b).count_ones() as u64).sum());
        }
    }
    println!("{sum}");
}
RUST
rustc -O -C target-cpu=x86-64-v2 --edition 2021 -o "$work/plain" "$work/plain.rs"
python3 - "$program" "$work/plain" <<'P'
import subprocess, sys, time
names, programs = ["count_unequal", "plain Rust"], sys.argv[1:3]
def taken(program, places, values, rounds):
    start = time.time()
    answer = subprocess.run([program, str(places), str(values), str(rounds)], stdout=subprocess.PIPE, check=True).stdout
    return time.time() - start, answer
for places, values in [(256, 64000), (4096, 8000)]:
    least, answers = {}, set()
    for _ in range(7):
        for name, program in zip(names, programs):
            for rounds in (0, 400):
                time_taken, answer = taken(program, places, values, rounds)
                least[name, rounds] = min(time_taken, least.get((name, rounds), time_taken))
                if rounds:
                    answers.add(answer)
    assert len(answers) == 1, "the sums differ"
    for name in names:
        spent = least[name, 400] - least[name, 0]
        print("%d places: %s %.2f GB/s of each value's bytes" % (places, name, places / 8 * values * 400 / spent / 1e9))
P
