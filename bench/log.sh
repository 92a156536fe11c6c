#!/usr/bin/env bash
# How many calls of the system and how long a flush of the log takes, and how many bytes it writes. Not part of the gate.
# usage: bench/log.sh, at the top of the repository; it needs some minutes the first time, and counts calls where strace is there.
set -eu
. bench/program.sh
work="${LOG_FOLDER:-$(mktemp -d)}"
first="1 1"
bench_program log_bench u64 vec_outside index_sizes list_values vec_names bit_code byte_fields vec_history vec_event page_bytes page_log <<'RATTLE'
//! Flushes a log of events of five bytes some times, so many events at a time, to the files of the current folder, and prints
//! what they take of the epoch's room. Words: how many flushes, how many events. Not read by the gate.
#![tactic(auto)]

ghost use Rattle.vec_event.specs.Spelling.{IsWritable};

use page_log::Log;
use std::process::ExitCode;
use vec_event::Event;
use vec_outside::{Area, FileDisks};

fn answer(rt: &HostRuntime) -> Option<u64> {
    let mut words = std::env::args(rt).ok()?.skip(1);
    let flushes = words.next()?.parse::<u32>().ok()?;
    let events = words.next()?.parse::<u32>().ok()?;
    let mut disks = FileDisks::make(rt);
    let mut log = Log::over(rt.alloc(), 1, Area::Log0, 40, 0);
    for _ in 0..flushes {
        add(&mut log, events)?;
        log.flush(&mut disks).ok()?;
    }
    Some(log.used())
}

fn add(log: &mut Log, events: u32) -> Option<()> {
    for _ in 0..events {
        log.append(&hint()).ok()?;
    }
    Some(())
}

#[tactic(auto, unfolding(vec_event::specs::Spelling::IsWritable))]
fn hint() -> Event
    ensures { IsWritable result }
{
    Event::Hint { block: 1 }
}
RATTLE
cd "$(mktemp -d)"
for words in "1000 1" "1000 10" "100 1000"; do
    rm -f vec_*.dat
    start=$(date +%s.%N)
    used=$("$program" $words)
    end=$(date +%s.%N)
    echo "$words: $used of the room, $(stat -c %s vec_log0.dat) bytes in the log, $(echo "$end - $start" | bc) seconds"
    if command -v strace > /dev/null; then
        rm -f vec_*.dat
        strace -f -qq -c -o calls.txt -e trace=fsync,fdatasync,write,pwrite64,pread64,lseek,fstat,statx "$program" $words > /dev/null
        awk 'NR > 2 && NF > 4 { print "   ", $4, $NF }' calls.txt
    fi
done
