#!/usr/bin/env bash
# How many events a second `redo` plays on one page: the links of a list, and nodes that are put and marked. Not part of the gate.
# usage: bench/redo.sh, at the top of the repository; it needs some minutes the first time.
set -eu
. bench/program.sh
work="${REDO_FOLDER:-$(mktemp -d)}"
first="1 1"
bench_program redo_bench u64 index_sizes list_values vec_names bit_code byte_fields page_bytes vec_tuples vec_history page_redo <<'RATTLE'
//! Plays events on a page of a graph with 256 places and m 16, and prints how many fitted.
//! Words: how many links, how many nodes that are put and marked. Not read by the gate.
#![tactic(auto)]

use bit_code::Bits;
use page_bytes::{Page, PageKind};
use page_redo::redo;
use std::alloc::Global;
use std::process::ExitCode;
use vec_history::Event;
use vec_names::{HeapId, Kind, Listed, Ops, Params, Tid};

const PARAMS: Params = Params {
    kind: Kind::Hnsw,
    ops: Ops::Hamming,
    bits: 256,
    m: 16,
    ef: 64,
    lists: 0,
};

fn answer(rt: &HostRuntime) -> Option<u64> {
    let mut words = std::env::args(rt).ok()?.skip(1);
    let links = words.next()?.parse::<u32>().ok()?;
    let nodes = words.next()?.parse::<u32>().ok()?;
    if !PARAMS.check() {
        return None;
    }
    let mut page = Page::fresh(PageKind::Hnsw);
    let fitting = put_and_marked(rt.alloc(), nodes, &mut page)?;
    let version = ((nodes % 255) as u8).wrapping_add(1);
    Some(fitting.wrapping_add(linked(links, version, &mut page)))
}

// A node with its list on the page, of this version.
fn node(alloc: Global, version: u8) -> Option<Event> {
    let mut lists: Listed<Option<Tid>> = Listed::new(alloc);
    for _ in 0..32u8 {
        lists.push(None).ok()?;
    }
    Some(Event::Put {
        at: Tid { block: 1, off: 1 },
        list_at: Tid { block: 1, off: 2 },
        version,
        level: 0,
        id: HeapId::new(1, 1)?,
        bits: Bits::zeros(alloc, 256).ok()?,
        lists,
    })
}

// Puts a node on the page and marks it, over and over, and puts it once more.
fn put_and_marked(alloc: Global, nodes: u32, page: &mut Page) -> Option<u64> {
    let mut fitting: u64 = 0;
    let mut puts: Vec<Event> = Vec::new(alloc);
    for version in 1..=255u8 {
        puts.push(node(alloc, version)?).ok()?;
    }
    for round in 0..nodes {
        let version = (round % 255) as u8;
        let mark = Event::Mark {
            at: Tid { block: 1, off: 1 },
            list_at: Tid { block: 1, off: 2 },
            version: version.wrapping_add(1),
        };
        fitting = fitting.wrapping_add(played(puts.as_slice().get(usize::from(version))?, page));
        fitting = fitting.wrapping_add(played(&mark, page));
    }
    let last = puts.as_slice().get((nodes % 255) as usize)?;
    Some(fitting.wrapping_add(played(last, page)))
}

// Links of each slot of the node in turn.
fn linked(links: u32, version: u8, page: &mut Page) -> u64 {
    let mut fitting: u64 = 0;
    for k in 0..links {
        let link = Event::Link {
            at: Tid { block: 1, off: 1 },
            list_at: Tid { block: 1, off: 2 },
            version,
            slot: (k % 32) as u16,
            to: Tid { block: 2, off: 1 },
        };
        fitting = fitting.wrapping_add(played(&link, page));
    }
    fitting
}

fn played(event: &Event, page: &mut Page) -> u64 {
    if !PARAMS.check() {
        return 0;
    }
    match redo(event, &PARAMS, 255, 7, 1, page) {
        Ok(()) => 1,
        Err(_) => 0,
    }
}
RATTLE
for words in "0 0" "1000000 0" "0 1000000"; do
    start=$(date +%s.%N)
    fitting=$("$program" $words)
    end=$(date +%s.%N)
    echo "$words: $fitting events in $(echo "$end - $start" | bc) seconds"
done
