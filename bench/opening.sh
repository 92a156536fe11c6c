#!/usr/bin/env bash
# How long `graph_of` takes over the pages of an index, which an opening has to wait for. Not part of the gate.
# usage: bench/opening.sh, at the top of the repository; it needs some minutes the first time.
set -eu
. bench/program.sh
work="${OPENING_FOLDER:-$(mktemp -d)}"
first="2 1"
bench_program opening_bench usize index_sizes list_values vec_names bit_code byte_fields page_bytes vec_tuples vec_history vec_graph page_redo graph_pages <<'RATTLE'
//! Makes the pages of an index of 25 nodes a page, of 256 places and m 16, and reads their graph some rounds. It prints how many nodes
//! were read. Words: the pages, the rounds. Not read by the gate.
#![tactic(auto)]

use bit_code::Bits;
use graph_pages::graph_of;
use page_bytes::{Page, PageKind};
use page_redo::redo;
use std::alloc::Global;
use std::process::ExitCode;
use vec_history::Event;
use vec_names::{HeapId, Kind, Listed, Ops, Params, Tid};

const PARAMS: Params = Params {
    kind: Kind::Hnsw,
    ops: Ops::Hamming,
    bits: 256,
    m: 16,
    ef: 64,
    lists: 0,
};

// The meta tuple of such an index that has no entry point.
const META: [u8; 32] = [
    0x56, 0x54, 0x49, 0x42, 2, 0, 1, 1, 0, 1, 0, 0, 16, 0, 64, 0, 0, 0, 0, 0, 255, 255, 255, 255, 0,
    0, 0, 0, 1, 0, 0, 0,
];

fn answer(rt: &HostRuntime) -> Option<usize> {
    let mut words = std::env::args(rt).ok()?.skip(1);
    let blocks = words.next()?.parse::<u16>().ok()?;
    let rounds = words.next()?.parse::<u32>().ok()?;
    let pages = pages_of(rt.alloc(), blocks)?;
    if pages.len() > 32768 {
        return None;
    }
    let mut read: usize = 0;
    for _ in 0..rounds {
        let graph = graph_of(rt.alloc(), pages.as_slice()).ok()?;
        read = read.wrapping_add(graph.nodes.len());
    }
    Some(read)
}

fn pages_of(alloc: Global, blocks: u16) -> Option<Vec<Page>> {
    let mut pages: Vec<Page> = Vec::new(alloc);
    let mut meta = Page::fresh(PageKind::Meta);
    meta.add_item(&META)?;
    pages.push(meta).ok()?;
    for block in 1..=blocks {
        pages.push(page_of(alloc, u32::from(block))?).ok()?;
    }
    Some(pages)
}

fn page_of(alloc: Global, block: u32) -> Option<Page> {
    let mut page = Page::fresh(PageKind::Hnsw);
    for k in 0..25u16 {
        let event = node(alloc, block, k)?;
        if !PARAMS.check() {
            return None;
        }
        redo(&event, &PARAMS, 255, 7, block, &mut page).ok()?;
    }
    Some(page)
}

// A node with its list behind it.
fn node(alloc: Global, block: u32, k: u16) -> Option<Event> {
    let off = k.wrapping_mul(2).wrapping_add(1);
    let mut lists: Listed<Option<Tid>> = Listed::new(alloc);
    for _ in 0..32u8 {
        lists.push(None).ok()?;
    }
    Some(Event::Put {
        at: Tid::new(block, off)?,
        list_at: Tid::new(block, off.wrapping_add(1))?,
        version: 1,
        level: 0,
        id: HeapId::new(1, 1)?,
        bits: Bits::zeros(alloc, 256).ok()?,
        lists,
    })
}
RATTLE
for words in "2000 0" "2000 1" "2000 11"; do
    start=$(date +%s.%N)
    read=$("$program" $words)
    end=$(date +%s.%N)
    echo "$words: $read nodes read in $(echo "$end - $start" | bc) seconds"
done
