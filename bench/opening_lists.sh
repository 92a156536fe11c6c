#!/usr/bin/env bash
# How long `ivf_of` takes over the pages of an index of lists, which an opening has to wait for; and over pages of which every chain
# enters one ring, with each aim at its list's first block, or at the block before, which comes last. Not part of the gate.
# usage: bench/opening_lists.sh, at the top of the repository; it needs some minutes the first time.
set -eu
. bench/program.sh
work="${OPENING_FOLDER:-$(mktemp -d)}"
first="20 3 1 1 0"
bench_program lists_bench u64 index_sizes list_values vec_names bit_code bit_dist byte_fields page_bytes vec_tuples vec_history vec_event ivf_graph page_redo ivf_pages <<'RATTLE'
//! Makes the pages of an index of lists of values of 256 places, and reads their index some rounds. It prints how many lists were read,
//! or the blocks that are broken. Words: the pages, the lists, the rows of a page, the rounds, and 1 for aims at the block before a
//! list's first one. With no rows all chains enter one ring. Not read by the gate.
#![tactic(auto)]

use bit_code::Bits;
use ivf_pages::ivf_of;
use page_bytes::{Page, PageKind};
use page_redo::GraphFault;
use std::alloc::Global;
use std::process::ExitCode;
use vec_names::HeapId;
use vec_tuples::{CentreTuple, EntryRow, write_centre, write_entry};

/// How many list tuples of 256 places a page takes.
const ON_PAGE: u32 = 136;

fn answer(rt: &HostRuntime) -> Option<u64> {
    let mut words = std::env::args(rt).ok()?.skip(1);
    let count = words.next()?.parse::<u32>().ok()?;
    let lists = words.next()?.parse::<u16>().ok()?;
    let rows = words.next()?.parse::<u16>().ok()?;
    let rounds = words.next()?.parse::<u32>().ok()?;
    let far = words.next()?.parse::<u32>().ok()? == 1;
    let pages = pages_of(rt.alloc(), count, lists, rows, far)?;
    if pages.len() > 32768 {
        return None;
    }
    let mut read: u64 = 0;
    for _ in 0..rounds {
        match ivf_of(rt.alloc(), pages.as_slice()) {
            Ok(index) => read = read.wrapping_add(index.lists.len() as u64),
            Err(GraphFault::Bad { block }) => read = read.wrapping_add(u64::from(block)),
            Err(GraphFault::Memory) => return None,
        }
    }
    Some(read)
}

fn pages_of(alloc: Global, count: u32, lists: u16, rows: u16, far: bool) -> Option<Vec<Page>> {
    let all = u32::from(lists);
    let first = 1u32.checked_add(all.div_ceil(ON_PAGE))?;
    let mut pages: Vec<Page> = Vec::new(alloc);
    pages.push(meta_of(lists)?).ok()?;
    for page in 0..all.div_ceil(ON_PAGE) {
        let from = page.checked_mul(ON_PAGE)?;
        let to = all.min(from.checked_add(ON_PAGE)?);
        let last = if far { Some(count.checked_sub(1)?) } else { None };
        pages.push(tuples_of(alloc, from, to, first, last)?).ok()?;
    }
    for block in first..count {
        pages.push(entries_of(alloc, block, count, all, first, rows)?).ok()?;
    }
    Some(pages)
}

fn meta_of(lists: u16) -> Option<Page> {
    let mut page = Page::fresh(PageKind::Meta);
    let low = lists.to_le_bytes();
    let item = [
        0x56, 0x54, 0x49, 0x42, 2, 0, 2, 1, 0, 1, 0, 0, 0, 0, 0, 0, low[0], low[1], 0, 0, 255, 255,
        255, 255, 0, 0, 0, 0, 0, 0, 0, 0,
    ];
    page.add_item(&item)?;
    Some(page)
}

// The tuples of lists, each of which begins at a block of its own. Its aim is that block, or the one before, of a ring with this last one.
fn tuples_of(alloc: Global, from: u32, to: u32, first: u32, last: Option<u32>) -> Option<Page> {
    let mut page = Page::fresh(PageKind::IvfLists);
    for list in from..to {
        let block = first.checked_add(list)?;
        let tuple = CentreTuple {
            first: block,
            aim: aim_of(block, first, last)?,
            bits: Bits::zeros(alloc, 256).ok()?,
        };
        let mut bytes: Vec<u8> = Vec::new(alloc);
        write_centre(&tuple, &mut bytes).ok()?;
        if bytes.is_empty() || bytes.len() > 8156 {
            return None;
        }
        page.add_item(&bytes)?;
    }
    Some(page)
}

fn aim_of(block: u32, first: u32, last: Option<u32>) -> Option<u32> {
    match last {
        Some(last) if block == first => Some(last),
        Some(_) => block.checked_sub(1),
        None => Some(block),
    }
}

// A page of rows. The next one of its list is as many blocks on as there are lists; without rows it is the next block, of a ring.
fn entries_of(alloc: Global, block: u32, count: u32, lists: u32, first: u32, rows: u16) -> Option<Page> {
    let mut page = Page::fresh(PageKind::IvfEntries);
    let step = if rows == 0 { 1 } else { lists };
    let next = block.checked_add(step)?;
    let next = if next < count {
        Some(next)
    } else if rows == 0 {
        Some(first)
    } else {
        None
    };
    if let Some(to) = next {
        if to == u32::MAX {
            return None;
        }
        page.set_next(Some(to));
    }
    for _ in 0..rows {
        let row = EntryRow {
            id: HeapId::new(block, 1)?,
            bits: Bits::zeros(alloc, 256).ok()?,
        };
        let mut bytes: Vec<u8> = Vec::new(alloc);
        write_entry(&row, &mut bytes).ok()?;
        if bytes.is_empty() || bytes.len() > 8156 {
            return None;
        }
        page.add_item(&bytes)?;
    }
    Some(page)
}
RATTLE
for words in "32768 100 40 0 0" "32768 100 40 1 0" "32768 100 0 1 0" "32768 10000 0 1 0" "32768 10000 0 1 1" "32768 32500 0 1 0" \
    "32768 32500 0 1 1"; do
    start=$(date +%s.%N)
    read=$("$program" $words)
    end=$(date +%s.%N)
    echo "$words: $read in $(echo "$end - $start" | bc) seconds"
done
