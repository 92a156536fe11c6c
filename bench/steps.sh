#!/usr/bin/env bash
# What a look costs over a board: a node, and its neighbours, of 64,000 nodes of 256 bits; beside it the same over the same page
# bytes in plain Rust. Not part of the gate.
# usage: bench/steps.sh, at the top of the repository; it needs some minutes the first time, and rustc.
set -eu
. bench/program.sh
work="${STEPS_FOLDER:-$(mktemp -d)}"
first="none 1"
bench_program steps_bench u64 $(crates_below vec_board) <<'RATTLE'
//! Looks at nodes, or at their neighbours, one after the other in an order that jumps about. It prints how many bits or slots were
//! told. Words: none, node, list, or turn, which looks at nodes, each at a place that hangs on what was told before, as a
//! search does; and how many looks. Not read by the gate.
#![tactic(auto)]

ghost use Rattle.std.specs.Prelude.{◌≡◌, ◌≤◌, IfSome, length};
ghost use Rattle.loaded_index.specs.Loading.{CanGoOn};

use bit_code::Bits;
use loaded_index::Loaded;
use page_bytes::{Page, PageKind};
use page_redo::redo;
use std::alloc::Global;
use std::process::ExitCode;
use vec_board::{Board, LoneDesk};
use vec_history::Event;
use vec_names::{HeapId, Kind, Listed, Ops, Params, Tid};
use vec_outside::{Area, Disks, MemDisks};
use vec_steps::{Ask, Steps, Told};

const PARAMS: Params = Params {
    kind: Kind::Hnsw,
    ops: Ops::Hamming,
    bits: 256,
    m: 16,
    ef: 64,
    lists: 0,
};

// The meta tuple of such an index that has no entry point.
const META: [u8; 32] = [
    0x56, 0x54, 0x49, 0x42, 2, 0, 1, 1, 0, 1, 0, 0, 16, 0, 64, 0, 0, 0, 0, 0, 255, 255, 255, 255, 0,
    0, 0, 0, 1, 0, 0, 0,
];

// 2,560 pages with 25 nodes each.
const PAGES: u32 = 2_560;

fn answer(rt: &HostRuntime) -> Option<u64> {
    let mut words = std::env::args(rt).ok()?.skip(1);
    let what = words.next()?;
    let looks = words.next()?.parse::<u32>().ok()?;
    let alloc = rt.alloc();
    let disks = MemDisks::over(
        alloc,
        Vec::new(alloc),
        log_area(alloc)?,
        log_area(alloc)?,
        Vec::new(alloc),
    );
    let loaded = loaded(alloc)?;
    if (disks.bytes(loaded.area).len() as u64) < loaded.end {
        return None;
    }
    let mut desk = LoneDesk::over(Board::from_loaded(alloc, disks, loaded));
    if what.as_str() == "node" {
        return nodes(alloc, &mut desk, looks, false);
    }
    if what.as_str() == "turn" {
        return nodes(alloc, &mut desk, looks, true);
    }
    if what.as_str() == "list" {
        return lists(alloc, &mut desk, looks);
    }
    Some(0)
}

fn log_area(alloc: Global) -> Option<Vec<u8>> {
    vec![in alloc; 0; 40].ok()
}

fn loaded(alloc: Global) -> Option<Loaded>
    ensures { IfSome result CanGoOn }
{
    let pages = pages_of(alloc)?;
    if pages.len() > 32768 {
        return None;
    }
    Some(Loaded {
        pages,
        epoch: 1,
        area: Area::Log0,
        before: 0,
        end: 40,
        used: 0,
        unwritten: Vec::new(alloc),
    })
}

fn pages_of(alloc: Global) -> Option<Vec<Page>> {
    let mut pages: Vec<Page> = Vec::new(alloc);
    let mut meta = Page::fresh(PageKind::Meta);
    meta.add_item(&META)?;
    pages.push(meta).ok()?;
    for block in 1..=PAGES {
        pages.push(page_of(alloc, block)?).ok()?;
    }
    Some(pages)
}

fn page_of(alloc: Global, block: u32) -> Option<Page> {
    let mut page = Page::fresh(PageKind::Hnsw);
    for k in 0..25u16 {
        let event = node(alloc, block, k)?;
        if !PARAMS.check() {
            return None;
        }
        redo(&event, &PARAMS, 255, 7, block, &mut page).ok()?;
    }
    Some(page)
}

// A node with its list behind it, whose slots name the first places of the blocks behind.
fn node(alloc: Global, block: u32, k: u16) -> Option<Event> {
    let off = k.wrapping_mul(2).wrapping_add(1);
    let mut lists: Listed<Option<Tid>> = Listed::new(alloc);
    for j in 0..32u32 {
        let to = (block.wrapping_add(j) % PAGES).wrapping_add(1);
        lists.push(Some(Tid::new(to, 1)?)).ok()?;
    }
    Some(Event::Put {
        at: Tid::new(block, off)?,
        list_at: Tid::new(block, off.wrapping_add(1))?,
        version: 1,
        level: 0,
        id: HeapId::new(1, 1)?,
        bits: Bits::zeros(alloc, 256).ok()?,
        lists,
    })
}

// The place of the k-th look: blocks and offsets that jump about.
fn place(k: u32) -> Option<Tid> {
    let block = (k.wrapping_mul(1_103) % PAGES).wrapping_add(1);
    let off = ((k % 25) as u16).wrapping_mul(2).wrapping_add(1);
    Tid::new(block, off)
}

fn nodes<S: Steps>(alloc: Global, steps: &mut S, looks: u32, in_turn: bool) -> Option<u64> {
    if !PARAMS.check() {
        return None;
    }
    let mut told = Told::make(alloc, PARAMS).ok()?;
    let mut sum: u64 = 0;
    let mut more: u32 = 0;
    for k in 0..looks {
        if told.bits.count() != steps.params().bits {
            return None;
        }
        let mut ask = Ask::Node {
            at: place(k.wrapping_add(more))?,
            layer: 0,
            version: None,
        };
        steps.step(&mut ask, &mut told).ok()?;
        more = after(in_turn, told.version);
        sum = sum.wrapping_add(u64::from(told.bits.count()));
    }
    Some(sum)
}

// 0, for each version is 1; in turn, it is known only when the look has told it.
fn after(in_turn: bool, version: u8) -> u32 {
    if in_turn { u32::from(version.wrapping_sub(1)) } else { 0 }
}

fn lists<S: Steps>(alloc: Global, steps: &mut S, looks: u32) -> Option<u64> {
    if !PARAMS.check() {
        return None;
    }
    let mut told = Told::make(alloc, PARAMS).ok()?;
    let mut sum: u64 = 0;
    for k in 0..looks {
        if told.bits.count() != steps.params().bits {
            return None;
        }
        let at = place(k)?;
        let mut ask = Ask::List {
            at,
            list_at: Tid::new(at.block, at.off.wrapping_add(1))?,
            level: 0,
            version: 1,
            layer: 0,
        };
        steps.step(&mut ask, &mut told).ok()?;
        sum = sum.wrapping_add(told.tids.as_slice().len() as u64);
    }
    Some(sum)
}
RATTLE
cat > "$work/plain.rs" <<'RUST'
//! The same looks over the same page bytes.
use std::time::Instant;
const PAGES: u32 = 2560;
fn page() -> Vec<u8> {
    let mut page = vec![0u8; 8192];
    let mut high = 8184;
    for k in 0..25 {
        let element = 80 + 32;
        high -= element;
        let line = (high as u32) | (1 << 15) | ((element as u32) << 17);
        page[24 + 8 * k..28 + 8 * k].copy_from_slice(&line.to_le_bytes());
        let list = (4 + 6 * 32 + 7) / 8 * 8;
        high -= list;
        let line = (high as u32) | (1 << 15) | ((4 + 6 * 32u32) << 17);
        page[28 + 8 * k..32 + 8 * k].copy_from_slice(&line.to_le_bytes());
    }
    page
}
fn item(page: &[u8], off: usize) -> &[u8] {
    let line = u32::from_le_bytes(page[20 + 4 * off..24 + 4 * off].try_into().unwrap());
    let at = (line & 0x7fff) as usize;
    &page[at..at + (line >> 17) as usize]
}
fn main() {
    let words: Vec<String> = std::env::args().collect();
    let looks: u32 = words[2].parse().unwrap();
    let pages: Vec<Vec<u8>> = (0..=PAGES).map(|_| page()).collect();
    let mut bits = vec![0u8; 32];
    let mut ids = [0u8; 60];
    let mut slots: Vec<Option<(u32, u16)>> = Vec::with_capacity(32);
    let mut sum = 0u64;
    let mut more = 0u32;
    let list = words[1] == "list";
    let turn = words[1] == "turn";
    let began = Instant::now();
    for k in 0..looks {
        let k = k.wrapping_add(more);
        let page = &pages[(k.wrapping_mul(1103) % PAGES) as usize + 1];
        let off = (k % 25) as usize * 2 + 1;
        if !list {
            let element = item(page, off);
            more = if turn { element[3] as u32 } else { 0 };
            ids.copy_from_slice(&element[4..64]);
            bits.copy_from_slice(&element[80..112]);
            sum += bits[(k % 32) as usize] as u64 + ids[(k % 60) as usize] as u64 + 256;
        } else {
            slots.clear();
            for slot in item(page, off + 1)[4..].chunks_exact(6) {
                let block = u32::from_le_bytes(slot[..4].try_into().unwrap());
                let off = u16::from_le_bytes(slot[4..].try_into().unwrap());
                slots.push(if off == 0 { None } else { Some((block, off)) });
            }
            sum += slots.len() as u64;
        }
    }
    println!("{} in {:.3} s", sum, began.elapsed().as_secs_f64());
}
RUST
rustc --edition 2021 -O -o "$work/plain" "$work/plain.rs"
seconds() {
    local start end
    start=$(date +%s.%N)
    "$program" "$@" > /dev/null
    end=$(date +%s.%N)
    echo "$end - $start" | bc
}
making=$(seconds none 0)
for what in node turn list; do
    echo "$what: $(echo "$(seconds $what 1000000) - $making" | bc) s for a million looks, over a board"
    echo "$what: $("$work/plain" $what 1000000), over the same bytes in plain Rust"
done
