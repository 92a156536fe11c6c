#!/usr/bin/env bash
# How many rows a second are inserted and how many searches a second are made over a board, by values of 256 places with m 16, ef 64
# for inserts and ef 40 for searches: of the 1,000 packages of examples/, each searched for, and of 64,000 random rows, with 1,000
# random queries. Beside it the same rules over arrays in plain Rust, which give the same graph: both print the same sum of distances.
# The last number of each run is how many looks the searches made over the board, or how many distances they counted in arrays.
# With perf it prints where the searches of the packages spend their time. Not part of the gate.
# usage: bench/search.sh, at the top of the repository; it needs rustc, python3 and some minutes.
set -eu
. bench/program.sh
work="${SEARCH_FOLDER:-$(mktemp -d)}"
first="40 0"
crates=$(crates_below $(sed -n 's/^operation_runs: //p' crates.txt))
proofs="$work/crates/search_bench/proofs"
mkdir -p "$proofs/search_all" "$proofs/search_often" "$proofs/insert_some" "$proofs/search_one"
cat > "$proofs/search_all/Invariants.antt" <<'ANTT'
use Rattle.vec_steps.specs.Calls.{HoldsNone}
use Rattle.search_bench.proofs.search_all.Given as goal

abbrev pub invariant-loop-k : goal.invariant-loop-k
invariant-loop-k g l = HoldsNone (g.S.Steps.seen l.steps) (g.S.Steps.desk l.steps).number
ANTT
cat > "$proofs/search_often/Invariants.antt" <<'ANTT'
use Rattle.vec_steps.specs.Calls.{HoldsNone}
use Rattle.search_bench.proofs.search_often.Given as goal

abbrev pub invariant-loop : goal.invariant-loop
invariant-loop g l = HoldsNone (g.S.Steps.seen l.steps) (g.S.Steps.desk l.steps).number
ANTT
cat > "$proofs/insert_some/Invariants.antt" <<'ANTT'
use Rattle.vec_history.specs.declared.gate.Gate.TheVariants.{Update}
use Rattle.vec_history.specs.Gates.{Holds}
use Rattle.search_bench.proofs.insert_some.Given as goal

abbrev pub invariant-loop-k : goal.invariant-loop-k
invariant-loop-k g l = Holds (g.S.Steps.seen l.steps) (g.S.Steps.desk l.steps).number Update → ⊥
ANTT
cat > "$proofs/search_one/Answers.antt" <<'ANTT'
use Rattle.std.proofs.Common.{sym, subst}
use Rattle.vec_steps.specs.Desks.{Desk}
use Rattle.vec_steps.specs.Calls.{HoldsNone}
use Rattle.search_bench.proofs.search_one.Goals as goal

pub returns : goal.returns
returns g c =
    record { gates = subst (λ (d : Desk). HoldsNone (g.S.Steps.seen c.first.new.steps) d.number) (sym c.in_ok-batch.ensures.goes.stays)
    c.in_ok-batch.ensures.free }
ANTT
bench_program search_bench u64 $crates <<'RATTLE'
//! Inserts the rows of standard input into a graph over a board, and searches for its queries some times. Words: ef, and how often; no
//! times at all read nothing. It prints how long both took, the sum of the distances answered, and how many looks the searches made.
//! Not read by the gate.
#![tactic(auto)]

ghost use Rattle.std.specs.Prelude.{◌≡◌, ◌≤◌, IfOk, OnOk, length};
ghost use Rattle.vec_names.specs.Params.{IsInRange};
ghost use Rattle.vec_names.specs.declared.params.Kind.TheVariants.{Hnsw};
ghost use Rattle.vec_history.specs.declared.gate.Gate.TheVariants.{Update};
ghost use Rattle.vec_history.specs.Gates.{Holds};
ghost use Rattle.vec_steps.specs.Calls.{HoldsNone};
ghost use Rattle.loaded_index.specs.Loading.{CanGoOn};
ghost use Rattle.vec_board.specs.Standing.{acts_of};

use bit_code::{Bits, is_packed};
use empty_index::empty_index;
use hnsw_insert::insert;
use hnsw_scan::{Batch, Mode, ScanState, first};
use loaded_index::Loaded;
use page_bytes::Page;
use std::alloc::Global;
use std::io::Read;
use std::process::ExitCode;
use std::time::Instant;
use vec_board::{Board, LoneDesk};
use vec_names::{HeapId, Kind, Ops, Params};
use vec_outside::{Area, Disks, MemDisks};
use vec_steps::{OpFault, Steps};

/// Why nothing is printed.
#[derive(Drop)]
struct Failed;

impl From<OpFault> for Failed {
    fn from(_: OpFault) -> Failed {
        Failed
    }
}

/// What searches looked at, and the sum of the distances answered.
#[derive(Drop)]
struct Sums {
    looks: u64,
    distances: u64,
}

fn params() -> Params
    ensures range { IsInRange result }
    ensures nodes { result.kind ≡ Hnsw }
{
    Params {
        kind: Kind::Hnsw,
        ops: Ops::Hamming,
        bits: 256,
        m: 16,
        ef: 64,
        lists: 0,
    }
}

fn answer(rt: &HostRuntime) -> Option<u64> {
    let mut words = std::env::args(rt).ok()?.skip(1);
    let ef = words.next()?.parse::<u32>().ok()?;
    let times = words.next()?.parse::<u32>().ok()?;
    if times == 0 {
        return Some(0);
    }
    let mut bytes = Vec::new(rt.alloc());
    rt.stdin().read_to_end(&mut bytes).ok()?;
    run(rt, bytes.as_slice(), ef.max(1), times).ok()
}

// Inserts and searches, and tells how many looks the searches of all queries made.
fn run(rt: &HostRuntime, bytes: &[u8], ef: u32, times: u32) -> Result<u64, Failed>
    requires { 1 ≤ ef }
{
    let alloc = rt.alloc();
    let rows = number(bytes, 0)?;
    let queries = number(bytes, 8)?;
    let began = now(rt)?;
    let pages = filled(alloc, bytes, rows)?;
    say(rt, "inserts, in milliseconds:", millis(rt, began)?)?;
    let mut desk = desk(alloc, pages)?;
    let mut sums = Sums { looks: 0, distances: 0 };
    let began = now(rt)?;
    search_often(alloc, &mut desk, bytes, rows, queries, ef, times, &mut sums)?;
    say(rt, "searches, in milliseconds:", millis(rt, began)?)?;
    say(rt, "distances answered:", sums.distances)?;
    Ok(sums.looks)
}

fn now(rt: &HostRuntime) -> Result<Instant, Failed> {
    match Instant::now(rt) {
        Ok(now) => Ok(now),
        Err(_) => Err(Failed),
    }
}

fn millis(rt: &HostRuntime, began: Instant) -> Result<u64, Failed> {
    match began.elapsed(rt) {
        Ok(time) => Ok(time.as_secs().saturating_mul(1_000).saturating_add(u64::from(time.subsec_millis()))),
        Err(_) => Err(Failed),
    }
}

fn say(rt: &HostRuntime, what: &str, count: u64) -> Result<(), Failed> {
    match println!(rt; "{what} {count}") {
        Ok(()) => Ok(()),
        Err(_) => Err(Failed),
    }
}

// The number at a place.
fn number(bytes: &[u8], at: usize) -> Result<u64, Failed> {
    let Some(piece) = bytes.get(at..at.saturating_add(8)) else {
        return Err(Failed);
    };
    let mut number: u64 = 0;
    for k in 0..piece.len() {
        let low = piece.len() - 1 - k;
        number = number.wrapping_mul(256).wrapping_add(u64::from(piece[low]));
    }
    Ok(number)
}

// Where the k-th value stands, with its word behind it.
fn place(k: u64) -> usize {
    (k as usize).wrapping_mul(40).wrapping_add(16)
}

// The k-th value.
fn value(alloc: Global, bytes: &[u8], k: u64) -> Result<Bits, Failed> {
    let at = place(k);
    let Some(piece) = bytes.get(at..at.saturating_add(32)) else {
        return Err(Failed);
    };
    if !is_packed(256, piece) {
        return Err(Failed);
    }
    match Bits::from_bytes(alloc, 256, piece) {
        Ok(bits) => Ok(bits),
        Err(_) => Err(Failed),
    }
}

// The pages of an index with these rows.
fn filled(alloc: Global, bytes: &[u8], rows: u64) -> Result<Vec<Page>, Failed> {
    let Ok(mut pages) = empty_index(alloc, params()) else {
        return Err(Failed);
    };
    for piece in 0..rows / 8_000 + 1 {
        let from = piece.saturating_mul(8_000);
        pages = more(alloc, pages, bytes, from, rows.min(from.saturating_add(8_000)))?;
    }
    Ok(pages)
}

// The same pages with more rows, over a board of their own, so that acts and log are left behind.
fn more(alloc: Global, pages: Vec<Page>, bytes: &[u8], from: u64, to: u64) -> Result<Vec<Page>, Failed> {
    let mut desk = desk(alloc, pages)?;
    insert_some(alloc, &mut desk, bytes, from, to)?;
    let (_, pages, _) = desk.into_board().into_core();
    Ok(pages)
}

fn loaded(alloc: Global, pages: Vec<Page>) -> Result<Loaded, Failed>
    ensures { IfOk result CanGoOn }
{
    if pages.len() > 32_768 {
        return Err(Failed);
    }
    Ok(Loaded {
        pages,
        epoch: 1,
        area: Area::Log0,
        before: 0,
        end: 40,
        used: 0,
        unwritten: Vec::new(alloc),
    })
}

fn log_area(alloc: Global) -> Result<Vec<u8>, Failed> {
    match vec![in alloc; 0; 40] {
        Ok(area) => Ok(area),
        Err(_) => Err(Failed),
    }
}

// A desk that is alone at a board of these pages.
fn desk(alloc: Global, pages: Vec<Page>) -> Result<LoneDesk<MemDisks>, Failed>
    ensures free { IfOk result (λ desk. Holds (acts_of desk.board.core) 0 Update → ⊥) }
    ensures gates { IfOk result (λ desk. HoldsNone (acts_of desk.board.core) 0) }
{
    let log = log_area(alloc)?;
    let other = log_area(alloc)?;
    let disks = MemDisks::over(alloc, Vec::new(alloc), log, other, Vec::new(alloc));
    let loaded = loaded(alloc, pages)?;
    if (disks.bytes(loaded.area).len() as u64) < loaded.end {
        return Err(Failed);
    }
    Ok(LoneDesk::over(Board::from_loaded(alloc, disks, loaded)))
}

// Inserts a row.
fn insert_one<S: Steps>(alloc: Global, steps: &mut S, id: HeapId, bits: &Bits, word: u64) -> Result<(), Failed>
    requires free { Holds (S.seen steps.old) (S.desk steps.old).number Update → ⊥ }
    ensures free { OnOk result (Holds (S.seen steps.new) (S.desk steps.new).number Update → ⊥) }
{
    let params = steps.params();
    if !params.check() {
        return Err(Failed);
    }
    let Kind::Hnsw = params.kind else {
        return Err(Failed);
    };
    insert(alloc, steps, id, bits, word)?;
    Ok(())
}

// The id of the k-th row: a hundred to a block.
fn id_of(k: u64) -> HeapId {
    HeapId {
        block: (k / 100 % 1_000_000) as u32,
        off: (k % 100) as u16 + 1,
    }
}

// Inserts the rows from this number on, up to the next.
fn insert_some<S: Steps>(alloc: Global, steps: &mut S, bytes: &[u8], from: u64, to: u64) -> Result<(), Failed>
    requires free { Holds (S.seen steps.old) (S.desk steps.old).number Update → ⊥ }
    ensures free { OnOk result (Holds (S.seen steps.new) (S.desk steps.new).number Update → ⊥) }
{
    for k in from..to {
        let word = number(bytes, place(k).saturating_add(32))?;
        let bits = value(alloc, bytes, k)?;
        insert_one(alloc, steps, id_of(k), &bits, word)?;
    }
    Ok(())
}

// One search.
fn search_one<S: Steps>(alloc: Global, steps: &mut S, query: Bits, ef: u32, sums: &mut Sums) -> Result<(), Failed>
    requires some { 1 ≤ ef }
    requires gates { HoldsNone (S.seen steps.old) (S.desk steps.old).number }
    ensures gates { OnOk result (HoldsNone (S.seen steps.new) (S.desk steps.new).number) }
{
    if !steps.params().check() {
        return Err(Failed);
    }
    let Ok(mut state) = ScanState::make(query, ef, Mode::Off, 20_000) else {
        return Err(Failed);
    };
    let batch = first(alloc, steps, &mut state)?;
    add(sums, &batch);
    Ok(())
}

fn add(sums: &mut Sums, batch: &Batch) {
    for answer in batch.answers.as_slice() {
        sums.distances = sums.distances.wrapping_add(u64::from(answer.dist.num));
    }
    sums.looks = sums.looks.wrapping_add(batch.trace.reads.len() as u64);
}

// A search for each query.
fn search_all<S: Steps>(alloc: Global, steps: &mut S, bytes: &[u8], from: u64, to: u64, ef: u32, sums: &mut Sums) -> Result<(), Failed>
    requires some { 1 ≤ ef }
    requires gates { HoldsNone (S.seen steps.old) (S.desk steps.old).number }
    ensures gates { OnOk result (HoldsNone (S.seen steps.new) (S.desk steps.new).number) }
{
    for k in from..to {
        let query = value(alloc, bytes, k)?;
        search_one(alloc, steps, query, ef, sums)?;
    }
    Ok(())
}

// So often. The sums are those of the last time.
fn search_often<S: Steps>(
    alloc: Global,
    steps: &mut S,
    bytes: &[u8],
    rows: u64,
    queries: u64,
    ef: u32,
    times: u32,
    sums: &mut Sums,
) -> Result<(), Failed>
    requires some { 1 ≤ ef }
    requires gates { HoldsNone (S.seen steps.old) (S.desk steps.old).number }
{
    for _ in 0..times {
        sums.looks = 0;
        sums.distances = 0;
        search_all(alloc, steps, bytes, rows, rows.saturating_add(queries), ef, sums)?;
    }
    Ok(())
}
RATTLE
cat > "$work/plain.rs" <<'RUST'
//! The same inserts and searches over arrays, by the same rules. Of pages it knows only how much room they have, since equally near
//! nodes go by their places. Words: ef, and how often.
use std::cmp::Reverse;
use std::collections::BinaryHeap;
use std::io::Read;
use std::time::Instant;
const M: usize = 16;
const EF: usize = 64;
const MOST: usize = 82;
type Value = [u64; 4];
/// A distance, the place by which equal ones are ordered, and the number of the node.
type Key = (u32, u32, u32);
fn distance(a: &Value, b: &Value) -> u32 {
    (a[0] ^ b[0]).count_ones() + (a[1] ^ b[1]).count_ones() + (a[2] ^ b[2]).count_ones() + (a[3] ^ b[3]).count_ones()
}
struct Node {
    value: Value,
    ids: usize,
    /// The slots, those of layer 0 first.
    slots: Vec<u32>,
}
const NONE: u32 = u32::MAX;
/// How many bytes of a page are free.
const FRESH: usize = 8192 - 24 - 8;
struct Graph {
    nodes: Vec<Node>,
    /// Of each node its place, as one number.
    order: Vec<u32>,
    entry: Option<u32>,
    top: usize,
    hint: usize,
    /// Of each block the free bytes and the nodes.
    free: Vec<usize>,
    used: Vec<u32>,
    /// Of each node the last search that met it.
    marks: Vec<u32>,
    mark: u32,
    /// How many distances were counted in searches.
    count: u64,
}
impl Graph {
    fn new() -> Graph {
        Graph { nodes: vec![], order: vec![], entry: None, top: 0, hint: 1, free: vec![0], used: vec![0], marks: vec![], mark: 0, count: 0 }
    }
    fn slots(&self, node: u32, layer: usize) -> &[u32] {
        let slots = &self.nodes[node as usize].slots;
        if layer == 0 { &slots[..2 * M] } else { &slots[(layer + 1) * M..(layer + 2) * M] }
    }
    fn key(&mut self, query: &Value, node: u32) -> Key {
        self.count += 1;
        (distance(query, &self.nodes[node as usize].value), self.order[node as usize], node)
    }
    fn search(&mut self, query: &Value, from: &[Key], ef: usize, layer: usize) -> Vec<Key> {
        self.mark += 1;
        let mut open = BinaryHeap::new();
        let mut found = BinaryHeap::new();
        for key in from {
            self.marks[key.2 as usize] = self.mark;
            open.push(Reverse(*key));
            found.push(*key);
        }
        while found.len() > ef {
            found.pop();
        }
        while let Some(Reverse(next)) = open.pop() {
            if found.len() >= ef && next > *found.peek().unwrap() {
                break;
            }
            let count = if layer == 0 { 2 * M } else { M };
            let first = if layer == 0 { 0 } else { (layer + 1) * M };
            for k in first..first + count {
                let other = self.nodes[next.2 as usize].slots[k];
                if other == NONE || self.marks[other as usize] == self.mark {
                    continue;
                }
                self.marks[other as usize] = self.mark;
                let key = self.key(query, other);
                if found.len() < ef {
                    open.push(Reverse(key));
                    found.push(key);
                } else if key < *found.peek().unwrap() {
                    open.push(Reverse(key));
                    found.push(key);
                    found.pop();
                }
            }
        }
        found.into_sorted_vec()
    }
    fn descend(&mut self, query: &Value, to: usize) -> Vec<Key> {
        let Some(entry) = self.entry else { return vec![] };
        let mut from = vec![self.key(query, entry)];
        for layer in (to + 1..=self.top).rev() {
            from = self.search(query, &from, 1, layer);
        }
        from
    }
    /// Algorithm 4, with those that it set aside filling up.
    fn pick(&self, found: &[Key], count: usize) -> Vec<usize> {
        let mut chosen: Vec<usize> = vec![];
        let mut aside = vec![];
        for (k, key) in found.iter().enumerate() {
            if chosen.len() == count {
                break;
            }
            let value = &self.nodes[key.2 as usize].value;
            if chosen.iter().all(|c| distance(value, &self.nodes[found[*c].2 as usize].value) > key.0) {
                chosen.push(k);
            } else {
                aside.push(k);
            }
        }
        for k in aside {
            if chosen.len() == count {
                break;
            }
            chosen.push(k);
        }
        chosen
    }
    /// The slot of a neighbour that comes to name the entrant.
    fn slot_for(&self, at: u32, layer: usize, entrant: u32) -> Option<usize> {
        let slots = self.slots(at, layer);
        if slots.contains(&entrant) {
            return None;
        }
        if let Some(empty) = slots.iter().position(|s| *s == NONE) {
            return Some(empty);
        }
        let value = &self.nodes[at as usize].value;
        let mut all: Vec<Key> = slots.iter().chain([&entrant])
            .map(|s| (distance(value, &self.nodes[*s as usize].value), self.order[*s as usize], *s)).collect();
        all.sort();
        let chosen = self.pick(&all, slots.len());
        let out = (0..all.len()).find(|k| !chosen.contains(k)).unwrap();
        slots.iter().position(|s| *s == all[out].2)
    }
    /// The place of a new node: its key in the order of blocks and offsets, and its block.
    fn place(&mut self, level: usize) -> (u32, usize) {
        let up = |n: usize| (n + 7) / 8 * 8 + 4;
        let need = up(80 + 32) + up(4 + 6 * (level + 2) * M);
        let mut block = self.hint;
        while block < self.free.len() && self.free[block] < need {
            block += 1;
        }
        if block == self.free.len() {
            self.free.push(FRESH);
            self.used.push(0);
        }
        self.free[block] -= need;
        self.used[block] += 1;
        ((block as u32) << 10 | self.used[block], block)
    }
    fn insert(&mut self, value: Value, level: usize) {
        let mut from = self.descend(&value, level);
        let mut lists: Vec<Vec<u32>> = vec![vec![]; level + 1];
        let mut near = vec![];
        if self.entry.is_some() {
            for layer in (0..=level.min(self.top)).rev() {
                let found = self.search(&value, &from, EF, layer);
                let count = if layer == 0 { 2 * M } else { M };
                lists[layer] = self.pick(&found, count).iter().map(|k| found[*k].2).collect();
                from = found.clone();
                near = found;
            }
        }
        for key in &near {
            let node = &mut self.nodes[key.2 as usize];
            if node.value == value && node.ids < 10 {
                node.ids += 1;
                return;
            }
        }
        let (key, block) = self.place(level);
        let at = self.nodes.len() as u32;
        let mut slots = vec![NONE; (level + 2) * M];
        for layer in 0..=level {
            let first = if layer == 0 { 0 } else { (layer + 1) * M };
            slots[first..first + lists[layer].len()].copy_from_slice(&lists[layer]);
        }
        self.nodes.push(Node { value, ids: 1, slots });
        self.order.push(key);
        self.marks.push(0);
        for layer in (0..=level).rev() {
            for k in 0..lists[layer].len() {
                let other = lists[layer][k];
                if let Some(slot) = self.slot_for(other, layer, at) {
                    let first = if layer == 0 { 0 } else { (layer + 1) * M };
                    self.nodes[other as usize].slots[first + slot] = at;
                }
            }
        }
        if self.entry.is_none() || level > self.top {
            self.entry = Some(at);
            self.top = level;
        }
        if level == 0 {
            self.hint = block;
        }
    }
}
fn level_of(word: u64) -> usize {
    let mut reaching = 1u128 << 64;
    for level in 0..MOST {
        reaching /= M as u128;
        if word as u128 >= reaching {
            return level;
        }
    }
    MOST
}
fn main() {
    let words: Vec<String> = std::env::args().collect();
    let (ef, times): (usize, usize) = (words[1].parse().unwrap(), words[2].parse().unwrap());
    let mut bytes = vec![];
    std::io::stdin().read_to_end(&mut bytes).unwrap();
    let number = |at: usize| u64::from_le_bytes(bytes[at..at + 8].try_into().unwrap());
    let value = |k: usize| [0, 8, 16, 24].map(|at| number(16 + 40 * k + at));
    let (rows, queries) = (number(0) as usize, number(8) as usize);
    let mut graph = Graph::new();
    let began = Instant::now();
    for k in 0..rows {
        graph.insert(value(k), level_of(number(48 + 40 * k)));
    }
    println!("inserts, in milliseconds: {}", began.elapsed().as_millis());
    let began = Instant::now();
    let mut sum = 0u64;
    for _ in 0..times {
        graph.count = 0;
        sum = 0;
        for k in 0..queries {
            let query = value(rows + k);
            let from = graph.descend(&query, 0);
            for key in graph.search(&query, &from, ef, 0) {
                sum += key.0 as u64;
            }
        }
    }
    println!("searches, in milliseconds: {}", began.elapsed().as_millis());
    println!("distances answered: {sum}");
    println!("{}", graph.count);
}
RUST
rustc --edition 2021 -O -o "$work/plain" "$work/plain.rs"
rows() {
    python3 - "$1" "$2" <<'P'
import random, struct, sys
# The number of rows and of queries; then each row, and each query, by the 32 bytes of its value and a random word.
random.seed(1)
if sys.argv[1] == "random":
    rows = [random.getrandbits(256) for _ in range(64000)]
    queries = [random.getrandbits(256) for _ in range(1000)]
else:
    words = [line.split() for line in open(sys.argv[1])]
    rows = [int(w[2], 2) for w in words if w and w[0] == "row"]
    queries = rows
with open(sys.argv[2], "wb") as sink:
    sink.write(struct.pack("<QQ", len(rows), len(queries)))
    for value in rows + queries:
        sink.write(value.to_bytes(32, "big") + struct.pack("<Q", random.getrandbits(64)))
P
}
rows examples/packages.exact "$work/packages"
rows random "$work/random"
TIMEFORMAT="of the processor, in seconds: %U"
for what in packages random; do
    for which in "$program" "$work/plain"; do
        echo "$what, $(basename "$which"), at a load of $(cut -d ' ' -f 1 /proc/loadavg), all queries 20 times"
        time "$which" 40 20 < "$work/$what"
    done
done
command -v perf > /dev/null || exit 0
perf record -q -o "$work/perf.data" "$program" 40 100 < "$work/packages" > /dev/null
echo "where the searches of the packages spend their time, in percent:"
perf report -i "$work/perf.data" --stdio --sort symbol 2> /dev/null | grep '%' | awk '
    { part = "the rest"; share = $1; sub("%", "", share) }
    $3 ~ /^(vec_board|page_|vec_tuples|byte_fields|history_tables|vec_steps)/ { part = "steps" }
    $3 ~ /^(bit_dist|bit_code)/ { part = "counts, where they are calls" }
    $3 ~ /^search_sets|binary_heap/ { part = "candidates" }
    $3 ~ /^(layer_search|hnsw_scan)/ { part = "the search itself, with counts in it" }
    $3 ~ /malloc|free|unlink_chunk|memmove|memset|std_alloc::vec/ { part = "memory" }
    { sum[part] += share }
    END { for (part in sum) printf "%5.1f %s\n", sum[part], part }' | sort -nr
