#!/usr/bin/env bash
# How long `audit_hnsw` takes over a history of 55 inserts. Not part of the gate.
# usage: bench/judge.sh, at the top of the repository; it needs some minutes the first time.
set -eu
. bench/program.sh
work="${JUDGE_FOLDER:-$(mktemp -d)}"
first="2 1"
bench_program judge_bench usize index_sizes list_values vec_names bit_code vec_history vec_graph graph_judge <<'RATTLE'
//! Makes a legal history of so many inserts, each with some links, judges it some rounds, and prints how many acts it has.
//! Words: the inserts, the rounds. Not read by the gate.
#![tactic(auto)]

use bit_code::Bits;
use std::alloc::Global;
use std::process::ExitCode;
use vec_history::{Act, Event, Gate, Hold};
use graph_judge::audit_hnsw;
use vec_graph::{Graph, Place};
use vec_names::{HeapId, Kind, Listed, Mapped, Ops, Params, Tid};

fn answer(rt: &HostRuntime) -> Option<usize> {
    let mut words = std::env::args(rt).ok()?.skip(1);
    let inserts = words.next()?.parse::<u16>().ok()?;
    let rounds = words.next()?.parse::<u32>().ok()?;
    let base = empty(rt.alloc());
    let acts = history(rt.alloc(), &base, inserts)?;
    for _ in 0..rounds {
        audit_hnsw(rt.alloc(), &base, acts.as_slice()).ok()?;
    }
    Some(acts.len())
}

fn empty(alloc: Global) -> Graph {
    Graph {
        params: Params {
            kind: Kind::Hnsw,
            ops: Ops::Hamming,
            bits: 64,
            m: 2,
            ef: 4,
            lists: 0,
        },
        nodes: Mapped::new(alloc),
        entry: None,
        level: 0,
        hint: 1,
        blocks: 1,
    }
}

fn history(alloc: Global, base: &Graph, inserts: u16) -> Option<Vec<Act>> {
    let mut graph = base.try_clone(alloc).ok()?;
    let mut acts: Vec<Act> = Vec::new(alloc);
    let mut before: Vec<Place> = Vec::new(alloc);
    for k in 0..inserts {
        insert(alloc, k, &mut graph, &mut acts, &mut before)?;
    }
    Some(acts)
}

fn insert(alloc: Global, k: u16, graph: &mut Graph, acts: &mut Vec<Act>, before: &mut Vec<Place>) -> Option<()> {
    let hold = if k == 0 { Hold::Alone } else { Hold::Shared };
    make(alloc, graph, acts, Event::Gate { gate: Gate::Update, hold })?;
    let block = graph.blocks.wrapping_sub(1);
    let place = match graph.place_on(block, 0) {
        Some(place) => place,
        None => graph.new_place(0)?,
    };
    let mut lists: Listed<Option<Tid>> = Listed::new(alloc);
    for slot in 0..4usize {
        lists.push(before.as_slice().get(slot).map(|p| p.at)).ok()?;
    }
    let id = HeapId::new(1, k.wrapping_add(1))?;
    let put = Event::Put {
        at: place.at,
        list_at: place.list_at,
        version: place.version,
        level: 0,
        id,
        bits: Bits::zeros(alloc, 64).ok()?,
        lists,
    };
    make(alloc, graph, acts, put)?;
    if k == 0 {
        make(alloc, graph, acts, Event::Entry { to: Some(place.at), level: 0 })?;
    }
    link_back(alloc, k, place.at, graph, acts, before.as_slice())?;
    make(alloc, graph, acts, Event::Ungate { gate: Gate::Update })?;
    before.push(place).ok()?;
    Some(())
}

fn link_back(alloc: Global, k: u16, to: Tid, graph: &mut Graph, acts: &mut Vec<Act>, before: &[Place]) -> Option<()> {
    for owner in before.iter().rev().take(7) {
        let link = Event::Link {
            at: owner.at,
            list_at: owner.list_at,
            version: owner.version,
            slot: k % 4,
            to,
        };
        make(alloc, graph, acts, link)?;
    }
    Some(())
}

fn make(alloc: Global, graph: &mut Graph, acts: &mut Vec<Act>, event: Event) -> Option<()> {
    graph.apply(255, &event, alloc).ok()?;
    acts.push(Act { desk: 1, event }).ok()?;
    Some(())
}
RATTLE
for rounds in 0 1 10; do
    start=$(date +%s.%N)
    acts=$("$program" 55 "$rounds")
    end=$(date +%s.%N)
    echo "$acts acts judged $rounds times: $(echo "$end - $start" | bc) seconds"
done
