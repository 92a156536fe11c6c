//! The index over plain arrays, by the same rules as the program: it reads a script of `create hnsw hamming`, `insert` and `search` lines
//! and prints the same replies, with the places that nodes would have on pages. To standard error it tells how long inserts and searches
//! took, and how many distances they computed. Not read by the gate. Compile: rustc --edition 2021 -O bench/plain_hnsw.rs
use std::cmp::Reverse;
use std::collections::BinaryHeap;
use std::io::{Read, Write};
use std::time::{Duration, Instant};

const NONE: u32 = u32::MAX;
/// What is known of an element on the way: its distance, its place as one number, and its index.
type Key = (u32, u64, u32);

struct Node {
    level: usize,
    ids: Vec<String>,
    place: u64,
    /// 2m slots of layer 0, and then m of each layer above.
    slots: Vec<u32>,
}

/// The pages as far as they decide where a node comes to stand: free bytes and items of each block from 1 on.
struct Pages {
    free: Vec<usize>,
    items: Vec<u64>,
    hint: usize,
}

impl Pages {
    fn need(len: usize) -> usize {
        (len + 7) / 8 * 8 + 4
    }
    /// The place of a node whose element and list have these lengths; both fit one page.
    fn put(&mut self, element: usize, list: usize, level: usize) -> u64 {
        let need = Self::need(element) + Self::need(list);
        let found = (self.hint..=self.free.len()).find(|block| self.free[block - 1] >= need);
        let block = found.unwrap_or_else(|| {
            self.free.push(8160);
            self.items.push(0);
            self.free.len()
        });
        self.free[block - 1] -= need;
        let off = self.items[block - 1] + 1;
        self.items[block - 1] += 2;
        if level == 0 {
            self.hint = block;
        }
        ((block as u64) << 16) | off
    }
}

struct Index {
    m: usize,
    ef: usize,
    bits: usize,
    words: usize,
    nodes: Vec<Node>,
    values: Vec<u64>,
    entry: Option<u32>,
    pages: Pages,
    visited: Vec<u32>,
    round: u32,
    distances: u64,
}

impl Index {
    fn value(&self, at: u32) -> &[u64] {
        &self.values[at as usize * self.words..(at as usize + 1) * self.words]
    }
    fn between(&mut self, a: &[u64], b: u32) -> u32 {
        self.distances += 1;
        distance(a, self.value(b))
    }
    fn slots_of(&self, at: u32, layer: usize) -> std::ops::Range<usize> {
        let _ = at;
        if layer == 0 {
            0..2 * self.m
        } else {
            2 * self.m + (layer - 1) * self.m..2 * self.m + layer * self.m
        }
    }

    /// Algorithm 2: the first ef found, nearest first.
    fn search_layer(&mut self, query: &[u64], from: &[Key], ef: usize, layer: usize) -> Vec<Key> {
        self.round += 1;
        self.visited.resize(self.nodes.len(), 0);
        let mut open: BinaryHeap<Reverse<Key>> = BinaryHeap::new();
        let mut found: BinaryHeap<Key> = BinaryHeap::new();
        for key in from {
            self.visited[key.2 as usize] = self.round;
            open.push(Reverse(*key));
            found.push(*key);
        }
        while found.len() > ef {
            found.pop();
        }
        while let Some(Reverse(near)) = open.pop() {
            if found.len() >= ef && near > *found.peek().unwrap() {
                break;
            }
            for slot in self.slots_of(near.2, layer) {
                let to = self.nodes[near.2 as usize].slots[slot];
                if to == NONE || self.visited[to as usize] == self.round {
                    continue;
                }
                self.visited[to as usize] = self.round;
                let key = (self.between(query, to), self.nodes[to as usize].place, to);
                if found.len() < ef || key < *found.peek().unwrap() {
                    open.push(Reverse(key));
                    found.push(key);
                    if found.len() > ef {
                        found.pop();
                    }
                }
            }
        }
        found.into_sorted_vec()
    }

    /// Algorithm 4 with those set aside behind the chosen ones: indices into `found`.
    fn pick(&mut self, found: &[Key], value_of: &dyn Fn(&Self, usize) -> Vec<u64>, count: usize) -> Vec<usize> {
        let mut chosen: Vec<usize> = Vec::new();
        let mut aside: Vec<usize> = Vec::new();
        let mut values: Vec<Vec<u64>> = Vec::new();
        for (i, key) in found.iter().enumerate() {
            if chosen.len() >= count {
                break;
            }
            let value = value_of(self, i);
            self.distances += values.len() as u64;
            if values.iter().all(|other| distance(&value, other) > key.0) {
                chosen.push(i);
                values.push(value);
            } else {
                aside.push(i);
            }
        }
        for i in aside {
            if chosen.len() >= count {
                break;
            }
            chosen.push(i);
        }
        chosen
    }

    /// The slot of a neighbour's layer that a new node comes into.
    fn slot_for(&mut self, owner: u32, layer: usize, entrant: u32) -> Option<usize> {
        let range = self.slots_of(owner, layer);
        let slots: Vec<u32> = self.nodes[owner as usize].slots[range.clone()].to_vec();
        if slots.contains(&entrant) {
            return None;
        }
        if let Some(empty) = slots.iter().position(|slot| *slot == NONE) {
            return Some(range.start + empty);
        }
        let value = self.value(owner).to_vec();
        let mut members: Vec<(Key, Option<usize>)> = Vec::new();
        for (i, slot) in slots.iter().enumerate() {
            members.push(((self.between(&value, *slot), self.nodes[*slot as usize].place, *slot), Some(i)));
        }
        members.push(((self.between(&value, entrant), self.nodes[entrant as usize].place, entrant), None));
        members.sort_by_key(|member| (member.0.0, member.0.1));
        let keys: Vec<Key> = members.iter().map(|member| member.0).collect();
        let at: Vec<u32> = keys.iter().map(|key| key.2).collect();
        let chosen = self.pick(&keys, &|index: &Self, i| index.value(at[i]).to_vec(), slots.len());
        let left = (0..keys.len()).find(|i| !chosen.contains(i))?;
        members[left].1.map(|slot| range.start + slot)
    }

    fn insert(&mut self, id: &str, value: &[u64], level: usize) -> String {
        let top = self.entry.map(|entry| self.nodes[entry as usize].level);
        let mut lists: Vec<(usize, Vec<u32>)> = Vec::new();
        if let (Some(entry), Some(top)) = (self.entry, top) {
            let mut from = vec![(self.between(value, entry), self.nodes[entry as usize].place, entry)];
            for layer in (level + 1..=top).rev() {
                from = self.search_layer(value, &from, 1, layer);
            }
            for layer in (0..=level.min(top)).rev() {
                from = self.search_layer(value, &from, self.ef, layer);
                let at: Vec<u32> = from.iter().map(|key| key.2).collect();
                let count = if layer == 0 { 2 * self.m } else { self.m };
                let chosen = self.pick(&from.clone(), &|index: &Self, i| index.value(at[i]).to_vec(), count);
                lists.push((layer, chosen.iter().map(|i| at[*i]).collect()));
            }
            for key in &from {
                let node = &mut self.nodes[key.2 as usize];
                if key.0 == 0 && node.ids.len() < 10 {
                    node.ids.push(id.to_string());
                    return format!("joined {}\n", shown(node.place));
                }
            }
        }
        let slots = (level + 2) * self.m;
        let place = self.pages.put(80 + (self.bits + 7) / 8, 4 + 6 * slots, level);
        let at = self.nodes.len() as u32;
        let mut node = Node { level, ids: vec![id.to_string()], place, slots: vec![NONE; slots] };
        for (layer, list) in &lists {
            let start = self.slots_of(at, *layer).start;
            node.slots[start..start + list.len()].copy_from_slice(list);
        }
        self.nodes.push(node);
        self.values.extend_from_slice(value);
        for (layer, list) in &lists {
            for neighbour in list {
                if let Some(slot) = self.slot_for(*neighbour, *layer, at) {
                    self.nodes[*neighbour as usize].slots[slot] = at;
                }
            }
        }
        if top.is_none_or(|top| level > top) {
            self.entry = Some(at);
        }
        format!("put {} level {} version 1\n", shown(place), level)
    }

    fn search(&mut self, query: &[u64], limit: usize, ef: usize) -> String {
        let mut hits = String::new();
        let mut count = 0;
        if let Some(entry) = self.entry {
            let mut from = vec![(self.between(query, entry), self.nodes[entry as usize].place, entry)];
            for layer in (1..=self.nodes[entry as usize].level).rev() {
                from = self.search_layer(query, &from, 1, layer);
            }
            for key in self.search_layer(query, &from, ef, 0) {
                for id in &self.nodes[key.2 as usize].ids {
                    if count < limit {
                        hits += &format!("hit {} {}\n", id, key.0);
                        count += 1;
                    }
                }
            }
        }
        hits + &format!("hits {}\n", count)
    }
}

fn distance(a: &[u64], b: &[u64]) -> u32 {
    a.iter().zip(b).map(|(x, y)| (x ^ y).count_ones()).sum()
}

fn shown(place: u64) -> String {
    format!("{}/{}", place >> 16, place & 0xffff)
}

fn packed(text: &str) -> Vec<u64> {
    let mut words = vec![0u64; (text.len() + 63) / 64];
    for (i, byte) in text.bytes().enumerate() {
        words[i / 64] |= u64::from(byte - b'0') << (i % 64);
    }
    words
}

/// The level of a word: each further one comes with one chance in m.
fn level_of(word: u64, m: usize) -> usize {
    let mut reaching = 1u128 << 64;
    let most = (1358 / m - 2).min(255);
    for level in 0..most {
        reaching /= m as u128;
        if u128::from(word) >= reaching {
            return level;
        }
    }
    most
}

fn main() {
    let mut script = String::new();
    std::io::stdin().read_to_string(&mut script).unwrap();
    let mut index: Option<Index> = None;
    let mut out = String::new();
    let (mut inserting, mut searching) = (Duration::ZERO, Duration::ZERO);
    let (mut inserts, mut searches, mut before) = (0u64, 0u64, 0u64);
    for line in script.lines() {
        let words: Vec<&str> = line.split(' ').collect();
        let began = Instant::now();
        match words[0] {
            "create" => {
                let number = |name: &str, or: usize| words.iter().position(|w| *w == name).map_or(or, |i| words[i + 1].parse().unwrap());
                let bits: usize = words[3].parse().unwrap();
                index = Some(Index {
                    m: number("m", 16), ef: number("ef", 64), bits, words: (bits + 63) / 64, nodes: Vec::new(), values: Vec::new(),
                    entry: None, pages: Pages { free: Vec::new(), items: Vec::new(), hint: 1 }, visited: Vec::new(), round: 0, distances: 0,
                });
                out += "created blocks 1 entries 0\n";
            }
            "insert" => {
                let index = index.as_mut().unwrap();
                let level = level_of(words[3].parse().unwrap(), index.m);
                out += &index.insert(words[1], &packed(words[2]), level);
                inserting += began.elapsed();
                inserts += 1;
                before = index.distances;
            }
            "search" => {
                let index = index.as_mut().unwrap();
                let ef = words.iter().position(|w| *w == "ef").map_or(40, |i| words[i + 1].parse().unwrap());
                out += &index.search(&packed(words[1]), words[3].parse().unwrap(), ef);
                searching += began.elapsed();
                searches += 1;
            }
            _ => {}
        }
    }
    std::io::stdout().write_all(out.as_bytes()).unwrap();
    let all = index.map_or(0, |index| index.distances);
    eprintln!("{inserts} inserts in {:.2} s, {before} distances", inserting.as_secs_f64());
    eprintln!("{searches} searches in {:.3} s, {} distances", searching.as_secs_f64(), all - before);
}
