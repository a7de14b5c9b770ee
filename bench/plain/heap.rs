//! Binary heaps, and a leftist heap in an array, in plain Rust, for bench/heap.

use std::cmp::Reverse;
use std::collections::BinaryHeap;

#[derive(Clone, Copy, PartialEq, Eq, PartialOrd, Ord)]
struct Entry {
    at: u64,
    phase: u8,
    id: u32,
    event: u32,
}

#[derive(Clone, Copy, PartialEq, Eq, PartialOrd, Ord)]
struct Queued {
    eligible: u64,
    frame: u32,
    sender: u32,
    octets: u32,
}

// A leftist heap: nodes in an array that name their children by number, and a list of the free ones.
struct Leftist<T> {
    nodes: Vec<Node<T>>,
    top: u32,
    free: u32,
}

struct Node<T> {
    item: T,
    left: u32,
    right: u32,
    rank: u32,
}

const NONE: u32 = u32::MAX;

impl<T: Ord + Copy> Leftist<T> {
    fn rank(&self, node: u32) -> u32 {
        if node == NONE { 0 } else { self.nodes[node as usize].rank }
    }

    fn merge(&mut self, mut a: u32, mut b: u32) -> u32 {
        if a == NONE || b == NONE {
            return a.min(b);
        }
        if self.nodes[b as usize].item < self.nodes[a as usize].item {
            std::mem::swap(&mut a, &mut b);
        }
        let right = self.merge(self.nodes[a as usize].right, b);
        let left = self.nodes[a as usize].left;
        let (left, right) = if self.rank(left) < self.rank(right) { (right, left) } else { (left, right) };
        let rank = self.rank(right) + 1;
        let node = &mut self.nodes[a as usize];
        (node.left, node.right, node.rank) = (left, right, rank);
        a
    }

    fn push(&mut self, item: T) {
        let node = Node { item, left: NONE, right: NONE, rank: 1 };
        let mut place = self.free;
        if place == NONE {
            place = self.nodes.len() as u32;
            self.nodes.push(node);
        } else {
            self.free = self.nodes[place as usize].left;
            self.nodes[place as usize] = node;
        }
        self.top = self.merge(self.top, place);
    }

    fn pop(&mut self) -> Option<T> {
        let top = self.top;
        let node = self.nodes.get(top as usize)?;
        let (item, left, right) = (node.item, node.left, node.right);
        self.top = self.merge(left, right);
        self.nodes[top as usize].left = self.free;
        self.free = top;
        Some(item)
    }
}

fn is_leftist_in_order(entries: u32) -> bool {
    let mut heap = Leftist { nodes: Vec::with_capacity(entries as usize), top: NONE, free: NONE };
    for k in 0..entries {
        heap.push(Entry { at: u64::from(k) * 7919 % u64::from(entries), phase: 1, id: k, event: k });
    }
    (0..u64::from(entries)).all(|time| heap.pop().is_some_and(|least| least.at == time)) && heap.pop().is_none()
}

// Fills a heap and empties it; whether the times come from 0 on, one after another.
fn is_in_order<T: Ord>(entries: u32, entry: impl Fn(u32, u64) -> T, time_of: impl Fn(&T) -> u64) -> bool {
    let mut heap = BinaryHeap::with_capacity(entries as usize);
    for k in 0..entries {
        heap.push(Reverse(entry(k, u64::from(k) * 7919 % u64::from(entries))));
    }
    (0..u64::from(entries)).all(|time| heap.pop().is_some_and(|least| time_of(&least.0) == time)) && heap.is_empty()
}

fn main() {
    let words: Vec<String> = std::env::args().skip(1).collect();
    let entries = words[1].parse().unwrap();
    let ok = if words[0] == "leftist" {
        is_leftist_in_order(entries)
    } else if words[0] == "agenda" {
        is_in_order(entries, |k, at| Entry { at, phase: 1, id: k, event: k }, |entry| entry.at)
    } else {
        let made = |k, eligible| Queued { eligible, frame: k, sender: 0, octets: 64 };
        is_in_order(entries, made, |queued| queued.eligible)
    };
    std::process::exit(i32::from(!ok));
}
