//! An engine with binary heaps in plain Rust, for bench/engine.
#![allow(dead_code)]

mod run;

use std::cmp::Reverse;
use std::collections::BinaryHeap;

use run::{Ending, Hop, Release, Verdict};

const M: u128 = 1_000_000_000_000;

// The ports of a leg stand at these places among those of its sender.
struct Leg {
    first: usize,
    ports: usize,
}

struct Sender {
    path: Vec<usize>,
    legs: Vec<Leg>,
    // The legs that begin at each place: their first port leaves the node that the port there leaves.
    begin: Vec<Vec<usize>>,
    class: usize,
    rate: u128,
    burst: u128,
    least: u32,
    most: u32,
    // When the bucket was full, multiplied by the rate, in front of each port of the path.
    full: Vec<u128>,
}

#[derive(Clone, Copy, PartialEq, Eq, PartialOrd, Ord)]
struct Queued {
    eligible: u64,
    frame: u32,
    row: u32,
}

struct Port {
    ps_per_bit: u64,
    latency: u64,
    residence: u64,
    queues: [BinaryHeap<Reverse<Queued>>; 8],
    free_at: u64,
    is_sending: bool,
    is_selecting: bool,
    arrives_from: u64,
    group_times: [u64; 8],
}

// A row for each leg of each frame: first the trunks, frame by frame, and then the copies.
#[derive(Clone, Copy)]
struct Journey {
    release: Release,
    ending: Ending,
    frame: u32,
    leg: u32,
    first: u32,
    count: u32,
}

// The order of what happens at one time.
const END: u8 = 0;
const ARRIVAL: u8 = 1;
const ELIGIBLE: u8 = 2;
const SELECTION: u8 = 3;

#[derive(Clone, Copy, PartialEq, Eq, PartialOrd, Ord)]
struct Event {
    at: u64,
    phase: u8,
    // A port in the phase of selection, and else a row.
    id: u32,
}

struct Engine {
    ports: Vec<Port>,
    senders: Vec<Sender>,
    journeys: Vec<Journey>,
    // Of each frame the row of its first copy, or where it would be.
    copies: Vec<u32>,
    hops: Vec<Hop>,
    agenda: BinaryHeap<Reverse<Event>>,
}

impl Engine {
    fn open(mut ports: Vec<Port>, senders: Vec<Sender>, releases: &[Release]) -> Engine {
        let mut rooms = vec![[0; 8]; ports.len()];
        let rows = releases.iter().map(|release| senders[release.sender as usize].legs.len()).sum();
        let mut journeys = Vec::with_capacity(rows);
        let mut agenda = BinaryHeap::with_capacity(rows + ports.len());
        let mut first = 0;
        for (frame, release) in releases.iter().enumerate() {
            let sender = &senders[release.sender as usize];
            for port in &sender.path {
                rooms[*port][sender.class] += 1;
            }
            journeys.push(Journey {
                release: *release,
                ending: Ending::Discard,
                frame: frame as u32,
                leg: 0,
                first,
                count: 0,
            });
            first += sender.path.len() as u32;
            agenda.push(Reverse(Event { at: release.at, phase: ARRIVAL, id: frame as u32 }));
        }
        let mut copies = Vec::with_capacity(releases.len());
        for (frame, release) in releases.iter().enumerate() {
            copies.push(journeys.len() as u32);
            let trunk = journeys[frame];
            for (leg, places) in senders[release.sender as usize].legs.iter().enumerate().skip(1) {
                journeys.push(Journey { leg: leg as u32, first: trunk.first + places.first as u32, ..trunk });
            }
        }
        for (port, rooms) in ports.iter_mut().zip(rooms) {
            port.queues = rooms.map(BinaryHeap::with_capacity);
        }
        let none = Hop { arrival: 0, verdict: Verdict::Size, sent: None };
        Engine { ports, senders, journeys, copies, hops: vec![none; first as usize], agenda }
    }

    fn enter(&mut self, at: u64, phase: u8, id: u32) {
        self.agenda.push(Reverse(Event { at, phase, id }));
    }

    // The place of the port at which a leg of a frame is, or behind which it is.
    fn place(&self, journey: &Journey) -> usize {
        let sender = &self.senders[journey.release.sender as usize];
        sender.legs[journey.leg as usize].first + journey.count as usize - 1
    }

    fn verdict(&mut self, journey: &Journey, at: u64) -> Verdict {
        let Release { sender, octets, .. } = journey.release;
        let sender = &mut self.senders[sender as usize];
        if journey.count == 0 {
            return Verdict::Eligible(at);
        }
        let place = sender.legs[journey.leg as usize].first + journey.count as usize;
        if octets < sender.least || octets > sender.most {
            return Verdict::Size;
        }
        if sender.class == 0 {
            return Verdict::Eligible(at);
        }
        let before = &mut self.ports[sender.path[place - 1]];
        let full = &mut sender.full[place];
        let bits = M * (8 * (u128::from(octets) + 20));
        let filled = (*full + bits).saturating_sub(M * sender.burst).div_ceil(sender.rate) as u64;
        let eligible = at.max(before.group_times[sender.class]).max(filled);
        if eligible > at + before.residence {
            return Verdict::Late(eligible);
        }
        before.group_times[sender.class] = eligible;
        *full = (*full).max(u128::from(eligible) * sender.rate) + bits;
        Verdict::Eligible(eligible)
    }

    // What was decided on a frame that came at a time holds at the next port of a leg.
    fn record(&mut self, row: u32, at: u64, verdict: Verdict) {
        let journey = &mut self.journeys[row as usize];
        self.hops[(journey.first + journey.count) as usize] = Hop { arrival: at, verdict, sent: None };
        journey.count += 1;
        match verdict {
            Verdict::Eligible(eligible) => self.enter(eligible, ELIGIBLE, row),
            _ => journey.ending = Ending::Discard,
        }
    }

    fn come(&mut self, row: u32, at: u64) {
        let journey = self.journeys[row as usize];
        let verdict = self.verdict(&journey, at);
        self.record(row, at, verdict);
        let sender = journey.release.sender as usize;
        let place = self.senders[sender].legs[journey.leg as usize].first + journey.count as usize;
        for k in 0..self.senders[sender].begin[place].len() {
            let leg = self.senders[sender].begin[place][k] as u32;
            self.record(self.copies[journey.frame as usize] + leg - 1, at, verdict);
        }
    }

    fn become_eligible(&mut self, row: u32, at: u64) {
        let journey = self.journeys[row as usize];
        let place = self.place(&journey);
        let sender = &self.senders[journey.release.sender as usize];
        let number = sender.path[place];
        let port = &mut self.ports[number];
        port.queues[sender.class].push(Reverse(Queued { eligible: at, frame: journey.frame, row }));
        if !port.is_sending && !port.is_selecting {
            port.is_selecting = true;
            self.enter(at, SELECTION, number as u32);
        }
    }

    fn select(&mut self, number: u32, at: u64) {
        let port = &mut self.ports[number as usize];
        let is_held = |class: &usize| port.queues[*class].peek().is_some_and(|first| first.0.eligible <= at);
        let class = (0..8).rev().find(is_held).unwrap();
        let row = port.queues[class].pop().unwrap().0.row;
        let journey = self.journeys[row as usize];
        let end = at + port.ps_per_bit * 8 * (u64::from(journey.release.octets) + 20);
        self.hops[(journey.first + journey.count - 1) as usize].sent = Some((at, end));
        port.free_at = end;
        port.is_selecting = false;
        port.is_sending = true;
        self.enter(end, END, row);
    }

    fn end(&mut self, row: u32, at: u64) {
        let place = self.place(&self.journeys[row as usize]);
        let journey = &mut self.journeys[row as usize];
        let sender = &self.senders[journey.release.sender as usize];
        let number = sender.path[place];
        let port = &mut self.ports[number];
        let arrival = (at + port.latency).max(port.arrives_from);
        port.arrives_from = arrival + 1;
        port.is_sending = false;
        let next = port.queues.iter().filter_map(|queue| queue.peek()).map(|first| first.0.eligible).min();
        let next = next.map(|eligible| eligible.max(port.free_at));
        port.is_selecting = next.is_some();
        if journey.count as usize == sender.legs[journey.leg as usize].ports {
            journey.ending = Ending::Sink(arrival);
        } else {
            self.enter(arrival, ARRIVAL, row);
        }
        if let Some(next) = next {
            self.enter(next, SELECTION, number as u32);
        }
    }

    fn run(&mut self) {
        while let Some(Reverse(event)) = self.agenda.pop() {
            match event.phase {
                END => self.end(event.id, event.at),
                ARRIVAL => self.come(event.id, event.at),
                ELIGIBLE => self.become_eligible(event.id, event.at),
                _ => self.select(event.id, event.at),
            }
        }
    }

    fn sum(&self) -> u64 {
        let mut sum = 0u64;
        for frame in 0..self.copies.len() {
            let end = self.copies.get(frame + 1).map_or(self.journeys.len(), |first| *first as usize);
            let copies = &self.journeys[self.copies[frame] as usize..end];
            for journey in std::iter::once(&self.journeys[frame]).chain(copies) {
                for hop in &self.hops[journey.first as usize..(journey.first + journey.count) as usize] {
                    sum = sum.wrapping_mul(31).wrapping_add(hop.arrival);
                    if let Some((start, end)) = hop.sent {
                        sum = sum.wrapping_mul(31).wrapping_add(start).wrapping_mul(31).wrapping_add(end);
                    }
                }
            }
        }
        sum
    }
}

fn numbers(line: &str) -> Vec<u64> {
    line.split(' ').map(|word| word.parse().unwrap()).collect()
}

fn port(line: &str) -> Port {
    let n = numbers(line);
    Port {
        ps_per_bit: n[0],
        latency: n[1],
        residence: n[2],
        queues: Default::default(),
        free_at: 0,
        is_sending: false,
        is_selecting: false,
        arrives_from: 0,
        group_times: [0; 8],
    }
}

// The numbers of a sender, its trunk's ports, and behind each `|` the place where a branch begins, and its ports.
fn sender(line: &str) -> Sender {
    let mut parts = line.split(" | ");
    let n = numbers(parts.next().unwrap());
    let mut path: Vec<usize> = n[5..].iter().map(|port| *port as usize).collect();
    let mut legs = vec![Leg { first: 0, ports: path.len() }];
    let mut places = Vec::new();
    for part in parts {
        let branch = numbers(part);
        places.push(branch[0] as usize);
        legs.push(Leg { first: path.len(), ports: branch.len() - 1 });
        path.extend(branch[1..].iter().map(|port| *port as usize));
    }
    let mut begin = vec![Vec::new(); path.len()];
    for (k, place) in places.iter().enumerate() {
        begin[*place].push(k + 1);
    }
    Sender {
        legs,
        begin,
        class: n[0] as usize,
        rate: u128::from(n[1]),
        burst: u128::from(n[2]),
        least: n[3] as u32,
        most: n[4] as u32,
        full: vec![0; path.len()],
        path,
    }
}

fn release(line: &str) -> Release {
    let n = numbers(line);
    Release { at: n[0], sender: n[1] as u32, octets: n[2] as u32 }
}

fn main() {
    let words: Vec<String> = std::env::args().skip(1).collect();
    let network = std::fs::read_to_string(&words[1]).unwrap();
    let (ports, senders) = network.split_once("\n\n").unwrap();
    let ports = ports.lines().map(port).collect();
    let senders = senders.lines().map(sender).collect();
    let releases: Vec<Release> = std::fs::read_to_string(&words[2]).unwrap().lines().map(release).collect();
    let mut answer = releases.len() as u64;
    if words[0] != "read" {
        let mut engine = Engine::open(ports, senders, &releases);
        if words[0] != "open" {
            engine.run();
            if words[0] == "sum" {
                answer = engine.sum();
            }
        }
    }
    println!("{answer}");
}
