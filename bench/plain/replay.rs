//! The reader of schedules and the printer of runs in plain Rust, for bench/replay.

mod run;

use std::collections::HashMap;
use std::io::Write;

use run::{Ending, Hop, Release, Verdict};

struct Run {
    journeys: Vec<(Release, Ending)>,
    spans: Vec<(u32, u32)>,
    hops: Vec<Hop>,
}

// The senders of a network file as bench/replay makes it, in order: their names, and their ports as they are written.
struct Network {
    names: Vec<String>,
    paths: Vec<Vec<String>>,
}

fn network(text: &str) -> Network {
    let mut network = Network { names: Vec::new(), paths: Vec::new() };
    let mut is_sender = false;
    for line in text.lines() {
        if line.starts_with("[[") {
            is_sender = line == "[[stream]]" || line == "[[flow]]";
        } else if let Some(name) = line.strip_prefix("name = ").filter(|_| is_sender) {
            network.names.push(name.trim_matches('"').to_string());
        } else if let Some(nodes) = line.strip_prefix("path = ") {
            let nodes = nodes.trim_matches(['[', ']']).split(", ").map(|node| node.trim_matches('"'));
            let nodes: Vec<&str> = nodes.collect();
            let ports = nodes.windows(2).map(|pair| format!("{}>{}", pair[0], pair[1]));
            network.paths.push(ports.collect());
        }
    }
    network
}

// A number as digits alone, with no zero before another digit.
fn number(field: &[u8]) -> Option<u64> {
    if field.is_empty() || field.len() > 18 || field[0] == b'0' && field.len() > 1 {
        return None;
    }
    field.iter().try_fold(0, |n, &byte| byte.is_ascii_digit().then(|| 10 * n + u64::from(byte - b'0')))
}

fn schedule(file: &[u8], network: &Network) -> Option<Vec<Release>> {
    let names = network.names.iter().enumerate();
    let places: HashMap<&[u8], u32> = names.map(|(i, n)| (n.as_bytes(), i as u32)).collect();
    let mut lines = file.split(|&byte| byte == b'\n').filter(|line| !line.is_empty());
    if lines.next()? != b"at_ps,sender,octets" {
        return None;
    }
    let (mut releases, mut last) = (Vec::new(), 0);
    for line in lines {
        let mut fields = line.split(|&byte| byte == b',');
        let (at, sender, octets) = (fields.next()?, fields.next()?, fields.next()?);
        let sender = *places.get(sender)?;
        let (at, octets) = (number(at)?, number(octets)?);
        if fields.next().is_some() || !(64..=2000).contains(&octets) || at < last || at > 100_000_000_000_000_000 {
            return None;
        }
        if releases.len() == 200_000 {
            return None;
        }
        last = at;
        releases.push(Release { at, sender, octets: octets as u32 });
    }
    Some(releases)
}

const HOPS: u32 = 8;

fn made(releases: &[Release]) -> Run {
    let mut run = Run {
        journeys: Vec::with_capacity(releases.len()),
        spans: Vec::with_capacity(releases.len()),
        hops: Vec::with_capacity(releases.len() * HOPS as usize),
    };
    for release in releases {
        let lasts = u64::from(release.octets + 20) * 8000;
        let mut arrival = release.at;
        run.spans.push((run.hops.len() as u32, HOPS));
        for _ in 0..HOPS {
            let end = arrival + lasts;
            run.hops.push(Hop { arrival, verdict: Verdict::Eligible(arrival), sent: Some((arrival, end)) });
            arrival = end + 1_500_000;
        }
        run.journeys.push((*release, Ending::Sink(arrival)));
    }
    run
}

// A word, and a number behind it.
fn put(out: &mut Vec<u8>, word: &[u8], mut n: u64) {
    out.extend_from_slice(word);
    let (mut digits, mut place) = ([0; 20], 20);
    loop {
        place -= 1;
        digits[place] = b'0' + (n % 10) as u8;
        n /= 10;
        if n == 0 {
            break;
        }
    }
    out.extend_from_slice(&digits[place..]);
}

fn departures(network: &Network, run: &Run) -> Vec<u8> {
    let mut out = Vec::new();
    let (mut sunk, mut late, mut size) = (0, 0, 0);
    for (frame, (release, ending)) in run.journeys.iter().enumerate() {
        put(&mut out, b"frame ", frame as u64);
        out.push(b' ');
        out.extend_from_slice(network.names[release.sender as usize].as_bytes());
        put(&mut out, b" ", u64::from(release.octets));
        put(&mut out, b" ", release.at);
        out.push(b'\n');
        let (first, count) = run.spans[frame];
        let hops = &run.hops[first as usize..(first + count) as usize];
        for (port, hop) in network.paths[release.sender as usize].iter().zip(hops) {
            out.extend_from_slice(b"hop ");
            out.extend_from_slice(port.as_bytes());
            put(&mut out, b" ", hop.arrival);
            match hop.verdict {
                Verdict::Eligible(at) => put(&mut out, b" eligible ", at),
                Verdict::Late(at) => put(&mut out, b" late ", at),
                Verdict::Size => out.extend_from_slice(b" size"),
            }
            if let Some((start, end)) = hop.sent {
                put(&mut out, b" start ", start);
                put(&mut out, b" end ", end);
            }
            out.push(b'\n');
        }
        match ending {
            Ending::Sink(at) => {
                put(&mut out, b"sink ", *at);
                out.push(b'\n');
                sunk += 1;
            }
            Ending::Discard => out.extend_from_slice(b"discard\n"),
        }
        match hops.last().map(|hop| hop.verdict) {
            Some(Verdict::Late(_)) => late += 1,
            Some(Verdict::Size) => size += 1,
            _ => {}
        }
    }
    put(&mut out, b"total frames ", run.journeys.len() as u64);
    put(&mut out, b" sunk ", sunk);
    put(&mut out, b" late ", late);
    put(&mut out, b" size ", size);
    out.push(b'\n');
    out
}

fn main() {
    let words: Vec<String> = std::env::args().skip(1).collect();
    let text = std::fs::read_to_string(&words[1]).unwrap();
    let network = network(&text);
    let answer = if words[0] == "network" {
        text.len()
    } else {
        let releases = schedule(&std::fs::read(&words[2]).unwrap(), &network).unwrap();
        if words[0] == "read" {
            releases.len()
        } else {
            let run = made(&releases);
            if words[0] == "made" {
                run.journeys.len()
            } else {
                let text = departures(&network, &run);
                if words.len() > 3 {
                    std::fs::File::create(&words[3]).unwrap().write_all(&text).unwrap();
                }
                text.len()
            }
        }
    };
    println!("{answer}");
}
