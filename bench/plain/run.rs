//! What the plain programs record of a run: its releases, and what happens to each frame at each hop.
#![allow(dead_code)]

#[derive(Clone, Copy)]
pub struct Release {
    pub at: u64,
    pub sender: u32,
    pub octets: u32,
}

#[derive(Clone, Copy)]
pub enum Verdict {
    Eligible(u64),
    Late(u64),
    Size,
}

#[derive(Clone, Copy)]
pub struct Hop {
    pub arrival: u64,
    pub verdict: Verdict,
    pub sent: Option<(u64, u64)>,
}

#[derive(Clone, Copy)]
pub enum Ending {
    Sink(u64),
    Discard,
}
