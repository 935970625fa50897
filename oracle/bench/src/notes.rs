//! A gossip history among 16 desks, as rows of numbers for the port and as events for the original.

use moirai_protocol::{
    broadcast::internalizer::Resolver,
    clock::{causal_frontier::CausalFrontier, version_vector::Version},
    event::{Event, id::EventId, lamport::Lamport},
    replica::{ReplicaId, ReplicaIdx},
};

pub const DESKS: usize = 16;
/// Numbers in a row: origin, sequence, Lamport number, payload, then the version.
pub const ROW: usize = 4 + DESKS;

struct Random(u64);

impl Random {
    fn below(&mut self, n: usize) -> usize {
        self.0 = self.0.wrapping_add(0x9E37_79B9_7F4A_7C15);
        let mut z = self.0;
        z = (z ^ (z >> 30)).wrapping_mul(0xBF58_476D_1CE4_E5B9);
        z = (z ^ (z >> 27)).wrapping_mul(0x94D0_49BB_1331_11EB);
        ((z ^ (z >> 31)) % n as u64) as usize
    }
}

#[derive(Clone)]
pub struct Note {
    pub origin: usize,
    pub seq: usize,
    pub lamport: usize,
    pub payload: usize,
    pub version: [usize; DESKS],
}

fn heard(mine: &mut [usize; DESKS], other: &[usize; DESKS]) {
    mine.iter_mut().zip(other).for_each(|(m, &o)| *m = o.max(*m));
}

/// `count` notes. Before each its desk hears of another; in the middle one desk hears of all, and all hear of that note, so
/// that half of them can be flushed. With `each` every desk writes so many notes in turn.
pub fn gossip(count: usize, seed: u64, in_turn: bool) -> Vec<Note> {
    written(count, seed, |i, random| if in_turn { i % DESKS } else { random.below(DESKS) })
}

/// 512 notes, of which one desk writes 392 and every other one 8.
pub fn busy(seed: u64) -> Vec<Note> {
    written(512, seed, |i, _| if i % 4 == 3 && i / 4 < 120 { 1 + i / 4 % 15 } else { 0 })
}

fn written(count: usize, seed: u64, writer: impl Fn(usize, &mut Random) -> usize) -> Vec<Note> {
    let mut random = Random(seed);
    let mut clocks = [[0usize; DESKS]; DESKS];
    let mut notes = Vec::with_capacity(count);
    for i in 0..count {
        let desk = writer(i, &mut random);
        let other = random.below(DESKS);
        let heard_of = clocks[other];
        heard(&mut clocks[desk], &heard_of);
        let middle = i + 1 == count / 2;
        if middle {
            for other in 0..DESKS {
                let all = clocks[other];
                heard(&mut clocks[desk], &all);
            }
        }
        clocks[desk][desk] += 1;
        if middle {
            clocks = [clocks[desk]; DESKS];
        }
        notes.push(Note {
            origin: desk,
            seq: clocks[desk][desk],
            lamport: i + 1,
            payload: 1000 + i,
            version: clocks[desk],
        });
    }
    notes
}

pub fn rows(notes: &[Note]) -> Vec<usize> {
    notes
        .iter()
        .flat_map(|n| [n.origin, n.seq, n.lamport, n.payload].into_iter().chain(n.version))
        .collect()
}

pub fn names() -> Resolver {
    Resolver::new((0..DESKS).map(|i| ReplicaId(format!("desk{i}"))).collect())
}

pub fn id(names: &Resolver, n: &Note) -> EventId {
    EventId::new(ReplicaIdx(n.origin), n.seq, names.clone())
}

pub fn version(names: &Resolver, n: &Note) -> Version {
    let mut version = Version::new(ReplicaIdx(n.origin), names.clone());
    for (i, &entry) in n.version.iter().enumerate() {
        version.set_by_idx(ReplicaIdx(i), entry);
    }
    version
}

pub fn frontier(names: &Resolver, n: &Note) -> CausalFrontier {
    let mut frontier = CausalFrontier::new(names.clone());
    for (i, &entry) in n.version.iter().enumerate() {
        frontier.set_by_idx(ReplicaIdx(i), entry);
    }
    frontier
}

pub fn event(names: &Resolver, n: &Note) -> Event<u64> {
    Event::new(id(names, n), Lamport(n.lamport as u64), n.payload as u64, version(names, n))
}
