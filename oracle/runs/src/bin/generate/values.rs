//! Numbers, vectors and ids: mostly of the right shape, some at an edge, some past it.

pub use runs::text::{id_words, spaced};
use runs::{
    lines::{Event, TOP},
    random::Random,
    text::{event_words, without_final_zeros},
};

pub const EDGES: [u64; 8] = [0, 1, 2, TOP - 1, TOP, TOP + 1, u64::MAX - 1, u64::MAX];

/// Small counts more often than large ones.
pub fn replicas(random: &mut Random) -> u64 {
    match random.below(10) {
        0 => 1,
        1..=2 => 2,
        3..=4 => 3,
        5 => 16,
        _ => 1 + random.below(16),
    }
}

pub fn bad_replicas(random: &mut Random) -> u64 {
    *random.pick(&[0, 17, 18, TOP, u64::MAX])
}

/// A replica, in few cases one that there is not.
pub fn replica(random: &mut Random, replicas: u64) -> u64 {
    if random.chance(6) {
        *random.pick(&[replicas, replicas + 1, 15, 16, 17, TOP, u64::MAX])
    } else {
        random.below(replicas)
    }
}

pub fn disambiguator(random: &mut Random) -> Option<u32> {
    match random.below(10) {
        0..=5 => None,
        6..=7 => Some(0),
        8 => Some(1 + random.below(3) as u32),
        _ => Some(*random.pick(&[u32::MAX - 1, u32::MAX])),
    }
}

/// Few values, so that siblings often agree by chance too; some at the edges.
pub fn revision(random: &mut Random) -> u32 {
    match random.below(10) {
        0 => *random.pick(&[u32::MAX - 1, u32::MAX]),
        _ => random.below(4) as u32,
    }
}

pub fn anything(random: &mut Random) -> u64 {
    match random.below(4) {
        0 => *random.pick(&EDGES),
        1 => random.next(),
        _ => random.below(100),
    }
}

pub fn entry(random: &mut Random) -> u64 {
    match random.below(12) {
        0..=6 => random.below(4),
        7..=8 => random.below(1000),
        9 => random.below(TOP + 1),
        _ => *random.pick(&[0, 1, TOP - 1, TOP]),
    }
}

/// In some cases without final zeros, all of them or some.
pub fn shorten(random: &mut Random, mut vector: Vec<u64>) -> Vec<u64> {
    if random.chance(30) {
        let least = without_final_zeros(&vector).len();
        vector.truncate(least + random.index(vector.len() - least + 1));
    }
    vector
}

/// The vector as a line has it: shortened in some cases, in few misshapen. Then it has an entry above the top, or more entries than
/// there are desks, or an entry too few, which reads as 0.
pub fn shape(random: &mut Random, mut vector: Vec<u64>) -> Vec<u64> {
    if random.chance(95) {
        return shorten(random, vector);
    }
    let length = vector.len();
    match random.below(6) {
        0 => vector.truncate((length - 1).max(1)),
        1 => vector.push(*random.pick(&[0, 1])),
        2 => vector.resize(16, 0),
        3 => vector.resize(17, 0),
        _ => vector[random.index(length)] = *random.pick(&[TOP + 1, u64::MAX]),
    }
    vector
}

/// The words of an append, its version shortened in some cases.
pub fn append_words(random: &mut Random, event: &Event) -> String {
    event_words(&Event {
        version: shorten(random, event.version.clone()),
        ..event.clone()
    })
}

/// What a raise may be asked for: more desks as a rule, as many as there are, fewer, or what there cannot be.
pub fn raised(random: &mut Random, replicas: u64) -> u64 {
    match random.below(10) {
        0 => bad_replicas(random),
        1 => random.below(replicas),
        2 => replicas,
        3 => 16,
        _ => replicas + 1 + random.below(2),
    }
}

pub fn vector(random: &mut Random, replicas: u64) -> Vec<u64> {
    let vector = (0..replicas).map(|_| entry(random)).collect();
    shape(random, vector)
}

/// Moves one entry a little.
pub fn nudge(random: &mut Random, vector: &mut [u64]) {
    let at = random.index(vector.len());
    vector[at] = match random.below(4) {
        0 => vector[at].saturating_add(1),
        1 => 0,
        _ => vector[at].saturating_sub(1),
    };
}
