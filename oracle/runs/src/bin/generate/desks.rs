//! Desks that write notes and hear each other: the source of causally sound events.

use runs::{
    lines::{Event, Id, TOP, fill},
    model::join,
    random::Random,
};

use crate::values::{anything, revision};

#[derive(Default)]
pub struct Desks {
    /// What each desk has seen.
    seen: Vec<Vec<u64>>,
    clock: u64,
}

impl Desks {
    pub fn new(replicas: u64, base: &[u64]) -> Self {
        Self {
            seen: vec![base.to_vec(); replicas as usize],
            clock: 0,
        }
    }

    /// As many desks as there are now; a new one starts with what another has seen.
    pub fn raise(&mut self, random: &mut Random, replicas: u64) {
        for seen in &mut self.seen {
            fill(seen, replicas);
        }
        while (self.seen.len() as u64) < replicas {
            self.seen.push(self.some_seen(random));
        }
    }

    pub fn hear(&mut self, random: &mut Random) {
        let (listener, speaker) = (self.any(random), self.any(random));
        self.seen[listener] = join(&self.seen[listener], &self.seen[speaker]);
    }

    pub fn hear_of(&mut self, desk: usize, vector: &[u64]) {
        self.seen[desk] = join(&self.seen[desk], vector);
    }

    pub fn all_hear(&mut self, vector: &[u64]) {
        (0..self.seen.len()).for_each(|desk| self.hear_of(desk, vector));
    }

    pub fn any(&self, random: &mut Random) -> usize {
        random.index(self.seen.len())
    }

    /// A new event of this desk, `step` sequences further, with no disambiguator; none at the top.
    pub fn write(&mut self, random: &mut Random, desk: usize, step: u64) -> Option<Event> {
        let sequence = self.seen[desk][desk] + step;
        if sequence > TOP {
            return None;
        }
        self.seen[desk][desk] = sequence;
        self.clock += 1;
        let odd = random.chance(5);
        Some(Event {
            id: Id {
                replica: desk as u64,
                sequence,
                disambiguator: None,
            },
            lamport: if odd { anything(random) } else { self.clock },
            payload: if odd { anything(random) } else { 1000 + self.clock },
            revision: revision(random),
            version: self.seen[desk].clone(),
        })
    }

    /// What every desk has seen.
    pub fn common(&self) -> Vec<u64> {
        let mut common = self.seen[0].clone();
        for seen in &self.seen {
            for (entry, other) in common.iter_mut().zip(seen) {
                *entry = (*other).min(*entry);
            }
        }
        common
    }

    pub fn some_seen(&self, random: &mut Random) -> Vec<u64> {
        random.pick(&self.seen).clone()
    }
}
