//! Clock lines: every word, on vectors that are often near each other.

use runs::{answer::Answer, lines::Id, random::Random};

use crate::{Page, Story, values::*};

#[derive(Default)]
pub struct Clocks {
    replicas: u64,
}

/// A vector near the given one, so that all four outcomes of a comparison are common.
fn near(random: &mut Random, vector: &[u64]) -> Vec<u64> {
    let mut other = vector.to_vec();
    for _ in 0..random.below(3) {
        nudge(random, &mut other);
    }
    shape(random, other)
}

impl Story for Clocks {
    fn step(&mut self, page: &mut Page) {
        if self.replicas == 0 || page.random.chance(2) {
            let bad = page.random.chance(20);
            let replicas = if bad {
                bad_replicas(&mut page.random)
            } else {
                replicas(&mut page.random)
            };
            if page.say(format!("c.replicas {replicas}")) == Answer::Done {
                self.replicas = page.probe.clocks.unwrap_or(0);
            }
            return;
        }
        let random = &mut page.random;
        let v = vector(random, self.replicas);
        let w = if random.chance(60) {
            near(random, &v)
        } else {
            vector(random, self.replicas)
        };
        let o = replica(random, self.replicas);
        let p = replica(random, self.replicas);
        let own = v.get(o as usize).copied().unwrap_or(0);
        let (vs, ws) = (spaced(&v), spaced(&w));
        let line = match random.below(12) {
            0 => format!("c.entry {o} {vs}"),
            1 => {
                let x = if random.chance(30) {
                    *random.pick(&EDGES)
                } else {
                    entry(random)
                };
                format!("c.set {o} {x} {vs}")
            }
            2 => format!("c.join {vs} | {ws}"),
            3 => format!("c.meet {vs} | {ws}"),
            4 => format!("c.compare {vs} | {ws}"),
            5 => format!("c.includes {vs} | {ws}"),
            6 => {
                let sequence = match random.below(5) {
                    0 => *random.pick(&EDGES),
                    1 => own.saturating_add(1),
                    2 => own.saturating_sub(1),
                    _ => own,
                };
                let id = Id {
                    replica: o,
                    sequence,
                    disambiguator: disambiguator(random),
                };
                format!("c.contains {} {vs}", id_words(&id))
            }
            7 => format!("c.sum {vs}"),
            8 => format!("c.increment {o} {vs}"),
            9 | 10 => format!("c.vjoin {o} {vs} | {p} {ws}"),
            _ => format!("c.dependencies {o} {vs}"),
        };
        page.say(line);
    }
}
