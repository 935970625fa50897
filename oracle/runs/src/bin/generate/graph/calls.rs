//! What a story asks of the log, and how it makes it smaller.

use runs::lines::Id;

use super::GraphStory;
use crate::{Page, values::*};

impl GraphStory {
    /// An id that is held, was held, or may never have been.
    fn id(&self, page: &mut Page) -> Id {
        let graph = page.probe.graph.as_ref().unwrap();
        let random = &mut page.random;
        let mut id = match random.below(10) {
            0..=6 if !graph.held.is_empty() => random.pick(&graph.held).id,
            7..=8 if !self.brought.is_empty() => random.pick(&self.brought).id,
            _ => Id {
                replica: replica(random, graph.replicas),
                sequence: if random.chance(30) {
                    *random.pick(&EDGES)
                } else {
                    random.below(5)
                },
                disambiguator: None,
            },
        };
        if random.chance(8) {
            id.disambiguator = disambiguator(random);
        }
        id
    }

    /// From `first` as many numbers as are held; in few cases another.
    fn number(&self, page: &mut Page, first: u64) -> u64 {
        let held = page.probe.graph.as_ref().unwrap().held.len() as u64;
        let random = &mut page.random;
        match random.below(12) {
            0 => *random.pick(&EDGES),
            1 => held + random.below(2),
            _ => first + random.below(held.max(1)),
        }
    }

    /// A vector that the log has something to say about.
    fn vector(&self, page: &mut Page) -> Vec<u64> {
        let graph = page.probe.graph.as_ref().unwrap();
        let random = &mut page.random;
        let mut v = match random.below(10) {
            0..=2 => {
                let mut lengths = graph.cuts();
                lengths.push(0);
                graph.frontier(*random.pick(&lengths))
            }
            3 => graph.frontier(random.index(graph.held.len() + 1)),
            4 => graph.named.clone(),
            5 if !graph.held.is_empty() => random.pick(&graph.held).version.clone(),
            6 => self.desks.common(),
            7 => self.desks.some_seen(random),
            8 => vec![0; graph.replicas as usize],
            _ => return vector(random, graph.replicas),
        };
        if random.chance(25) {
            nudge(random, &mut v);
        }
        shape(random, v)
    }

    /// What is just enough to have seen everything, or near it, or any vector.
    fn enough(&self, page: &mut Page) -> Vec<u64> {
        if page.random.chance(40) {
            return self.vector(page);
        }
        let graph = page.probe.graph.as_ref().unwrap();
        let mut enough = graph.frontier(graph.held.len());
        if page.random.chance(50) {
            nudge(&mut page.random, &mut enough);
        }
        shorten(&mut page.random, enough)
    }

    pub fn ask(&self, page: &mut Page) {
        let line = match page.random.below(25) {
            0 => format!("g.get {}", id_words(&self.id(page))),
            1 => format!("g.predecessors {}", spaced(&self.vector(page))),
            2 => format!("g.concurrent {}", spaced(&self.vector(page))),
            3 => "g.iter".to_string(),
            4..=5 => {
                let id = self.id(page);
                let random = &mut page.random;
                let end = if random.chance(15) {
                    *random.pick(&EDGES)
                } else {
                    random.below(4)
                };
                let start = id.sequence.saturating_sub(random.below(3));
                let end = id.sequence.saturating_add(end).saturating_sub(random.below(2));
                format!("g.replica-events {} {start} {end}", id.replica)
            }
            6 => page.random.pick(&["g.len", "g.is-empty"]).to_string(),
            7 => page.random.pick(&["g.roots", "g.named"]).to_string(),
            8..=10 => format!("g.greatest {}", spaced(&self.vector(page))),
            11..=12 => format!("g.is-critical {}", spaced(&self.vector(page))),
            13..=15 => format!("g.parents {}", id_words(&self.id(page))),
            16 => "g.heads".to_string(),
            17..=18 => "g.cuts".to_string(),
            19..=20 => format!("g.why {}", self.number(page, 1)),
            21..=22 => format!("g.seen {}", spaced(&self.enough(page))),
            23 => format!("g.chain {}", self.number(page, 0)),
            _ => format!("g.order {}", id_words(&self.id(page))),
        };
        page.say(line);
    }

    fn mask(&self, page: &mut Page) -> Vec<u64> {
        let held = page.probe.graph.as_ref().unwrap().held.len();
        let random = &mut page.random;
        let percent = *random.pick(&[0, 10, 50, 90, 97, 100]);
        let prefix = random.index(held + 1);
        let mut mask: Vec<u64> = match random.below(3) {
            0 => (0..held).map(|i| u64::from(i >= prefix)).collect(),
            _ => (0..held).map(|_| u64::from(random.chance(percent))).collect(),
        };
        if random.chance(6) {
            mask.push(1);
        } else if random.chance(6) {
            mask.pop();
        } else if held > 0 && random.chance(6) {
            mask[random.index(held)] = *random.pick(&[2, 3, 255]);
        }
        mask
    }

    pub fn prune(&mut self, page: &mut Page) {
        let line = match page.random.below(20) {
            0..=3 => format!("g.advance {}", spaced(&self.vector(page))),
            4..=7 => {
                let bound = self.vector(page);
                let graph = page.probe.graph.as_ref().unwrap();
                let frontier = graph.greatest(&bound).unwrap_or(bound);
                format!("g.flush {}", spaced(&shorten(&mut page.random, frontier)))
            }
            8..=9 => format!("g.flush {}", spaced(&self.vector(page))),
            10..=13 => format!("g.remove {}", id_words(&self.id(page))),
            14..=15 => match page.probe.graph.as_ref().unwrap().held.last() {
                Some(last) => format!("g.remove {}", id_words(&last.id)),
                None => "g.retain".to_string(),
            },
            16..=18 => {
                let mask = self.mask(page);
                if mask.is_empty() {
                    "g.retain".to_string()
                } else {
                    format!("g.retain {}", spaced(&mask))
                }
            }
            _ if page.random.chance(30) => "g.clear".to_string(),
            _ => "g.cuts".to_string(),
        };
        let roots = |page: &Page| page.probe.graph.as_ref().and_then(|graph| graph.roots.clone());
        let before = roots(page);
        page.say(line);
        // Desks that do not hear of a flush write events that are Behind.
        if let Some(flushed) = roots(page).filter(|after| before.as_ref() != Some(after))
            && page.random.chance(75)
        {
            self.desks.all_hear(&flushed);
        }
    }
}
