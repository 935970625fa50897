//! What a story asks of the history, and how it makes it smaller.

use runs::{
    answer::Answer,
    lines::{Event, Id},
    text::numbers_line,
};

use super::HistoryStory;
use crate::{Page, values::*};

impl HistoryStory {
    fn id(&self, page: &mut Page) -> Id {
        let history = page.probe.history.as_ref().unwrap();
        let retained: Vec<&Event> = history.retained().collect();
        let random = &mut page.random;
        let mut id = match random.below(10) {
            0..=6 if !retained.is_empty() => random.pick(&retained).id,
            7..=8 if !self.brought.is_empty() => random.pick(&self.brought).id,
            _ => Id {
                replica: replica(random, history.replicas),
                sequence: if random.chance(30) {
                    *random.pick(&EDGES)
                } else {
                    random.below(6)
                },
                disambiguator: None,
            },
        };
        if random.chance(8) {
            id.disambiguator = disambiguator(random);
        }
        if random.chance(8) {
            id.sequence = id.sequence.saturating_add(random.below(3)).saturating_sub(1);
        }
        id
    }

    fn vector(&self, page: &mut Page) -> Vec<u64> {
        let history = page.probe.history.as_ref().unwrap();
        let retained: Vec<&Event> = history.retained().collect();
        let random = &mut page.random;
        let mut v = match random.below(6) {
            0..=1 if !retained.is_empty() => random.pick(&retained).version.clone(),
            2 => self.desks.common(),
            3 => self.desks.some_seen(random),
            4 => history
                .traces
                .iter()
                .map(|t| t.as_ref().map_or(0, |t| t.pruned_through + random.below(4)))
                .collect(),
            _ => return vector(random, history.replicas),
        };
        if random.chance(25) {
            nudge(random, &mut v);
        }
        shape(random, v)
    }

    fn range(&self, page: &mut Page) -> String {
        let history = page.probe.history.as_ref().unwrap();
        let random = &mut page.random;
        let o = replica(random, history.replicas);
        let (first, last) = history
            .trace(o)
            .map_or((0, 0), |trace| (trace.pruned_through, trace.last()));
        let mut a = first + random.below(last - first + 1);
        let mut b = a + random.below(last - a + 1);
        match random.below(12) {
            0 => a = a.saturating_sub(1 + random.below(3)),
            1 => b += 1 + random.below(3),
            2 => (a, b) = (first, last),
            3 => (a, b) = (b, a),
            4 => a = *random.pick(&EDGES),
            5 => b = *random.pick(&EDGES),
            6 => (a, b) = (last, last),
            7 => (a, b) = (last + 1, last + 1),
            _ => {}
        }
        format!("h.replica-events {o} {a} {b}")
    }

    pub fn ask(&self, page: &mut Page) {
        let line = match page.random.below(26) {
            0 => format!("h.get {}", id_words(&self.id(page))),
            1..=2 => format!("h.version {}", id_words(&self.id(page))),
            3..=4 => {
                let replicas = page.probe.history.as_ref().unwrap().replicas;
                format!("h.last-version {}", replica(&mut page.random, replicas))
            }
            5 => format!("h.predecessors {}", spaced(&self.vector(page))),
            6 => format!("h.concurrent {}", spaced(&self.vector(page))),
            7 => "h.iter".to_string(),
            8..=10 => self.range(page),
            11 => page.random.pick(&["h.len", "h.is-empty"]).to_string(),
            12..=18 => {
                let id = self.id(page);
                let replicas = page.probe.history.as_ref().unwrap().replicas;
                let own = page.random.chance(20);
                let r = if own {
                    id.replica
                } else {
                    replica(&mut page.random, replicas)
                };
                let word = page.random.pick(&["previous", "next", "first"]);
                format!("h.{word} {} {r}", id_words(&id))
            }
            19..=23 => format!("h.newly {}", id_words(&self.id(page))),
            _ => page.random.pick(&["r.waiting", "r.len"]).to_string(),
        };
        page.say(line);
    }

    /// A mask that keeps a suffix for each replica, or in some cases does not.
    fn mask(&self, page: &mut Page) -> Vec<u64> {
        let history = page.probe.history.as_ref().unwrap();
        let random = &mut page.random;
        let mut mask = Vec::new();
        for trace in history.traces.iter().flatten() {
            let cut = if random.chance(60) {
                0
            } else {
                random.index(trace.retained.len() + 1)
            };
            mask.extend((0..trace.retained.len()).map(|i| u64::from(i >= cut)));
        }
        let length = mask.len();
        match random.below(8) {
            0 if length > 0 => mask[random.index(length)] ^= 1,
            1 if random.chance(50) => mask.push(1),
            2 if length > 0 && random.chance(50) => mask[random.index(length)] = *random.pick(&[2, 255]),
            3 if random.chance(50) => {
                mask.pop();
            }
            _ => {}
        }
        mask
    }

    pub fn prune(&mut self, page: &mut Page) {
        let line = match page.random.below(20) {
            0..=7 => format!("h.prune {}", spaced(&self.vector(page))),
            8..=12 => format!("h.remove {}", id_words(&self.id(page))),
            13..=18 => numbers_line("h.retain", &self.mask(page)),
            _ if page.random.chance(30) => "h.clear".to_string(),
            _ => "h.iter".to_string(),
        };
        let clear = line == "h.clear";
        // Desks that do not hear of it go on where nothing is expected of them.
        if matches!(page.say(line), Answer::Number(_)) && clear && page.random.chance(70) {
            self.forget(page);
        }
    }
}
