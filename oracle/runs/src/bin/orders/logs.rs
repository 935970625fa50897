//! Logs that accept all notes of a set, each in its own order, with its own flushes, and with desks that join and notes that are withdrawn at
//! its own moments.

use runs::{
    lines::{Event, Id, Vector},
    model::{covers, join},
    random::Random,
    text::{id_words, spaced},
};

use crate::{
    making::{Log, Making, said},
    notes::{Group, Notes, after},
};

const LOGS: usize = 4;
const BOUNDS: usize = 8;
const TRIES: usize = 8;

pub struct Set {
    pub logs: Vec<Log>,
    /// What every log of the set is asked at the end.
    pub questions: Vec<String>,
}

/// What the logs of a set have in common.
struct Plan<'a> {
    notes: &'a Notes,
    /// The notes that are withdrawn in the end.
    withdrawn: Vec<Id>,
    /// The frontier that is flushed last, if any, and whether the withdrawn notes have to be gone by then.
    last: Option<Vector>,
    gone_by_then: bool,
}

impl<'a> Plan<'a> {
    fn new(random: &mut Random, notes: &'a Notes) -> Self {
        let mut plain = Making::new(random, notes);
        notes.all().for_each(|event| plain.append(random, event));
        plain.raise(random, notes.replicas);
        let percent = if notes.removals { *random.pick(&[10, 30, 60]) } else { 0 };
        let withdrawn: Vec<Id> = notes.ids().into_iter().filter(|_| random.chance(percent)).collect();
        let gone_by_then = random.chance(50);
        if gone_by_then {
            plain.withdraw_all(random, &withdrawn);
        }
        let graph = plain.graph();
        let cuts = graph.cuts();
        let last = (!cuts.is_empty() && random.chance(75))
            .then(|| graph.frontier(*random.pick(&cuts).min(random.pick(&cuts))));
        Self {
            notes,
            withdrawn,
            last,
            gone_by_then,
        }
    }

    /// A log of its own way, if that leads to the last frontier; else one that withdraws and flushes nothing before the end.
    fn log(&self, random: &mut Random) -> Log {
        let log = (0..TRIES).find_map(|_| self.attempt(random, true));
        log.or_else(|| self.attempt(random, false))
            .expect("the last frontier is critical")
    }

    /// A log that accepts the groups in some order and ends as the set's logs do; none where the last frontier is not critical then.
    fn attempt(&self, random: &mut Random, hurried: bool) -> Option<Log> {
        let mut making = Making::new(random, self.notes);
        let mut waiting: Vec<usize> = (0..self.notes.groups.len()).collect();
        let passing = if hurried { self.passing(random) } else { vec![] };
        let often = if hurried { *random.pick(&[0, 30, 80]) } else { 0 };
        while !waiting.is_empty() {
            let chosen = *random.pick(&self.ready(&waiting));
            self.bring(random, &mut making, &mut waiting, chosen, &passing);
            if random.chance(often) {
                self.flush_some(random, &mut making, &waiting);
            }
        }
        if self.gone_by_then {
            making.withdraw_all(random, &self.withdrawn);
        }
        if let Some(last) = self.last.as_ref().filter(|last| !making.is_at(last)) {
            if !making.is_critical(last) {
                return None;
            }
            making.flush(random, last);
        }
        making.withdraw_all(random, &self.withdrawn);
        making.raise(random, self.notes.replicas);
        Some(making.log)
    }

    /// The notes that a log may withdraw on its way: those of the set, and some that the last flush takes otherwise.
    fn passing(&self, random: &mut Random) -> Vec<Id> {
        let mut passing = self.withdrawn.clone();
        if let Some(last) = self.last.as_ref().filter(|_| self.notes.removals) {
            let flushed = self.notes.ids().into_iter().filter(|id| covers(last, id));
            passing.extend(flushed.filter(|_| random.chance(15)));
        }
        passing
    }

    /// The groups that speak of no other that is still to come.
    fn ready(&self, waiting: &[usize]) -> Vec<usize> {
        let groups = &self.notes.groups;
        let ready = |&i: &usize| !waiting.iter().any(|&j| j != i && after(&groups[i], &groups[j]));
        waiting.iter().copied().filter(ready).collect()
    }

    fn bring(&self, random: &mut Random, making: &mut Making, waiting: &mut Vec<usize>, chosen: usize, passing: &[Id]) {
        let group = &self.notes.groups[chosen];
        for (i, event) in group.iter().enumerate() {
            if random.chance(10) {
                making.disturb(random, self.last.as_ref());
            }
            if i > 0 && random.chance(30) {
                self.detour(random, making, waiting, chosen, passing);
            }
            making.append(random, event);
            if random.chance(20) {
                making.withdraw(random, passing, group.get(i + 1));
            }
        }
        waiting.retain(|&i| i != chosen);
    }

    /// Before a sibling comes, another group that comes and goes.
    fn detour(
        &self,
        random: &mut Random,
        making: &mut Making,
        waiting: &mut Vec<usize>,
        chosen: usize,
        passing: &[Id],
    ) {
        let passes = |group: &Group| group.iter().all(|event| passing.contains(&event.id));
        let mut others = self.ready(waiting);
        others.retain(|&i| i != chosen && passes(&self.notes.groups[i]));
        if others.is_empty() {
            return;
        }
        let other = *random.pick(&others);
        let group = &self.notes.groups[other];
        group.iter().for_each(|event| making.append(random, event));
        let ids: Vec<Id> = group.iter().map(|event| event.id).collect();
        making.withdraw_all(random, &ids);
        waiting.retain(|&i| i != other);
    }

    fn flush_some(&self, random: &mut Random, making: &mut Making, waiting: &[usize]) {
        let Some(last) = self.last.as_ref().filter(|last| !making.is_at(last)) else {
            return;
        };
        let to_come: Vec<&Event> = waiting.iter().flat_map(|&i| &self.notes.groups[i]).collect();
        let frontiers = making.may_flush(last, &to_come);
        if !frontiers.is_empty() {
            let frontier = random.pick(&frontiers).clone();
            making.flush(random, &frontier);
        }
    }
}

/// Bounds that tell something: the top, versions, joins of them, and what lies a little below.
fn bounds(random: &mut Random, notes: &Notes) -> Vec<Vector> {
    let versions: Vec<Vector> = notes.all().map(|event| event.version.clone()).collect();
    let top = versions.iter().fold(versions[0].clone(), |top, v| join(&top, v));
    let mut bounds = vec![top];
    while bounds.len() < BOUNDS {
        let mut bound = random.pick(&versions).clone();
        for _ in 0..random.below(4) {
            let other: &Vector = random.pick(&versions);
            bound = join(&bound, other);
        }
        if random.chance(30) {
            let at = random.index(bound.len());
            bound[at] = bound[at].saturating_sub(1 + random.below(2));
        }
        bounds.push(bound);
    }
    bounds
}

impl Set {
    pub fn new(random: &mut Random) -> Self {
        let notes = Notes::new(random);
        let plan = Plan::new(random, &notes);
        let logs = (0..LOGS).map(|_| plan.log(random)).collect();
        let words = ["g.iter", "g.len", "g.roots", "g.named", "g.heads", "g.cuts"];
        let mut questions = words.map(str::to_string).to_vec();
        questions.extend(notes.ids().iter().map(|id| format!("g.parents {}", id_words(id))));
        for bound in bounds(random, &notes) {
            questions.push(format!("g.greatest {}", spaced(&said(random, &bound, notes.replicas))));
        }
        questions.extend(plan.last.map(|last| format!("g.is-critical {}", spaced(&last))));
        Self { logs, questions }
    }

    pub fn lines(self) -> Vec<String> {
        let Self { logs, questions } = self;
        logs.into_iter()
            .flat_map(|log| [log.lines, questions.clone()].concat())
            .collect()
    }
}
