//! A log in the making.

use runs::{
    answer::Answer,
    lines::{Event, Id, Vector, fill},
    model::{Probe, at_or_above, graph::Graph, join},
    random::Random,
    text::{event_words, id_words, numbers_line, spaced, without_final_zeros},
};

use crate::notes::Notes;

/// One log: how it came about.
#[derive(Default)]
pub struct Log {
    pub lines: Vec<String>,
    pub accepted: Vec<Id>,
    /// Each flush: its frontier, and after how many accepted notes.
    pub flushed: Vec<(Vector, usize)>,
    /// Each withdrawn note, and after how many accepted notes.
    pub withdrawn: Vec<(Id, usize)>,
    /// The desks that it started with.
    pub desks: u64,
}

/// The vector as a line may have it with so many desks: without some of its final zeros.
pub fn said(random: &mut Random, vector: &[u64], desks: u64) -> Vector {
    let least = without_final_zeros(vector).len();
    let most = vector.len().min(desks as usize).max(least);
    vector[..least + random.index(most - least + 1)].to_vec()
}

/// The log and the model's opinion of it.
pub struct Making<'a> {
    notes: &'a Notes,
    pub log: Log,
    probe: Probe,
}

impl<'a> Making<'a> {
    /// It starts with some of the desks, as many as the checkpoint speaks of at least.
    pub fn new(random: &mut Random, notes: &'a Notes) -> Self {
        let least = match &notes.checkpoint {
            None => 1,
            Some(checkpoint) => without_final_zeros(checkpoint).len() as u64,
        };
        let desks = least + random.below(notes.replicas + 1 - least);
        let mut making = Self {
            notes,
            log: Log {
                desks,
                ..Log::default()
            },
            probe: Probe::default(),
        };
        making.say(match &notes.checkpoint {
            None => format!("g.new {desks}"),
            Some(checkpoint) => format!("g.from {desks} {}", spaced(&said(random, checkpoint, desks))),
        });
        making
    }

    fn say(&mut self, line: String) -> Answer {
        let answer = self.probe.answer(line.as_bytes());
        self.log.lines.push(line);
        answer
    }

    /// Says the line if it changes nothing.
    fn say_in_vain(&mut self, line: String) {
        let answer = self.probe.clone().answer(line.as_bytes());
        if matches!(answer, Answer::Refused(_) | Answer::Advanced(None)) {
            self.say(line);
        }
    }

    pub fn graph(&self) -> &Graph {
        self.probe.graph.as_ref().unwrap()
    }

    fn holds(&self, id: &Id) -> bool {
        self.graph().held.iter().any(|event| event.id == *id)
    }

    /// As long as there will be desks at the end.
    fn filled(&self, mut vector: Vector) -> Vector {
        fill(&mut vector, self.notes.replicas);
        vector
    }

    pub fn is_at(&self, frontier: &Vector) -> bool {
        let roots = self.graph().roots.clone();
        roots.is_some_and(|roots| self.filled(roots) == *frontier)
    }

    pub fn is_critical(&self, frontier: &Vector) -> bool {
        let line = format!("g.is-critical {}", spaced(without_final_zeros(frontier)));
        self.probe.clone().answer(line.as_bytes()) == Answer::YesNo(true)
    }

    /// The words of an append, in this log as it is.
    fn words(&self, random: &mut Random, event: &Event) -> String {
        event_words(&Event {
            version: said(random, &event.version, self.graph().replicas),
            ..event.clone()
        })
    }

    /// At least so many desks; in some cases more, or more without need.
    pub fn raise(&mut self, random: &mut Random, least: u64) {
        let now = self.graph().replicas;
        if least > now || random.chance(5) {
            let least = least.max(now);
            self.say(format!(
                "g.raise {}",
                least + random.below(self.notes.replicas + 1 - least)
            ));
        }
    }

    /// A note that is held is withdrawn before it is accepted again.
    pub fn append(&mut self, random: &mut Random, event: &Event) {
        self.raise(random, without_final_zeros(&event.version).len() as u64);
        if self.holds(&event.id) {
            self.drop(format!("g.remove {}", id_words(&event.id)));
        }
        let words = self.words(random, event);
        let answer = self.say(format!("g.append {words}"));
        assert!(answer == Answer::Done, "a note of the set is refused");
        self.log.accepted.push(event.id);
    }

    /// A line that takes notes from the log.
    fn drop(&mut self, line: String) {
        let before: Vec<Id> = self.graph().held.iter().map(|event| event.id).collect();
        self.say(line);
        let gone = before.into_iter().filter(|id| !self.holds(id));
        let gone: Vec<(Id, usize)> = gone.map(|id| (id, self.log.accepted.len())).collect();
        self.log.withdrawn.extend(gone);
    }

    /// Whether the note would be accepted after the line.
    fn accepts_after(&self, line: &str, event: &Event) -> bool {
        let mut probe = self.probe.clone();
        let lines = [
            line.to_string(),
            format!("g.remove {}", id_words(&event.id)),
            format!("g.raise {}", self.notes.replicas),
            format!("g.append {}", event_words(event)),
        ];
        let answers = lines.map(|line| probe.answer(line.as_bytes()));
        answers.last() == Some(&Answer::Done)
    }

    /// Withdraws one of these notes by its name, or some by a mask, as far as they are held and the next note is still accepted then.
    pub fn withdraw(&mut self, random: &mut Random, ids: &[Id], next: Option<&Event>) {
        let held: Vec<Id> = self.graph().held.iter().map(|event| event.id).collect();
        let mut kept = |id: &Id| u64::from(!ids.contains(id) || random.chance(40));
        let mask: Vec<u64> = held.iter().map(&mut kept).collect();
        let Some(first) = mask.iter().position(|&kept| kept == 0) else {
            return;
        };
        let line = if random.chance(50) {
            format!("g.remove {}", id_words(&held[first]))
        } else {
            numbers_line("g.retain", &mask)
        };
        if next.is_none_or(|event| self.accepts_after(&line, event)) {
            self.drop(line);
        }
    }

    /// Withdraws all of these notes that are held.
    pub fn withdraw_all(&mut self, random: &mut Random, ids: &[Id]) {
        while ids.iter().any(|id| self.holds(id)) {
            self.withdraw(random, ids, None);
        }
    }

    /// A flush at the frontier, or an advance that ends there.
    pub fn flush(&mut self, random: &mut Random, frontier: &Vector) {
        let desks = self.graph().replicas;
        let beyond = join(frontier, &self.notes.any(random).version);
        let ends_there = |bound: &&Vector| {
            let greatest = self.graph().greatest(bound).map(|f| self.filled(f));
            without_final_zeros(bound).len() as u64 <= desks && greatest.as_ref() == Some(frontier)
        };
        let line = match [&beyond, frontier].into_iter().find(ends_there) {
            Some(bound) if random.chance(40) => format!("g.advance {}", spaced(&said(random, bound, desks))),
            _ => format!("g.flush {}", spaced(&said(random, frontier, desks))),
        };
        self.say(line);
        assert!(self.is_at(frontier), "a critical frontier is refused");
        self.log.flushed.push((frontier.clone(), self.log.accepted.len()));
    }

    /// The frontiers of the cuts that lie within the last one, and that all notes still to come have heard of.
    pub fn may_flush(&self, last: &Vector, to_come: &[&Event]) -> Vec<Vector> {
        let graph = self.graph();
        let heard = |f: &Vector| to_come.iter().all(|event| at_or_above(&event.version, f));
        let frontiers = graph
            .cuts()
            .into_iter()
            .map(|length| self.filled(graph.frontier(length)));
        frontiers.filter(|f| at_or_above(last, f) && heard(f)).collect()
    }

    /// A line that changes nothing: a note at a wrong moment, a flush at no critical frontier, an advance to none.
    pub fn disturb(&mut self, random: &mut Random, last: Option<&Vector>) {
        let mut event = self.notes.any(random).clone();
        event.revision += u32::from(random.chance(30));
        let words = self.words(random, &event);
        let frontier = said(random, last.unwrap_or(&event.version), self.graph().replicas);
        self.say_in_vain(format!("g.append {words}"));
        self.say_in_vain(format!("g.flush {}", spaced(&frontier)));
        self.say_in_vain(format!("g.advance {}", spaced(&frontier)));
    }
}
