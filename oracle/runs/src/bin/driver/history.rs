//! The history words, answered by the original's `EventHistory`.
//!
//! The original keeps replicas in a hash map. Lists over several replicas are sorted by replica, stably, so that the
//! order within a replica stays the original's own.

use std::{
    collections::HashMap,
    panic::{self, AssertUnwindSafe},
};

use moirai_protocol::{
    broadcast::internalizer::Resolver,
    clock::version_vector::Version,
    event::id::EventId,
    replica::ReplicaIdx,
    state::unstable_state::{IsUnstableCausal, IsUnstableCore, IsUnstablePrune, event_history::EventHistory},
};
use runs::{
    answer::{Answer, id_text},
    lines::{Call, Event, Id, Vector, Visit, fill},
    original::*,
};

use crate::reply::*;

#[derive(Clone)]
pub struct History {
    pub replicas: u64,
    names: Resolver,
    log: EventHistory<Operation>,
    /// Not in the original: every event accepted since creation or clear, with its version.
    accepted: Vec<(EventId, Version)>,
    /// Not in the original: the notes in the waiting room.
    pub waiting: Vec<Event>,
}

fn by_replica(mut events: Vec<Event>) -> Answer {
    events.sort_by_key(|event| event.id.replica);
    Answer::Events(events)
}

impl History {
    pub fn new(replicas: u64) -> Self {
        Self {
            replicas,
            names: resolver(replicas),
            log: EventHistory::default(),
            accepted: Vec::new(),
            waiting: Vec::new(),
        }
    }

    fn raise(&mut self, replicas: u64) {
        self.names.raise(replicas as usize);
        self.replicas = replicas;
    }

    /// The version may be from before a raise.
    fn vector(&self, mut version: Option<Vector>) -> Answer {
        version.iter_mut().for_each(|v| fill(v, self.replicas));
        Answer::Vector(version)
    }

    /// Answers every call but creation, where `refusal` is none.
    pub fn run(&mut self, call: &Call) -> Reply {
        let id = |id: &Id| event_id(&self.names, id);
        let version = |v: &Vector| version(&self.names, 0, v);
        let idx = |replica: &u64| ReplicaIdx(*replica as usize);
        let answer = match call {
            Call::Append(event) => {
                let event = original_event(&self.names, event);
                let accepted = (event.id().clone(), event.version().clone());
                self.log.append(event);
                self.accepted.push(accepted);
                Answer::Done
            }
            Call::Raise(replicas) => {
                self.raise(*replicas);
                Answer::Done
            }
            Call::Get(e) => Answer::Event(self.log.get(&id(e)).map(event_of)),
            Call::Version(e) => self.vector(self.log.version(&id(e)).map(entries_of_version)),
            Call::LastVersion(o) => self.vector(self.last_version(*o)),
            Call::Predecessors(v) => by_replica(events_of(self.log.predecessors(&version(v)))),
            Call::Concurrent(v) => by_replica(events_of(self.log.concurrent(&version(v)))),
            Call::Iter => by_replica(events_of(self.log.iter())),
            Call::ReplicaEvents(o, a, b) => {
                let range = (*a as usize..*b as usize).into();
                Answer::Events(events_of(self.log.replica_events(idx(o), range)))
            }
            Call::Len => Answer::Number(self.log.len() as u64),
            Call::IsEmpty => Answer::YesNo(self.log.is_empty()),
            Call::Previous(e, r) => Answer::Event(self.log.previous(&id(e), idx(r)).map(event_of)),
            Call::Next(e, r) => Answer::Event(self.log.next(&id(e), idx(r)).map(event_of)),
            Call::First(e, r) => self.first(e, *r),
            Call::Newly(e) => by_replica(events_of(self.log.newly_observed_by(&id(e)))),
            Call::Prune(v) => {
                let frontier = frontier(&self.names, v);
                self.removing(|log| log.prune_predecessors(&frontier))
            }
            Call::Remove(e) => {
                let id = id(e);
                self.removing(|log| log.remove(&id))
            }
            Call::Retain(mask) => {
                let mut held: Vec<Id> = self.log.iter().map(|event| id_of(event.id())).collect();
                held.sort_by_key(|id| id.replica);
                let keep: HashMap<Id, u8> = held.into_iter().zip(mask.iter().copied()).collect();
                self.removing(|log| log.retain(|event| keep[&id_of(event.id())] == 1))
            }
            Call::Clear => {
                self.accepted.clear();
                self.removing(|log| log.clear())
            }
            Call::New(_) => unreachable!("made by the driver"),
            _ => unreachable!("a graph's word"),
        };
        answer.into()
    }

    /// What is asked of the waiting room.
    pub fn visit(&self, visit: &Visit) -> Answer {
        let mut ids: Vec<Id> = self.waiting.iter().map(|note| note.id).collect();
        ids.sort();
        match visit {
            Visit::Arrive(_) => unreachable!("by `arrive`"),
            Visit::Waiting => Answer::Ids(ids),
            Visit::Len => Answer::Number(ids.len() as u64),
        }
    }

    /// The refusals of an arrival that need no rule of the log: a bad note, or one that waits.
    pub fn arrival_refusal(&self, note: &Event) -> Option<u64> {
        let waits = self.waiting.iter().any(|waiting| waiting.id == note.id);
        bad_event(self.replicas, note).or(waits.then_some(21))
    }

    /// A note arrives. What the port reports goes to the original, which has to accept and refuse the same.
    pub fn arrive(&mut self, note: &Event, report: &[(Id, u64)]) -> Reply {
        self.waiting.push(note.clone());
        match report.iter().find(|(id, number)| !self.hand_over(id, *number)) {
            None => Answer::Report(report.to_vec()).into(),
            Some((id, number)) => Reply::Skip(format!("DENIED {}/{number}", id_text(id))),
        }
    }

    /// Whether the note waits, and the original has an answer that goes with the number.
    fn hand_over(&mut self, id: &Id, number: u64) -> bool {
        let Some(at) = self.waiting.iter().position(|note| note.id == *id) else {
            return false;
        };
        let append = Call::Append(self.waiting.remove(at));
        let accepts = |log: &mut Self| panic::catch_unwind(AssertUnwindSafe(|| log.run(&append))).is_ok();
        match number {
            0 => accepts(self),
            8 => accepts(&mut self.clone()),
            12 | 13 => !accepts(&mut self.clone()),
            _ => false,
        }
    }

    /// The refusals that need no rule of the log: bad events, counts, vectors and masks.
    pub fn refusal(&self, call: &Call) -> Option<u64> {
        match call {
            Call::Append(event) => bad_event(self.replicas, event),
            Call::Raise(replicas) => bad_raise(self.replicas, *replicas).then_some(17),
            Call::Predecessors(v) | Call::Concurrent(v) | Call::Prune(v) => bad_vector(self.replicas, v).then_some(3),
            Call::Retain(mask) => (mask.len() != self.log.len() || mask.iter().any(|&keep| keep > 1)).then_some(15),
            _ => None,
        }
    }

    /// The original keeps its traces to itself, so the last version is read off what it derives for `Debug`: in a
    /// trace's text the boundary version comes first and the retained versions follow in order.
    fn last_version(&self, replica: u64) -> Option<Vec<u64>> {
        let text = format!("{:?}", self.log);
        let opening = format!("ReplicaIdx({replica}): ReplicaTrace {{");
        let trace = &text[text.find(&opening)? + opening.len()..];
        let trace = &trace[..trace.find(": ReplicaTrace {").unwrap_or(trace.len())];
        numbers_after(trace, "VersionEntries([")
    }

    /// By what was ever accepted: the first event of the replica that has the asked one in its past, and whether it is retained.
    fn first(&self, e: &Id, r: u64) -> Answer {
        let asked = event_id(&self.names, e);
        let observes = |(id, version): &&(EventId, Version)| {
            let next = e.sequence.checked_add(1) == Some(id.seq() as u64);
            id.idx().0 as u64 == r
                && if r == e.replica {
                    next
                } else {
                    asked.is_predecessor_of(version)
                }
        };
        match self.accepted.iter().find(observes) {
            None => Answer::Event(None),
            Some((first, _)) => match self.log.get(first) {
                None => Answer::Word("pruned"),
                Some(retained) => Answer::Event(Some(event_of(retained))),
            },
        }
    }

    fn removing(&mut self, change: impl FnOnce(&mut EventHistory<Operation>)) -> Answer {
        let before = self.log.len();
        change(&mut self.log);
        Answer::Number((before - self.log.len()) as u64)
    }
}
