//! The graph words, answered by the original's `EventGraph`.

use std::collections::HashMap;

use moirai_protocol::{
    broadcast::internalizer::Resolver,
    clock::causal_frontier::CausalFrontier,
    replica::ReplicaIdx,
    state::unstable_state::{
        IsUnstableCausal, IsUnstableCore, IsUnstableDelivery, IsUnstablePrune, event_graph::EventGraph,
    },
};
use runs::{
    answer::Answer,
    lines::{Call, Id, Vector, fill},
    links::{chain, id_at, why},
    original::*,
};

use crate::reply::*;

#[derive(Clone)]
pub struct Graph {
    pub replicas: u64,
    names: Resolver,
    log: EventGraph<Operation>,
    /// Not in the original: the entrywise maximum of the checkpoint and the versions appended since creation or clear.
    named: Vector,
}

impl Graph {
    pub fn new(replicas: u64) -> Self {
        Self {
            replicas,
            names: resolver(replicas),
            log: EventGraph::default(),
            named: vec![0; replicas as usize],
        }
    }

    pub fn from(replicas: u64, checkpoint: &[u64]) -> Self {
        let names = resolver(replicas);
        Self {
            replicas,
            log: EventGraph::from_checkpoint(frontier(&names, checkpoint)),
            names,
            named: checkpoint.to_vec(),
        }
    }

    fn raise(&mut self, replicas: u64) {
        self.names.raise(replicas as usize);
        fill(&mut self.named, replicas);
        self.replicas = replicas;
    }

    /// The entries of a frontier that may be from before a raise.
    fn entries(&self, frontier: &CausalFrontier) -> Vector {
        let mut entries = entries_of_frontier(frontier);
        fill(&mut entries, self.replicas);
        entries
    }

    /// Whether the graph holds an event of this replica.
    pub fn knows(&self, replica: u64) -> bool {
        self.log.iter().any(|event| event.id().idx().0 as u64 == replica)
    }

    /// Answers every call but creation, where `refusal` is none.
    pub fn run(&mut self, call: &Call) -> Reply {
        let frontier = |v: &Vector| frontier(&self.names, v);
        let version = |v: &Vector| version(&self.names, 0, v);
        match call {
            Call::Get(id) | Call::Parents(id) | Call::Order(id) | Call::Remove(id) if id.replica >= self.replicas => {
                unnamed()
            }
            Call::Append(event) => {
                self.log.append(original_event(&self.names, event));
                self.named
                    .iter_mut()
                    .zip(&event.version)
                    .for_each(|(n, &v)| *n = v.max(*n));
                Answer::Done.into()
            }
            Call::Raise(replicas) => {
                self.raise(*replicas);
                Answer::Done.into()
            }
            Call::Get(id) => Answer::Event(self.log.get(&event_id(&self.names, id)).map(event_of)).into(),
            Call::Predecessors(v) => Answer::Events(events_of(self.log.predecessors(&version(v)))).into(),
            Call::Concurrent(v) => Answer::Events(events_of(self.log.concurrent(&version(v)))).into(),
            Call::Iter => Answer::Events(events_of(self.log.iter())).into(),
            Call::ReplicaEvents(o, a, b) => {
                let range = (*a as usize..*b as usize).into();
                Answer::Events(events_of(self.log.replica_events(ReplicaIdx(*o as usize), range))).into()
            }
            Call::Len => Answer::Number(self.log.len() as u64).into(),
            Call::IsEmpty => Answer::YesNo(self.log.is_empty()).into(),
            Call::Roots => Answer::Vector(self.log.roots().map(|roots| self.entries(roots))).into(),
            Call::Named => {
                let named = self.named.iter().map(u64::to_string).collect::<Vec<_>>();
                Reply::Skip(format!("named {}", named.join(" ")))
            }
            Call::Greatest(v) => {
                let greatest = self.log.greatest_critical_frontier(&frontier(v));
                Answer::Vector(greatest.map(|f| self.entries(&f))).into()
            }
            Call::IsCritical(v) => Answer::YesNo(self.log.is_critical(&frontier(v))).into(),
            Call::Parents(id) => {
                let mut parents = self.log.direct_predecessors(&event_id(&self.names, id));
                parents.sort_by_key(|parent| self.log.delivery_order(parent));
                Answer::Ids(parents.iter().map(id_of).collect()).into()
            }
            Call::Heads => {
                let mut heads = self.log.frontier();
                heads.sort_by_key(|head| self.log.delivery_order(head.id()));
                Answer::Events(events_of(&heads)).into()
            }
            Call::Cuts => Answer::Numbers(cuts(&self.log)).into(),
            Call::Order(id) => {
                let position = self.log.delivery_order(&event_id(&self.names, id));
                Answer::Position(position.map(|p| p as u64)).into()
            }
            Call::Why(length) => match why(&self.log, *length as usize) {
                None => Answer::Word("cut").into(),
                Some((later, earlier)) => Answer::Pair(id_at(&self.log, later), id_at(&self.log, earlier)).into(),
            },
            Call::Chain(position) => Answer::Numbers(chain(&self.log, *position as usize)).into(),
            Call::Seen(v) => Answer::YesNo(self.log.predecessors(&version(v)).len() == self.log.len()).into(),
            Call::Prune(v) => {
                let frontier = frontier(v);
                Answer::Number(self.removed(|log, _| log.prune_predecessors(&frontier))).into()
            }
            Call::Advance(v) => {
                let greatest = self.log.greatest_critical_frontier(&frontier(v));
                let flushed = greatest.map(|f| {
                    let count = self.removed(|log, _| log.prune_predecessors(&f));
                    (self.entries(&f), count)
                });
                Answer::Advanced(flushed).into()
            }
            Call::Remove(id) => Answer::Number(self.removed(|log, names| log.remove(&event_id(names, id)))).into(),
            Call::Retain(mask) => {
                let held = self.log.iter().map(|event| id_of(event.id()));
                let keep: HashMap<Id, u8> = held.zip(mask.iter().copied()).collect();
                Answer::Number(self.removed(|log, _| log.retain(|event| keep[&id_of(event.id())] == 1))).into()
            }
            Call::Clear => {
                self.named.fill(0);
                Answer::Number(self.removed(|log, _| log.clear())).into()
            }
            Call::New(_) | Call::From(..) => unreachable!("made by the driver"),
            _ => unreachable!("a history's word"),
        }
    }

    /// The refusals that need no rule of the log: bad events, counts, vectors, masks and lengths.
    pub fn refusal(&self, call: &Call) -> Option<u64> {
        match call {
            Call::Append(event) => bad_event(self.replicas, event),
            Call::Raise(replicas) => bad_raise(self.replicas, *replicas).then_some(17),
            Call::Predecessors(v) | Call::Concurrent(v) | Call::Greatest(v) => {
                bad_vector(self.replicas, v).then_some(3)
            }
            Call::IsCritical(v) | Call::Seen(v) | Call::Advance(v) | Call::Prune(v) => {
                bad_vector(self.replicas, v).then_some(3)
            }
            Call::Retain(mask) => (mask.len() != self.log.len() || mask.iter().any(|&keep| keep > 1)).then_some(15),
            Call::Why(length) => (*length == 0 || *length > self.log.len() as u64).then_some(20),
            _ => None,
        }
    }

    fn removed(&mut self, change: impl FnOnce(&mut EventGraph<Operation>, &Resolver)) -> u64 {
        let before = self.log.len();
        change(&mut self.log, &self.names);
        (before - self.log.len()) as u64
    }
}
