//! From the values of a line to the original's types and back, and the cuts, which its graph keeps to itself.

use std::fmt::Debug;

use moirai_protocol::{
    broadcast::internalizer::Resolver,
    clock::{causal_frontier::CausalFrontier, version_vector::Version},
    event::{id::EventId, lamport::Lamport, tagged_op::TaggedOp},
    replica::{ReplicaId, ReplicaIdx},
    state::unstable_state::event_graph::EventGraph,
};

use crate::lines::{Event, Id};

/// The operation that the original carries: payload and revision.
pub type Operation = (u64, u32);

pub fn resolver(replicas: u64) -> Resolver {
    let names = (0..16).map(|i| ReplicaId(format!("desk{i}"))).collect();
    Resolver::of_first(names, replicas as usize)
}

pub fn frontier(resolver: &Resolver, entries: &[u64]) -> CausalFrontier {
    let mut frontier = CausalFrontier::new(resolver.clone());
    for (i, &entry) in entries.iter().enumerate() {
        frontier.set_by_idx(ReplicaIdx(i), entry as usize);
    }
    frontier
}

pub fn version(resolver: &Resolver, origin: u64, entries: &[u64]) -> Version {
    let mut version = Version::new(ReplicaIdx(origin as usize), resolver.clone());
    for (i, &entry) in entries.iter().enumerate() {
        version.set_by_idx(ReplicaIdx(i), entry as usize);
    }
    version
}

pub fn event_id(resolver: &Resolver, id: &Id) -> EventId {
    EventId::new_with_disambiguator(
        ReplicaIdx(id.replica as usize),
        id.sequence as usize,
        resolver.clone(),
        id.disambiguator,
    )
}

pub fn original_event(resolver: &Resolver, event: &Event) -> moirai_protocol::event::Event<Operation> {
    moirai_protocol::event::Event::new(
        event_id(resolver, &event.id),
        Lamport(event.lamport),
        (event.payload, event.revision),
        version(resolver, event.id.replica, &event.version),
    )
}

pub fn entries_of_frontier(frontier: &CausalFrontier) -> Vec<u64> {
    frontier.iter().map(|(_, entry)| entry as u64).collect()
}

pub fn entries_of_version(version: &Version) -> Vec<u64> {
    version.iter().map(|(_, entry)| entry as u64).collect()
}

pub fn id_of(id: &EventId) -> Id {
    Id {
        replica: id.idx().0 as u64,
        sequence: id.seq() as u64,
        disambiguator: id.disambiguator(),
    }
}

pub fn event_of(op: &TaggedOp<Operation>) -> Event {
    let (payload, revision) = *op.op();
    Event {
        id: id_of(op.id()),
        lamport: op.lamport().0,
        payload,
        revision,
        version: Vec::new(),
    }
}

pub fn events_of<'a>(ops: impl IntoIterator<Item = &'a TaggedOp<Operation>>) -> Vec<Event> {
    ops.into_iter().map(event_of).collect()
}

/// The numbers of the list that starts right after `opening` in a `Debug` text.
pub fn numbers_after(text: &str, opening: &str) -> Option<Vec<u64>> {
    let start = text.rfind(opening)? + opening.len();
    let list = &text[start..start + text[start..].find(']')?];
    list.split(", ")
        .filter(|n| !n.is_empty())
        .map(|n| n.parse().ok())
        .collect()
}

/// The original's cuts are read off what it derives for `Debug`, as its last field.
pub fn cuts<O: Debug>(log: &EventGraph<O>) -> Vec<u64> {
    numbers_after(&format!("{log:?}"), "critical_versions: [").unwrap_or_else(|| {
        eprintln!("no cuts in the Debug text of the graph");
        std::process::exit(2)
    })
}
