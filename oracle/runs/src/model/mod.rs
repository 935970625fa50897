//! Document 01, the open points and the requests of document 02 written as plain code, by their definitions and with no thought of speed.
//!
//! It is no part of the comparison with the original. It stands in for the port where none is at hand, gives the
//! refusal numbers that the original does not have, and tells the generator what a log holds.

pub mod clocks;
pub mod graph;
pub mod history;
pub mod room;

use crate::{
    answer::Answer,
    lines::{self, Call, Clock, Command, Event, Id, TOP},
};
use graph::Graph;
use history::History;
use room::WaitingRoom;

pub fn bad_count(replicas: u64) -> bool {
    replicas == 0 || replicas > 16
}

pub fn bad_vector(replicas: u64, v: &[u64]) -> bool {
    v.len() as u64 > replicas || v.iter().any(|&entry| entry > TOP)
}

/// A replica that the vector has no entry for has entry 0.
pub fn entry(v: &[u64], replica: u64) -> u64 {
    usize::try_from(replica)
        .ok()
        .and_then(|i| v.get(i).copied())
        .unwrap_or(0)
}

/// A version covers an id, a frontier contains it.
pub fn covers(v: &[u64], id: &Id) -> bool {
    entry(v, id.replica) >= id.sequence
}

pub fn join(v: &[u64], w: &[u64]) -> Vec<u64> {
    let longer = v.len().max(w.len()) as u64;
    (0..longer).map(|r| entry(v, r).max(entry(w, r))).collect()
}

/// Equal or above, entry by entry.
pub fn at_or_above(v: &[u64], w: &[u64]) -> bool {
    (0..w.len() as u64).all(|r| entry(v, r) >= entry(w, r))
}

/// BadCount of a raise.
pub fn bad_raise(replicas: u64, to: u64) -> bool {
    bad_count(to) || to < replicas
}

/// BadOrigin, BadSequence and BadVector of an event.
pub fn bad_event(replicas: u64, event: &Event) -> Option<u64> {
    if event.id.replica >= replicas {
        Some(1)
    } else if event.id.sequence == 0 || event.id.sequence > TOP {
        Some(2)
    } else if bad_vector(replicas, &event.version) || entry(&event.version, event.id.replica) != event.id.sequence {
        Some(3)
    } else {
        None
    }
}

/// The program `probe` as PROBE.md has it. In its logs every vector is as long as there are desks.
#[derive(Clone)]
pub struct Probe {
    pub room: usize,
    pub clocks: Option<u64>,
    pub graph: Option<Graph>,
    pub history: Option<History>,
    pub waiting_room: WaitingRoom,
}

impl Default for Probe {
    fn default() -> Self {
        Self {
            room: 512,
            clocks: None,
            graph: None,
            history: None,
            waiting_room: WaitingRoom::default(),
        }
    }
}

impl Probe {
    pub fn answer(&mut self, line: &[u8]) -> Answer {
        match self.command(line).and_then(|command| self.run(&command)) {
            None => Answer::Refused(18),
            Some(answer) if answer.list_length() > self.room => Answer::Refused(16),
            Some(answer) => answer,
        }
    }

    /// The command that a line is, its vectors filled up, or none for a bad line.
    fn command(&self, line: &[u8]) -> Option<Command> {
        let graph = self.graph.as_ref().map(|graph| graph.replicas);
        let history = self.history.as_ref().map(|history| history.replicas);
        lines::parse(line)?.filled(self.clocks, graph, history)
    }

    fn run(&mut self, command: &Command) -> Option<Answer> {
        match command {
            Command::Room(n) => self.room = *n,
            Command::Clock(Clock::Replicas(r)) if bad_count(*r) => return Some(Answer::Refused(17)),
            Command::Graph(Call::New(r) | Call::From(r, _)) if bad_count(*r) => return Some(Answer::Refused(17)),
            Command::History(Call::New(r)) if bad_count(*r) => return Some(Answer::Refused(17)),
            Command::Graph(Call::From(r, v)) if bad_vector(*r, v) => return Some(Answer::Refused(3)),
            Command::Clock(Clock::Replicas(r)) => self.clocks = Some(*r),
            Command::Graph(Call::New(r)) => self.graph = Some(Graph::new(*r, None)),
            Command::Graph(Call::From(r, v)) => self.graph = Some(Graph::new(*r, Some(v.clone()))),
            Command::History(Call::New(r)) => {
                self.history = Some(History::new(*r));
                self.waiting_room = WaitingRoom::default();
            }
            Command::Clock(call) => return self.clocks.map(|replicas| clocks::run(replicas, call)),
            Command::Graph(call) => return self.graph.as_mut().map(|graph| graph.run(call)),
            Command::History(call) => {
                let history = self.history.as_mut()?;
                let answer = history.run(call);
                // A raise is for both.
                self.waiting_room.raise(history.replicas);
                return Some(answer);
            }
            Command::WaitingRoom(visit) => return Some(self.waiting_room.run(self.history.as_mut()?, visit)),
        }
        Some(Answer::Done)
    }
}
