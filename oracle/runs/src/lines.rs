//! The lines of PROBE.md: one line is one command or a bad line.

mod reader;

pub use reader::{decimal, parse, split};

pub const TOP: u64 = 4_294_967_295;
pub const LONGEST: usize = 4096;

pub type Vector = Vec<u64>;

/// An event id as a line carries it. Absent sorts below 0, as document 01 has it.
#[derive(Clone, Copy, Debug, PartialEq, Eq, PartialOrd, Ord, Hash)]
pub struct Id {
    pub replica: u64,
    pub sequence: u64,
    pub disambiguator: Option<u32>,
}

#[derive(Clone, Debug, PartialEq)]
pub struct Event {
    pub id: Id,
    pub lamport: u64,
    pub payload: u64,
    pub revision: u32,
    pub version: Vector,
}

#[derive(Clone, Debug)]
pub enum Command {
    Room(usize),
    Clock(Clock),
    Graph(Call),
    History(Call),
    WaitingRoom(Visit),
}

#[derive(Clone, Debug)]
pub enum Clock {
    Replicas(u64),
    Entry(u64, Vector),
    Set(u64, u64, Vector),
    Join(Vector, Vector),
    Meet(Vector, Vector),
    Compare(Vector, Vector),
    Includes(Vector, Vector),
    Contains(Id, Vector),
    Sum(Vector),
    Increment(u64, Vector),
    VersionJoin(u64, Vector, u64, Vector),
    Dependencies(u64, Vector),
}

/// The calls of the waiting room before the history.
#[derive(Clone, Debug)]
pub enum Visit {
    Arrive(Event),
    Waiting,
    Len,
}

/// The calls of both logs; the reader gives each log its own words only.
#[derive(Clone, Debug)]
pub enum Call {
    New(u64),
    From(u64, Vector),
    Append(Event),
    Get(Id),
    Predecessors(Vector),
    Concurrent(Vector),
    Iter,
    ReplicaEvents(u64, u64, u64),
    Len,
    IsEmpty,
    Roots,
    Named,
    Greatest(Vector),
    IsCritical(Vector),
    Parents(Id),
    Heads,
    Cuts,
    Order(Id),
    Why(u64),
    Chain(u64),
    Seen(Vector),
    Raise(u64),
    Advance(Vector),
    Version(Id),
    LastVersion(u64),
    Previous(Id, u64),
    Next(Id, u64),
    First(Id, u64),
    Newly(Id),
    Prune(Vector),
    Remove(Id),
    Retain(Vec<u8>),
    Clear,
}

impl Command {
    fn vectors_mut(&mut self) -> Vec<&mut Vector> {
        match self {
            Command::Room(_) => vec![],
            Command::Clock(call) => call.vectors_mut(),
            Command::Graph(call) | Command::History(call) => call.vector_mut().into_iter().collect(),
            Command::WaitingRoom(Visit::Arrive(note)) => vec![&mut note.version],
            Command::WaitingRoom(_) => vec![],
        }
    }

    /// The command with its vectors filled up, given the desks of the clocks, the graph and the history; none where that is not made.
    pub fn filled(mut self, clocks: Option<u64>, graph: Option<u64>, history: Option<u64>) -> Option<Self> {
        let replicas = match &self {
            Command::Room(_) => 0,
            Command::Clock(Clock::Replicas(r)) | Command::History(Call::New(r)) => *r,
            Command::Graph(Call::New(r) | Call::From(r, _)) => *r,
            Command::Clock(_) => clocks?,
            Command::Graph(_) => graph?,
            Command::History(_) | Command::WaitingRoom(_) => history?,
        };
        self.vectors_mut().into_iter().for_each(|v| fill(v, replicas));
        Some(self)
    }
}

/// A vector that is shorter than R counts as followed by zeros. More than 16 desks there are not.
pub fn fill(vector: &mut Vector, replicas: u64) {
    let length = replicas.min(16) as usize;
    vector.resize(length.max(vector.len()), 0);
}

impl Clock {
    fn vectors_mut(&mut self) -> Vec<&mut Vector> {
        use Clock::*;
        match self {
            Replicas(_) => vec![],
            Entry(_, v) | Set(_, _, v) | Contains(_, v) | Sum(v) | Increment(_, v) | Dependencies(_, v) => vec![v],
            Join(v, w) | Meet(v, w) | Compare(v, w) | Includes(v, w) | VersionJoin(_, v, _, w) => vec![v, w],
        }
    }
}

impl Call {
    fn vector_mut(&mut self) -> Option<&mut Vector> {
        use Call::*;
        match self {
            From(_, v) | Predecessors(v) | Concurrent(v) | Greatest(v) | IsCritical(v) => Some(v),
            Seen(v) | Advance(v) | Prune(v) => Some(v),
            Append(event) => Some(&mut event.version),
            _ => None,
        }
    }

    pub fn changes(&self) -> bool {
        use Call::*;
        matches!(
            self,
            New(_) | From(..) | Append(_) | Raise(_) | Advance(_) | Prune(_) | Remove(_) | Retain(_) | Clear
        )
    }
}
