//! What the driver has to say of a line, and the refusals that it finds by itself.

use runs::{
    answer::Answer,
    lines::{Event, Id, TOP},
};

/// What the driver has to say of a line.
pub enum Reply {
    Answer(Answer),
    /// The line cannot be asked of the original, and why.
    Skip(String),
}

impl From<Answer> for Reply {
    fn from(answer: Answer) -> Self {
        Reply::Answer(answer)
    }
}

/// Where the original compares names, a replica that has none makes it panic before it looks.
pub fn unnamed() -> Reply {
    Reply::Skip("unnamed".to_string())
}

pub fn bad_count(replicas: u64) -> bool {
    !(1..=16).contains(&replicas)
}

pub fn bad_raise(replicas: u64, to: u64) -> bool {
    bad_count(to) || to < replicas
}

pub fn bad_vector(replicas: u64, entries: &[u64]) -> bool {
    entries.len() as u64 > replicas || entries.iter().any(|&entry| entry > TOP)
}

/// The refusals of an event that need no log: 1, 2, 3.
pub fn bad_event(replicas: u64, event: &Event) -> Option<u64> {
    let Id { replica, sequence, .. } = event.id;
    if replica >= replicas {
        Some(1)
    } else if !(1..=TOP).contains(&sequence) {
        Some(2)
    } else if bad_vector(replicas, &event.version) || event.version[replica as usize] != sequence {
        Some(3)
    } else {
        None
    }
}
