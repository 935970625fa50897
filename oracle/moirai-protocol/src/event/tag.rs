//! Stand-in: tagged_op.rs fixes a pair of an event id and a Lamport number, handed back as they came.

use crate::event::{id::EventId, lamport::Lamport};

#[derive(Clone, Debug)]
pub struct Tag {
    id: EventId,
    lamport: Lamport,
}

impl Tag {
    pub fn new(id: EventId, lamport: Lamport) -> Self {
        Self { id, lamport }
    }

    pub fn id(&self) -> &EventId {
        &self.id
    }

    pub fn lamport(&self) -> &Lamport {
        &self.lamport
    }
}
