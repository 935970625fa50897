//! Stand-in: event/mod.rs and tagged_op.rs fix a Lamport number that is copied, never computed with.

#[derive(Clone, Copy, Debug, PartialEq, Eq)]
pub struct Lamport(pub u64);
