//! Stand-in: the clocks and id.rs fix a name table: resolve an index to its name or nothing, len, is_empty, equality; an Interner gets an index by name.
//!
//! A resolver of R replicas resolves the indexes 0 to R-1 and no other. R can be raised, for all that share the table. `Debug` names the type
//! only; nothing reads it.

use std::{
    fmt,
    sync::{
        Arc,
        atomic::{AtomicUsize, Ordering::Relaxed},
    },
};

use crate::replica::{ReplicaId, ReplicaIdx};

struct Table {
    names: Vec<ReplicaId>,
    /// How many of the names are in use.
    count: AtomicUsize,
}

#[derive(Clone)]
pub struct Resolver(Arc<Table>);

impl Resolver {
    pub fn new(names: Vec<ReplicaId>) -> Self {
        let count = names.len();
        Self::of_first(names, count)
    }

    /// The first `count` names are in use.
    pub fn of_first(names: Vec<ReplicaId>, count: usize) -> Self {
        let count = AtomicUsize::new(count);
        Self(Arc::new(Table { names, count }))
    }

    /// From now on the first `count` names are in use.
    pub fn raise(&self, count: usize) {
        self.0.count.fetch_max(count, Relaxed);
    }

    pub fn resolve(&self, idx: ReplicaIdx) -> Option<&ReplicaId> {
        self.in_use().get(idx.0)
    }

    pub fn len(&self) -> usize {
        self.0.count.load(Relaxed)
    }

    pub fn is_empty(&self) -> bool {
        self.len() == 0
    }

    fn in_use(&self) -> &[ReplicaId] {
        &self.0.names[..self.len()]
    }
}

impl PartialEq for Resolver {
    fn eq(&self, other: &Self) -> bool {
        Arc::ptr_eq(&self.0, &other.0) || self.in_use() == other.in_use()
    }
}

impl Eq for Resolver {}

impl fmt::Debug for Resolver {
    fn fmt(&self, f: &mut fmt::Formatter<'_>) -> fmt::Result {
        f.write_str("Resolver")
    }
}

pub struct Interner(Resolver);

impl Interner {
    pub fn new(resolver: Resolver) -> Self {
        Self(resolver)
    }

    pub fn get(&self, name: &ReplicaId) -> Option<ReplicaIdx> {
        self.0.in_use().iter().position(|n| n == name).map(ReplicaIdx)
    }

    pub fn resolver(&self) -> &Resolver {
        &self.0
    }
}
