//! Stand-in: event_graph.rs fixes a map that is read from either side: new, insert, get_by_left, get_by_right, contains_right.
//!
//! Inserting a pair drops the pairs that held either of its sides, so that left and right stay one to one.
//! `Debug` names the type only; nothing reads it.

use std::{collections::HashMap, fmt, hash::Hash};

#[derive(Clone)]
pub struct BiMap<L, R> {
    rights: HashMap<L, R>,
    lefts: HashMap<R, L>,
}

impl<L: Clone + Eq + Hash, R: Clone + Eq + Hash> BiMap<L, R> {
    pub fn insert(&mut self, left: L, right: R) {
        if let Some(old) = self.rights.remove(&left) {
            self.lefts.remove(&old);
        }
        if let Some(old) = self.lefts.remove(&right) {
            self.rights.remove(&old);
        }
        self.rights.insert(left.clone(), right.clone());
        self.lefts.insert(right, left);
    }

    pub fn get_by_left(&self, left: &L) -> Option<&R> {
        self.rights.get(left)
    }

    pub fn get_by_right(&self, right: &R) -> Option<&L> {
        self.lefts.get(right)
    }

    pub fn contains_right(&self, right: &R) -> bool {
        self.lefts.contains_key(right)
    }
}

impl<L, R> BiMap<L, R> {
    pub fn new() -> Self {
        Self {
            rights: HashMap::new(),
            lefts: HashMap::new(),
        }
    }
}

impl<L, R> Default for BiMap<L, R> {
    fn default() -> Self {
        Self::new()
    }
}

impl<L, R> fmt::Debug for BiMap<L, R> {
    fn fmt(&self, f: &mut fmt::Formatter<'_>) -> fmt::Result {
        f.write_str("BiMap")
    }
}
