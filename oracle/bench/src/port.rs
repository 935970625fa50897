//! The port's side: each of its functions makes a log of the rows that it is lent and makes one call so many times.

use std::{cell::RefCell, hint::black_box};

use crate::clock::per_round;

/// A shape of call, and the port's functions of that shape. A slice goes over as its start and its length, a table as its start.
macro_rules! shape {
    ($shape:ident $takes:tt $($call:ident)*) => {
        pub type $shape = unsafe extern "C" fn $takes -> usize;
        unsafe extern "C" {
            $(pub fn $call $takes -> usize;)*
        }
    };
}

shape! {
    Alone(rows: *const usize, len: usize, n: usize, rounds: usize)
    port_graph_roots
    port_history_append
    port_history_again
}
shape! {
    Asks(rows: *const usize, len: usize, n: usize, q: *const usize, ql: usize, m: usize, rounds: usize)
    port_graph_greatest
    port_graph_is_critical
    port_graph_seen_all
    port_graph_get
    port_graph_delivery_order
    port_history_get
    port_history_version
    port_history_previous
    port_history_next
}
shape! {
    Lists(rows: *const usize, len: usize, n: usize, q: *const usize, ql: usize, m: usize, rounds: usize, out: *mut usize, ol: usize)
    port_graph_predecessors
    port_graph_concurrent
    port_graph_direct_predecessors
    port_history_predecessors
    port_history_concurrent
    port_history_replica_events
    port_history_newly
}
shape! {
    ListsAll(rows: *const usize, len: usize, n: usize, rounds: usize, out: *mut usize, ol: usize)
    port_graph_frontier
    port_history_iter
}
// A change is lent the graph's tables.
shape! {
    Changes(rows: *const usize, len: usize, n: usize, rounds: usize, slots: *mut usize, pasts: *mut u64)
    port_graph_append
    port_graph_copies
}
shape! {
    ChangesAt(rows: *const usize, len: usize, n: usize, q: *const usize, ql: usize, m: usize, rounds: usize, slots: *mut usize, pasts: *mut u64)
    port_graph_flush
    port_graph_advance
    port_graph_remove
}
shape! {
    Masks(rows: *const usize, len: usize, n: usize, mask: *const u8, ml: usize, rounds: usize, slots: *mut usize, pasts: *mut u64)
    port_graph_retain
}

/// Numbers for 256 slots: more columns than the graph has, and four words of ancestors.
const COLUMNS: usize = 16;
const SLOTS: usize = 256;

pub struct Port {
    rows: Vec<usize>,
    held: usize,
    out: RefCell<Vec<usize>>,
    slots: RefCell<Vec<usize>>,
    pasts: RefCell<Vec<u64>>,
}

impl Port {
    pub fn new(rows: Vec<usize>, held: usize) -> Self {
        Port {
            rows,
            held,
            out: RefCell::new(vec![0; 512]),
            slots: RefCell::new(vec![0; SLOTS * COLUMNS]),
            pasts: RefCell::new(vec![0; SLOTS * 4]),
        }
    }

    fn log(&self) -> (*const usize, usize, usize) {
        (self.rows.as_ptr(), self.rows.len(), self.held)
    }

    /// The call alone, in each round.
    pub fn alone(&self, rounds: usize, call: Alone) -> f64 {
        let (rows, len, n) = self.log();
        per_round(rounds, |k| unsafe {
            black_box(call(rows, len, n, k));
        })
    }

    /// The call about the notes of the log in turn.
    pub fn asks_all(&self, rounds: usize, call: Asks) -> f64 {
        let (rows, len, n) = self.log();
        per_round(rounds, |k| unsafe {
            black_box(call(rows, len, n, rows, len, n, k));
        })
    }

    /// The call about one note.
    pub fn asks_at(&self, rounds: usize, call: Asks, note: &[usize]) -> f64 {
        let (rows, len, n) = self.log();
        per_round(rounds, |k| unsafe {
            black_box(call(rows, len, n, note.as_ptr(), note.len(), 1, k));
        })
    }

    pub fn lists(&self, rounds: usize, call: Lists) -> f64 {
        let (rows, len, n) = self.log();
        let mut out = self.out.borrow_mut();
        per_round(rounds, |k| unsafe {
            black_box(call(rows, len, n, rows, len, n, k, out.as_mut_ptr(), out.len()));
        })
    }

    pub fn lists_all(&self, rounds: usize, call: ListsAll) -> f64 {
        let (rows, len, n) = self.log();
        let mut out = self.out.borrow_mut();
        per_round(rounds, |k| unsafe {
            black_box(call(rows, len, n, k, out.as_mut_ptr(), out.len()));
        })
    }

    /// The change alone, in each round.
    pub fn changes(&self, rounds: usize, call: Changes) -> f64 {
        let (rows, len, n) = self.log();
        let (mut slots, mut pasts) = (self.slots.borrow_mut(), self.pasts.borrow_mut());
        per_round(rounds, |k| unsafe {
            black_box(call(rows, len, n, k, slots.as_mut_ptr(), pasts.as_mut_ptr()));
        })
    }

    /// The change at one note.
    pub fn changes_at(&self, rounds: usize, call: ChangesAt, note: &[usize]) -> f64 {
        let (rows, len, n) = self.log();
        let (mut slots, mut pasts) = (self.slots.borrow_mut(), self.pasts.borrow_mut());
        per_round(rounds, |k| unsafe {
            black_box(call(rows, len, n, note.as_ptr(), note.len(), 1, k, slots.as_mut_ptr(), pasts.as_mut_ptr()));
        })
    }

    pub fn masks(&self, rounds: usize, call: Masks, mask: &[u8]) -> f64 {
        let (rows, len, n) = self.log();
        let (mut slots, mut pasts) = (self.slots.borrow_mut(), self.pasts.borrow_mut());
        per_round(rounds, |k| unsafe {
            black_box(call(rows, len, n, mask.as_ptr(), mask.len(), k, slots.as_mut_ptr(), pasts.as_mut_ptr()));
        })
    }
}
