//! Prints probe lines for all short logs: every graph|orders|history|room R N.
//!
//! A *log* here is a list of up to N notes among R desks. Each note is written by a desk that has heard a set of the notes before it,
//! any set that holds the desk's own notes and the past of each of its notes; or it is the next sibling of the note before it.
//! So every finite way for these desks to write is listed, and each in every order in which its notes can arrive after their past.
//! Some copies of a log start with one desk and are raised when a note first speaks of another, with vectors that leave out final zeros.
//!
//! - `graph`: each log, its cuts, heads and parents, a sibling of its last note with another revision, `why` and `chain` at every number,
//!   `greatest`, `is-critical` and `seen` at every vector up to its tops, and a flush at each critical one of these vectors, with the same
//!   questions after it and an advance to the tops; and an advance at one that is not critical.
//! - `orders`: each set of notes that is a log, in each order that keeps every desk's own order and brings some note before its past.
//! - `history`: each set of notes that is a log without siblings: `previous`, `next` and `first` of each id and desk, `newly` of each id, and the
//!   same again after a prune at every vector up to its tops.
//! - `room`: each set of notes that is a log, in every order of arrival at the waiting room.

mod graph;
mod history;
mod logs;
mod room;

use std::io::{self, BufWriter, Write};

fn usage() -> ! {
    eprintln!("usage: every graph|orders|history|room R N");
    std::process::exit(2)
}

fn main() -> io::Result<()> {
    let arguments: Vec<String> = std::env::args().skip(1).collect();
    let [kind, replicas, notes] = &arguments[..] else {
        usage()
    };
    let (Ok(replicas), Ok(notes)) = (replicas.parse(), notes.parse()) else {
        usage()
    };
    let mut lines = Vec::new();
    match kind.as_str() {
        "graph" => logs::each(replicas, notes, true, &mut |log| graph::ask(replicas, log, &mut lines)),
        "orders" => {
            for set in logs::sets(replicas, notes, true) {
                graph::bring_early(replicas, &set, &mut lines);
            }
        }
        "history" => {
            for set in logs::sets(replicas, notes, false) {
                history::ask(replicas, &set, &mut lines);
            }
        }
        "room" => {
            for set in logs::sets(replicas, notes, true) {
                room::ask(replicas, &set, &mut lines);
            }
        }
        _ => usage(),
    }
    let mut out = BufWriter::new(io::stdout().lock());
    for line in lines {
        writeln!(out, "{line}")?;
    }
    out.flush()
}
