//! Prints a fixed list of probe lines: every word before its log is made, and the documents' edges on both sides. It takes no arguments.
//! The last line lacks its newline.

mod clocks;
mod full;
mod graph;
mod history;
mod room;

use std::io::{self, Write};

use runs::{
    lines::{LONGEST, TOP},
    text::{numbers_line, spaced},
};

/// A good line of every word but the creations and `room`.
const BEFORE: [&str; 58] = [
    "c.entry 0 1",
    "c.set 0 1 1",
    "c.join 1 | 1",
    "c.meet 1 | 1",
    "c.compare 1 | 1",
    "c.includes 1 | 1",
    "c.contains 0 1 - 1",
    "c.sum 1",
    "c.increment 0 1",
    "c.vjoin 0 1 | 0 1",
    "c.dependencies 0 1",
    "g.raise 1",
    "g.append 0 1 - 1 1 1 1",
    "g.get 0 1 -",
    "g.predecessors 1",
    "g.concurrent 1",
    "g.iter",
    "g.replica-events 0 0 1",
    "g.len",
    "g.is-empty",
    "g.roots",
    "g.named",
    "g.greatest 1",
    "g.is-critical 1",
    "g.parents 0 1 -",
    "g.heads",
    "g.cuts",
    "g.order 0 1 -",
    "g.why 1",
    "g.chain 0",
    "g.seen 1",
    "g.advance 1",
    "g.flush 1",
    "g.remove 0 1 -",
    "g.retain 1",
    "g.clear",
    "h.raise 1",
    "h.append 0 1 - 1 1 1 1",
    "h.get 0 1 -",
    "h.version 0 1 -",
    "h.last-version 0",
    "h.predecessors 1",
    "h.concurrent 1",
    "h.iter",
    "h.replica-events 0 0 1",
    "h.len",
    "h.is-empty",
    "h.previous 0 1 - 0",
    "h.next 0 1 - 0",
    "h.first 0 1 - 0",
    "h.newly 0 1 -",
    "h.prune 1",
    "h.remove 0 1 -",
    "h.retain 1",
    "h.clear",
    "r.arrive 0 1 - 1 1 1 1",
    "r.waiting",
    "r.len",
];

/// Counts, replicas and sequences on both sides of what is allowed.
pub const NUMBERS: [u64; 10] = [0, 1, 2, 15, 16, 17, TOP - 1, TOP, TOP + 1, u64::MAX];

/// Asks the same list with no room, with one entry too few, with room enough, and with the most.
pub fn at_each_room(question: &str, length: usize, lines: &mut Vec<String>) {
    for room in [0, length.saturating_sub(1), length, 1024] {
        lines.extend([format!("room {room}"), question.to_string()]);
    }
    lines.push("room 512".to_string());
}

/// Vectors of R desks at the edges: short, whole, too long, and at, below and above the top.
pub fn vectors(replicas: u64) -> Vec<Vec<u64>> {
    let mut all: Vec<Vec<u64>> = [1, replicas.max(2) - 1, replicas, replicas + 1]
        .map(|length| vec![1; length as usize])
        .to_vec();
    for entry in [0, TOP - 1, TOP, TOP + 1, u64::MAX] {
        all.push(vec![entry; replicas as usize]);
        let mut last = vec![1; replicas as usize];
        last[replicas as usize - 1] = entry;
        all.push(last);
    }
    all
}

/// Every raise from every count of desks; then a log whose desks join one after the other, with versions short, too long and whole.
pub fn raises(log: &str, look: &[&str], lines: &mut Vec<String>) {
    for replicas in 1..=16 {
        for to in NUMBERS.into_iter().chain([replicas - 1, replicas, replicas + 1]) {
            lines.extend([format!("{log}.new {replicas}"), format!("{log}.raise {to}")]);
            lines.extend(look.iter().map(|word| word.to_string()));
        }
    }
    lines.push(format!("{log}.new 1"));
    for replicas in 1..=16 {
        let ones = |count: u64| vec![1; count as usize];
        lines.push(format!("{log}.raise {replicas}"));
        for version in [ones(1), ones(replicas + 1), ones(replicas)] {
            lines.push(format!("{log}.append {} 1 - 1 1 1 {}", replicas - 1, spaced(&version)));
        }
        // The first desk goes on, forgetting the others and then not.
        let next = replicas + 1;
        for version in [vec![next], [&[next], &ones(replicas)[1..]].concat()] {
            lines.push(format!("{log}.append 0 {next} - 1 1 1 {}", spaced(&version)));
        }
        lines.extend(look.iter().map(|word| word.to_string()));
    }
}

/// Revisions at and past the edge, in both logs.
fn revisions(lines: &mut Vec<String>) {
    for log in ["g", "h"] {
        for revision in NUMBERS {
            lines.extend([
                format!("{log}.new 1"),
                format!("{log}.append 0 1 - 1 1 {revision} 1"),
                format!("{log}.iter"),
            ]);
        }
    }
}

/// Lines one byte shorter than the longest, as long, and one byte longer.
fn long_lines(lines: &mut Vec<String>) {
    for word in ["g.retain", "h.retain"] {
        for bytes in [LONGEST - 1, LONGEST, LONGEST + 1, 2 * LONGEST, 3 * LONGEST + 1] {
            let mut line = numbers_line(word, &vec![1; (bytes - word.len()) / 2]);
            if line.len() < bytes {
                line.push('0');
            }
            lines.push(line);
            lines.push("g.len".to_string());
        }
    }
}

fn main() -> io::Result<()> {
    let mut lines: Vec<String> = BEFORE.map(str::to_string).to_vec();
    for word in ["c.replicas", "g.new", "h.new"] {
        lines.extend(NUMBERS.map(|count| format!("{word} {count}")));
    }
    for room in [0, 1, 1023, 1024, 1025, u64::MAX] {
        lines.push(format!("room {room}"));
    }
    lines.push("room 512".to_string());
    clocks::edges(&mut lines);
    graph::edges(&mut lines);
    history::edges(&mut lines);
    room::edges(&mut lines);
    revisions(&mut lines);
    long_lines(&mut lines);
    io::stdout().lock().write_all(lines.join("\n").as_bytes())
}
