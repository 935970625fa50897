//! A graph at its edges: each refusal where others apply too, siblings, checkpoints, desks that join, and a full log.

use runs::{
    lines::TOP,
    text::{spaced, up_to},
};

use crate::{NUMBERS, full, raises, vectors};

const LOOK: [&str; 7] = [
    "g.iter",
    "g.named",
    "g.roots",
    "g.heads",
    "g.cuts",
    "g.len",
    "g.is-empty",
];

const WITH_A_VECTOR: [&str; 7] = [
    "greatest",
    "is-critical",
    "advance",
    "flush",
    "predecessors",
    "concurrent",
    "seen",
];

pub fn look(lines: &mut Vec<String>) {
    lines.extend(LOOK.map(str::to_string));
}

pub fn edges(lines: &mut Vec<String>) {
    creations(lines);
    refusals(lines);
    siblings(lines);
    highest(lines);
    raises("g", &["g.iter", "g.named", "g.cuts", "g.heads"], lines);
    joining(lines);
    full::edges(lines);
}

fn creations(lines: &mut Vec<String>) {
    for replicas in 1..=16 {
        for v in vectors(replicas).iter().map(|v| spaced(v)) {
            lines.push(format!("g.from {replicas} {v}"));
            lines.extend(WITH_A_VECTOR.map(|word| format!("g.{word} {v}")));
            look(lines);
        }
    }
    lines.extend(NUMBERS.map(|count| format!("g.from {count} 1")));
    // At the top nothing more can come of a desk.
    for base in [TOP - 1, TOP] {
        lines.push(format!("g.from 2 {base} 0"));
        for sequence in [TOP - 1, TOP, TOP + 1] {
            lines.push(format!(
                "g.append 0 {sequence} - {} {} 1 {sequence} 0",
                u64::MAX,
                u64::MAX
            ));
        }
        lines.extend([
            format!("g.greatest {TOP} {TOP}"),
            format!("g.flush {TOP} 0"),
            format!("g.append 1 1 - 0 0 0 {TOP} 1"),
        ]);
        look(lines);
    }
}

/// Events that several refusals apply to, before and after each change of the log.
fn refusals(lines: &mut Vec<String>) {
    let mut appends = Vec::new();
    for v in [
        "0 0 0", "1 0 0", "1 1 0", "0 1 1", "1 1 1", "1 2 0", "2 1 1", "2 2 1", "2 1 2", "2 0 1", "0 2 0", "3 3 3",
    ] {
        let entries: Vec<&str> = v.split(' ').collect();
        for replica in [0, 1, 2, 3] {
            let own = entries.get(replica).unwrap_or(&"1");
            for sequence in [own, "0", "1", "4294967296"] {
                appends.push(format!("g.append {replica} {sequence} - 9 9 5 {v}"));
            }
            appends.push(format!("g.append {replica} {own} - 9 9 5 {v} 0"));
            for revision in [5, 6] {
                appends.push(format!("g.append {replica} {own} 0 9 9 {revision} {v}"));
            }
        }
    }
    let notes = [
        "0 1 - 1 10 5 1 0 0",
        "1 1 - 2 11 5 1 1 0",
        "2 1 - 2 12 5 1 0 1",
        "0 2 - 3 13 5 2 1 1",
    ];
    for (count, flush) in [
        (0, ""),
        (1, ""),
        (3, ""),
        (4, ""),
        (4, "g.advance 1 1 0"),
        (4, "g.flush 1 1 1"),
        (4, "g.flush 2 1 1"),
    ] {
        for append in &appends {
            lines.push("g.new 3".to_string());
            lines.extend(notes[..count].iter().map(|note| format!("g.append {note}")));
            lines.extend((!flush.is_empty()).then(|| flush.to_string()));
            lines.extend([append.clone(), "g.cuts".to_string(), "g.named".to_string()]);
        }
    }
    for o in NUMBERS {
        for (a, b) in [
            (0, 0),
            (1, 0),
            (0, 1),
            (1, 2),
            (2, 1),
            (0, u64::MAX),
            (u64::MAX, 0),
            (TOP, TOP + 1),
        ] {
            lines.push(format!("g.replica-events {o} {a} {b}"));
        }
        lines.extend([format!("g.why {o}"), format!("g.chain {o}")]);
        for word in ["get", "parents", "order", "remove"] {
            lines.extend(NUMBERS.map(|sequence| format!("g.{word} {o} {sequence} -")));
        }
    }
    lines.push("g.clear".to_string());
    look(lines);
}

/// A note and every two siblings in turn, right after each other and with a note between, of one revision and of two.
fn siblings(lines: &mut Vec<String>) {
    let all = ["-", "0", "1", "4294967294", "4294967295"];
    for first in all {
        for second in all {
            for between in [
                &[][..],
                &["g.append 1 1 - 2 2 2 0 1"],
                &["g.append 1 1 - 2 2 2 1 1"],
                &["g.append 0 2 - 2 2 2 2 0", "g.remove 0 2 -"],
                &["g.flush 1 0"],
                &["g.remove 0 1 -"],
            ] {
                for revision in [1, 2] {
                    lines.push("g.new 2".to_string());
                    lines.push(format!("g.append 0 1 {first} 1 1 1 1 0"));
                    lines.extend(between.iter().map(|line| line.to_string()));
                    lines.push(format!("g.append 0 1 {second} 3 3 {revision} 1 0"));
                    lines.extend(["g.cuts", "g.heads", "g.iter"].map(str::to_string));
                    lines.push(format!("g.parents 0 1 {second}"));
                }
            }
        }
    }
}

/// Whether all is seen, with just enough and one entry too low, before and after each change that takes a highest note.
fn highest(lines: &mut Vec<String>) {
    for change in [
        "g.len",
        "g.remove 0 3 -",
        "g.remove 0 3 0",
        "g.remove 1 1 -",
        "g.retain 1 1 0 0 1",
        "g.retain 0 0 1 1 0",
        "g.flush 2 0",
        "g.advance 3 0",
        "g.flush 3 1",
        "g.clear",
    ] {
        lines.push("g.new 2".to_string());
        lines.extend(
            [
                "0 1 - 1 1 1 1 0",
                "0 2 - 1 1 1 2 0",
                "0 3 - 1 1 1 3 0",
                "0 3 0 1 1 1 3 0",
                "1 1 - 1 1 1 2 1",
            ]
            .map(|note| format!("g.append {note}")),
        );
        lines.push(change.to_string());
        lines.extend(up_to(&[4, 2]).iter().map(|v| format!("g.seen {}", spaced(v))));
        lines.extend(["g.append 1 2 - 1 1 1 3 2", "g.seen 3 1", "g.seen 3 2"].map(str::to_string));
    }
}

/// Roots from before a raise, and vectors that leave out final zeros.
fn joining(lines: &mut Vec<String>) {
    for line in [
        "g.new 1",
        "g.append 0 1 - 1 1 1 1",
        "g.append 0 2 - 1 1 1 2",
        "g.flush 1",
        "g.raise 3",
        "g.append 2 1 - 1 1 1 1",
        "g.append 2 1 - 1 1 1 0 0 1",
        "g.append 2 1 - 1 1 1 1 0 1 0",
        "g.append 2 1 - 1 1 1 1 0 1",
        "g.append 3 1 - 1 1 1 1 0 0 1",
        "g.append 0 3 - 1 1 1 3 0 1",
        "g.raise 5",
        "g.is-critical 1",
        "g.is-critical 1 0 0 0 0",
        "g.greatest 2",
        "g.greatest 2 0 1",
        "g.greatest 3 0 1 0",
        "g.greatest 0 0 1",
        "g.predecessors 2",
        "g.concurrent 2",
        "g.seen 3 0 1",
        "g.seen 3",
        "g.append 4 1 - 1 1 1 2 0 0 0 1",
        "g.advance 2 0 1",
        "g.remove 4 1 -",
        "g.advance 2 0 1",
        "g.append 4 1 - 1 1 1 3 0 0 0 1",
        "g.append 4 1 - 1 1 1 3 0 1 0 1",
        "g.append 0 3 0 1 1 1 3",
        "g.advance 4 4 4 4 4",
        "g.append 0 4 - 1 1 1 4",
        "g.append 1 1 - 1 1 1 3 1 1",
        "g.append 1 1 - 1 1 1 3 1 1 0 1",
        "g.raise 4",
        "g.clear",
        "g.raise 16",
        "g.append 0 1 - 1 1 1 1",
    ] {
        lines.push(line.to_string());
        look(lines);
    }
}
