//! The waiting room at its edges: the order of refusals, siblings, what is passed, 64 that wait, and what the history refuses.

use runs::{lines::TOP, text::spaced};

use crate::{NUMBERS, at_each_room, vectors};

fn look(lines: &mut Vec<String>) {
    lines.extend(["r.waiting", "r.len", "h.iter"].map(str::to_string));
}

/// The lines, each with a look after it.
fn each(script: &[&str], lines: &mut Vec<String>) {
    for line in script {
        lines.push(line.to_string());
        look(lines);
    }
}

pub fn edges(lines: &mut Vec<String>) {
    bad_notes(lines);
    passed(lines);
    siblings(lines);
    refused_by_the_history(lines);
    new_and_clear(lines);
    joining(lines);
    full_room(lines);
    full_history(lines);
}

fn bad_notes(lines: &mut Vec<String>) {
    for replicas in 1..=16 {
        lines.push(format!("h.new {replicas}"));
        for v in vectors(replicas).iter().map(|v| spaced(v)) {
            lines.push(format!("r.arrive 0 1 - 1 1 1 {v}"));
            lines.push(format!("r.arrive {} 1 - 1 1 1 {v}", replicas - 1));
        }
        look(lines);
    }
    lines.push("h.new 2".to_string());
    for replica in NUMBERS {
        lines.extend(NUMBERS.map(|sequence| format!("r.arrive {replica} {sequence} - 1 1 1 {sequence} 1")));
    }
    lines.extend(NUMBERS.map(|revision| format!("r.arrive 1 7 - 1 1 {revision} 1 7")));
    lines.push(format!(
        "r.arrive 0 {TOP} 4294967295 {m} {m} 4294967295 {TOP} {TOP}",
        m = u64::MAX
    ));
    look(lines);
}

/// Waiting, then passed by an append past the room: refused arrivals hand nothing over.
fn passed(lines: &mut Vec<String>) {
    each(
        &[
            "h.new 2",
            "r.arrive 0 2 - 1 1 1 2 0",
            "r.arrive 0 2 - 1 1 1 2 0",
            "r.arrive 0 3 - 1 1 1 3 1",
            "h.append 0 1 - 1 1 1 1 0",
            "r.arrive 0 2 - 1 1 1 2 0",
            "r.arrive 0 1 - 1 1 1 1 0",
            "r.arrive 2 1 - 1 1 1 1 0",
            "h.append 0 2 5 1 1 1 2 0",
            "r.arrive 0 2 - 1 1 1 2 0",
            "r.arrive 0 2 6 1 1 1 2 0",
            "r.arrive 1 2 - 1 1 1 0 2",
            "r.arrive 1 1 - 1 1 1 2 1",
            "r.arrive 0 3 - 1 1 1 3 1",
        ],
        lines,
    );
}

/// Every order of three siblings before their turn, and then the note before them; the lowest may be refused.
fn siblings(lines: &mut Vec<String>) {
    let all = ["-", "0", "4294967295"];
    for (first, second) in [(0, 1), (0, 2), (1, 0), (1, 2), (2, 0), (2, 1)] {
        for absent_regressed in [false, true] {
            lines.push("h.new 2".to_string());
            lines.push("r.arrive 1 1 - 1 1 1 0 1".to_string());
            for at in [first, second, 3 - first - second] {
                let other = u64::from(!absent_regressed || at > 0);
                lines.push(format!("r.arrive 0 2 {} 1 1 {at} 2 {other}", all[at]));
            }
            lines.push("r.arrive 0 3 - 1 1 1 3 1".to_string());
            look(lines);
            lines.push("r.arrive 0 1 - 1 1 1 1 1".to_string());
            look(lines);
        }
    }
}

fn refused_by_the_history(lines: &mut Vec<String>) {
    each(
        &[
            "h.new 3",
            "r.arrive 2 2 - 1 1 1 0 0 2",
            "r.arrive 1 1 - 1 1 1 1 1 1",
            "r.arrive 0 2 - 1 1 1 2 0 0",
            "r.arrive 0 3 - 1 1 1 3 1 2",
            "r.arrive 0 1 - 1 1 1 1 0 1",
            "r.arrive 2 1 - 1 1 1 0 0 1",
            "r.arrive 0 3 - 1 1 1 3 1 2",
            "r.arrive 0 2 - 1 1 1 2 1 1",
            "r.arrive 0 3 0 1 1 1 3 0 2",
            "h.prune 1 0 2",
            "r.arrive 0 1 - 1 1 1 1 0 1",
            "r.arrive 2 4 - 1 1 1 0 0 4",
            "r.arrive 2 3 - 1 1 1 0 0 3",
        ],
        lines,
    );
}

/// A clear leaves what waits, and so does a creation that is refused.
fn new_and_clear(lines: &mut Vec<String>) {
    each(
        &[
            "h.new 2",
            "h.append 0 1 - 1 1 1 1 0",
            "r.arrive 0 3 - 1 1 1 3 0",
            "r.arrive 1 1 - 1 1 1 2 1",
            "h.clear",
            "h.new 0",
            "h.new 17",
            "r.arrive 0 2 - 1 1 1 2 0",
            "r.arrive 0 1 - 1 1 1 1 0",
            "r.arrive 1 3 - 1 1 1 0 3",
            "h.clear",
            "r.arrive 0 1 - 1 1 1 1 0",
            "h.new 2",
            "r.arrive 0 2 - 1 1 1 2 0",
            "h.append 0 1 - 1 1 1 1 0",
            "h.clear",
            "r.arrive 1 1 - 1 1 1 0 1",
            "r.arrive 0 1 - 1 1 1 1 1",
        ],
        lines,
    );
}

/// Versions that wait from before a raise.
fn joining(lines: &mut Vec<String>) {
    each(
        &[
            "h.new 1",
            "r.arrive 0 2 - 1 1 1 2",
            "r.arrive 1 1 - 1 1 1 1 1",
            "h.raise 3",
            "r.arrive 2 1 - 1 1 1 2",
            "r.arrive 2 1 - 1 1 1 2 0 1 0",
            "r.arrive 2 1 - 1 1 1 2 0 1",
            "r.arrive 1 1 - 1 1 1 2 1",
            "h.raise 2",
            "r.arrive 0 1 - 1 1 1 1",
            "h.version 0 2 -",
            "h.last-version 1",
            "h.raise 16",
            "h.last-version 2",
        ],
        lines,
    );
}

/// 64 wait: who is refused, who is passed on, and a report of 65.
fn full_room(lines: &mut Vec<String>) {
    let note = |sequence: u64| format!("r.arrive 0 {sequence} 4294967295 1 1 1 {sequence} 0");
    for appended in [0, 1, 3] {
        lines.push("h.new 2".to_string());
        lines.extend((2..=65).rev().map(note));
        lines.extend([note(66), note(65), "r.len".to_string()]);
        at_each_room("r.waiting", 64, lines);
        // Due by what is appended past the room, but nothing is handed over by a refused arrival.
        lines.extend((1..=appended).map(|sequence| format!("h.append 0 {sequence} - 1 1 1 {sequence} 0")));
        lines.extend((appended > 0).then(|| "r.arrive 0 1 9 1 1 1 1 0".to_string()));
        lines.extend([note(67), note(2), "r.arrive 1 2 - 1 1 1 0 2".to_string()]);
        lines.extend(["r.arrive 2 1 - 1 1 1 0 1", "r.arrive 1 1 - 1 1 1 2 1"].map(str::to_string));
        look(lines);
        // Another desk is ready.
        lines.extend(["r.arrive 1 1 - 1 1 1 0 1", "r.len", "r.arrive 1 2 - 1 1 1 0 2"].map(str::to_string));
        look(lines);
        lines.extend([note(1), note(1)]);
        look(lines);
    }
}

/// The history is full when a note is ready: it is dropped, and may come again.
fn full_history(lines: &mut Vec<String>) {
    lines.push("h.new 2".to_string());
    lines.extend((1..=391).map(|sequence| format!("h.append 0 {sequence} - 1 1 1 {sequence}")));
    for sequence in [394, 395, 393, 396, 392, 393, 394] {
        lines.push(format!("r.arrive 0 {sequence} - 1 1 1 {sequence}"));
    }
    lines.extend(["r.waiting", "h.len", "h.remove 0 2 -"].map(str::to_string));
    for sequence in [395, 396, 393, 394, 395, 396] {
        lines.push(format!("r.arrive 0 {sequence} 0 1 1 1 {sequence}"));
    }
    lines.extend(["r.arrive 1 1 - 1 1 1 394 1", "r.waiting", "h.len"].map(str::to_string));
}
