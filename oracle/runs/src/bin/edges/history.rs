//! A history at its edges: the order of refusals, ranges, masks, boundaries, desks that join, and a full history.

use runs::{
    lines::TOP,
    text::{numbers_line, spaced, up_to},
};

use crate::{NUMBERS, at_each_room, raises, vectors};

/// History H of document 01.
const H: [&str; 4] = [
    "0 1 - 1 10 7 1 0",
    "1 1 - 2 11 8 1 1",
    "0 2 - 3 12 9 2 0",
    "0 3 - 4 13 7 3 1",
];

fn h(lines: &mut Vec<String>) {
    lines.push("h.new 2".to_string());
    lines.extend(H.map(|note| format!("h.append {note}")));
}

pub fn edges(lines: &mut Vec<String>) {
    for replicas in 1..=16 {
        lines.push(format!("h.new {replicas}"));
        for v in vectors(replicas).iter().map(|v| spaced(v)) {
            lines.extend(["predecessors", "concurrent", "prune"].map(|word| format!("h.{word} {v}")));
            lines.push(format!("h.append 0 1 - 1 1 1 {v}"));
        }
        lines.extend(["h.iter", "h.len", "h.retain", "h.clear", "h.retain", "h.is-empty"].map(str::to_string));
    }
    appends(lines);
    ranges(lines);
    masks(lines);
    raises(
        "h",
        &["h.iter", "h.last-version 0", "h.version 0 1 -", "h.newly 0 3 -"],
        lines,
    );
    joining(lines);
    alike(lines);
    one(false, lines);
    one(true, lines);
    two(lines);
}

/// Events that several refusals apply to, before and after a prune.
fn appends(lines: &mut Vec<String>) {
    for prune in ["", "h.prune 2 0", "h.prune 3 1", "h.remove 0 2 -", "h.clear"] {
        for replica in [0, 1, 2, u64::MAX] {
            for sequence in [0, 1, 2, 3, 4, 5, TOP, TOP + 1] {
                for other in [0, 1, 2] {
                    let v = if replica == 1 {
                        [other, sequence]
                    } else {
                        [sequence, other]
                    };
                    h(lines);
                    lines.extend((!prune.is_empty()).then(|| prune.to_string()));
                    lines.push(format!("h.append {replica} {sequence} 7 1 1 1 {}", spaced(&v)));
                    lines.extend(["h.last-version 0", "h.last-version 1", "h.len"].map(str::to_string));
                }
            }
        }
    }
}

/// All small ranges, neighbours of all small ids, after each prune of H.
fn ranges(lines: &mut Vec<String>) {
    for frontier in up_to(&[4, 2]) {
        h(lines);
        lines.push(format!("h.prune {}", spaced(&frontier)));
        for desk in [0, 1, 2] {
            for start in 0..=4 {
                lines.extend((0..=4).map(|end| format!("h.replica-events {desk} {start} {end}")));
            }
            lines.push(format!("h.last-version {desk}"));
        }
        for (desk, sequence) in [
            (0, 0),
            (0, 1),
            (0, 2),
            (0, 3),
            (0, 4),
            (1, 0),
            (1, 1),
            (1, 2),
            (2, 1),
            (0, u64::MAX),
        ] {
            let id = format!("{desk} {sequence} -");
            lines.extend(["get", "version", "newly"].map(|word| format!("h.{word} {id}")));
            for other in [0, 1, 2] {
                lines.extend(["previous", "next", "first"].map(|word| format!("h.{word} {id} {other}")));
            }
        }
    }
    h(lines);
    for o in NUMBERS {
        lines.extend(NUMBERS.map(|sequence| format!("h.get {o} {sequence} -")));
        lines.extend([format!("h.last-version {o}"), format!("h.replica-events {o} 0 0")]);
        lines.extend(NUMBERS.map(|end| format!("h.replica-events 0 {o} {end}")));
    }
}

/// Every mask of H, those of a wrong length, and a wrong byte beside a gap.
fn masks(lines: &mut Vec<String>) {
    for length in 0..=5 {
        for mask in up_to(&vec![1; length]) {
            h(lines);
            lines.extend([
                numbers_line("h.retain", &mask),
                "h.iter".to_string(),
                "h.last-version 0".to_string(),
            ]);
        }
    }
    for mask in [[1, 0, 2, 1], [2, 0, 0, 0], [0, 0, 0, 255], [1, 0, 1, 256]] {
        lines.extend([numbers_line("h.retain", &mask), "h.len".to_string()]);
    }
    for sequence in [0, 1, 2, 3, 4, TOP, u64::MAX] {
        h(lines);
        lines.extend([
            format!("h.remove 0 {sequence} 5"),
            "h.iter".to_string(),
            "h.newly 0 3 -".to_string(),
        ]);
    }
}

/// A boundary from before a raise, and vectors that leave out final zeros.
fn joining(lines: &mut Vec<String>) {
    for line in [
        "h.new 1",
        "h.append 0 1 - 1 1 1 1",
        "h.append 0 2 - 1 1 1 2",
        "h.prune 1",
        "h.raise 3",
        "h.append 2 1 - 1 1 1 2",
        "h.append 2 1 - 1 1 1 2 0 1 0",
        "h.append 2 1 - 1 1 1 2 0 1",
        "h.append 3 1 - 1 1 1 2 0 0 1",
        "h.append 0 3 - 1 1 1 3 0 1",
        "h.append 0 4 - 1 1 1 4",
        "h.append 0 4 - 1 1 1 4 0 2",
        "h.raise 5",
        "h.predecessors 3",
        "h.concurrent 3",
        "h.prune 2",
        "h.append 4 1 - 1 1 1 4 0 0 0 1",
        "h.prune 4 4 4 4 4",
        "h.raise 7",
        "h.append 2 2 - 1 1 1 2 0 2",
        "h.raise 6",
        "h.clear",
        "h.raise 16",
        "h.append 15 1 - 1 1 1 0 0 0 0 0 0 0 0 0 0 0 0 0 0 0 1",
    ] {
        lines.push(line.to_string());
        lines.extend(["h.iter", "h.newly 0 3 -", "h.newly 0 4 -"].map(str::to_string));
        lines.extend([0, 2, 4, 15].map(|desk| format!("h.last-version {desk}")));
        lines.extend([0, 2, 4].map(|desk| format!("h.next 0 2 - {desk}")));
        lines.extend([0, 2, 4].map(|desk| format!("h.first 0 2 - {desk}")));
    }
}

/// A note with the longest texts, of a desk that has heard nothing, or one note of the next desk.
fn append(desk: usize, sequence: u64, heard: u64) -> String {
    let mut version = vec![0; 16];
    version[(desk + 1) % 16] = heard;
    version[desk] = sequence;
    format!(
        "h.append {desk} {sequence} 4294967295 {m} {m} 4294967295 {v}",
        m = u64::MAX,
        v = spaced(&version)
    )
}

/// The desk's notes up to the last, which alone has heard something; then one out of turn, one regressed and one more, which is full if any is.
fn up_to_full(desk: usize, last: u64, lines: &mut Vec<String>) {
    lines.extend((1..=last).map(|sequence| append(desk, sequence, u64::from(sequence == last))));
    lines.extend([
        append(desk, last + 2, 0),
        append(desk, last + 1, 0),
        append(desk, last + 1, 1),
    ]);
}

/// 32 of each of 16 desks, and rows freed that serve again.
fn alike(lines: &mut Vec<String>) {
    lines.push("h.new 16".to_string());
    for desk in 0..15 {
        lines.extend((1..=32).map(|sequence| append(desk, sequence, 1)));
    }
    up_to_full(15, 32, lines);
    lines.extend((0..16).map(|desk| append(desk, 33, 1)));
    let (top, zeros) = (spaced(&[TOP; 16]), spaced(&[0; 16]));
    for question in [
        "h.iter".to_string(),
        format!("h.predecessors {top}"),
        format!("h.concurrent {zeros}"),
    ] {
        at_each_room(&question, 512, lines);
    }
    at_each_room("h.replica-events 15 0 32", 32, lines);
    at_each_room("h.newly 0 32 4294967295", 1, lines);
    lines.push(numbers_line("h.retain", &[1; 511]));
    lines.push(numbers_line("h.retain", &[1; 512]));
    let desk_by_desk: Vec<u64> = (0..512).map(|i| u64::from(i % 32 >= i / 32)).collect();
    lines.push(numbers_line("h.retain", &desk_by_desk));
    refill(33..=48, lines);
    lines.push(format!("h.prune 1 2 47 48 49 {}", spaced(&[0; 11])));
    refill(49..=64, lines);
    lines.extend([
        format!("h.prune {top}"),
        "h.iter".to_string(),
        append(0, 1, 1),
        "h.clear".to_string(),
        append(0, 1, 1),
    ]);
}

fn refill(sequences: std::ops::RangeInclusive<u64>, lines: &mut Vec<String>) {
    for desk in 0..16 {
        lines.extend(sequences.clone().map(|sequence| append(desk, sequence, 1)));
        lines.extend([format!("h.last-version {desk}"), "h.len".to_string()]);
    }
}

/// One desk takes all rows that are shared, before the others have their eight or after, and gives some back.
fn one(eights_first: bool, lines: &mut Vec<String>) {
    let others = |lines: &mut Vec<String>| {
        for desk in (0..16).filter(|&desk| desk != 3) {
            lines.extend((1..=8).map(|sequence| append(desk, sequence, 1)));
        }
    };
    lines.push("h.new 16".to_string());
    if eights_first {
        others(lines);
    }
    up_to_full(3, 392, lines);
    if !eights_first {
        others(lines);
    }
    lines.extend((0..16).map(|desk| append(desk, 9, 1)));
    lines.extend(["h.len", "h.replica-events 3 0 392", "h.newly 3 392 4294967295"].map(str::to_string));
    at_each_room("h.iter", 512, lines);
    // A row of the shared ones serves whoever comes first; one of a desk's own eight serves that desk alone.
    for (desk, pruned) in [(3, 1), (0, 1), (5, 1), (3, 4), (15, 8)] {
        lines.push(format!("h.remove {desk} {pruned} -"));
        for sequence in 9..=10 {
            lines.extend([15, 0, 5].map(|desk| append(desk, sequence, 1)));
        }
        lines.extend([393, 394].map(|sequence| append(3, sequence, 1)));
        lines.push("h.len".to_string());
    }
}

/// Two desks share what there is beyond the eights, and a third has nothing of it.
fn two(lines: &mut Vec<String>) {
    lines.push("h.new 16".to_string());
    for sequence in 1..=201 {
        lines.extend([append(0, sequence, 0), append(15, sequence, 0)]);
    }
    lines.extend((1..=9).map(|sequence| append(7, sequence, 0)));
    lines.extend(["h.len", "h.remove 15 1 -"].map(str::to_string));
    lines.extend([append(7, 9, 0), append(15, 201, 0), append(0, 201, 0)]);
    lines.extend(["h.len", "h.remove 7 9 -", "h.raise 16"].map(str::to_string));
    lines.extend([append(0, 201, 0), append(15, 201, 0), append(7, 10, 0)]);
}
