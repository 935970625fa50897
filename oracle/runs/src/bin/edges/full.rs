//! A graph at its 256 events, full of one desk's notes and of sixteen desks'.

use runs::{
    lines::TOP,
    text::{numbers_line, spaced},
};

use crate::{at_each_room, graph::look};

pub fn edges(lines: &mut Vec<String>) {
    for filler in [chain, braid] {
        full(filler, lines);
    }
}

/// Note number i of one desk, each heard by the next.
fn chain(i: u64) -> String {
    format!(
        "0 {} 4294967295 {m} {m} 4294967295 {s}",
        TOP - 300 + i,
        m = u64::MAX,
        s = spaced(&[&[TOP - 300 + i][..], &[0; 15]].concat())
    )
}

/// Note number i of sixteen desks that hear nothing.
fn braid(i: u64) -> String {
    let (desk, sequence) = (i % 16, i / 16 + 1);
    let mut version = vec![0; 16];
    version[desk as usize] = sequence;
    format!("{desk} {sequence} - {i} {i} 0 {}", spaced(&version))
}

/// The note with disambiguator 0 and this revision.
fn sibling(note: &str, revision: &str) -> String {
    let mut words: Vec<&str> = note.split(' ').collect();
    (words[2], words[5]) = ("0", revision);
    words.join(" ")
}

fn full(filler: fn(u64) -> String, lines: &mut Vec<String>) {
    lines.push("g.new 16".to_string());
    lines.extend((0..255).map(|i| format!("g.append {}", filler(i))));
    lines.extend([
        "g.len".to_string(),
        format!("g.append {}", filler(255)),
        "g.len".to_string(),
    ]);
    // Full comes last: known, late, another revision and a bad event are told first.
    lines.extend([filler(256), filler(255), filler(3)].map(|note| format!("g.append {note}")));
    lines.extend(["0", "1"].map(|revision| format!("g.append {}", sibling(&filler(255), revision))));
    lines.extend(
        [
            "g.append 16 1 - 1 1 1 1",
            "g.append 0 0 - 1 1 1 1",
            "g.append 0 1 - 1 1 1 1",
        ]
        .map(str::to_string),
    );
    let top = spaced(&[TOP; 16]);
    let zeros = spaced(&[0; 16]);
    for question in [
        "g.iter".to_string(),
        format!("g.predecessors {top}"),
        format!("g.concurrent {zeros}"),
    ] {
        at_each_room(&question, 256, lines);
    }
    at_each_room("g.heads", 16, lines);
    at_each_room("g.heads", 1, lines);
    at_each_room("g.cuts", 256, lines);
    at_each_room("g.cuts", 1, lines);
    at_each_room("g.chain 255", 256, lines);
    at_each_room("g.chain 255", 16, lines);
    lines.extend(["g.chain 256".to_string(), "g.chain 240".to_string()]);
    lines.extend([1, 16, 17, 255, 256, 257].map(|length| format!("g.why {length}")));
    lines.extend([
        format!("g.greatest {top}"),
        format!("g.flush {top}"),
        format!("g.flush {zeros}"),
        format!("g.advance {zeros}"),
        format!("g.seen {top}"),
        format!("g.seen {zeros}"),
    ]);
    for length in [0, 255, 257, 2043] {
        lines.push(numbers_line("g.retain", &vec![1; length]));
    }
    for byte in [2, 255, 256] {
        lines.push(numbers_line("g.retain", &[&[1; 255][..], &[byte]].concat()));
    }
    lines.push(numbers_line("g.retain", &[1; 256]));
    // Room freed serves again.
    let every_third: Vec<u64> = (0..256).map(|i| u64::from(i % 3 > 0)).collect();
    lines.push(numbers_line("g.retain", &every_third));
    lines.extend((256..270).map(|i| format!("g.append {}", filler(i))));
    look(lines);
    lines.extend([
        format!("g.advance {top}"),
        format!("g.seen {top}"),
        format!("g.seen {zeros}"),
    ]);
    look(lines);
    lines.extend(["g.clear", "g.clear"].map(str::to_string));
    look(lines);
    lines.push(format!("g.append {}", filler(0)));
    // An event with all desks as its parents.
    lines.push("g.new 16".to_string());
    lines.extend((0..15).map(|i| format!("g.append {}", braid(i))));
    lines.push(format!("g.append 15 1 - 1 1 1 {}", spaced(&[1; 16])));
    at_each_room("g.parents 15 1 -", 15, lines);
    at_each_room("g.replica-events 3 1 2", 1, lines);
}
