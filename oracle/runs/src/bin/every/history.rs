//! What is asked of a history that holds a short log.

use runs::{
    lines::{Event, Id, Vector},
    text::{id_words, spaced, up_to},
};

use crate::logs::{taken, tops};

/// Each desk's ids from sequence 0 to one past its last.
fn ids(tops: &Vector) -> Vec<Id> {
    let of = |(desk, &top): (usize, &u64)| {
        let id = move |sequence| Id {
            replica: desk as u64,
            sequence,
            disambiguator: None,
        };
        (0..=top + 1).map(id)
    };
    tops.iter().enumerate().flat_map(of).collect()
}

fn neighbours(ids: &[Id], replicas: usize, lines: &mut Vec<String>) {
    for id in ids.iter().map(id_words) {
        lines.push(format!("h.newly {id}"));
        for desk in 0..replicas {
            lines.extend(["previous", "next", "first"].map(|word| format!("h.{word} {id} {desk}")));
        }
    }
}

fn traces(desk: usize, start: u64, end: u64, lines: &mut Vec<String>) {
    lines.extend([
        format!("h.last-version {desk}"),
        format!("h.replica-events {desk} {start} {end}"),
    ]);
}

pub fn ask(replicas: usize, log: &[Event], lines: &mut Vec<String>) {
    let tops = tops(replicas, log);
    // One desk after the other, the last one first: a history asks for no past.
    let mut by_desk: Vec<&Event> = log.iter().collect();
    by_desk.sort_by_key(|event| (replicas as u64 - event.id.replica, event.id.sequence));
    lines.extend(taken("h", replicas, by_desk.into_iter(), false));
    neighbours(&ids(&tops), replicas, lines);
    for desk in 0..replicas {
        traces(desk, 0, tops[desk], lines);
    }
    let held: Vec<Id> = log.iter().map(|event| event.id).collect();
    // A prune at zeros leaves what stands.
    lines.extend([format!("h.prune {}", spaced(&vec![0; replicas])), "h.iter".to_string()]);
    for (i, frontier) in up_to(&tops).into_iter().enumerate().skip(1) {
        // Every second history is one that was raised.
        lines.extend(taken("h", replicas, log.iter(), i % 2 == 1));
        lines.extend([format!("h.prune {}", spaced(&frontier)), "h.iter".to_string()]);
        for desk in (0..replicas).filter(|&desk| frontier[desk] > 0) {
            traces(desk, frontier[desk], tops[desk], lines);
        }
        neighbours(&held, replicas, lines);
    }
}
