//! Every clock word on vectors at the edges, for every count of desks.

use runs::{lines::TOP, text::spaced};

use crate::{NUMBERS, at_each_room, vectors};

pub fn edges(lines: &mut Vec<String>) {
    for replicas in 1..=16 {
        lines.push(format!("c.replicas {replicas}"));
        let right = spaced(&vec![1; replicas as usize]);
        for v in vectors(replicas).iter().map(|v| spaced(v)) {
            for word in ["join", "meet", "compare", "includes"] {
                lines.extend([format!("c.{word} {v} | {right}"), format!("c.{word} {right} | {v}")]);
            }
            lines.push(format!("c.sum {v}"));
            for o in [0, replicas - 1, replicas, u64::MAX] {
                lines.extend([
                    format!("c.entry {o} {v}"),
                    format!("c.set {o} {TOP} {v}"),
                    format!("c.increment {o} {v}"),
                    format!("c.dependencies {o} {v}"),
                    format!("c.contains {o} {TOP} 4294967295 {v}"),
                    format!("c.vjoin {o} {v} | 0 {right}"),
                    format!("c.vjoin 0 {right} | {o} {v}"),
                ]);
            }
        }
        for x in NUMBERS {
            lines.extend([format!("c.set 0 {x} {right}"), format!("c.contains 0 {x} - {right}")]);
        }
        at_each_room(&format!("c.dependencies 0 {right}"), replicas as usize, lines);
    }
}
