//! Time per call, in nanoseconds: the least of several measurements.

use std::{hint::black_box, time::Instant};

const TRIES: usize = 9;

fn took(run: &mut dyn FnMut(usize), rounds: usize) -> f64 {
    let start = Instant::now();
    run(rounds);
    start.elapsed().as_nanos() as f64
}

/// One round of `run`, whose first steps are the same for any number of rounds and are not counted.
pub fn per_round(rounds: usize, mut run: impl FnMut(usize)) -> f64 {
    run(rounds);
    let best = |run: &mut dyn FnMut(usize), n| (0..TRIES).map(|_| took(run, n)).fold(f64::INFINITY, f64::min);
    let few = best(&mut run, rounds);
    let many = best(&mut run, 3 * rounds);
    ((many - few) / (2 * rounds) as f64).max(0.0)
}

/// One call of the original, which is told its turn.
pub fn in_turn<T>(rounds: usize, call: impl Fn(usize) -> T) -> f64 {
    per_round(rounds, |n| {
        for k in 0..n {
            black_box(call(k));
        }
    })
}

/// One call of the original about one of `held` notes in turn.
pub fn asked<T>(rounds: usize, held: usize, call: impl Fn(usize) -> T) -> f64 {
    in_turn(rounds, |k| call(k % held))
}

/// One copy of so many words, as a struct that is handed over by value.
pub fn copy_of<const WORDS: usize>() -> f64 {
    let from = Box::new([1u64; WORDS]);
    let mut to = Box::new([0u64; WORDS]);
    let time = per_round(20_000, |n| {
        for _ in 0..n {
            to.copy_from_slice(black_box(&from[..]));
            black_box(&to);
        }
    });
    println!("one copy of {} bytes: {time:.1} ns", 8 * WORDS);
    time
}

pub struct Row {
    pub call: &'static str,
    pub ours: f64,
    pub rust: f64,
    /// At least so many times as fast as the original; 0 where the goal is another.
    pub goal: f64,
    /// Or at most so much time.
    pub limit: f64,
}

impl Row {
    fn holds(&self) -> bool {
        (self.goal > 0.0 && self.rust >= self.goal * self.ours) || self.ours <= self.limit
    }
}

pub fn print(title: &str, rows: &[Row]) -> bool {
    println!("{title}");
    println!("{:<24}{:>12}{:>12}{:>10}  to reach", "call", "ours, ns", "Rust's, ns", "ratio");
    for row in rows {
        let mut goal = if row.goal > 0.0 { format!("{}", row.goal) } else { String::new() };
        if row.limit > 0.0 {
            goal += &format!(" or {:.0} ns", row.limit);
        }
        let verdict = if row.holds() { "" } else { "  NOT REACHED" };
        println!("{:<24}{:>12.1}{:>12.1}{:>10.2}  {goal}{verdict}", row.call, row.ours, row.rust, row.rust / row.ours);
    }
    println!();
    rows.iter().all(Row::holds)
}
