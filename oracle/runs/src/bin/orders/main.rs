//! Demand 3 as a test: the same notes in many orders that append accepts, with flushes and removals in between.
//!
//!     orders lines SEED SETS              prints the lines: for each set of notes several logs, each made, filled and asked the same
//!     orders check SEED SETS ANSWERS      holds the answers for the logs of one set against each other
//!
//! Two logs of a set start from checkpoints that say the same, or both without, and end with the same desks; they accept the same notes and
//! have the same last flushed frontier, or neither flushed. Vectors that differ in final zeros only say the same. They withdraw the same
//! notes, but for those that the last flush takes otherwise, and each note that they hold has the same version in both. So what they hold,
//! its parents and heads are the same sets, and cut lengths and critical frontiers are equal.

mod check;
mod logs;
mod making;
mod notes;

use std::io::{self, BufWriter, Write};

use logs::Set;
use runs::{lines::split, random::Random, text::read};

fn usage() -> ! {
    eprintln!("usage: orders lines SEED SETS | orders check SEED SETS ANSWERS");
    std::process::exit(2)
}

fn main() -> io::Result<()> {
    let arguments: Vec<String> = std::env::args().skip(1).collect();
    let number = |at: usize| {
        arguments
            .get(at)
            .and_then(|word| word.parse().ok())
            .unwrap_or_else(|| usage())
    };
    let mut random = Random::new(number(1));
    let sets = (0..number(2)).map(|_| Set::new(&mut random));
    match (arguments[0].as_str(), &arguments[3..]) {
        ("lines", []) => {
            let mut out = BufWriter::new(io::stdout().lock());
            for line in sets.flat_map(|set| set.lines()) {
                writeln!(out, "{line}")?;
            }
            out.flush()
        }
        ("check", [path]) => {
            let text = read(path);
            let answers = split(&text)
                .into_iter()
                .map(|answer| String::from_utf8_lossy(answer).into_owned());
            check::check(sets, answers)
        }
        _ => usage(),
    }
}
