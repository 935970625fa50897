//! `desk_lines COUNT SEED`: a script for the listing program that the original can answer too: gossip among 16 desks, with questions between the notes,
//! and every 240 notes a note that has heard of all, at which the log advances.

use std::{
    env,
    io::{self, BufWriter, Write},
};

use runs::random::Random;

const DESKS: usize = 16;

fn listed(entries: &[u64]) -> String {
    entries.iter().map(u64::to_string).collect::<Vec<_>>().join(" ")
}

fn heard(mine: &mut [u64; DESKS], other: &[u64; DESKS]) {
    mine.iter_mut().zip(other).for_each(|(m, &o)| *m = o.max(*m));
}

fn main() -> io::Result<()> {
    let number = |i: usize, other: u64| env::args().nth(i).and_then(|a| a.parse().ok()).unwrap_or(other);
    let (count, mut random) = (number(1, 100_000), Random::new(number(2, 1)));
    let mut out = BufWriter::new(io::stdout().lock());
    let mut clocks = [[0u64; DESKS]; DESKS];
    let mut notes = 0u64;
    let mut lines = 1u64;
    writeln!(out, "replicas {DESKS}")?;
    while lines < count {
        let desk = random.index(DESKS);
        let other = clocks[random.index(DESKS)];
        heard(&mut clocks[desk], &other);
        notes += 1;
        let whole = notes % 240 == 0;
        if whole {
            for other in clocks {
                heard(&mut clocks[desk], &other);
            }
        }
        clocks[desk][desk] += 1;
        let version = clocks[desk];
        writeln!(
            out,
            "append {desk} {} - {notes} {} {} {}",
            version[desk],
            1000 + notes,
            notes % 5,
            listed(&version)
        )?;
        lines += 1;
        let asked = match random.below(8) {
            0 => Some("greatest"),
            1 => Some("check"),
            _ => None,
        };
        if let Some(word) = asked.filter(|_| lines < count) {
            writeln!(out, "{word} {}", listed(&version))?;
            lines += 1;
        }
        if whole {
            clocks = [version; DESKS];
            if lines < count {
                writeln!(out, "advance {}", listed(&version))?;
                lines += 1;
            }
        }
    }
    out.flush()
}
