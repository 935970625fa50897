//! Prints probe lines: generate KIND SEED COUNT, where KIND is clocks, graph, history or all.
//!
//! The same arguments give the same lines. The model answers each line as it is made, so that the stories know what
//! their log holds.

mod broken;
mod clocks;
mod desks;
mod graph;
mod history;
mod values;

use std::io::{self, BufWriter, StdoutLock, Write};

use runs::{answer::Answer, model::Probe, random::Random};

/// Where lines go, and what they have led to.
pub struct Page {
    pub random: Random,
    pub probe: Probe,
    out: BufWriter<StdoutLock<'static>>,
    left: u64,
    narrow_for: u64,
}

impl Page {
    /// On a full page nothing is printed, and nothing happens.
    fn print(&mut self, line: &[u8]) -> Answer {
        if self.left == 0 {
            return Answer::Refused(18);
        }
        self.left -= 1;
        let written = self.out.write_all(line).and_then(|()| self.out.write_all(b"\n"));
        if written.is_err() {
            std::process::exit(1);
        }
        self.probe.answer(line)
    }

    /// Prints the line; now and then a broken one or a change of room comes first.
    pub fn say(&mut self, line: String) -> Answer {
        if self.random.chance(2) {
            let broken = broken::broken(&mut self.random, &line);
            self.print(&broken);
        }
        if self.narrow_for > 0 {
            self.narrow_for -= 1;
            if self.narrow_for == 0 {
                self.print(b"room 512");
            }
        } else if self.random.below(300) == 0 {
            let room = *self
                .random
                .pick(&[0, 1, 2, 3, 5, 16, 31, 255, 256, 511, 1024, 1025, u64::MAX]);
            self.print(format!("room {room}").as_bytes());
            self.narrow_for = 1 + self.random.below(25);
        }
        self.print(line.as_bytes())
    }

    pub fn full(&self) -> bool {
        self.left == 0
    }
}

/// One of the kinds of lines, with its own state.
trait Story {
    /// Prints a line or a few.
    fn step(&mut self, page: &mut Page);
}

fn usage() -> ! {
    eprintln!("usage: generate clocks|graph|history|all SEED COUNT");
    std::process::exit(2)
}

fn main() -> io::Result<()> {
    let arguments: Vec<String> = std::env::args().skip(1).collect();
    let [kind, seed, count] = &arguments[..] else { usage() };
    let (Ok(seed), Ok(count)) = (seed.parse(), count.parse()) else {
        usage()
    };
    let mut page = Page {
        random: Random::new(seed),
        probe: Probe::default(),
        out: BufWriter::new(io::stdout().lock()),
        left: count,
        narrow_for: 0,
    };
    let clocks = || Box::new(clocks::Clocks::default()) as Box<dyn Story>;
    let graph = || Box::new(graph::GraphStory::default()) as Box<dyn Story>;
    let history = || Box::new(history::HistoryStory::default()) as Box<dyn Story>;
    let mut stories = match kind.as_str() {
        "clocks" => vec![clocks()],
        "graph" => vec![graph()],
        "history" => vec![history()],
        "all" => vec![clocks(), graph(), history()],
        _ => usage(),
    };
    for line in [
        "c.sum 1",
        "g.len",
        "h.len",
        "r.len",
        "g.append 0 1 - 1 10 1 1",
        "h.clear",
        "c.replicas 0",
        "c.sum 1",
    ] {
        page.print(line.as_bytes());
    }
    while !page.full() {
        let chosen = page.random.index(stories.len());
        for _ in 0..1 + page.random.below(20) {
            stories[chosen].step(&mut page);
        }
    }
    page.out.flush()
}
