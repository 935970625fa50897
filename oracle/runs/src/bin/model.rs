//! Answers `probe` lines as the documents have them, refusals included: a stand-in for the port, and a second opinion on it.

use std::io::{self, BufWriter, Read, Write};

use runs::{lines, model::Probe};

fn main() -> io::Result<()> {
    let mut text = Vec::new();
    io::stdin().lock().read_to_end(&mut text)?;
    let mut probe = Probe::default();
    let mut out = BufWriter::new(io::stdout().lock());
    for line in lines::split(&text) {
        writeln!(out, "{}", probe.answer(line).text())?;
    }
    out.flush()
}
