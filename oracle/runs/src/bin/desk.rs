//! The listing program over the original: reads the same lines and prints the same answers, where the port refuses nothing. It is what `desk` is timed
//! against, and holds no rule of its own but those of a line.

use std::io::{self, BufRead, BufWriter, Write};

use moirai_protocol::{
    broadcast::internalizer::Resolver,
    state::unstable_state::{
        IsUnstableCausal, IsUnstableCore, IsUnstableDelivery, IsUnstablePrune, event_graph::EventGraph,
    },
};
use runs::{
    lines::{Event, Id},
    links::{chain, id_at, why},
    original::{Operation, cuts, event_id, frontier, id_of, original_event, resolver},
    text::{id_words, numbers_line, spaced},
};

struct Desk {
    names: Resolver,
    log: EventGraph<Operation>,
}

impl Desk {
    fn new(replicas: u64) -> Self {
        Self {
            names: resolver(replicas),
            log: EventGraph::default(),
        }
    }

    /// The numbers are what follows the id.
    fn append(&mut self, id: Id, numbers: &[u64]) -> Option<()> {
        let [lamport, payload, revision, version @ ..] = numbers else {
            return None;
        };
        let event = Event {
            id,
            lamport: *lamport,
            payload: *payload,
            revision: (*revision).try_into().ok()?,
            version: version.to_vec(),
        };
        self.log.append(original_event(&self.names, &event));
        Some(())
    }

    fn removed(&mut self, change: impl FnOnce(&mut EventGraph<Operation>)) -> usize {
        let before = self.log.len();
        change(&mut self.log);
        before - self.log.len()
    }

    fn heads(&self) -> Vec<u64> {
        let heads = self.log.frontier();
        let positions = heads.iter().filter_map(|head| self.log.delivery_order(head.id()));
        let mut positions: Vec<u64> = positions.map(|position| position as u64).collect();
        positions.sort();
        positions
    }

    fn sheet(&self, out: &mut impl Write) -> io::Result<()> {
        let (heads, cuts) = (self.heads(), cuts(&self.log));
        writeln!(out, "0\n{} {} {}", self.log.len(), heads.len(), cuts.len())?;
        for (position, event) in self.log.iter().enumerate() {
            let (id, (payload, revision)) = (id_words(&id_of(event.id())), event.op());
            writeln!(out, "{position} {id} {} {payload} {revision}", event.lamport().0)?;
        }
        writeln!(
            out,
            "{}\n{}",
            numbers_line("heads", &heads),
            numbers_line("cuts", &cuts)
        )
    }

    fn why(&self, length: usize, out: &mut impl Write) -> io::Result<()> {
        match why(&self.log, length) {
            None => writeln!(out, "0 cut"),
            Some((later, earlier)) => {
                let ids = [later, earlier].map(|position| id_words(&id_at(&self.log, position)));
                writeln!(out, "0 {}\n{}", ids.join(" "), spaced(&chain(&self.log, later)))
            }
        }
    }
}

/// The numbers that end a line.
fn numbers<'a>(tokens: impl Iterator<Item = &'a str>) -> Option<Vec<u64>> {
    tokens.map(|t| t.parse().ok()).collect()
}

fn id<'a>(tokens: &mut impl Iterator<Item = &'a str>) -> Option<Id> {
    Some(Id {
        replica: tokens.next()?.parse().ok()?,
        sequence: tokens.next()?.parse().ok()?,
        disambiguator: match tokens.next()? {
            "-" => None,
            number => Some(number.parse().ok()?),
        },
    })
}

fn answer(desk: &mut Option<Desk>, line: &str, out: &mut impl Write) -> Option<io::Result<()>> {
    let mut tokens = line.split(' ');
    let word = tokens.next()?;
    if word == "replicas" {
        *desk = Some(Desk::new(tokens.next()?.parse().ok()?));
        return Some(writeln!(out, "0"));
    }
    let desk = desk.as_mut()?;
    if line == "sheet" {
        return Some(desk.sheet(out));
    }
    if word == "why" {
        let length: usize = tokens.next()?.parse().ok()?;
        let known = (1..=desk.log.len()).contains(&length);
        return known.then(|| desk.why(length, out));
    }
    if word == "append" || word == "remove" {
        let id = id(&mut tokens)?;
        if word == "remove" {
            let id = event_id(&desk.names, &id);
            return Some(writeln!(out, "0 {}", desk.removed(|log| log.remove(&id))));
        }
        desk.append(id, &numbers(tokens)?)?;
        return Some(writeln!(out, "0"));
    }
    let frontier = frontier(&desk.names, &numbers(tokens)?);
    Some(match word {
        "greatest" | "advance" => match desk.log.greatest_critical_frontier(&frontier) {
            None => writeln!(out, "0 -"),
            Some(found) => {
                write!(out, "0").ok()?;
                found.iter().for_each(|(_, entry)| write!(out, " {entry}").unwrap());
                if word == "advance" {
                    write!(out, " {}", desk.removed(|log| log.prune_predecessors(&found))).ok()?;
                }
                writeln!(out)
            }
        },
        "check" => writeln!(out, "0 {}", desk.log.is_critical(&frontier) as u8),
        _ => return None,
    })
}

fn main() -> io::Result<()> {
    let mut desk = None;
    let mut out = BufWriter::new(io::stdout().lock());
    for line in io::stdin().lock().lines() {
        match answer(&mut desk, &line?, &mut out) {
            Some(written) => written?,
            None => writeln!(out, "18")?,
        }
    }
    out.flush()
}
