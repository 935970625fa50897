//! The line reader.

use super::{Call, Clock, Command, Event, Id, LONGEST, Vector, Visit};

/// The lines of a text: a last one may lack its newline.
pub fn split(text: &[u8]) -> Vec<&[u8]> {
    let mut lines: Vec<_> = text.split(|&b| b == b'\n').collect();
    if lines.last().is_some_and(|last| last.is_empty()) {
        lines.pop();
    }
    lines
}

/// A decimal below 2^64 without sign or leading zeros.
pub fn decimal(word: &[u8]) -> Option<u64> {
    let plain = word.iter().all(u8::is_ascii_digit) && (word.len() == 1 || word.first() != Some(&b'0'));
    if !plain || word.is_empty() {
        return None;
    }
    std::str::from_utf8(word).ok()?.parse().ok()
}

/// A decimal below 2^32.
fn decimal_32(word: &[u8]) -> Option<u32> {
    decimal(word)?.try_into().ok()
}

struct Words<'a>(std::slice::Split<'a, u8, fn(&u8) -> bool>);

impl<'a> Words<'a> {
    fn number(&mut self) -> Option<u64> {
        decimal(self.0.next()?)
    }

    fn disambiguator(&mut self) -> Option<Option<u32>> {
        match self.0.next()? {
            b"-" => Some(None),
            word => Some(Some(decimal_32(word)?)),
        }
    }

    fn id(&mut self) -> Option<Id> {
        Some(Id {
            replica: self.number()?,
            sequence: self.number()?,
            disambiguator: self.disambiguator()?,
        })
    }

    /// The vector that ends the line.
    fn vector(&mut self) -> Option<Vector> {
        let entries: Vector = self.0.by_ref().map(decimal).collect::<Option<_>>()?;
        (1..=16).contains(&entries.len()).then_some(entries)
    }

    /// The vector that ends at a bar.
    fn vector_before_bar(&mut self) -> Option<Vector> {
        let mut entries = Vec::new();
        loop {
            match self.0.next()? {
                b"|" => break,
                word => entries.push(decimal(word)?),
            }
        }
        (1..=16).contains(&entries.len()).then_some(entries)
    }

    fn pair(&mut self) -> Option<(Vector, Vector)> {
        Some((self.vector_before_bar()?, self.vector()?))
    }

    fn mask(&mut self) -> Option<Vec<u8>> {
        self.0.by_ref().map(|word| decimal(word)?.try_into().ok()).collect()
    }

    fn event(&mut self) -> Option<Event> {
        Some(Event {
            id: self.id()?,
            lamport: self.number()?,
            payload: self.number()?,
            revision: decimal_32(self.0.next()?)?,
            version: self.vector()?,
        })
    }
}

/// The command that a line is, or none for a bad line.
pub fn parse(line: &[u8]) -> Option<Command> {
    if line.len() > LONGEST {
        return None;
    }
    let is_space: fn(&u8) -> bool = |&b| b == b' ';
    let mut words = Words(line.split(is_space));
    let word = std::str::from_utf8(words.0.next()?).ok()?;
    let command = if word == "room" {
        Command::Room(usize::try_from(words.number()?).ok().filter(|&n| n <= 1024)?)
    } else if let Some(word) = word.strip_prefix("c.") {
        Command::Clock(clock(word, &mut words)?)
    } else if let Some(word) = word.strip_prefix("g.") {
        Command::Graph(graph(word, &mut words)?)
    } else if let Some(word) = word.strip_prefix("h.") {
        Command::History(history(word, &mut words)?)
    } else {
        Command::WaitingRoom(visit(word.strip_prefix("r.")?, &mut words)?)
    };
    words.0.next().is_none().then_some(command)
}

fn clock(word: &str, words: &mut Words) -> Option<Clock> {
    use Clock::*;
    let pair = |words: &mut Words, make: fn(Vector, Vector) -> Clock| words.pair().map(|(a, b)| make(a, b));
    Some(match word {
        "replicas" => Replicas(words.number()?),
        "entry" => Entry(words.number()?, words.vector()?),
        "set" => Set(words.number()?, words.number()?, words.vector()?),
        "join" => pair(words, Join)?,
        "meet" => pair(words, Meet)?,
        "compare" => pair(words, Compare)?,
        "includes" => pair(words, Includes)?,
        "contains" => Contains(words.id()?, words.vector()?),
        "sum" => Sum(words.vector()?),
        "increment" => Increment(words.number()?, words.vector()?),
        "vjoin" => VersionJoin(
            words.number()?,
            words.vector_before_bar()?,
            words.number()?,
            words.vector()?,
        ),
        "dependencies" => Dependencies(words.number()?, words.vector()?),
        _ => return None,
    })
}

fn graph(word: &str, words: &mut Words) -> Option<Call> {
    use Call::*;
    Some(match word {
        "from" => From(words.number()?, words.vector()?),
        "roots" => Roots,
        "named" => Named,
        "greatest" => Greatest(words.vector()?),
        "is-critical" => IsCritical(words.vector()?),
        "parents" => Parents(words.id()?),
        "heads" => Heads,
        "cuts" => Cuts,
        "order" => Order(words.id()?),
        "why" => Why(words.number()?),
        "chain" => Chain(words.number()?),
        "seen" => Seen(words.vector()?),
        "advance" => Advance(words.vector()?),
        "flush" => Prune(words.vector()?),
        _ => return both(word, words),
    })
}

fn history(word: &str, words: &mut Words) -> Option<Call> {
    use Call::*;
    Some(match word {
        "version" => Version(words.id()?),
        "last-version" => LastVersion(words.number()?),
        "previous" => Previous(words.id()?, words.number()?),
        "next" => Next(words.id()?, words.number()?),
        "first" => First(words.id()?, words.number()?),
        "newly" => Newly(words.id()?),
        "prune" => Prune(words.vector()?),
        _ => return both(word, words),
    })
}

fn visit(word: &str, words: &mut Words) -> Option<Visit> {
    Some(match word {
        "arrive" => Visit::Arrive(words.event()?),
        "waiting" => Visit::Waiting,
        "len" => Visit::Len,
        _ => return None,
    })
}

fn both(word: &str, words: &mut Words) -> Option<Call> {
    use Call::*;
    Some(match word {
        "new" => New(words.number()?),
        "append" => Append(words.event()?),
        "raise" => Raise(words.number()?),
        "get" => Get(words.id()?),
        "predecessors" => Predecessors(words.vector()?),
        "concurrent" => Concurrent(words.vector()?),
        "iter" => Iter,
        "replica-events" => ReplicaEvents(words.number()?, words.number()?, words.number()?),
        "len" => Len,
        "is-empty" => IsEmpty,
        "remove" => Remove(words.id()?),
        "retain" => Retain(words.mask()?),
        "clear" => Clear,
        _ => return None,
    })
}
