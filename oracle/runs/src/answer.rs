//! The answer writer of PROBE.md: a 0 and the values after it, or a refusal number.

use crate::lines::{Event, Id};

#[derive(Clone, Debug, PartialEq)]
pub enum Answer {
    Refused(u64),
    Done,
    Number(u64),
    YesNo(bool),
    Word(&'static str),
    /// A vector, or none.
    Vector(Option<Vec<u64>>),
    /// A frontier and how many events were flushed, or none.
    Advanced(Option<(Vec<u64>, u64)>),
    /// A position, or none.
    Position(Option<u64>),
    /// An event without its version, or none.
    Event(Option<Event>),
    Events(Vec<Event>),
    Ids(Vec<Id>),
    Pair(Id, Id),
    /// What the waiting room handed over, each with the history's number. It is no list that room is lent for.
    Report(Vec<(Id, u64)>),
    /// Lengths or positions.
    Numbers(Vec<u64>),
}

pub fn id_text(id: &Id) -> String {
    match id.disambiguator {
        Some(d) => format!("{}:{}:{}", id.replica, id.sequence, d),
        None => format!("{}:{}:-", id.replica, id.sequence),
    }
}

pub fn event_text(event: &Event) -> String {
    let Event {
        id,
        lamport,
        payload,
        revision,
        ..
    } = event;
    format!("{}:{lamport}:{payload}:{revision}", id_text(id))
}

/// The report that the text of an answer is.
pub fn report_of(text: &str) -> Option<Vec<(Id, u64)>> {
    let handed_over = |word: &str| {
        let (id, number) = word.split_once('/')?;
        let parts: Vec<&str> = id.split(':').collect();
        let [replica, sequence, disambiguator] = parts[..] else {
            return None;
        };
        let id = Id {
            replica: replica.parse().ok()?,
            sequence: sequence.parse().ok()?,
            disambiguator: (disambiguator != "-").then(|| disambiguator.parse()).transpose().ok()?,
        };
        Some((id, number.parse().ok()?))
    };
    let mut words = text.split(' ');
    (words.next() == Some("0")).then(|| words.map(handed_over).collect())?
}

impl Answer {
    /// The entries that the lent buffer needs; only lists need any.
    pub fn list_length(&self) -> usize {
        match self {
            Answer::Events(list) => list.len(),
            Answer::Ids(list) => list.len(),
            Answer::Numbers(list) => list.len(),
            _ => 0,
        }
    }

    pub fn text(&self) -> String {
        let numbers = |list: &[u64]| list.iter().map(u64::to_string).collect::<Vec<_>>();
        let values = match self {
            Answer::Refused(number) => return number.to_string(),
            Answer::Done => vec![],
            Answer::Number(n) => vec![n.to_string()],
            Answer::YesNo(yes) => vec![u8::from(*yes).to_string()],
            Answer::Word(word) => vec![word.to_string()],
            Answer::Vector(Some(entries)) => numbers(entries),
            Answer::Advanced(Some((frontier, count))) => numbers(&[&frontier[..], &[*count]].concat()),
            Answer::Position(Some(position)) => vec![position.to_string()],
            Answer::Event(Some(event)) => vec![event_text(event)],
            Answer::Vector(None) | Answer::Advanced(None) | Answer::Position(None) | Answer::Event(None) => {
                vec!["-".to_string()]
            }
            Answer::Events(list) => list.iter().map(event_text).collect(),
            Answer::Ids(list) => list.iter().map(id_text).collect(),
            Answer::Pair(first, second) => vec![id_text(first), id_text(second)],
            Answer::Report(list) => list.iter().map(|(id, n)| format!("{}/{n}", id_text(id))).collect(),
            Answer::Numbers(list) => numbers(list),
        };
        std::iter::once("0".to_string())
            .chain(values)
            .collect::<Vec<_>>()
            .join(" ")
    }
}
