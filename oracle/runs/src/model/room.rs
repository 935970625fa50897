//! Document 02's waiting room before the history (P4).

use super::{bad_event, entry, history::History};
use crate::{
    answer::Answer,
    lines::{Event, Id, Visit, fill},
};

const PLACES: usize = 64;

#[derive(Clone, Default)]
pub struct WaitingRoom {
    pub waiting: Vec<Event>,
}

/// Its sequence is the expected one of its replica, and its version names nothing else beyond what has been accepted.
fn ready(history: &History, note: &Event) -> bool {
    let Id { replica, sequence, .. } = note.id;
    let mut others = (0..history.replicas).filter(|&other| other != replica);
    sequence == history.accepted(replica) + 1
        && others.all(|other| entry(&note.version, other) <= history.accepted(other))
}

fn passed(history: &History, id: &Id) -> bool {
    id.sequence <= history.accepted(id.replica)
}

impl WaitingRoom {
    pub fn raise(&mut self, replicas: u64) {
        self.waiting
            .iter_mut()
            .for_each(|note| fill(&mut note.version, replicas));
    }

    fn refusal(&self, history: &History, note: &Event) -> Option<u64> {
        if let Some(number) = bad_event(history.replicas, note) {
            Some(number)
        } else if self.waiting.iter().any(|waiting| waiting.id == note.id) {
            Some(21)
        } else if passed(history, &note.id) {
            Some(12)
        } else if self.waiting.len() == PLACES && !ready(history, note) {
            Some(22)
        } else {
            None
        }
    }

    /// Of the notes that are ready or passed, the one with the lowest id.
    fn due(&self, history: &History) -> Option<usize> {
        let due = |at: &usize| ready(history, &self.waiting[*at]) || passed(history, &self.waiting[*at].id);
        (0..self.waiting.len())
            .filter(due)
            .min_by_key(|&at| self.waiting[at].id)
    }

    /// Hands over what is due until nothing is, and reports each id with the history's number.
    fn pass_on(&mut self, history: &mut History) -> Vec<(Id, u64)> {
        let mut report = Vec::new();
        while let Some(at) = self.due(history) {
            let note = self.waiting.remove(at);
            report.push((note.id, history.append(&note)));
        }
        report
    }

    pub fn run(&mut self, history: &mut History, visit: &Visit) -> Answer {
        match visit {
            Visit::Arrive(note) => match self.refusal(history, note) {
                Some(number) => Answer::Refused(number),
                None => {
                    self.waiting.push(note.clone());
                    Answer::Report(self.pass_on(history))
                }
            },
            Visit::Waiting => {
                let mut ids: Vec<Id> = self.waiting.iter().map(|note| note.id).collect();
                ids.sort();
                Answer::Ids(ids)
            }
            Visit::Len => Answer::Number(self.waiting.len() as u64),
        }
    }
}
