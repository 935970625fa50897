//! Notes that overtake each other on the link and arrive at the waiting room.

use runs::{
    answer::Answer,
    lines::{Event, Id},
    model::join,
    random::Random,
};

use super::HistoryStory;
use crate::{Page, values::*};

/// How the notes of a story come to the history: one by one in their turn, or by the waiting room, from among so many that are on the link.
#[derive(Clone, Copy, Default)]
pub enum Link {
    #[default]
    InTurn,
    Shuffled {
        batch: u64,
        among: usize,
    },
}

impl Link {
    pub fn any(random: &mut Random, filling: bool) -> Self {
        if random.chance(65) {
            return Link::InTurn;
        }
        Link::Shuffled {
            batch: *random.pick(if filling { &[1, 3, 8] } else { &[1, 10, 40, 120] }),
            among: *random.pick(&[1, 4, 20, usize::MAX]),
        }
    }
}

impl HistoryStory {
    fn write_batch(&mut self, page: &mut Page, batch: u64) {
        for _ in 0..1 + page.random.below(batch) {
            let desk = self.writer(page);
            let random = &mut page.random;
            for _ in 0..random.below(3) {
                self.desks.hear(random);
            }
            let note = self.desks.write(random, desk, 1);
            self.waiting.extend(note.clone());
            self.written.extend(note);
        }
    }

    /// A note that some desk is expected to send next.
    fn expected(&self, page: &mut Page) -> Option<Event> {
        let history = page.probe.history.as_ref().unwrap();
        let expected = |note: &&Event| note.id.sequence == history.accepted(note.id.replica) + 1;
        let notes: Vec<&Event> = self.written.iter().filter(expected).collect();
        (!notes.is_empty()).then(|| (*page.random.pick(&notes)).clone())
    }

    /// A note from the link; in some cases a sibling, a spoiled one or one that came before, and then the note itself stays on the link as a rule.
    fn off_the_link(&mut self, random: &mut Random, among: usize) -> Option<Event> {
        let at = random.index(self.waiting.len().clamp(1, among));
        let mut note = self.waiting.get(at)?.clone();
        let own = random.chance(85);
        match random.below(4) {
            _ if own => {}
            0 => self.spoil(random, &mut note),
            1 if !self.brought.is_empty() => note = random.pick(&self.brought).clone(),
            _ => {
                note.id.disambiguator = disambiguator(random);
                note.payload = random.below(1000);
            }
        }
        if own || random.chance(5) {
            self.waiting.remove(at);
        }
        Some(note)
    }

    pub fn arrive(&mut self, page: &mut Page, batch: u64, among: usize) {
        if self.waiting.is_empty() {
            self.write_batch(page, batch);
        }
        let full = page.probe.waiting_room.waiting.len() == 64;
        let often = if full || self.filling.is_some() { 50 } else { 8 };
        let note = match self.expected(page).filter(|_| page.random.chance(often)) {
            Some(note) => note,
            None => match self.off_the_link(&mut page.random, among) {
                Some(note) => note,
                None => return,
            },
        };
        let words = append_words(&mut page.random, &note);
        let past_the_room = page.random.chance(4);
        let answer = page.say(format!(
            "{} {words}",
            if past_the_room { "h.append" } else { "r.arrive" }
        ));
        self.brought.push(note.clone());
        let handed_over = match answer {
            Answer::Report(report) => report,
            Answer::Done => vec![(note.id, 0)],
            Answer::Refused(number) => vec![(note.id, number)],
            _ => vec![],
        };
        for (id, number) in handed_over {
            self.answered(page, &id, number);
        }
    }

    /// What is not taken comes again, as a rule, and then in some cases with what its desk has heard since.
    fn answered(&mut self, page: &mut Page, id: &Id, number: u64) {
        let Some(mut note) = self.brought.iter().rev().find(|note| note.id == *id).cloned() else {
            return;
        };
        let random = &mut page.random;
        match number {
            0 => self.accepted(random, &note),
            8 | 13 | 22 if random.chance(90) => {
                let history = page.probe.history.as_ref().unwrap();
                let last = history.trace(id.replica).and_then(|trace| trace.last_version());
                if let Some(last) = last.filter(|_| random.chance(80)) {
                    note.version = join(&note.version, last);
                }
                self.waiting.push(note);
            }
            _ => {}
        }
    }
}
