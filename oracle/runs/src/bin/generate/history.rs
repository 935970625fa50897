//! History lines: stories of desks whose notes come in turn for each desk, in any order between desks.

mod calls;
mod room;

use runs::{
    answer::Answer,
    lines::{Event, Id},
    model::join,
    random::Random,
};

use crate::{Page, Story, desks::Desks, values::*};
use room::Link;

/// Who writes in a story that fills the history up to the last row and past it.
#[derive(Clone, Copy)]
enum Filling {
    /// One desk.
    One,
    /// The desk that has least.
    Alike,
    /// Every desk its eight, and then one desk.
    EightsFirst,
}

#[derive(Default)]
pub struct HistoryStory {
    steps: u64,
    filling: Option<Filling>,
    link: Link,
    desks: Desks,
    /// Written and not yet taken.
    waiting: Vec<Event>,
    /// Written for the waiting room.
    written: Vec<Event>,
    brought: Vec<Event>,
}

impl HistoryStory {
    fn start(&mut self, page: &mut Page) {
        let random = &mut page.random;
        let filling = *random.pick(&[Filling::One, Filling::Alike, Filling::EightsFirst]);
        self.filling = random.chance(12).then_some(filling);
        let replicas = match self.filling {
            Some(Filling::One) => *random.pick(&[1, 2, 16]),
            Some(_) => *random.pick(&[3, 16, 16, 16]),
            None => replicas(random),
        };
        self.link = Link::any(random, self.filling.is_some());
        self.steps = match (self.filling, self.link) {
            (Some(_), _) => 700 + random.below(400),
            (None, Link::InTurn) => 20 + random.below(250),
            (None, Link::Shuffled { .. }) => 100 + random.below(500),
        };
        if random.chance(4) {
            let bad = bad_replicas(random);
            page.say(format!("h.new {bad}"));
        }
        page.say(format!("h.new {replicas}"));
        self.forget(page);
        self.brought.clear();
    }

    /// Nothing has been written yet.
    fn forget(&mut self, page: &Page) {
        let replicas = page.probe.history.as_ref().unwrap().replicas;
        self.desks = Desks::new(replicas, &vec![0; replicas as usize]);
        self.waiting.clear();
        self.written.clear();
    }

    /// Whether the story still has rows to fill.
    fn is_filling(&self, page: &Page) -> bool {
        let history = page.probe.history.as_ref();
        self.filling.is_some() && history.is_some_and(|history| !history.shared_rows_are_taken())
    }

    /// The desk that is heard of next.
    fn writer(&self, page: &mut Page) -> usize {
        let traces = &page.probe.history.as_ref().unwrap().traces;
        let retained = |desk: &usize| traces[*desk].as_ref().map_or(0, |trace| trace.retained.len());
        let random = &mut page.random;
        let any = random.index(traces.len());
        match self.filling.filter(|_| random.chance(90)) {
            None => any,
            Some(Filling::One) => 0,
            Some(Filling::Alike) => (0..traces.len()).min_by_key(retained).unwrap(),
            Some(Filling::EightsFirst) => (0..traces.len()).min_by_key(|desk| retained(desk).min(8)).unwrap(),
        }
    }

    fn bring(&mut self, page: &mut Page) {
        match self.link {
            Link::InTurn => self.append(page),
            Link::Shuffled { batch, among } => self.arrive(page, batch, among),
        }
    }

    fn append(&mut self, page: &mut Page) {
        let desk = self.writer(page);
        let random = &mut page.random;
        for _ in 0..random.below(3) {
            self.desks.hear(random);
        }
        let of_desk = |event: &Event| event.id.replica == desk as u64;
        if !self.waiting.iter().any(of_desk) || self.filling.is_none() && random.chance(50) {
            self.waiting.extend(self.desks.write(random, desk, 1));
        }
        let Some(first) = self.waiting.iter().position(of_desk) else {
            return;
        };
        let any = random.index(self.waiting.len());
        let at = if random.chance(3) { any } else { first };
        let mut event = self.waiting[at].clone();
        if random.chance(10) {
            event.id.disambiguator = disambiguator(random);
        }
        if random.chance(8) {
            self.spoil(random, &mut event);
        }
        let line = format!("h.append {}", append_words(&mut page.random, &event));
        if page.say(line) == Answer::Done {
            self.accepted(&mut page.random, &event);
        }
        self.brought.push(event);
    }

    /// What a desk said that it had heard, it as a rule goes on having heard; else its next notes are Regressed.
    fn accepted(&mut self, random: &mut Random, event: &Event) {
        let Id { replica, sequence, .. } = event.id;
        let mut heard = event.version.clone();
        if random.chance(10) {
            heard.fill(0);
            heard[replica as usize] = sequence;
        }
        self.desks.hear_of(replica as usize, &heard);
        self.waiting
            .retain(|e| e.id.replica != replica || e.id.sequence > sequence);
        for waiting in self.waiting.iter_mut().filter(|e| e.id.replica == replica) {
            waiting.version = join(&waiting.version, &heard);
        }
    }

    fn spoil(&self, random: &mut Random, event: &mut Event) {
        let replicas = event.version.len() as u64;
        match random.below(6) {
            0 => event.id.replica = replicas + random.below(3),
            1 => event.id.sequence = *random.pick(&EDGES),
            2 => event.version = shape(random, std::mem::take(&mut event.version)),
            3 => {
                event.id.sequence += 1;
                event.version[event.id.replica as usize] += 1;
            }
            4 if !self.brought.is_empty() => *event = random.pick(&self.brought).clone(),
            _ => nudge(random, &mut event.version),
        }
    }

    fn raise(&mut self, page: &mut Page) {
        let replicas = |page: &Page| page.probe.history.as_ref().unwrap().replicas;
        let before = replicas(page);
        let to = raised(&mut page.random, before);
        page.say(format!("h.raise {to}"));
        let now = replicas(page);
        self.desks.raise(&mut page.random, now);
    }
}

impl Story for HistoryStory {
    fn step(&mut self, page: &mut Page) {
        if self.steps == 0 {
            self.start(page);
            return;
        }
        self.steps -= 1;
        if page.random.below(150) == 0 {
            self.raise(page);
            return;
        }
        let filling = self.is_filling(page);
        match page.random.below(100) {
            0..=89 if filling => self.bring(page),
            0..=44 => self.bring(page),
            45..=91 => self.ask(page),
            _ if filling => self.ask(page),
            92..=96 if self.filling.is_some() => self.bring(page),
            _ => self.prune(page),
        }
    }
}
