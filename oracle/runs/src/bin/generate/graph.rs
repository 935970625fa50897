//! Graph lines: stories of desks that gossip, with siblings, flushes, removals and events that must be refused.

mod calls;

use runs::{
    answer::Answer,
    lines::{Event, Id, TOP},
    model::{covers, graph::Graph, join},
    random::Random,
};

use crate::{Page, Story, desks::Desks, values::*};

/// What a story is mainly about.
#[derive(Clone, Copy, Default, PartialEq)]
enum About {
    #[default]
    Gossip,
    /// Small random events, most of them to be refused.
    Dice,
    /// Up to the 256th event and past it.
    Full,
}

#[derive(Default)]
pub struct GraphStory {
    about: About,
    steps: u64,
    desks: Desks,
    gaps: bool,
    /// Written and not yet brought to the log.
    waiting: Vec<Event>,
    /// Brought to the log at some time.
    brought: Vec<Event>,
}

impl GraphStory {
    fn start(&mut self, page: &mut Page) {
        let random = &mut page.random;
        self.about = match random.below(40) {
            0 => About::Full,
            1..=18 => About::Dice,
            _ => About::Gossip,
        };
        let replicas = match self.about {
            About::Dice => 1 + random.below(4),
            _ => replicas(random),
        };
        self.steps = match self.about {
            About::Dice => 5 + random.below(60),
            About::Gossip => 20 + random.below(300),
            About::Full => 500 + random.below(300),
        };
        self.gaps = random.chance(20);
        let checkpoint: Vec<u64> = match random.below(4) {
            0 => (0..replicas).map(|_| TOP - random.below(40)).collect(),
            1 => (0..replicas).map(|_| entry(random)).collect(),
            _ => (0..replicas).map(|_| random.below(3)).collect(),
        };
        let (line, base) = if random.chance(35) {
            let said = shorten(random, checkpoint.clone());
            (format!("g.from {replicas} {}", spaced(&said)), checkpoint)
        } else {
            let base = if random.chance(10) {
                checkpoint
            } else {
                vec![0; replicas as usize]
            };
            (format!("g.new {replicas}"), base)
        };
        if random.chance(4) {
            let bad = bad_replicas(random);
            let line = if random.chance(50) {
                format!("g.new {bad}")
            } else {
                format!("g.from {bad} 1 1")
            };
            page.say(line);
        }
        if page.random.chance(4) {
            let v = vector(&mut page.random, replicas);
            page.say(format!("g.from {} {}", replicas.max(2) - 1, spaced(&v)));
        }
        page.say(line);
        self.desks = Desks::new(replicas, &base);
        self.waiting.clear();
        self.brought.clear();
    }

    /// An event near what the log holds: its version is a join of held versions, or random between roots and named.
    fn dice(&self, random: &mut Random, graph: &Graph) -> Event {
        let replicas = graph.replicas;
        let replica = random.below(replicas);
        let own = replica as usize;
        let mut version = graph.frontier(0);
        if random.chance(60) {
            for _ in 0..random.below(3).min(graph.held.len() as u64) {
                version = join(&version, &random.pick(&graph.held).version);
            }
        } else {
            for (entry, &named) in version.iter_mut().zip(&graph.named) {
                *entry += random.below(named - *entry + 2);
            }
        }
        if random.chance(12) {
            nudge(random, &mut version);
        }
        version[own] = match random.below(12) {
            0 => graph.named[own],
            1 => graph.named[own] + 2,
            2 => random.below(3),
            _ => graph.named[own] + 1,
        };
        let mut event = Event {
            id: Id {
                replica,
                sequence: version[own],
                disambiguator: disambiguator(random),
            },
            lamport: random.below(100),
            payload: random.below(1000),
            revision: revision(random),
            version,
        };
        if let Some(last) = graph.held.last()
            && random.chance(20)
        {
            event.id = last.id;
            event.id.disambiguator = disambiguator(random);
            if random.chance(70) {
                event.revision = last.revision;
            }
            if random.chance(70) {
                event.version = join(&last.version, &event.version);
            }
            event.version[last.id.replica as usize] = last.id.sequence;
        }
        event
    }

    /// The next event for the log: the eldest waiting one, another whose past is not waiting, or any.
    fn next(&mut self, random: &mut Random) -> Option<Event> {
        for _ in 0..random.below(3) {
            self.desks.hear(random);
        }
        if self.waiting.is_empty() || random.chance(60) {
            let step = if self.gaps { 1 + random.below(3) } else { 1 };
            let desk = self.desks.any(random);
            self.waiting.extend(self.desks.write(random, desk, step));
        }
        if self.waiting.is_empty() {
            return None;
        }
        let ready = |i: usize| {
            (0..self.waiting.len()).all(|j| {
                let id = &self.waiting[j].id;
                j == i || !covers(&self.waiting[i].version, id)
            })
        };
        let chosen = match random.below(40) {
            0 => random.index(self.waiting.len()),
            1..=15 => {
                let all: Vec<usize> = (0..self.waiting.len()).filter(|&i| ready(i)).collect();
                *random.pick(&all)
            }
            _ => 0,
        };
        Some(self.waiting.remove(chosen))
    }

    fn bring(&mut self, page: &mut Page) {
        let held = page.probe.graph.as_ref().unwrap();
        let mut event = if self.about == About::Dice {
            self.dice(&mut page.random, held)
        } else if !self.brought.is_empty() && page.random.chance(4) {
            page.random.pick(&self.brought).clone()
        } else {
            match self.next(&mut page.random) {
                Some(event) => event,
                None => return,
            }
        };
        let random = &mut page.random;
        if random.chance(5) {
            self.spoil(random, &mut event);
        }
        let taken = self.append(page, event.clone());
        while taken && page.random.chance(12) && !page.full() {
            let sibling = self.sibling(&mut page.random, &event);
            if self.append(page, sibling.clone()) {
                event = sibling;
            }
        }
    }

    /// A sibling of the event, most often one that may follow it.
    fn sibling(&self, random: &mut Random, event: &Event) -> Event {
        let mut sibling = event.clone();
        sibling.id.disambiguator = match event.id.disambiguator {
            _ if random.chance(15) => disambiguator(random),
            None => Some(random.below(2) as u32 * 7),
            Some(d) => Some(d.saturating_add(1 + random.below(3) as u32)),
        };
        sibling.payload = random.below(1000);
        if random.chance(20) {
            sibling.revision = revision(random);
        }
        if random.chance(10) {
            nudge(random, &mut sibling.version);
        }
        sibling
    }

    fn spoil(&self, random: &mut Random, event: &mut Event) {
        match random.below(6) {
            0 => event.id.replica = event.version.len() as u64 + random.below(3),
            1 => event.id.sequence = *random.pick(&EDGES),
            2 => event.version = shape(random, std::mem::take(&mut event.version)),
            3 => event.id.disambiguator = disambiguator(random),
            _ => nudge(random, &mut event.version),
        }
    }

    fn raise(&mut self, page: &mut Page) {
        let replicas = |page: &Page| page.probe.graph.as_ref().unwrap().replicas;
        let before = replicas(page);
        let to = raised(&mut page.random, before);
        page.say(format!("g.raise {to}"));
        let now = replicas(page);
        self.desks.raise(&mut page.random, now);
    }

    fn append(&mut self, page: &mut Page, event: Event) -> bool {
        let line = format!("g.append {}", append_words(&mut page.random, &event));
        self.brought.push(event);
        page.say(line) == Answer::Done
    }
}

impl Story for GraphStory {
    fn step(&mut self, page: &mut Page) {
        if self.steps == 0 {
            self.start(page);
            return;
        }
        self.steps -= 1;
        if page.random.below(150) == 0 {
            self.raise(page);
            return;
        }
        let filling =
            self.about == About::Full && page.probe.graph.as_ref().is_some_and(|graph| graph.held.len() < 256);
        match page.random.below(100) {
            0..=89 if filling && self.steps > 100 => self.bring(page),
            0..=47 => self.bring(page),
            48..=89 => self.ask(page),
            90..=97 if filling && self.steps > 100 => self.ask(page),
            90..=93 if self.about == About::Gossip => self.bring(page),
            _ => self.prune(page),
        }
    }
}
