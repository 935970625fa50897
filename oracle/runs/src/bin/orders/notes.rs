//! Sets of notes: gossip among 2 to 5 desks, with siblings, gaps and checkpoints.

use runs::{
    lines::{Event, Id, TOP, Vector},
    model::{covers, join},
    random::Random,
};

const MOST: usize = 12;

/// A note with its siblings, the eldest first. An id that comes twice is accepted, withdrawn and accepted again.
pub type Group = Vec<Event>;

pub struct Notes {
    pub replicas: u64,
    pub checkpoint: Option<Vector>,
    /// Whether logs withdraw notes.
    pub removals: bool,
    /// In the order in which they were written.
    pub groups: Vec<Group>,
}

fn same_note(a: &Id, b: &Id) -> bool {
    a.replica == b.replica && a.sequence == b.sequence
}

/// The first group speaks of the second, which therefore comes first.
pub fn after(later: &Group, earlier: &Group) -> bool {
    !same_note(&later[0].id, &earlier[0].id) && later.iter().any(|e| covers(&e.version, &earlier[0].id))
}

impl Notes {
    pub fn new(random: &mut Random) -> Self {
        let replicas = 2 + random.index(4);
        let checkpoint: Option<Vector> = random.chance(30).then(|| {
            let far = random.chance(30);
            (0..replicas)
                .map(|_| {
                    if far {
                        TOP - 40 - random.below(9)
                    } else {
                        random.below(4)
                    }
                })
                .collect()
        });
        let base = checkpoint.clone().unwrap_or(vec![0; replicas]);
        let mut notes = Self {
            replicas: replicas as u64,
            checkpoint,
            removals: random.chance(50),
            groups: Vec::new(),
        };
        // Desks that hear much have many cuts, desks that hear little have few.
        let hears = *random.pick(&[5, 20, 40, 70]);
        let gaps = random.chance(20);
        let most = 1 + random.index(MOST).max(random.index(MOST));
        let mut seen = vec![base; replicas];
        let mut written = 0;
        while written < most {
            let desk = random.index(replicas);
            while random.chance(hears) {
                let speaker = random.index(replicas);
                seen[desk] = join(&seen[desk], &seen[speaker]);
            }
            if random.chance(8) {
                // All desks meet.
                let all = seen.iter().fold(seen[0].clone(), |all, one| join(&all, one));
                seen.fill(all);
            }
            seen[desk][desk] += if gaps { 1 + random.below(3) } else { 1 };
            let group = notes.group(random, desk, &seen, most - written);
            for event in &group {
                seen[desk] = join(&seen[desk], &event.version);
            }
            written += group.len();
            notes.groups.push(group);
        }
        notes
    }

    /// A note of this desk, and in some cases siblings, which may have heard more, or in the end less than at first.
    fn group(&self, random: &mut Random, desk: usize, seen: &[Vector], room: usize) -> Group {
        let mut event = Event {
            id: Id {
                replica: desk as u64,
                sequence: seen[desk][desk],
                disambiguator: random.chance(15).then(|| random.below(3) as u32),
            },
            lamport: random.below(100),
            payload: random.below(1000),
            revision: random.below(3) as u32,
            version: seen[desk].clone(),
        };
        let mut group = vec![event.clone()];
        while group.len() < room && random.chance(20) {
            let next = event.id.disambiguator.map_or(0, |d| d + 1);
            event.id.disambiguator = Some(next + random.below(2) as u32);
            event.payload = random.below(1000);
            let before = event.clone();
            if random.chance(25) {
                let own = event.version[desk];
                let other: &Vector = random.pick(seen);
                event.version = join(&event.version, other);
                event.version[desk] = own;
            }
            let mut twice = [before, event.clone()];
            if random.chance(50) {
                twice.reverse();
            }
            let [first, then] = twice;
            group.extend((self.removals && random.chance(40)).then_some(first));
            group.push(then);
        }
        group
    }

    pub fn any(&self, random: &mut Random) -> &Event {
        let group = random.pick(&self.groups);
        random.pick(group)
    }

    /// Each id once.
    pub fn ids(&self) -> Vec<Id> {
        let mut ids: Vec<Id> = self.all().map(|event| event.id).collect();
        ids.dedup();
        ids
    }

    pub fn all(&self) -> impl Iterator<Item = &Event> {
        self.groups.iter().flatten()
    }
}
