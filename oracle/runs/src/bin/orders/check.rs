//! Holds the logs of a set against each other, by the answers that were given for them.

use crate::logs::Set;

/// What differs, and how many lines it takes to see it.
struct Difference {
    lines: usize,
    text: String,
}

#[derive(Default)]
struct Figures {
    sets: u64,
    logs: u64,
    pairs: u64,
    other_order: u64,
    held_otherwise: u64,
    flushed: u64,
    flushed_otherwise: u64,
    started_otherwise: u64,
    withdrawn: u64,
    withdrawn_otherwise: u64,
    answers: u64,
}

/// An answer as far as two logs must agree on it: lists of events and ids as sets.
fn reading(question: &str, answer: &str) -> Vec<String> {
    let mut words: Vec<String> = answer.split(' ').map(str::to_string).collect();
    if ["g.iter", "g.heads", "g.parents"].contains(&question.split(' ').next().unwrap()) {
        words.sort();
    }
    words
}

pub fn check(sets: impl Iterator<Item = Set>, mut answers: impl Iterator<Item = String>) -> std::io::Result<()> {
    let mut figures = Figures::default();
    let mut smallest: Option<Difference> = None;
    let mut next = || answers.next().unwrap_or("(no answer)".to_string());
    for set in sets {
        let mut answered = Vec::new();
        for log in &set.logs {
            log.lines.iter().for_each(|_| drop(next()));
            answered.push(set.questions.iter().map(|_| next()).collect::<Vec<_>>());
        }
        figures.sets += 1;
        figures.logs += set.logs.len() as u64;
        for j in 0..set.logs.len() {
            for i in 0..j {
                figures.count(&set, &answered, i, j);
                if let Some(found) = difference(&set, &answered, i, j)
                    && smallest.as_ref().is_none_or(|small| found.lines < small.lines)
                {
                    smallest = Some(found);
                }
            }
        }
    }
    if let Some(found) = smallest {
        println!(
            "two logs that must agree do not; the smallest pair found:\n{}",
            found.text
        );
        std::process::exit(1);
    }
    figures.print();
    Ok(())
}

/// The first question that two logs of a set answer differently.
fn difference(set: &Set, answered: &[Vec<String>], i: usize, j: usize) -> Option<Difference> {
    let differs = |&q: &usize| {
        let question = &set.questions[q];
        reading(question, &answered[i][q]) != reading(question, &answered[j][q])
    };
    let q = (0..set.questions.len()).find(differs)?;
    let script = |log: usize| {
        let lines = set.logs[log].lines.iter().chain([&set.questions[q]]);
        let lines: Vec<String> = lines.map(|line| format!("    {line}\n")).collect();
        format!("{}port:   {}\n", lines.concat(), answered[log][q])
    };
    Some(Difference {
        lines: set.logs[i].lines.len() + set.logs[j].lines.len(),
        text: format!("{}{}", script(i), script(j)),
    })
}

impl Figures {
    fn count(&mut self, set: &Set, answered: &[Vec<String>], i: usize, j: usize) {
        let (a, b) = (&set.logs[i], &set.logs[j]);
        self.pairs += 1;
        self.other_order += u64::from(a.accepted != b.accepted);
        // The first question lists what is held in replay order.
        self.held_otherwise += u64::from(answered[i][0] != answered[j][0]);
        self.flushed += u64::from(!a.flushed.is_empty());
        self.flushed_otherwise += u64::from(a.flushed != b.flushed);
        self.started_otherwise += u64::from(a.desks != b.desks);
        self.withdrawn += u64::from(!a.withdrawn.is_empty() && !b.withdrawn.is_empty());
        self.withdrawn_otherwise += u64::from(a.withdrawn != b.withdrawn);
        self.answers += set.questions.len() as u64;
    }

    fn print(&self) {
        for (number, what) in [
            (self.sets, "sets of notes"),
            (self.logs, "logs, each accepting all notes of its set"),
            (self.pairs, "pairs of logs of one set, which agree"),
            (
                self.other_order,
                "of these pairs accepted the notes in different orders",
            ),
            (
                self.held_otherwise,
                "of these pairs hold what they hold in different orders",
            ),
            (self.flushed, "of these pairs flushed"),
            (
                self.flushed_otherwise,
                "of these pairs flushed at different moments or other frontiers before the last",
            ),
            (
                self.started_otherwise,
                "of these pairs started with different numbers of desks",
            ),
            (self.withdrawn, "of these pairs withdrew notes"),
            (
                self.withdrawn_otherwise,
                "of these pairs withdrew notes at different moments, or other notes that the last flush takes",
            ),
            (self.answers, "answers held against the other log's"),
        ] {
            println!("{number} {what}");
        }
    }
}
