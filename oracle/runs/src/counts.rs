//! How often each word and each refusal occurred: counted, added up, printed as a table and read back from one.

use std::collections::BTreeMap;

use crate::{lines::Id, verdict::Verdict};

#[derive(Default)]
pub struct Row {
    pub lines: u64,
    pub equal: u64,
    pub not_asked: u64,
    pub refused: BTreeMap<u64, u64>,
}

#[derive(Default)]
pub struct Counts {
    pub rows: BTreeMap<String, Row>,
    /// By refusal number, how often the original was seen to panic.
    pub panics: BTreeMap<u64, u64>,
    /// By the history's number, how many notes the waiting room handed over.
    pub handed_over: BTreeMap<u64, u64>,
}

const HEADING: &str = "word                  lines    equal  not asked  refused, as number:times";
const ALL: &str = "all";
const PANICS: &str = "of the refused, the original was seen to panic for";
const HANDED_OVER: &str = "notes handed over by the waiting room, by the history's number";

fn pairs_text(pairs: &BTreeMap<u64, u64>) -> String {
    let shown: Vec<String> = pairs
        .iter()
        .map(|(number, times)| format!("{number}:{times}"))
        .collect();
    shown.join(" ")
}

fn pairs_of<'a>(words: impl Iterator<Item = &'a str>) -> Option<BTreeMap<u64, u64>> {
    words
        .map(|word| {
            let (number, times) = word.split_once(':')?;
            Some((number.parse().ok()?, times.parse().ok()?))
        })
        .collect()
}

fn add_pairs(to: &mut BTreeMap<u64, u64>, from: &BTreeMap<u64, u64>) {
    for (number, times) in from {
        *to.entry(*number).or_default() += times;
    }
}

impl Row {
    fn add(&mut self, other: &Row) {
        self.lines += other.lines;
        self.equal += other.equal;
        self.not_asked += other.not_asked;
        add_pairs(&mut self.refused, &other.refused);
    }

    fn text(&self, word: &str) -> String {
        let Row {
            lines,
            equal,
            not_asked,
            refused,
        } = self;
        format!("{word:<18}{lines:>9}{equal:>9}{not_asked:>11}  {}", pairs_text(refused))
    }

    fn read(text: &str) -> Option<(String, Row)> {
        let mut words = text.get(18..)?.split_whitespace();
        let mut number = || words.next()?.parse().ok();
        let row = Row {
            lines: number()?,
            equal: number()?,
            not_asked: number()?,
            refused: pairs_of(words)?,
        };
        Some((text[..18].trim_end().to_string(), row))
    }
}

impl Counts {
    /// Counts a line that is no disagreement.
    pub fn count(&mut self, word: String, verdict: &Verdict) {
        let row = self.rows.entry(word).or_default();
        row.lines += 1;
        match verdict {
            Verdict::Equal => row.equal += 1,
            Verdict::NotAsked => row.not_asked += 1,
            Verdict::Refused(number, panicked) => {
                *row.refused.entry(*number).or_default() += 1;
                if *panicked {
                    *self.panics.entry(*number).or_default() += 1;
                }
            }
            Verdict::Disagree => unreachable!(),
        }
    }

    pub fn count_handed_over(&mut self, report: &[(Id, u64)]) {
        for (_, number) in report {
            *self.handed_over.entry(*number).or_default() += 1;
        }
    }

    pub fn add(&mut self, other: &Counts) {
        for (word, row) in &other.rows {
            self.rows.entry(word.clone()).or_default().add(row);
        }
        add_pairs(&mut self.panics, &other.panics);
        add_pairs(&mut self.handed_over, &other.handed_over);
    }

    pub fn all(&self) -> Row {
        let mut all = Row::default();
        self.rows.values().for_each(|row| all.add(row));
        all
    }

    pub fn print(&self) {
        println!("{HEADING}");
        for (word, row) in &self.rows {
            println!("{}", row.text(word).trim_end());
        }
        println!("{}", self.all().text(ALL).trim_end());
        println!("{PANICS} {}", pairs_text(&self.panics));
        println!("{HANDED_OVER} {}", pairs_text(&self.handed_over));
    }

    /// A table that `print` printed, or the line that is none of it.
    pub fn read(text: &str) -> Result<Counts, String> {
        let mut counts = Counts::default();
        for line in text.lines().filter(|line| *line != HEADING) {
            if let Some(panics) = line.strip_prefix(PANICS) {
                counts.panics = pairs_of(panics.split_whitespace()).ok_or(line)?;
            } else if let Some(handed_over) = line.strip_prefix(HANDED_OVER) {
                counts.handed_over = pairs_of(handed_over.split_whitespace()).ok_or(line)?;
            } else {
                let (word, row) = Row::read(line).ok_or(line)?;
                if word != ALL {
                    counts.rows.insert(word, row);
                }
            }
        }
        Ok(counts)
    }
}
