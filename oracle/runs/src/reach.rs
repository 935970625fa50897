//! What can occur: every word, and for each the refusal numbers of documents 01 and 02, the open points and PROBE.md.

use crate::{counts::Counts, verdict::BAD_LINE};

/// A word that the original cannot be asked.
const NOT_IN_THE_ORIGINAL: &str = "g.named";

/// The numbers for which the original panics.
const PANICS: [u64; 7] = [2, 9, 10, 11, 12, 13, 14];

const WORDS: [(&str, &[u64]); 63] = [
    ("room", &[]),
    ("c.replicas", &[17]),
    ("c.entry", &[3, 18]),
    ("c.set", &[1, 3, 18]),
    ("c.join", &[3, 18]),
    ("c.meet", &[3, 18]),
    ("c.compare", &[3, 18]),
    ("c.includes", &[3, 18]),
    ("c.contains", &[3, 18]),
    ("c.sum", &[3, 18]),
    ("c.increment", &[1, 3, 18]),
    ("c.vjoin", &[1, 2, 3, 18]),
    ("c.dependencies", &[3, 16, 18]),
    ("g.new", &[17]),
    ("g.from", &[3, 17]),
    ("g.raise", &[17, 18]),
    ("g.append", &[1, 2, 3, 4, 5, 6, 7, 8, 18, 19]),
    ("g.get", &[18]),
    ("g.predecessors", &[3, 16, 18]),
    ("g.concurrent", &[3, 16, 18]),
    ("g.iter", &[16, 18]),
    ("g.replica-events", &[10, 16, 18]),
    ("g.len", &[18]),
    ("g.is-empty", &[18]),
    ("g.roots", &[18]),
    ("g.named", &[18]),
    ("g.greatest", &[3, 18]),
    ("g.is-critical", &[3, 18]),
    ("g.parents", &[16, 18]),
    ("g.heads", &[16, 18]),
    ("g.cuts", &[16, 18]),
    ("g.order", &[18]),
    ("g.why", &[18, 20]),
    ("g.chain", &[16, 18]),
    ("g.seen", &[3, 18]),
    ("g.advance", &[3, 18]),
    ("g.flush", &[3, 9, 18]),
    ("g.remove", &[18]),
    ("g.retain", &[15, 18]),
    ("g.clear", &[18]),
    ("h.new", &[17]),
    ("h.raise", &[17, 18]),
    ("h.append", &[1, 2, 3, 8, 12, 13, 18]),
    ("h.get", &[18]),
    ("h.version", &[18]),
    ("h.last-version", &[18]),
    ("h.predecessors", &[3, 16, 18]),
    ("h.concurrent", &[3, 16, 18]),
    ("h.iter", &[16, 18]),
    ("h.replica-events", &[10, 11, 16, 18]),
    ("h.len", &[18]),
    ("h.is-empty", &[18]),
    ("h.previous", &[18]),
    ("h.next", &[18]),
    ("h.first", &[18]),
    ("h.newly", &[16, 18]),
    ("h.prune", &[3, 18]),
    ("h.remove", &[18]),
    ("h.retain", &[14, 15, 18]),
    ("h.clear", &[18]),
    ("r.arrive", &[1, 2, 3, 12, 18, 21, 22]),
    ("r.waiting", &[16, 18]),
    ("r.len", &[18]),
];

/// The history's numbers for what the waiting room hands over.
const HANDED_OVER: [u64; 4] = [0, 8, 12, 13];

/// What can occur and did not, and what occurred and cannot: each as a sentence.
pub fn faults(counts: &Counts) -> Vec<String> {
    let mut faults = Vec::new();
    let words = || WORDS.iter().copied().chain([(BAD_LINE, &[18][..])]);
    for (word, numbers) in words() {
        let Some(row) = counts.rows.get(word) else {
            faults.push(format!("{word} never occurred"));
            continue;
        };
        let answered = if word == NOT_IN_THE_ORIGINAL {
            row.not_asked
        } else {
            row.equal
        };
        if answered == 0 && word != BAD_LINE {
            faults.push(format!("{word} was never answered"));
        }
        for number in numbers {
            if row.refused.get(number).is_none_or(|&times| times == 0) {
                faults.push(format!("{word} was never refused by {number}"));
            }
        }
        for number in row.refused.keys().filter(|number| !numbers.contains(number)) {
            faults.push(format!("{word} was refused by {number}, which it cannot be"));
        }
    }
    for word in counts
        .rows
        .keys()
        .filter(|word| !words().any(|(known, _)| known == word.as_str()))
    {
        faults.push(format!("{word} is no word"));
    }
    for number in PANICS.iter().filter(|number| !counts.panics.contains_key(number)) {
        faults.push(format!("the original was never seen to panic for {number}"));
    }
    for number in HANDED_OVER
        .iter()
        .filter(|number| !counts.handed_over.contains_key(number))
    {
        faults.push(format!(
            "no note was handed over by the waiting room and answered {number}"
        ));
    }
    for number in counts.handed_over.keys().filter(|number| !HANDED_OVER.contains(number)) {
        faults.push(format!("a note handed over was answered {number}, which it cannot be"));
    }
    faults
}
