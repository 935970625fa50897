//! What is asked of a graph that holds a short log.

use runs::{
    answer::Answer,
    lines::{Event, Vector},
    model::Probe,
    text::{event_words, id_words, spaced, up_to},
};

use crate::logs::{early, orders, sibling, taken, tops};

/// A graph that holds the log, in the lines and in the model.
fn bring(replicas: usize, log: &[Event], raised: bool, lines: &mut Vec<String>) -> Probe {
    let mut probe = Probe::default();
    for line in taken("g", replicas, log.iter(), raised) {
        probe.answer(line.as_bytes());
        lines.push(line);
    }
    probe
}

fn look(log: &[Event], lines: &mut Vec<String>) {
    lines.extend(["g.cuts", "g.heads"].map(str::to_string));
    lines.extend(log.iter().map(|event| format!("g.parents {}", id_words(&event.id))));
}

/// A sibling that is refused for its revision.
fn of_another_revision(elder: &Event) -> String {
    let mut sibling = sibling(elder);
    sibling.revision += 1;
    format!("g.append {}", event_words(&sibling))
}

pub fn ask(replicas: usize, log: &[Event], lines: &mut Vec<String>) {
    let bounds = up_to(&tops(replicas, log));
    let mut probe = bring(replicas, log, false, lines);
    look(log, lines);
    lines.extend(log.last().map(of_another_revision));
    lines.extend((0..=log.len() + 1).map(|length| format!("g.why {length}")));
    lines.extend((0..=log.len()).map(|position| format!("g.chain {position}")));
    let mut critical = Vec::new();
    for bound in &bounds {
        let question = format!("g.is-critical {}", spaced(bound));
        if probe.answer(question.as_bytes()) == Answer::YesNo(true) {
            critical.push(bound);
        }
        lines.extend([format!("g.greatest {}", spaced(bound)), question]);
        lines.push(format!("g.seen {}", spaced(bound)));
    }
    let tops = spaced(bounds.last().unwrap());
    for (i, frontier) in critical.into_iter().enumerate() {
        // The first flush is of the graph that stands; of the others every second one is of a graph that was raised.
        if i > 0 {
            bring(replicas, log, i % 2 == 1, lines);
        }
        lines.push(format!("g.flush {}", spaced(frontier)));
        look(log, lines);
        lines.extend(["g.roots".to_string(), format!("g.greatest {tops}")]);
        lines.extend([format!("g.advance {tops}"), "g.iter".to_string()]);
    }
    let graph = probe.graph.unwrap();
    let inside = |bound: &&Vector| graph.greatest(bound).is_some_and(|frontier| frontier != **bound);
    if let Some(bound) = bounds.iter().find(inside) {
        bring(replicas, log, true, lines);
        lines.push(format!("g.advance {}", spaced(bound)));
        look(log, lines);
    }
}

/// The orders in which some note comes too early.
pub fn bring_early(replicas: usize, set: &[Event], lines: &mut Vec<String>) {
    for order in orders(set).into_iter().filter(|order| early(order)) {
        bring(replicas, &order, false, lines);
        lines.extend(["g.iter", "g.named", "g.cuts", "g.heads"].map(str::to_string));
    }
}
