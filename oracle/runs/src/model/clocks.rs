//! Document 01's clocks, with open points 1 to 5.

use super::{at_or_above, bad_vector, covers, entry, join};
use crate::{
    answer::Answer,
    lines::{Clock, Id, TOP},
};

pub fn run(replicas: u64, call: &Clock) -> Answer {
    use Clock::*;
    let bad = |v: &[u64]| bad_vector(replicas, v);
    let vector = |v: Vec<u64>| Answer::Vector(Some(v));
    match call {
        Replicas(_) => Answer::Done,
        Entry(_, v) | Set(_, _, v) | Contains(_, v) | Sum(v) | Increment(_, v) | Dependencies(_, v) if bad(v) => {
            Answer::Refused(3)
        }
        Join(v, w) | Meet(v, w) | Compare(v, w) | Includes(v, w) | VersionJoin(_, v, _, w) if bad(v) || bad(w) => {
            Answer::Refused(3)
        }
        Entry(o, v) => Answer::Number(entry(v, *o)),
        Set(o, _, _) if *o >= replicas => Answer::Refused(1),
        Set(_, x, _) if *x > TOP => Answer::Refused(3),
        Set(o, x, v) => {
            let mut v = v.clone();
            v[*o as usize] = *x;
            vector(v)
        }
        Join(v, w) => vector(join(v, w)),
        Meet(v, w) => vector(v.iter().zip(w).map(|(a, b)| *a.min(b)).collect()),
        Compare(v, w) => Answer::Word(match (at_or_above(v, w), at_or_above(w, v)) {
            (true, true) => "equal",
            (true, false) => "above",
            (false, true) => "below",
            (false, false) => "beside",
        }),
        Includes(v, w) => Answer::YesNo(at_or_above(v, w)),
        Contains(id, v) => Answer::YesNo(covers(v, id)),
        Sum(v) => Answer::Number(v.iter().sum()),
        Increment(o, _) if *o >= replicas => Answer::Refused(1),
        Increment(o, v) if entry(v, *o) == TOP => Answer::Refused(3),
        Increment(o, v) => {
            let mut v = v.clone();
            v[*o as usize] += 1;
            vector(v)
        }
        VersionJoin(o, _, p, _) if *o >= replicas || *p >= replicas => Answer::Refused(1),
        VersionJoin(_, _, p, w) if entry(w, *p) == 0 => Answer::Refused(2),
        VersionJoin(_, v, p, w) if entry(v, *p) >= entry(w, *p) => vector(v.clone()),
        VersionJoin(_, v, _, w) => vector(join(v, w)),
        Dependencies(o, v) => Answer::Ids(
            (0..replicas)
                .filter(|&replica| entry(v, replica) > 0)
                .map(|replica| Id {
                    replica,
                    sequence: entry(v, replica) - u64::from(replica == *o),
                    disambiguator: None,
                })
                .collect(),
        ),
    }
}
