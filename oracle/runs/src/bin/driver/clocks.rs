//! The clock words, answered by the original's frontiers and versions.

use std::cmp::Ordering;

use moirai_protocol::replica::ReplicaIdx;
use runs::{
    answer::Answer,
    lines::{Clock, TOP},
    original::*,
};

use crate::reply::bad_vector;

/// The refusals that need no panic of the original.
pub fn refusal(replicas: u64, call: &Clock) -> Option<u64> {
    use Clock::*;
    let bad = match call {
        Replicas(_) => unreachable!(),
        Entry(_, v) | Set(_, _, v) | Contains(_, v) | Sum(v) | Increment(_, v) | Dependencies(_, v) => {
            bad_vector(replicas, v)
        }
        Join(v, w) | Meet(v, w) | Compare(v, w) | Includes(v, w) | VersionJoin(_, v, _, w) => {
            bad_vector(replicas, v) || bad_vector(replicas, w)
        }
    };
    match call {
        _ if bad => Some(3),
        Set(o, _, _) | Increment(o, _) if *o >= replicas => Some(1),
        VersionJoin(o, _, p, _) if *o >= replicas || *p >= replicas => Some(1),
        Set(_, x, _) if *x > TOP => Some(3),
        Increment(o, v) if v[*o as usize] == TOP => Some(3),
        _ => None,
    }
}

/// Answers every clock word but `c.replicas`, where `refusal` is none.
pub fn run(replicas: u64, call: &Clock) -> Answer {
    let names = resolver(replicas);
    let vector = |entries| Answer::Vector(Some(entries));
    match call {
        Clock::Replicas(_) => unreachable!(),
        Clock::Entry(o, v) => Answer::Number(frontier(&names, v).seq_by_idx(ReplicaIdx(*o as usize)) as u64),
        Clock::Set(o, x, v) => {
            let mut f = frontier(&names, v);
            f.set_by_idx(ReplicaIdx(*o as usize), *x as usize);
            vector(entries_of_frontier(&f))
        }
        Clock::Join(v, w) => {
            let mut f = frontier(&names, v);
            f.join(&frontier(&names, w));
            vector(entries_of_frontier(&f))
        }
        Clock::Meet(v, w) => {
            let mut f = frontier(&names, v);
            f.meet(&frontier(&names, w));
            vector(entries_of_frontier(&f))
        }
        Clock::Compare(v, w) => Answer::Word(match frontier(&names, v).partial_cmp(&frontier(&names, w)) {
            Some(Ordering::Equal) => "equal",
            Some(Ordering::Greater) => "above",
            Some(Ordering::Less) => "below",
            None => "beside",
        }),
        Clock::Includes(v, w) => Answer::YesNo(version(&names, 0, v).includes_frontier(&frontier(&names, w))),
        Clock::Contains(id, v) => Answer::YesNo(frontier(&names, v).contains(&event_id(&names, id))),
        Clock::Sum(v) => Answer::Number(frontier(&names, v).sum() as u64),
        Clock::Increment(o, v) => {
            let mut f = version(&names, *o, v);
            f.increment();
            vector(entries_of_version(&f))
        }
        Clock::VersionJoin(o, v, p, w) => {
            let mut f = version(&names, *o, v);
            f.join(&version(&names, *p, w));
            vector(entries_of_version(&f))
        }
        Clock::Dependencies(o, v) => Answer::Ids(version(&names, *o, v).dependencies().map(|id| id_of(&id)).collect()),
    }
}
