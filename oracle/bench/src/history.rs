//! EventHistory: 16 desks with 32 notes each, and one with 392 beside 15 with 8.

use std::hint::black_box;

use moirai_protocol::{
    event::Event,
    replica::ReplicaIdx,
    state::unstable_state::{IsUnstableCausal, IsUnstableCore, IsUnstablePrune, event_history::EventHistory},
};

use crate::{
    clock::{Row, asked, copy_of, in_turn, per_round},
    notes,
    port::*,
};

const HELD: usize = 512;

pub fn measure() -> Vec<Row> {
    let mut rows = each_call(notes::gossip(HELD, 11, true));
    rows.insert(1, again());
    rows
}

pub fn beside_a_busy_desk() -> Vec<Row> {
    each_call(notes::busy(11))
}

/// Four times as many notes as there are rows: where 512 are held all are removed, so that each row is given again.
fn again() -> Row {
    let history = notes::gossip(4 * HELD, 11, true);
    let names = notes::names();
    let events: Vec<_> = history.iter().map(|n| notes::event(&names, n)).collect();
    let ids: Vec<_> = history.iter().map(|n| notes::id(&names, n)).collect();
    let in_turns = || {
        let mut log = EventHistory::<u64>::default();
        for (i, event) in events.iter().enumerate() {
            log.append(event.clone());
            if i % HELD == HELD - 1 {
                ids[i - 15..=i].iter().rev().for_each(|id| log.remove(id));
            }
        }
        log
    };
    let events_alone = cloned(&events);
    let port = Port::new(notes::rows(&history), 4 * HELD);
    let appends = |time: f64| time / (4 * HELD) as f64;
    Row {
        call: "append, rows given again",
        ours: appends(port.alone(10, port_history_again)),
        rust: appends(asked(5, HELD, |_| in_turns()) - events_alone),
        goal: 1.0,
        limit: 0.0,
    }
}

/// What it takes to copy the events that the original is handed.
fn cloned(events: &[Event<u64>]) -> f64 {
    per_round(20, |n| {
        for _ in 0..n {
            for event in events {
                black_box(event.clone());
            }
        }
    })
}

fn each_call(history: Vec<notes::Note>) -> Vec<Row> {
    let rows = notes::rows(&history);
    let names = notes::names();
    let events: Vec<_> = history.iter().map(|n| notes::event(&names, n)).collect();
    let ids: Vec<_> = history.iter().map(|n| notes::id(&names, n)).collect();
    let versions: Vec<_> = history.iter().map(|n| notes::version(&names, n)).collect();
    let build = || {
        let mut log = EventHistory::<u64>::default();
        for event in &events {
            log.append(event.clone());
        }
        log
    };
    let log = build();
    let port = Port::new(rows, HELD);
    let copy = copy_of::<50>();

    let events_alone = cloned(&events);
    let appends = |time: f64| time / HELD as f64;
    let not_slower = |call, ours, rust| Row { call, ours, rust, goal: 1.0, limit: 0.0 };
    let look_up = |call, ours, rust| Row { call, ours, rust, goal: 1.0, limit: copy };
    let desk = |turn: usize| ReplicaIdx(turn / 3 % 16);
    let many = 40_000;
    let some = 4_000;
    vec![
        not_slower("append", appends(port.alone(40, port_history_append)), appends(asked(20, HELD, |_| build()) - events_alone)),
        look_up("get", port.asks_all(many, port_history_get), asked(many, HELD, |k| log.get(&ids[k]))),
        look_up("version", port.asks_all(many, port_history_version), asked(many, HELD, |k| log.version(&ids[k]))),
        look_up("previous", port.asks_all(many, port_history_previous), in_turn(many, |k| log.previous(&ids[k % HELD], desk(k)))),
        look_up("next", port.asks_all(many, port_history_next), in_turn(many, |k| log.next(&ids[k % HELD], desk(k)))),
        not_slower("predecessors", port.lists(some, port_history_predecessors), asked(some, HELD, |k| log.predecessors(&versions[k]))),
        not_slower("concurrent", port.lists(some, port_history_concurrent), asked(some, HELD, |k| log.concurrent(&versions[k]))),
        not_slower("iter", port.lists_all(some, port_history_iter), asked(some, HELD, |_| log.iter().collect::<Vec<_>>())),
        not_slower(
            "replica_events",
            port.lists(some, port_history_replica_events),
            asked(some, HELD, |k| log.replica_events(ReplicaIdx(history[k].origin), (0..history[k].seq).into()).collect::<Vec<_>>()),
        ),
        not_slower("newly_observed_by", port.lists(some, port_history_newly), asked(some, HELD, |k| log.newly_observed_by(&ids[k]))),
    ]
}
