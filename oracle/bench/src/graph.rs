//! EventGraph: 256 notes held.

use std::hint::black_box;

use moirai_protocol::state::unstable_state::{
    IsUnstableCausal, IsUnstableCore, IsUnstableDelivery, IsUnstablePrune, event_graph::EventGraph,
};

use crate::{
    clock::{Row, asked, copy_of, per_round},
    notes,
    port::*,
};

const HELD: usize = 256;

pub fn measure() -> Vec<Row> {
    let history = notes::gossip(HELD, 7, false);
    let rows = notes::rows(&history);
    let names = notes::names();
    let events: Vec<_> = history.iter().map(|n| notes::event(&names, n)).collect();
    let ids: Vec<_> = history.iter().map(|n| notes::id(&names, n)).collect();
    let versions: Vec<_> = history.iter().map(|n| notes::version(&names, n)).collect();
    let frontiers: Vec<_> = history.iter().map(|n| notes::frontier(&names, n)).collect();
    let build = || {
        let mut log = EventGraph::<u64>::default();
        for event in &events {
            log.append(event.clone());
        }
        log
    };
    let log = build();
    let middle = &rows[(HELD / 2 - 1) * notes::ROW..(HELD / 2) * notes::ROW];
    // A version that covers all of them.
    let whole = notes::Note { origin: 0, seq: HELD, lamport: 0, payload: 0, version: [HELD; notes::DESKS] };
    let (whole_row, whole) = (notes::rows(std::slice::from_ref(&whole)), notes::version(&names, &whole));
    let mask: Vec<u8> = (0..HELD).map(|i| (i % 2) as u8).collect();
    let port = Port::new(rows.clone(), HELD);

    let events_alone = per_round(20, |n| {
        for _ in 0..n {
            for event in &events {
                black_box(event.clone());
            }
        }
    });
    let clone = asked(200, HELD, |_| log.clone());
    let changed = |rounds: usize, change: &dyn Fn(&mut EventGraph<u64>)| {
        let each = |_| {
            let mut log = log.clone();
            change(&mut log);
            log
        };
        asked(rounds, HELD, each) - clone
    };
    let copies = port.changes(1000, port_graph_copies);
    println!("one copy of the graph's tables: {copies:.1} ns");
    let changed_at = |call, note: &[usize]| port.changes_at(1000, call, note) - copies;
    let masked = |call, mask: &[u8]| port.masks(1000, call, mask) - copies;
    let appends = |time: f64| time / HELD as f64;
    let copy = copy_of::<768>();
    let faster = |goal, call, ours, rust| Row { call, ours, rust, goal, limit: 0.0 };
    let look_up = |call, ours, rust| Row { call, ours, rust, goal: 1.0, limit: copy };
    let n = 4000;
    vec![
        faster(10.0, "append", appends(port.changes(40, port_graph_append)), appends(asked(10, HELD, |_| build()) - events_alone)),
        faster(3.0, "greatest", port.asks_all(n, port_graph_greatest), asked(n, HELD, |k| log.greatest_critical_frontier(&frontiers[k]))),
        faster(3.0, "is_critical", port.asks_all(n, port_graph_is_critical), asked(n, HELD, |k| log.is_critical(&frontiers[k]))),
        // Against a look at every event.
        faster(
            10.0,
            "seen_all",
            port.asks_at(n, port_graph_seen_all, &whole_row),
            asked(n, HELD, |_| log.iter().all(|op| op.id().is_predecessor_of(&whole))),
        ),
        faster(3.0, "predecessors", port.lists(n, port_graph_predecessors), asked(n, HELD, |k| log.predecessors(&versions[k]))),
        faster(3.0, "concurrent", port.lists(n, port_graph_concurrent), asked(n, HELD, |k| log.concurrent(&versions[k]))),
        faster(3.0, "frontier", port.lists_all(n, port_graph_frontier), asked(n, HELD, |_| log.frontier())),
        faster(1.0, "direct_predecessors", port.lists(n, port_graph_direct_predecessors), asked(n, HELD, |k| log.direct_predecessors(&ids[k]))),
        faster(
            60.0,
            "flush of half",
            changed_at(port_graph_flush, middle),
            changed(50, &|log| log.prune_predecessors(&frontiers[HELD / 2 - 1])),
        ),
        // No slower than the flush alone by more than a quarter.
        faster(
            48.0,
            "advance by half",
            changed_at(port_graph_advance, middle),
            changed(50, &|log| {
                if let Some(found) = log.greatest_critical_frontier(&frontiers[HELD / 2 - 1]) {
                    log.prune_predecessors(&found);
                }
            }),
        ),
        faster(60.0, "remove from the middle", changed_at(port_graph_remove, middle), changed(10, &|log| log.remove(&ids[HELD / 2 - 1]))),
        faster(60.0, "retain every second", masked(port_graph_retain, &mask), changed(10, &|log| log.retain(|op| op.lamport().0 % 2 == 0))),
        look_up("get", port.asks_all(n, port_graph_get), asked(n, HELD, |k| log.get(&ids[k]))),
        look_up("delivery_order", port.asks_all(n, port_graph_delivery_order), asked(n, HELD, |k| log.delivery_order(&ids[k]))),
        look_up("roots", port.alone(20_000, port_graph_roots), asked(20_000, HELD, |_| log.roots())),
    ]
}
