//! The port's calls and the original's, timed side by side in one run over the same notes.

mod clock;
mod graph;
mod history;
mod notes;
mod port;

fn main() {
    let mut all = true;
    all &= clock::print("EventGraph, 16 desks, 256 held", &graph::measure());
    all &= clock::print("EventHistory, 16 desks, 32 held of each", &history::measure());
    all &= clock::print("EventHistory, one desk with 392 held, 15 with 8", &history::beside_a_busy_desk());
    if !all {
        println!("not every goal is reached");
    }
}
