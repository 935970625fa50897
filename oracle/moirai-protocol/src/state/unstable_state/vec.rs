//! Stand-in: unstable_state/mod.rs fixes that a module `vec` exists, and nothing in the nine files uses it.
