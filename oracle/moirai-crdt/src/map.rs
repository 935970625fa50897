//! Stand-in: lib.rs fixes that a module `map` exists, and nothing in the nine files uses it.
