//! Stand-in: lib.rs fixes that a module `counter` exists, and nothing in the nine files uses it.
