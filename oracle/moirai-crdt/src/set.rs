//! Stand-in: lib.rs fixes that a module `set` exists, and nothing in the nine files uses it.
