//! Stand-in: lib.rs fixes that a module `list` exists, and nothing in the nine files uses it.
