//! Stand-in: lib.rs fixes that a module `flag` exists, and nothing in the nine files uses it.
