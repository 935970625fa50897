//! Stand-in: lib.rs fixes that a module `bag` exists, and nothing in the nine files uses it.
