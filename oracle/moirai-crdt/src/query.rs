//! Stand-in: lib.rs fixes that a module `query` exists, and nothing in the nine files uses it.
