//! Stand-in: lib.rs fixes that a module `register` exists, and nothing in the nine files uses it.
