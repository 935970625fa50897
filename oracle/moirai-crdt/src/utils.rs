//! Stand-in: lib.rs fixes that a module `utils` exists, and nothing in the nine files uses it.
