//! Stand-in: lib.rs fixes that a module `model` exists, and nothing in the nine files uses it.
