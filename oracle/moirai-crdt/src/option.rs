//! Stand-in: lib.rs fixes that a module `option` exists, and nothing in the nine files uses it.
