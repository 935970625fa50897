//! Stand-in: the crate root; the paths after `crate::` in the nine files fix its modules, and `std::range` fixes the feature.
#![feature(new_range_api)]

pub mod broadcast;
pub mod clock;
pub mod event;
pub mod replica;
pub mod state;
