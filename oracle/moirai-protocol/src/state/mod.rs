//! Stand-in: the path `crate::state::unstable_state` fixes this one module.

pub mod unstable_state;
