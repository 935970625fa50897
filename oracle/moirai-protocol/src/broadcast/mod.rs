//! Stand-in: the path `crate::broadcast::internalizer` fixes this one module.

pub mod internalizer;
