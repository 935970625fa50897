//! Stand-in: the paths `crate::clock::causal_frontier` and `crate::clock::version_vector` fix these two modules.

pub mod causal_frontier;
pub mod version_vector;
