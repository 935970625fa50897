//! What the oracle's programs share: the line reader, the answer writer, random numbers, the documents as plain code, the way to the
//! original's types and back, and how answers are held against each other and counted.

pub mod answer;
pub mod counts;
pub mod lines;
pub mod links;
pub mod model;
pub mod original;
pub mod random;
pub mod reach;
pub mod text;
pub mod verdict;
