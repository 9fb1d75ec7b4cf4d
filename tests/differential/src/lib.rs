//! What other packages use too: the model's state as the library's, by which the benchmark compares the two sides,
//! firmware with its inputs, and random numbers.

pub mod convert;
pub mod firmware;
pub mod random;
