//! What the two drivers share: chance from a seed, frames, and the house program at the other end of a pipe.

pub mod chance;
pub mod exact_sum;
pub mod frames;
pub mod house;
pub mod names;
pub mod profiles;
