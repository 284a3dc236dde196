//! Sets the position book against the unchanged Rust: the same inputs are given to both, and everything that both show is compared.

pub mod alone;
pub mod cases;
pub mod counts;
pub mod damaged;
pub mod faults;
pub mod ours;
pub mod rules;
pub mod seasons;
pub mod shown;
pub mod theirs;
