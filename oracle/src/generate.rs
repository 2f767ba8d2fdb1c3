//! Deterministic jobs from a seed.
pub mod insertion;
pub mod rng;
pub mod rooms;
pub mod small;
pub mod walk;
pub mod workshop;
