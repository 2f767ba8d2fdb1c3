//! The Rust that is ported, runnable: as published and as the scope
//! document fixes its square root, hypot, min, max and powi.
pub mod compare;
pub mod dump;
pub mod exact;
pub mod form;
pub mod generate;
pub mod job;
pub mod reading;
pub mod rooms;
pub mod slip;
pub mod upstream;
pub mod vector;
pub mod vectors;

/// Stands in for the module of the same name that upstream/exact.rs imports.
pub mod stock {
    pub trait CancelSignal {
        fn is_cancelled(&self) -> bool;
    }
}

/// Stands in for the module of the same name that upstream/exact.rs imports.
pub mod resources {
    pub fn check_memory(_bytes: u128, _what: &str) -> Result<(), String> {
        Ok(())
    }
}
