//! A model of document 01 and requests 2026-01, 2026-02 and 2026-04 to 2026-09, written
//! from the papers alone, save that the bytes of a state lie as docs/LAYOUT.md says.
//! The engine is executed and matched against it.

pub mod answer;
pub mod clock;
pub mod compare;
#[cfg(feature = "engine-state")]
pub mod engine;
pub mod line;
pub mod order;
pub mod placing;
pub mod plain;
pub mod plan;
pub mod random;
pub mod record;
pub mod rule;
pub mod sheet;
pub mod state;
