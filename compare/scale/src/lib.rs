//! The published `Exchange`, the proved library and the model of document 01 on the same random lists of calls.

pub mod coverage;
pub mod library;
pub mod list;
pub mod near;
pub mod play;
pub mod shrink;
pub mod sides;
pub mod source;
pub mod spread;

pub use play::{Step, replay};
