//! The original, compiled from its own place (build.rs), with document 01's numbers for what it says and its operations as kinds.
include!(concat!(env!("OUT_DIR"), "/original.rs"));
pub mod domain;
pub mod kinds;
pub mod numbers;
pub mod tree;
