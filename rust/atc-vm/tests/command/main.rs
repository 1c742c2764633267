//! The command `atc`, run as its users run it.

mod beliefs;
mod files;
mod folder;
mod gas;
mod json;
mod refusals;
mod tracing;
mod usage;
