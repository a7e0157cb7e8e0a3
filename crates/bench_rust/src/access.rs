//! The core's interface, and the stand-in for the core, as the Rust crate has them.
#[path = "../../../bindings/rust/src/access/core.rs"]
pub mod core;
#[path = "../../../bindings/rust/src/access/exports.rs"]
mod exports;
#[allow(dead_code, unused_imports)]
#[path = "../../../bindings/rust/src/access/stand_in/mod.rs"]
pub mod plain;
#[path = "../../../bindings/rust/src/access/sync.rs"]
mod sync;
