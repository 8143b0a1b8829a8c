//! The original, assembled by the build script from its sources, and what runs it on images.

pub mod adapter;
pub mod module;
pub mod numbers;
pub mod passes;
pub mod stand_ins;

/// The assembled copy. What only its other callers use stays in it.
#[allow(dead_code, unused_imports, clippy::all)]
pub mod lang_ast {
    include!(concat!(env!("OUT_DIR"), "/lib.rs"));
}
