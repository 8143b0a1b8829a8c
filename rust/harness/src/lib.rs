//! The original Rust of lang_ast beside the port: images, generators, comparison and benchmark.

pub mod answers;
pub mod arrows;
pub mod builtin_set;
pub mod commands;
pub mod examples;
pub mod generate;
pub mod image;
pub mod large_stack;
pub mod layout;
pub mod lent;
pub mod nix_text;
pub mod notation;
pub mod number_literals;
#[cfg(original)]
pub mod original;
pub mod own_builtins;
pub mod port;
pub mod random;
pub mod recorded;
pub mod records;
pub mod second_reading;
pub mod selections;
pub mod starred;
pub mod survey_cases;
pub mod survey_text;
pub mod tables;
#[cfg(timing)]
pub mod timing;

// The originals name each other by `crate::`, so these paths must lead to the assembled copy.
#[cfg(original)]
use original::lang_ast::*;
