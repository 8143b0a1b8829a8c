#![doc = include_str!("../README.md")]
#![deny(missing_docs)]

mod condition;
mod error;
mod format;
mod id;
mod need;
mod refusal;
mod text;

pub mod answer;
pub mod image;
pub mod raw;
pub mod stack;
pub mod tree;
pub mod view;

pub use error::Error;
pub use image::Image;
pub use refusal::Refusal;
pub use text::same_text;
pub use tree::Tree;
