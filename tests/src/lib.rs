//! The independent walker for plans of two memories, the generator of plan
//! files, and the wrappers over the proved library.
//!
//! The walker is written from documents 01 and 02 alone and shares nothing with
//! the library it is matched against.

pub mod archive;
pub mod examples;
pub mod generate;
pub mod plain_sums;
pub mod programs;
pub mod walker;
pub mod words;
