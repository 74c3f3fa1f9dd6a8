//! Drives the Rust, compares it with the judges, records the sample.
pub mod books;
pub mod compare;
pub mod edits;
pub mod findings;
pub mod frame;
pub mod notice;
pub mod pulled;
pub mod range;
pub mod ranks;
pub mod rust;
pub mod sample;
pub mod selftest;
pub mod spans;
