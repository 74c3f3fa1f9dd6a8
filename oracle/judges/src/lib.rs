//! What the Rust is judged by, and what it is judged on: call scripts, the two judges, and the scripts that are made
//! for them. This crate depends on nothing, so neither judge can lean on the Rust or on a stand-in.
pub mod books;
pub mod cuts;
pub mod drive;
pub mod exhaustive;
pub mod generate;
pub mod generate_books;
pub mod generate_cuts;
pub mod generate_pairs;
mod generate_ranks;
pub mod generate_readers;
pub mod generate_spans;
pub mod generate_takings;
pub mod pairs;
pub mod plans;
pub mod readers;
pub mod rules;
pub mod script;
pub mod spans;
pub mod takings;
pub mod whole_table;
pub mod words;
