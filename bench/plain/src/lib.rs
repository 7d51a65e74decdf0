//! What `smithy_replay replay` does, as plain Rust: the program that the proved one is measured
//! against.
#![forbid(unsafe_code)]

pub mod answer;
pub mod apply;
pub mod ending;
pub mod engine;
pub mod fault;
pub mod http;
pub mod kind;
pub mod limits;
pub mod manner;
pub mod names;
pub mod note;
pub mod print;
pub mod question;
pub mod reading;
pub mod script;
pub mod setting;
pub mod standing;
pub mod text;
pub mod world;
