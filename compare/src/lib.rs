//! The rules in ordinary Rust, to be compared with the proved program.

mod encoder;
pub mod generate;
pub mod lines;
pub mod meant;
pub mod options;
pub mod reader;
pub mod refusal;
pub mod resolver;
pub mod uri_text;
pub mod views;
pub mod writer;
