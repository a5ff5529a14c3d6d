//! Not the Rust's text: its module tree.
pub mod consts;
pub mod decoder;
pub mod decoder_matrix;
pub mod encoder;
pub mod recoder;
