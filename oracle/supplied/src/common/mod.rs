//! Not the Rust's text: its module tree.
pub mod errors;
pub mod gf256;
pub mod simd;
pub mod simd_mul_table;
