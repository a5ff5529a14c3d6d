//! Not the Rust's text: its module tree, the re-export that its files name, and public doors to two of its functions.
pub mod common;
pub mod full;

pub use crate::common::errors::RLNCError;

/// The two functions are `pub(crate)`; these pass their arguments on.
pub mod bridge {
    use crate::RLNCError;
    use crate::full::encoder::Encoder;

    pub fn without_padding(data: Vec<u8>, piece_count: usize) -> Result<Encoder, RLNCError> {
        Encoder::without_padding(data, piece_count)
    }

    pub fn code_with_coding_vector(encoder: &Encoder, coding_vector: &[u8], coded_data: &mut [u8]) -> Result<(), RLNCError> {
        encoder.code_with_coding_vector(coding_vector, coded_data)
    }
}
