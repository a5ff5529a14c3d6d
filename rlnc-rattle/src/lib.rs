//! Network coding with the decoder that is proved to be right: safe types over the static library `rlnc`, under the names of the Rust crate
//! of that name. A client changes its import, and passes its vectors where it passed a generator of random numbers.
//!
//! ```
//! use rlnc_rattle::full::{decoder::Decoder, encoder::Encoder};
//!
//! let encoder = Encoder::new(b"abcd".to_vec(), 3)?;
//! let mut decoder = Decoder::new(encoder.get_piece_byte_len(), encoder.get_piece_count())?;
//! for vector in [[1, 0, 0], [1, 1, 0], [1, 2, 3]] {
//!     decoder.decode(&encoder.code(&vector)?)?;
//! }
//! assert_eq!(decoder.get_decoded_data()?, b"abcd");
//! # Ok::<(), rlnc_rattle::RLNCError>(())
//! ```
//!
//! Data that come back are those of the one block that the pieces determine, if the pieces are truthful. Nothing here tells whether they are:
//! check rebuilt data by a checksum of their own.
mod decoder;
mod encoder;
mod entries;
mod error;
pub mod gf256;
mod recoder;
pub mod rows;
pub mod stream;

pub use error::RLNCError;

/// The module tree of the Rust crate.
pub mod full {
    pub mod encoder {
        pub use crate::encoder::Encoder;
    }
    pub mod recoder {
        pub use crate::recoder::Recoder;
    }
    pub mod decoder {
        pub use crate::decoder::Decoder;
    }
}

/// The byte behind the data in a padded block.
pub const BOUNDARY_MARKER: u8 = 0x81;
