//! The entries of the crate `rlnc`, declared where the crate for clients declares them. A slice is handed over as two parameters, its address
//! and its length, and a record as its numbers. (A slice as one parameter of an `extern "C"` function is not the same: where one register is
//! left, Rust puts both words on the stack.)
#[allow(dead_code)]
#[path = "../../../rlnc-rattle/src/entries.rs"]
mod entries;

use entries::*;

// Safe: each entry is proved for slices of any length, and for any numbers.
pub fn inplace_mul_vec_by_scalar(vec: &mut [u8], scalar: u8) {
    unsafe { rlnc_inplace_mul_vec_by_scalar(vec.as_mut_ptr(), vec.len(), scalar) }
}

pub fn inplace_add_vectors(dst: &mut [u8], src: &[u8]) -> u8 {
    unsafe { rlnc_inplace_add_vectors(dst.as_mut_ptr(), dst.len(), src.as_ptr(), src.len()) }
}

pub fn mul_vec_by_scalar_then_add_into_vec(dst: &mut [u8], src: &[u8], scalar: u8) -> u8 {
    unsafe { rlnc_mul_vec_by_scalar_then_add_into_vec(dst.as_mut_ptr(), dst.len(), src.as_ptr(), src.len(), scalar) }
}

pub fn mul_part_by_scalar_then_add_into_part(buffer: &mut [u8], from: usize, to: usize, len: usize, scalar: u8) -> u8 {
    unsafe { rlnc_mul_part_by_scalar_then_add_into_part(buffer.as_mut_ptr(), buffer.len(), from, to, len, scalar) }
}

pub struct Encoder {
    pub piece_count: usize,
    pub piece_byte_len: usize,
}

impl Encoder {
    pub fn new(data: &[u8], block: &mut [u8], piece_count: usize) -> Result<Encoder, u8> {
        let mut piece_byte_len = 0;
        match unsafe { rlnc_encoder_new(data.as_ptr(), data.len(), block.as_mut_ptr(), block.len(), piece_count, &mut piece_byte_len) } {
            0 => Ok(Encoder { piece_count, piece_byte_len }),
            refusal => Err(refusal),
        }
    }

    pub fn code_with_buf(&self, block: &[u8], coding_vector: &[u8], full_coded_piece: &mut [u8]) -> u8 {
        unsafe {
            rlnc_encoder_code_with_buf(
                self.piece_count,
                self.piece_byte_len,
                block.as_ptr(),
                block.len(),
                coding_vector.as_ptr(),
                coding_vector.len(),
                full_coded_piece.as_mut_ptr(),
                full_coded_piece.len(),
            )
        }
    }
}

pub struct Recoder {
    pub num_pieces_received: usize,
    pub full_coded_piece_byte_len: usize,
    pub num_pieces_coded_together: usize,
}

impl Recoder {
    pub fn recode_with_buf(&self, pieces: &[u8], recoding_vector: &[u8], full_recoded_piece: &mut [u8]) -> u8 {
        unsafe {
            rlnc_recoder_recode_with_buf(
                self.num_pieces_received,
                self.full_coded_piece_byte_len,
                self.num_pieces_coded_together,
                pieces.as_ptr(),
                pieces.len(),
                recoding_vector.as_ptr(),
                recoding_vector.len(),
                full_recoded_piece.as_mut_ptr(),
                full_recoded_piece.len(),
            )
        }
    }
}

pub struct Decoder {
    pub piece_byte_len: usize,
    pub required_piece_count: usize,
    pub useful_piece_count: usize,
    pub received_piece_count: usize,
}

impl Decoder {
    pub fn new(piece_byte_len: usize, required_piece_count: usize, elements: &mut [u8]) -> Result<Decoder, u8> {
        let (mut useful_piece_count, mut received_piece_count) = (0, 0);
        match unsafe {
            rlnc_decoder_new(
                piece_byte_len,
                required_piece_count,
                elements.as_mut_ptr(),
                elements.len(),
                &mut useful_piece_count,
                &mut received_piece_count,
            )
        } {
            0 => Ok(Decoder { piece_byte_len, required_piece_count, useful_piece_count, received_piece_count }),
            refusal => Err(refusal),
        }
    }

    pub fn decode(&mut self, elements: &mut [u8], full_coded_piece: &[u8]) -> u8 {
        unsafe {
            rlnc_decoder_decode(
                self.piece_byte_len,
                self.required_piece_count,
                elements.as_mut_ptr(),
                elements.len(),
                full_coded_piece.as_ptr(),
                full_coded_piece.len(),
                &mut self.useful_piece_count,
                &mut self.received_piece_count,
            )
        }
    }

    pub fn get_decoded_data(&self, elements: &[u8], data: &mut [u8]) -> Result<usize, u8> {
        let mut n = 0;
        match unsafe {
            rlnc_decoder_get_decoded_data(
                self.piece_byte_len,
                self.required_piece_count,
                self.useful_piece_count,
                self.received_piece_count,
                elements.as_ptr(),
                elements.len(),
                data.as_mut_ptr(),
                data.len(),
                &mut n,
            )
        } {
            0 => Ok(n),
            refusal => Err(refusal),
        }
    }
}

// The kind of the record at the front, where pieces of the kind so_far came before it, or none where that is 0.
pub fn stream_read(so_far: u8, bytes: &[u8]) -> Result<u8, u8> {
    let mut kind = 0;
    match unsafe { rlnc_stream_read(so_far, bytes.as_ptr(), bytes.len(), &mut kind) } {
        0 => Ok(kind),
        refusal => Err(refusal),
    }
}
