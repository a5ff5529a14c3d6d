use crate::{entries, RLNCError};

/// Codes pieces of a block, with the caller's vectors.
#[derive(Clone, Debug)]
pub struct Encoder {
    data: Vec<u8>,
    piece_count: usize,
    piece_byte_len: usize,
}

impl Encoder {
    /// Pads the data to a block of `piece_count` pieces. Refuses with 4, 3, 20.
    pub fn new(data: Vec<u8>, piece_count: usize) -> Result<Encoder, RLNCError> {
        // an empty block has no room for any data, so that NoRoom here says that there is no other refusal
        match pad(&data, &mut [], piece_count) {
            Err(RLNCError::NoRoom) => {}
            Err(refusal) => return Err(refusal),
            Ok(_) => unreachable!("no data fits into no room"),
        }
        let mut block = vec![0; data.len() + piece_count];
        let piece_byte_len = pad(&data, &mut block, piece_count)?;
        block.truncate(piece_count * piece_byte_len);
        Ok(Encoder { data: block, piece_count, piece_byte_len })
    }

    /// The data is the block already. Refuses with 4, 3, 2, 20.
    pub fn without_padding(data: Vec<u8>, piece_count: usize) -> Result<Encoder, RLNCError> {
        let mut piece_byte_len = 0;
        RLNCError::check(unsafe { entries::rlnc_encoder_without_padding(data.as_ptr(), data.len(), piece_count, &mut piece_byte_len) })?;
        Ok(Encoder { data, piece_count, piece_byte_len })
    }

    pub fn get_piece_count(&self) -> usize {
        self.count(entries::rlnc_encoder_get_piece_count)
    }

    pub fn get_piece_byte_len(&self) -> usize {
        self.count(entries::rlnc_encoder_get_piece_byte_len)
    }

    pub fn get_full_coded_piece_byte_len(&self) -> usize {
        self.count(entries::rlnc_encoder_get_full_coded_piece_byte_len)
    }

    fn count(&self, entry: unsafe extern "C" fn(usize, usize, &mut usize) -> u8) -> usize {
        let mut count = 0;
        RLNCError::check(unsafe { entry(self.piece_count, self.piece_byte_len, &mut count) }).expect("the record was made by `new`");
        count
    }

    /// The payload that the vector codes. Refuses with 1, 13.
    pub fn code_with_coding_vector(&self, coding_vector: &[u8], coded_data: &mut [u8]) -> Result<(), RLNCError> {
        RLNCError::check(unsafe {
            entries::rlnc_encoder_code_with_coding_vector(
                self.piece_count,
                self.piece_byte_len,
                self.data.as_ptr(),
                self.data.len(),
                coding_vector.as_ptr(),
                coding_vector.len(),
                coded_data.as_mut_ptr(),
                coded_data.len(),
            )
        })
    }

    /// The whole piece: the vector, then the payload that it codes. Refuses with 13, 1.
    pub fn code_with_buf(&self, coding_vector: &[u8], full_coded_piece: &mut [u8]) -> Result<(), RLNCError> {
        RLNCError::check(unsafe {
            entries::rlnc_encoder_code_with_buf(
                self.piece_count,
                self.piece_byte_len,
                self.data.as_ptr(),
                self.data.len(),
                coding_vector.as_ptr(),
                coding_vector.len(),
                full_coded_piece.as_mut_ptr(),
                full_coded_piece.len(),
            )
        })
    }

    /// The same in a new vector. Refuses with 1.
    pub fn code(&self, coding_vector: &[u8]) -> Result<Vec<u8>, RLNCError> {
        let mut full_coded_piece = vec![0; self.get_full_coded_piece_byte_len()];
        self.code_with_buf(coding_vector, &mut full_coded_piece)?;
        Ok(full_coded_piece)
    }
}

/// Writes the padded block and answers the piece length.
fn pad(data: &[u8], block: &mut [u8], piece_count: usize) -> Result<usize, RLNCError> {
    let mut piece_byte_len = 0;
    RLNCError::check(unsafe {
        entries::rlnc_encoder_new(data.as_ptr(), data.len(), block.as_mut_ptr(), block.len(), piece_count, &mut piece_byte_len)
    })?;
    Ok(piece_byte_len)
}
