use crate::{entries, RLNCError};

/// Makes pieces of pieces, coefficients included, with the caller's vectors.
#[derive(Clone, Debug)]
pub struct Recoder {
    pieces: Vec<u8>,
    num_pieces_received: usize,
    full_coded_piece_byte_len: usize,
    num_pieces_coded_together: usize,
}

type CountEntry = unsafe extern "C" fn(usize, usize, usize, &mut usize) -> u8;

impl Recoder {
    /// For the whole pieces in the data; bytes after the last whole one are ignored. Refuses with 6, 5, 3, 7, 6, 20.
    pub fn new(data: Vec<u8>, full_coded_piece_byte_len: usize, num_pieces_coded_together: usize) -> Result<Recoder, RLNCError> {
        let mut num_pieces_received = 0;
        RLNCError::check(unsafe {
            entries::rlnc_recoder_new(data.as_ptr(), data.len(), full_coded_piece_byte_len, num_pieces_coded_together, &mut num_pieces_received)
        })?;
        Ok(Recoder { pieces: data, num_pieces_received, full_coded_piece_byte_len, num_pieces_coded_together })
    }

    pub fn get_original_num_pieces_coded_together(&self) -> usize {
        self.count(entries::rlnc_recoder_get_original_num_pieces_coded_together)
    }

    pub fn get_num_pieces_recoded_together(&self) -> usize {
        self.count(entries::rlnc_recoder_get_num_pieces_recoded_together)
    }

    pub fn get_piece_byte_len(&self) -> usize {
        self.count(entries::rlnc_recoder_get_piece_byte_len)
    }

    pub fn get_full_coded_piece_byte_len(&self) -> usize {
        self.count(entries::rlnc_recoder_get_full_coded_piece_byte_len)
    }

    fn count(&self, entry: CountEntry) -> usize {
        let mut count = 0;
        let number = unsafe { entry(self.num_pieces_received, self.full_coded_piece_byte_len, self.num_pieces_coded_together, &mut count) };
        RLNCError::check(number).expect("the record was made by `new`");
        count
    }

    /// The pieces, each times its number, added up. Refuses with 13, 1.
    pub fn recode_with_buf(&self, recoding_vector: &[u8], full_recoded_piece: &mut [u8]) -> Result<(), RLNCError> {
        RLNCError::check(unsafe {
            entries::rlnc_recoder_recode_with_buf(
                self.num_pieces_received,
                self.full_coded_piece_byte_len,
                self.num_pieces_coded_together,
                self.pieces.as_ptr(),
                self.pieces.len(),
                recoding_vector.as_ptr(),
                recoding_vector.len(),
                full_recoded_piece.as_mut_ptr(),
                full_recoded_piece.len(),
            )
        })
    }

    /// The same in a new vector. Refuses with 1.
    pub fn recode(&self, recoding_vector: &[u8]) -> Result<Vec<u8>, RLNCError> {
        let mut full_recoded_piece = vec![0; self.get_full_coded_piece_byte_len()];
        self.recode_with_buf(recoding_vector, &mut full_recoded_piece)?;
        Ok(full_recoded_piece)
    }
}
