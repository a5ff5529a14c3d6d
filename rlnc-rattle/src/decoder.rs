use crate::{entries, RLNCError};

/// Takes pieces, says when it is complete, and recovers the data.
#[derive(Clone, Debug)]
pub struct Decoder {
    elements: Vec<u8>,
    piece_byte_len: usize,
    required_piece_count: usize,
    useful_piece_count: usize,
    received_piece_count: usize,
}

type CountEntry = unsafe extern "C" fn(usize, usize, usize, usize, &mut usize) -> u8;

impl Decoder {
    /// A decoder that has taken no piece. Refuses with 5, 3, 20.
    pub fn new(piece_byte_len: usize, required_piece_count: usize) -> Result<Decoder, RLNCError> {
        let mut decoder = Decoder { elements: Vec::new(), piece_byte_len, required_piece_count, useful_piece_count: 0, received_piece_count: 0 };
        // an empty matrix has no room, so that NoRoom here says that there is no other refusal
        match decoder.start() {
            Err(RLNCError::NoRoom) => {}
            Err(refusal) => return Err(refusal),
            Ok(()) => unreachable!("no matrix fits into no room"),
        }
        decoder.elements = vec![0; required_piece_count * (required_piece_count + piece_byte_len)];
        decoder.start()?;
        Ok(decoder)
    }

    fn start(&mut self) -> Result<(), RLNCError> {
        RLNCError::check(unsafe {
            entries::rlnc_decoder_new(
                self.piece_byte_len,
                self.required_piece_count,
                self.elements.as_mut_ptr(),
                self.elements.len(),
                &mut self.useful_piece_count,
                &mut self.received_piece_count,
            )
        })
    }

    /// The decoder of a stored form. Refuses with 25, 24, 25, 22.
    pub fn load(form: &[u8]) -> Result<Decoder, RLNCError> {
        // a form holds the whole matrix, so that its length is room enough
        let mut d =
            Decoder { elements: vec![0; form.len()], piece_byte_len: 0, required_piece_count: 0, useful_piece_count: 0, received_piece_count: 0 };
        RLNCError::check(unsafe {
            entries::rlnc_stored_load(
                form.as_ptr(),
                form.len(),
                d.elements.as_mut_ptr(),
                d.elements.len(),
                &mut d.piece_byte_len,
                &mut d.required_piece_count,
                &mut d.useful_piece_count,
                &mut d.received_piece_count,
            )
        })?;
        d.elements.truncate(d.required_piece_count * (d.required_piece_count + d.piece_byte_len));
        Ok(d)
    }

    /// The stored form. Refuses with 24 for sizes that have none.
    pub fn save(&self) -> Result<Vec<u8>, RLNCError> {
        let mut form = vec![0; 4 + self.elements.len()];
        let mut form_len = 0;
        RLNCError::check(unsafe {
            entries::rlnc_stored_save(
                self.piece_byte_len,
                self.required_piece_count,
                self.useful_piece_count,
                self.received_piece_count,
                self.elements.as_ptr(),
                self.elements.len(),
                form.as_mut_ptr(),
                form.len(),
                &mut form_len,
            )
        })?;
        form.truncate(form_len);
        Ok(form)
    }

    pub fn get_num_pieces_coded_together(&self) -> usize {
        self.count(entries::rlnc_decoder_get_num_pieces_coded_together)
    }

    pub fn get_piece_byte_len(&self) -> usize {
        self.count(entries::rlnc_decoder_get_piece_byte_len)
    }

    pub fn get_full_coded_piece_byte_len(&self) -> usize {
        self.count(entries::rlnc_decoder_get_full_coded_piece_byte_len)
    }

    /// How many pieces were taken.
    pub fn get_received_piece_count(&self) -> usize {
        self.count(entries::rlnc_decoder_get_received_piece_count)
    }

    /// How many rows are held. It can fall when a piece is taken, and that is no fault.
    pub fn get_useful_piece_count(&self) -> usize {
        self.count(entries::rlnc_decoder_get_useful_piece_count)
    }

    /// How many rows are missing. It can rise.
    pub fn get_remaining_piece_count(&self) -> usize {
        self.count(entries::rlnc_decoder_get_remaining_piece_count)
    }

    fn count(&self, entry: CountEntry) -> usize {
        let mut count = 0;
        let number = unsafe { entry(self.piece_byte_len, self.required_piece_count, self.useful_piece_count, self.received_piece_count, &mut count) };
        RLNCError::check(number).expect("the record was made by `new` or `load`");
        count
    }

    /// Takes a piece. `Ok` and [`RLNCError::PieceNotUseful`] both say that it was taken. Refuses with 9, 12, 23.
    pub fn decode(&mut self, full_coded_piece: &[u8]) -> Result<(), RLNCError> {
        RLNCError::check(unsafe {
            entries::rlnc_decoder_decode(
                self.piece_byte_len,
                self.required_piece_count,
                self.elements.as_mut_ptr(),
                self.elements.len(),
                full_coded_piece.as_ptr(),
                full_coded_piece.len(),
                &mut self.useful_piece_count,
                &mut self.received_piece_count,
            )
        })
    }

    /// For a new decoder and truthful pieces: whether no other block agrees with all pieces taken.
    pub fn is_already_decoded(&self) -> bool {
        let mut complete = false;
        let number = unsafe {
            entries::rlnc_decoder_is_already_decoded(
                self.piece_byte_len,
                self.required_piece_count,
                self.useful_piece_count,
                self.received_piece_count,
                &mut complete,
            )
        };
        RLNCError::check(number).expect("the record was made by `new` or `load`");
        complete
    }

    /// The data of the one block that the pieces determine, if they are truthful. It does not say that they are: a damaged piece can give other
    /// data without a refusal, so check them by a checksum of their own. Refuses with 10, 11. The decoder stays as it is.
    pub fn get_decoded_data(&self) -> Result<Vec<u8>, RLNCError> {
        let mut data = vec![0; self.required_piece_count * self.piece_byte_len];
        let mut data_len = 0;
        RLNCError::check(unsafe {
            entries::rlnc_decoder_get_decoded_data(
                self.piece_byte_len,
                self.required_piece_count,
                self.useful_piece_count,
                self.received_piece_count,
                self.elements.as_ptr(),
                self.elements.len(),
                data.as_mut_ptr(),
                data.len(),
                &mut data_len,
            )
        })?;
        data.truncate(data_len);
        Ok(data)
    }
}
