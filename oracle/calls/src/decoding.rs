//! The Rust's decoder beside a lent matrix. One that is new is driven itself; for a record or a matrix from outside its DecoderMatrix is,
//! since the Rust's decoder cannot be loaded.
use crate::drive::{answer, bytes, counts, hold, loaded, matrix_of, number};
use crate::paper;
use crate::script::{Call, MATRIX_ROOM, op};
use crate::stored;
use rlnc::RLNCError;
use rlnc::full::decoder::Decoder;

pub struct Decoding {
    k: usize,
    len: usize,
    rows: usize,
    taken: usize,
    elements: Vec<u8>,
    // the one that was made, as long as neither matrix nor record came from outside since
    made: Option<Decoder>,
}

impl Default for Decoding {
    fn default() -> Self {
        Decoding { k: 0, len: 0, rows: 0, taken: 0, elements: vec![0; MATRIX_ROOM], made: None }
    }
}

impl Decoding {
    pub fn forget(&mut self) {
        (self.k, self.len, self.rows, self.taken, self.made) = (0, 0, 0, 0, None);
    }

    pub fn call(&mut self, call: Call) -> String {
        let lent = loaded(&call, &mut self.elements);
        if !call.load.is_empty() {
            self.made = None;
        }
        let Call { op, n: [p, q, r, s, _], a, mut b, .. } = call;
        let answer = match op {
            op::NEW_DECODER => self.new_one(lent, p, q).to_string(),
            op::SET_DECODER => {
                (self.k, self.len, self.rows, self.taken, self.made) = (p, q, r, s, None);
                paper::OK.to_string()
            }
            op::DECODE => self.decode(lent, &a).to_string(),
            op::RECOVER => self.recover(lent, &mut b),
            op::SAVE => self.save(lent, &mut b),
            _ => self.load(lent, &a).to_string(),
        };
        let sound = paper::decoder_sound(self.k, self.len, self.rows, self.taken);
        let left = self.k.saturating_sub(self.rows);
        let said = counts(sound, &[self.k, self.len, self.k + self.len, self.taken, self.rows, left]);
        let complete = if sound { format!(" {}", u8::from(self.rows == self.k)) } else { format!(" 2 {}", paper::BAD_STATE) };
        format!(" {answer}{said}{complete}{}", bytes([&self.elements[..lent], &a, &b]))
    }

    fn new_one(&mut self, lent: usize, len: usize, k: usize) -> u8 {
        let refusal = paper::new_decoder(len, k, lent);
        if refusal != paper::OK {
            return refusal;
        }
        match Decoder::new(len, k) {
            Err(error) => number(error),
            Ok(decoder) => {
                self.made = Some(decoder);
                (self.k, self.len) = (k, len);
                self.keep();
                paper::OK
            }
        }
    }

    // The counts and the held rows of the Rust's decoder. Its matrix is private, and its Debug prints it.
    fn keep(&mut self) {
        let decoder = self.made.as_ref().expect("a decoder that was made");
        let shown = format!("{decoder:?}");
        let listed = shown.split("elements: [").nth(1).and_then(|rest| rest.split(']').next()).expect("a list of bytes");
        let held: Vec<u8> = listed.split(", ").filter(|byte| !byte.is_empty()).map(|byte| byte.parse().expect("a byte")).collect();
        (self.rows, self.taken) = (decoder.get_useful_piece_count(), decoder.get_received_piece_count());
        let full = decoder.get_full_coded_piece_byte_len();
        assert_eq!((decoder.get_num_pieces_coded_together(), decoder.get_piece_byte_len(), full), (self.k, self.len, self.k + self.len));
        assert_eq!((decoder.get_remaining_piece_count(), decoder.is_already_decoded()), (self.k - self.rows, self.rows == self.k));
        assert_eq!(held.len(), self.rows * full);
        hold(&mut self.elements[..self.k * full], &held);
    }

    fn bad(&self, lent: usize) -> bool {
        paper::bad_decoder(self.k, self.len, self.rows, self.taken, lent)
    }

    fn decode(&mut self, lent: usize, piece: &[u8]) -> u8 {
        if self.bad(lent) {
            return paper::BAD_STATE;
        }
        let refusal = paper::take(self.k, self.len, self.rows, self.taken, piece.len());
        if refusal != paper::OK {
            return refusal;
        }
        let Some(decoder) = &mut self.made else { return self.decode_loaded(piece) };
        let said = answer(decoder.decode(piece));
        self.keep();
        said
    }

    // As the Rust's decoder does it, with the Rust's own matrix.
    fn decode_loaded(&mut self, piece: &[u8]) -> u8 {
        let full = self.k + self.len;
        let mut matrix = matrix_of(&self.elements, self.k, self.rows, full);
        if matrix.rank() == self.k {
            return number(RLNCError::ReceivedAllPieces);
        }
        let rows = match matrix.add_row(piece) {
            Ok(matrix) => matrix.rref().rank(),
            Err(error) => return number(error),
        };
        hold(&mut self.elements[..self.k * full], &matrix.extract_data());
        let useful = rows != self.rows;
        (self.rows, self.taken) = (rows, self.taken + 1);
        if useful { paper::OK } else { number(RLNCError::PieceNotUseful) }
    }

    // The Rust hands out the data in a vector of its own; here it comes to the front of the lent buffer.
    fn recover(&self, lent: usize, out: &mut [u8]) -> String {
        if self.bad(lent) {
            return paper::BAD_STATE.to_string();
        }
        let refusal = paper::recover(self.k, self.len, self.rows, out.len());
        if refusal != paper::OK {
            return refusal.to_string();
        }
        match self.made.clone().unwrap_or_else(|| self.with_these_payloads()).get_decoded_data() {
            Err(error) => number(error).to_string(),
            Ok(data) => {
                out[..data.len()].copy_from_slice(&data);
                format!("0 {}", data.len())
            }
        }
    }

    // A decoder of the Rust that holds the payloads of these rows: it takes each with a unit vector.
    fn with_these_payloads(&self) -> Decoder {
        let full = self.k + self.len;
        let mut decoder = Decoder::new(self.len, self.k).expect("sizes within the limits");
        for i in 0..self.rows {
            let mut piece: Vec<u8> = (0..self.k).map(|j| u8::from(i == j)).collect();
            piece.extend_from_slice(&self.elements[i * full + self.k..(i + 1) * full]);
            assert!(decoder.decode(&piece).is_ok());
        }
        decoder
    }

    fn save(&self, lent: usize, out: &mut [u8]) -> String {
        if self.bad(lent) {
            return paper::BAD_STATE.to_string();
        }
        let held = &self.elements[..self.rows * (self.k + self.len)];
        match stored::form((self.k, self.len), self.rows, self.taken, held, out.len()) {
            Err(answer) => answer.to_string(),
            Ok(form) => {
                out[..form.len()].copy_from_slice(&form);
                format!("0 {}", form.len())
            }
        }
    }

    fn load(&mut self, lent: usize, form: &[u8]) -> u8 {
        match stored::read(form, lent) {
            Err(answer) => answer,
            Ok(((k, len), rows, taken, matrix)) => {
                self.elements[..matrix.len()].copy_from_slice(matrix);
                (self.k, self.len, self.rows, self.taken, self.made) = (k, len, rows, taken, None);
                paper::OK
            }
        }
    }
}
