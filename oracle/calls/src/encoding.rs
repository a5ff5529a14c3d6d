//! The Rust's encoder beside a lent block.
use crate::drive::{answer, bytes, counts, loaded, number};
use crate::paper;
use crate::script::{Call, ROOM, op};
use rand::Script;
use rlnc::bridge;
use rlnc::full::encoder::Encoder;

pub struct Encoding {
    k: usize,
    len: usize,
    block: Vec<u8>,
    // the one that was made, as long as neither block nor record came from outside since
    made: Option<Encoder>,
}

impl Default for Encoding {
    fn default() -> Self {
        Encoding { k: 0, len: 0, block: vec![0; ROOM], made: None }
    }
}

impl Encoding {
    pub fn forget(&mut self) {
        (self.k, self.len, self.made) = (0, 0, None);
    }

    pub fn call(&mut self, call: Call) -> String {
        let lent = loaded(&call, &mut self.block);
        if !call.load.is_empty() {
            self.made = None;
        }
        let Call { op, n: [p, q, ..], a, mut b, .. } = call;
        let answer = match op {
            op::PADDED => self.padded(&a, lent, p),
            op::UNPADDED => self.unpadded(lent, p),
            op::SET_ENCODER => {
                (self.k, self.len, self.made) = (p, q, None);
                paper::OK
            }
            op::CODE_PAYLOAD => self.payload(lent, &a, &mut b),
            _ => self.whole(lent, &a, &mut b),
        };
        let sound = paper::encoder_sound(self.k, self.len);
        let said = counts(sound, &[self.k, self.len, self.k + self.len]);
        format!(" {answer}{said}{}", bytes([&self.block[..lent], &a, &b]))
    }

    fn keep(&mut self, encoder: Encoder) -> u8 {
        (self.k, self.len) = (encoder.get_piece_count(), encoder.get_piece_byte_len());
        assert_eq!(encoder.get_full_coded_piece_byte_len(), self.k + self.len);
        self.made = Some(encoder);
        paper::OK
    }

    fn padded(&mut self, data: &[u8], lent: usize, k: usize) -> u8 {
        let refusal = paper::padded(data.len(), k, lent);
        if refusal != paper::OK {
            return refusal;
        }
        let encoder = match Encoder::new(data.to_vec(), k) {
            Ok(encoder) => encoder,
            Err(error) => return number(error),
        };
        // its block cannot be read, so each piece is coded with its unit vector
        let len = encoder.get_piece_byte_len();
        for i in 0..k {
            let unit: Vec<u8> = (0..k).map(|j| u8::from(i == j)).collect();
            assert!(bridge::code_with_coding_vector(&encoder, &unit, &mut self.block[i * len..(i + 1) * len]).is_ok());
        }
        self.keep(encoder)
    }

    fn unpadded(&mut self, lent: usize, k: usize) -> u8 {
        let refusal = paper::unpadded(lent, k);
        if refusal != paper::OK {
            return refusal;
        }
        match bridge::without_padding(self.block[..lent].to_vec(), k) {
            Err(error) => number(error),
            Ok(encoder) => self.keep(encoder),
        }
    }

    // The Rust's encoder of the kept block.
    fn encoder(&self) -> Encoder {
        let block = || bridge::without_padding(self.block[..self.k * self.len].to_vec(), self.k).expect("sizes within the limits");
        self.made.clone().unwrap_or_else(block)
    }

    fn payload(&self, lent: usize, vector: &[u8], out: &mut [u8]) -> u8 {
        match paper::payload(self.k, self.len, lent) {
            paper::OK => answer(bridge::code_with_coding_vector(&self.encoder(), vector, out)),
            refusal => refusal,
        }
    }

    fn whole(&self, lent: usize, vector: &[u8], out: &mut [u8]) -> u8 {
        match paper::whole(self.k, self.len, lent, vector.len(), out.len()) {
            paper::OK => answer(self.encoder().code_with_buf(&mut Script::new(vector), out)),
            refusal => refusal,
        }
    }
}
