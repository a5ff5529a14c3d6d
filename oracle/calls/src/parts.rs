//! What cases are made of: drawn bytes, and each kind of call with its slices.
use crate::script::{Call, op};
use rlnc::common::gf256::Gf256;
use std::cell::Cell;

/// xorshift64*: the same numbers for the same seed.
pub struct Drawn(Cell<u64>);

impl Drawn {
    pub fn new(seed: u64) -> Drawn {
        let drawn = Drawn(Cell::new(seed.wrapping_mul(0x9e3779b97f4a7c15) ^ 0xd1342543de82ef95 | 1));
        drawn.bytes(8);
        drawn
    }

    fn next(&self) -> u64 {
        let mut x = self.0.get();
        x ^= x << 13;
        x ^= x >> 7;
        x ^= x << 17;
        self.0.set(x);
        x.wrapping_mul(0x2545f4914f6cdd1d) >> 32
    }

    pub fn below(&self, n: usize) -> usize {
        self.next() as usize % n
    }

    pub fn within(&self, low: usize, high: usize) -> usize {
        low + self.below(high - low + 1)
    }

    pub fn one_in(&self, n: usize) -> bool {
        self.below(n) == 0
    }

    pub fn of<T: Copy>(&self, from: &[T]) -> T {
        from[self.below(from.len())]
    }

    pub fn byte(&self) -> u8 {
        self.next() as u8
    }

    pub fn bytes(&self, len: usize) -> Vec<u8> {
        (0..len).map(|_| self.byte()).collect()
    }

    /// n, or one or a few off it.
    pub fn around(&self, n: usize) -> usize {
        (n + self.of(&[0, 0, 0, 1, 7, 2])).saturating_sub(self.of(&[0, 0, 0, 0, 1, 2]))
    }
}

pub type Case = Vec<Call>;

pub fn begin() -> Case {
    vec![Call { op: op::BEGIN, ..Call::default() }]
}

/// A case of one call.
pub fn alone(call: Call) -> Case {
    let mut case = begin();
    case.push(call);
    case
}

pub fn plain(op: u8, n: [usize; 5], a: &[u8], b: &[u8]) -> Call {
    Call { op, n, a: a.to_vec(), b: b.to_vec(), ..Call::default() }
}

/// A kept buffer of these bytes, all of it lent.
fn on(op: u8, n: [usize; 5], kept: &[u8], a: &[u8]) -> Call {
    Call { op, n, lent: kept.len(), load: kept[..kept.len().min(65535)].to_vec(), a: a.to_vec(), b: Vec::new() }
}

/// So much lent of the kept buffer as it is.
fn with(op: u8, lent: usize, a: &[u8], b: &[u8]) -> Call {
    Call { op, lent, a: a.to_vec(), b: b.to_vec(), ..Call::default() }
}

pub fn padded(data: &[u8], k: usize, block: &[u8]) -> Call {
    on(op::PADDED, [k, 0, 0, 0, 0], block, data)
}

pub fn unpadded(block: &[u8], k: usize) -> Call {
    on(op::UNPADDED, [k, 0, 0, 0, 0], block, &[])
}

pub fn set_encoder(k: usize, len: usize) -> Call {
    on(op::SET_ENCODER, [k, len, 0, 0, 0], &[], &[])
}

pub fn payload(lent: usize, vector: &[u8], out: &[u8]) -> Call {
    with(op::CODE_PAYLOAD, lent, vector, out)
}

pub fn whole(lent: usize, vector: &[u8], out: &[u8]) -> Call {
    with(op::CODE_WHOLE, lent, vector, out)
}

pub fn new_recoder(pieces: &[u8], full: usize, k: usize) -> Call {
    on(op::NEW_RECODER, [full, k, 0, 0, 0], pieces, &[])
}

pub fn set_recoder(m: usize, full: usize, k: usize) -> Call {
    on(op::SET_RECODER, [m, full, k, 0, 0], &[], &[])
}

pub fn recode(lent: usize, vector: &[u8], out: &[u8]) -> Call {
    with(op::RECODE, lent, vector, out)
}

pub fn new_decoder(len: usize, k: usize, elements: &[u8]) -> Call {
    on(op::NEW_DECODER, [len, k, 0, 0, 0], elements, &[])
}

/// A record k, L, rows, taken beside a matrix.
pub fn set_decoder(record: [usize; 4], elements: &[u8]) -> Call {
    let [k, len, rows, taken] = record;
    on(op::SET_DECODER, [k, len, rows, taken, 0], elements, &[])
}

pub fn decode(lent: usize, piece: &[u8]) -> Call {
    with(op::DECODE, lent, piece, &[])
}

pub fn recover(lent: usize, out: &[u8]) -> Call {
    with(op::RECOVER, lent, &[], out)
}

pub fn save(lent: usize, out: &[u8]) -> Call {
    with(op::SAVE, lent, &[], out)
}

/// A form, and the matrix that it is loaded into.
pub fn load(form: &[u8], elements: &[u8]) -> Call {
    on(op::LOAD, [0; 5], elements, form)
}

pub fn unit(k: usize, i: usize) -> Vec<u8> {
    (0..k).map(|j| u8::from(i == j)).collect()
}

/// The sum of each row times its number.
pub fn combined(numbers: &[u8], rows: &[u8], len: usize) -> Vec<u8> {
    let mut sum = vec![0; len];
    for (number, row) in numbers.iter().zip(rows.chunks_exact(len)) {
        sum.iter_mut().zip(row).for_each(|(byte, part)| *byte ^= Gf256::mul_const(*number, *part));
    }
    sum
}

/// The truthful piece of a block for a vector.
pub fn piece(vector: &[u8], block: &[u8]) -> Vec<u8> {
    [vector.to_vec(), combined(vector, block, block.len() / vector.len())].concat()
}
