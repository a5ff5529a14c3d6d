//! Drives the Rust with the calls of a script, and prints a line for each: its ordinal, the answer, the counts, every byte of the buffers
//! lent. What the paper alone decides comes from `paper`; all else is the Rust's own answer.
use crate::decoding::Decoding;
use crate::encoding::Encoding;
use crate::paper;
use crate::recoding::Recoding;
use crate::script::{Call, hex, op};
use rlnc::RLNCError;
use rlnc::common::gf256::Gf256;
use rlnc::common::simd;
use rlnc::full::decoder_matrix::DecoderMatrix;

/// The paper's number for each of the Rust's refusals.
pub fn number(error: RLNCError) -> u8 {
    match error {
        RLNCError::CodingVectorLengthMismatch => 1,
        RLNCError::DataLengthMismatch => 2,
        RLNCError::PieceCountZero => 3,
        RLNCError::DataLengthZero => 4,
        RLNCError::PieceLengthZero => 5,
        RLNCError::NotEnoughPiecesToRecode => 6,
        RLNCError::PieceLengthTooShort => 7,
        RLNCError::PieceNotUseful => 8,
        RLNCError::ReceivedAllPieces => 9,
        RLNCError::NotAllPiecesReceivedYet => 10,
        RLNCError::InvalidDecodedDataFormat => 11,
        RLNCError::InvalidPieceLength => 12,
        RLNCError::InvalidOutputBuffer => 13,
    }
}

pub fn answer(result: Result<(), RLNCError>) -> u8 {
    result.map_or_else(number, |()| paper::OK)
}

/// The counts that a record gives, or the refusal of each where its numbers are bad.
pub fn counts(sound: bool, counts: &[usize]) -> String {
    let one = |n: &usize| if sound { format!(" {n}") } else { format!(" no {}", paper::BAD_STATE) };
    counts.iter().map(one).collect()
}

/// A kept buffer with its front written anew, and how much of it is lent.
pub fn loaded(call: &Call, kept: &mut [u8]) -> usize {
    kept[..call.load.len()].copy_from_slice(&call.load);
    call.lent.min(kept.len())
}

pub fn bytes(parts: [&[u8]; 3]) -> String {
    parts.iter().map(|part| format!(" .{}", hex(part))).collect()
}

#[derive(Default)]
pub struct Driver {
    ordinal: usize,
    encoding: Encoding,
    recoding: Recoding,
    decoding: Decoding,
}

impl Driver {
    /// The line that a call makes.
    pub fn line(&mut self, call: Call) -> String {
        self.ordinal += 1;
        let said = match call.op >> 4 {
            0 => plain(call),
            1 => self.encoding.call(call),
            2 => self.recoding.call(call),
            3 => self.decoding.call(call),
            _ => {
                self.encoding.forget();
                self.recoding.forget();
                self.decoding.forget();
                String::new()
            }
        };
        format!("{}{said}", self.ordinal)
    }
}

fn plain(call: Call) -> String {
    let Call { op, n: [p, q, r, s, t], mut a, b, .. } = call;
    let low = |n: usize| (n % 256) as u8;
    let unequal = paper::rows(a.len(), b.len());
    let said = match op {
        op::FIELD => field(low(p)),
        op::SCALE => {
            simd::gf256_inplace_mul_vec_by_scalar(&mut a, low(p));
            " 0".into()
        }
        op::ADD | op::MULTIPLY_ADD if unequal != paper::OK => format!(" {unequal}"),
        op::ADD => {
            simd::gf256_inplace_add_vectors(&mut a, &b);
            " 0".into()
        }
        op::MULTIPLY_ADD => {
            simd::gf256_mul_vec_by_scalar_then_add_into_vec(&mut a, &b, low(p));
            " 0".into()
        }
        op::PART => format!(" {}", part(&mut a, p, q, r, low(s))),
        op::ADD_ROW => add_row(&mut a, &b, p, q, r),
        op::SWAP_ROWS => format!(" {}", swap_rows(&mut a, p, q, r, s, t)),
        op::RREF => rref(&mut a, p, q, r),
        _ => " 0".into(),
    };
    format!("{said} .{} .{}", hex(&a), hex(&b))
}

fn field(x: u8) -> String {
    let quotient = |q: Option<Gf256>| q.map_or("--".to_string(), |byte| hex(&[byte.get()]));
    let products: String = (0..=255).map(|y| hex(&[Gf256::mul_const(x, y)])).collect();
    let quotients: String = (0..=255).map(|y| quotient(Gf256::new(x) / Gf256::new(y))).collect();
    format!(" {products} {quotients} {}", quotient(Gf256::new(x).inv()))
}

/// The Rust has rows apart only, so the part that is added is copied out.
fn part(buffer: &mut [u8], from: usize, to: usize, len: usize, scalar: u8) -> u8 {
    let refusal = paper::parts(from, to, len, buffer.len());
    if refusal != paper::OK {
        return refusal;
    }
    let added = buffer[from..from + len].to_vec();
    simd::gf256_mul_vec_by_scalar_then_add_into_vec(&mut buffer[to..to + len], &added, scalar);
    paper::OK
}

/// The Rust's matrix that holds these rows.
pub fn matrix_of(elements: &[u8], k: usize, rows: usize, cols: usize) -> DecoderMatrix {
    let mut matrix = DecoderMatrix::new(k, cols - k);
    for i in 0..rows {
        assert!(matrix.add_row(&elements[i * cols..(i + 1) * cols]).is_ok());
    }
    matrix
}

fn add_row(elements: &mut [u8], row: &[u8], k: usize, rows: usize, cols: usize) -> String {
    if paper::matrix(k, rows + 1, cols, elements.len()) != paper::OK {
        return format!(" {}", paper::BAD_STATE);
    }
    let mut matrix = matrix_of(elements, k, rows, cols);
    if let Err(error) = matrix.add_row(row).map(|_| ()) {
        return format!(" {}", number(error));
    }
    let now = matrix.rank();
    let held = matrix.extract_data();
    elements[..held.len()].copy_from_slice(&held);
    format!(" 0 {k} {now} {cols}")
}

fn swap_rows(elements: &mut [u8], k: usize, rows: usize, cols: usize, i: usize, j: usize) -> u8 {
    if paper::matrix(k, rows, cols, elements.len()) != paper::OK || rows <= i || rows <= j {
        return paper::BAD_STATE;
    }
    let mut matrix = matrix_of(elements, k, rows, cols);
    matrix.swap_rows(i, j);
    let held = matrix.extract_data();
    elements[..held.len()].copy_from_slice(&held);
    paper::OK
}

fn rref(elements: &mut [u8], k: usize, rows: usize, cols: usize) -> String {
    if paper::matrix(k, rows, cols, elements.len()) != paper::OK {
        return format!(" {}", paper::BAD_STATE);
    }
    let mut matrix = matrix_of(elements, k, rows, cols);
    let now = matrix.rref().rank();
    hold(&mut elements[..k * cols], &matrix.extract_data());
    format!(" 0 {k} {now} {cols}")
}

/// The held rows, and zeros behind them.
pub fn hold(matrix: &mut [u8], held: &[u8]) {
    let (front, behind) = matrix.split_at_mut(held.len());
    front.copy_from_slice(held);
    behind.fill(0);
}
