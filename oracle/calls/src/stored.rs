//! The stored form of a decoder, by the paper: the Rust has none.
use crate::paper::{BAD_STATE, NO_ROOM};

const UNKNOWN_KIND: u8 = 24;
const CUT_RECORD: u8 = 25;

const KINDS: [(u8, (usize, usize)); 3] = [(0x21, (3, 2)), (0x22, (16, 240)), (0x23, (32, 480))];

/// The form of a decoder in a good state, for a buffer of so many bytes.
pub fn form(sizes: (usize, usize), rows: usize, taken: usize, held: &[u8], room: usize) -> Result<Vec<u8>, u8> {
    let (kind, (k, len)) = *KINDS.iter().find(|(_, listed)| *listed == sizes).ok_or(UNKNOWN_KIND)?;
    let size = 4 + k * (k + len);
    if room < size {
        return Err(NO_ROOM);
    }
    let mut form = vec![kind, rows as u8, (taken >> 8) as u8, taken as u8];
    form.extend_from_slice(held);
    form.resize(size, 0);
    Ok(form)
}

/// The sizes, the rows, the taken count and the matrix of a form, for a matrix of so many bytes.
#[allow(clippy::type_complexity)]
pub fn read(form: &[u8], room: usize) -> Result<((usize, usize), usize, usize, &[u8]), u8> {
    let first = form.first().ok_or(CUT_RECORD)?;
    let (_, (k, len)) = *KINDS.iter().find(|(kind, _)| kind == first).ok_or(UNKNOWN_KIND)?;
    let size = k * (k + len);
    let body = form.get(1..4 + size).ok_or(CUT_RECORD)?;
    if room < size {
        return Err(NO_ROOM);
    }
    let (rows, taken) = (body[0] as usize, body[1] as usize * 256 + body[2] as usize);
    let matrix = &body[3..];
    if rows > k || rows > taken || matrix[rows * (k + len)..].iter().any(|byte| *byte != 0) {
        return Err(BAD_STATE);
    }
    Ok(((k, len), rows, taken, matrix))
}
