//! The piece stream: one byte of kind, then the piece; the end record is its kind alone.
use crate::{entries, RLNCError};

/// The kind of the end record.
pub const END: u8 = 0x01;

/// The sizes that pieces of a stream come in.
#[derive(Clone, Copy, Debug, PartialEq, Eq)]
#[repr(u8)]
pub enum Geometry {
    Of3By2 = 0x11,
    Of16By240 = 0x12,
    Of32By480 = 0x13,
}

/// The record at the front of some bytes.
#[derive(Clone, Copy, Debug, PartialEq, Eq)]
pub enum Record<'a> {
    Piece(Geometry, &'a [u8]),
    End,
}

impl Geometry {
    pub fn kind(self) -> u8 {
        self as u8
    }

    pub fn piece_count(self) -> usize {
        self.sizes().0
    }

    pub fn piece_byte_len(self) -> usize {
        self.sizes().1
    }

    pub fn body_len(self) -> usize {
        let (piece_count, piece_byte_len) = self.sizes();
        piece_count + piece_byte_len
    }

    fn sizes(self) -> (usize, usize) {
        let (mut piece_count, mut piece_byte_len) = (0, 0);
        RLNCError::check(unsafe { entries::rlnc_stream_sizes(self.kind(), &mut piece_count, &mut piece_byte_len) }).expect("each case has its kind");
        (piece_count, piece_byte_len)
    }
}

/// The record at the front of the bytes, after pieces of the geometry given. Refuses with 25 (no byte), 24, 26, 25 (cut short).
pub fn read(so_far: Option<Geometry>, bytes: &[u8]) -> Result<Record<'_>, RLNCError> {
    let mut kind = 0;
    RLNCError::check(unsafe { entries::rlnc_stream_read(number(so_far), bytes.as_ptr(), bytes.len(), &mut kind) })?;
    Ok(match geometry(kind) {
        Some(geometry) => Record::Piece(geometry, &bytes[1..1 + geometry.body_len()]),
        None => Record::End,
    })
}

/// The same where the record's first byte is known, and how many bytes stand behind it: the geometry of a piece, or nothing at the end.
pub fn read_kind(so_far: Option<Geometry>, next: u8, behind: usize) -> Result<Option<Geometry>, RLNCError> {
    let mut kind = 0;
    RLNCError::check(unsafe { entries::rlnc_stream_read_kind(number(so_far), next, behind, &mut kind) })?;
    Ok(geometry(kind))
}

fn number(so_far: Option<Geometry>) -> u8 {
    so_far.map_or(0, Geometry::kind)
}

fn geometry(kind: u8) -> Option<Geometry> {
    [Geometry::Of3By2, Geometry::Of16By240, Geometry::Of32By480].into_iter().find(|g| g.kind() == kind)
}

/// The record of a piece. Refuses with 12.
pub fn write(geometry: Geometry, piece: &[u8]) -> Result<Vec<u8>, RLNCError> {
    let mut out = vec![0; piece.len() + 1];
    RLNCError::check(unsafe { entries::rlnc_stream_write(geometry.kind(), piece.as_ptr(), piece.len(), out.as_mut_ptr(), out.len()) })?;
    Ok(out)
}
