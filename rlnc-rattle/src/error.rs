/// The refusals and the answer 8, with the numbers of the port's table. The first 13 carry the names of the Rust crate.
///
/// All but [`RLNCError::PieceNotUseful`] change nothing. That one says that the piece was taken, and that as many rows are held as before.
#[derive(Clone, Copy, Debug, PartialEq, Eq, Hash)]
#[repr(u8)]
pub enum RLNCError {
    CodingVectorLengthMismatch = 1,
    DataLengthMismatch = 2,
    PieceCountZero = 3,
    DataLengthZero = 4,
    PieceLengthZero = 5,
    NotEnoughPiecesToRecode = 6,
    PieceLengthTooShort = 7,
    PieceNotUseful = 8,
    ReceivedAllPieces = 9,
    NotAllPiecesReceivedYet = 10,
    InvalidDecodedDataFormat = 11,
    InvalidPieceLength = 12,
    InvalidOutputBuffer = 13,
    SizeOverLimit = 20,
    NoRoom = 21,
    BadState = 22,
    TooManyTaken = 23,
    UnknownKind = 24,
    CutRecord = 25,
    MixedKinds = 26,
}

use RLNCError::*;

impl RLNCError {
    /// Every case, in the order of the numbers.
    pub const ALL: [RLNCError; 20] = [
        CodingVectorLengthMismatch,
        DataLengthMismatch,
        PieceCountZero,
        DataLengthZero,
        PieceLengthZero,
        NotEnoughPiecesToRecode,
        PieceLengthTooShort,
        PieceNotUseful,
        ReceivedAllPieces,
        NotAllPiecesReceivedYet,
        InvalidDecodedDataFormat,
        InvalidPieceLength,
        InvalidOutputBuffer,
        SizeOverLimit,
        NoRoom,
        BadState,
        TooManyTaken,
        UnknownKind,
        CutRecord,
        MixedKinds,
    ];

    /// The number in the port's table.
    pub const fn number(self) -> u8 {
        self as u8
    }

    /// What an entry's number says; 0 is Ok.
    pub(crate) fn check(number: u8) -> Result<(), RLNCError> {
        if number == 0 {
            return Ok(());
        }
        let case = RLNCError::ALL.into_iter().find(|e| e.number() == number);
        Err(case.expect("an entry answers only numbers of the table"))
    }
}

impl std::fmt::Display for RLNCError {
    fn fmt(&self, f: &mut std::fmt::Formatter) -> std::fmt::Result {
        write!(f, "{self:?} ({})", self.number())
    }
}

impl std::error::Error for RLNCError {}
