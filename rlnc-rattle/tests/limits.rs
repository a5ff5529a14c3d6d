//! The lines of the paper that are run at their limits.
use rlnc_rattle::full::{decoder::Decoder, encoder::Encoder};
use rlnc_rattle::{RLNCError, BOUNDARY_MARKER};

fn number<T>(result: Result<T, RLNCError>) -> u8 {
    result.err().map_or(0, RLNCError::number)
}

#[test]
fn piece_count() {
    assert_eq!(number(Encoder::new(vec![1; 300], 256)), 0);
    assert_eq!(number(Encoder::new(vec![1; 300], 257)), 20);
    assert_eq!(number(Decoder::new(1, 256)), 0);
    assert_eq!(number(Decoder::new(1, 257)), 20);
}

#[test]
fn piece_length() {
    assert_eq!(number(Encoder::new(vec![1; 4095], 1)), 0);
    assert_eq!(number(Encoder::new(vec![1; 4096], 1)), 20);
    assert_eq!(number(Encoder::without_padding(vec![1; 4096], 1)), 0);
    assert_eq!(number(Encoder::without_padding(vec![1; 4097], 1)), 20);
    assert_eq!(number(Decoder::new(4096, 1)), 0);
    assert_eq!(number(Decoder::new(4097, 1)), 20);
}

/// 1,048,575 bytes in 256 pieces fit, and come back; one more is 20.
#[test]
fn largest_block() {
    let data: Vec<u8> = (0..1_048_575usize).map(|i| (i ^ (i >> 8) ^ (i >> 16)) as u8).collect();
    let encoder = Encoder::new(data.clone(), 256).unwrap();
    assert_eq!((encoder.get_piece_count(), encoder.get_piece_byte_len(), encoder.get_full_coded_piece_byte_len()), (256, 4096, 4352));
    let mut decoder = Decoder::new(4096, 256).unwrap();
    for i in 0..256 {
        let vector: Vec<u8> = (0..256usize)
            .map(|j| {
                if j < i {
                    0
                } else if j == i {
                    1
                } else {
                    (i + j) as u8
                }
            })
            .collect();
        assert_eq!(decoder.decode(&encoder.code(&vector).unwrap()), Ok(()));
    }
    assert!(decoder.is_already_decoded());
    assert_eq!(decoder.get_decoded_data(), Ok(data));
    assert_eq!(number(Encoder::new(vec![1; 1_048_576], 256)), 20);
}

#[test]
fn pieces_taken() {
    let mut decoder = Decoder::new(1, 2).unwrap();
    for _ in 0..65_535 {
        assert_eq!(decoder.decode(&[0, 0, 1]), Err(RLNCError::PieceNotUseful));
    }
    assert_eq!(decoder.decode(&[1, 0, 1]), Err(RLNCError::TooManyTaken));
    assert_eq!(decoder.decode(&[1, 0]), Err(RLNCError::InvalidPieceLength));
    assert_eq!((decoder.get_useful_piece_count(), decoder.get_received_piece_count()), (0, 65_535));
}

/// P5 and P6: the piece length, seen in what is coded with unit vectors.
#[test]
fn padded_lengths() {
    for (n, k, len) in [(1, 5, 1), (4, 3, 2), (5, 3, 2), (6, 3, 3)] {
        let encoder = Encoder::new(vec![9; n], k).unwrap();
        assert_eq!(encoder.get_piece_byte_len(), len);
        let mut block = Vec::new();
        for i in 0..k {
            let mut unit = vec![0; k];
            unit[i] = 1;
            let mut payload = vec![0; len];
            encoder.code_with_coding_vector(&unit, &mut payload).unwrap();
            block.extend(payload);
        }
        let mut padded = vec![9; n];
        padded.push(BOUNDARY_MARKER);
        padded.resize(k * len, 0);
        assert_eq!(block, padded);
    }
}
