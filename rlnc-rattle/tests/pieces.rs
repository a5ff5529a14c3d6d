//! From data to pieces and back.
use rlnc_rattle::full::{decoder::Decoder, encoder::Encoder, recoder::Recoder};
use rlnc_rattle::{gf256, rows, RLNCError, BOUNDARY_MARKER};

/// Bytes that are not all alike.
fn bytes(n: usize, seed: usize) -> Vec<u8> {
    (0..n).map(|i| (i * i * 7 + i * 31 + seed * 101 + 1) as u8).collect()
}

/// A vector with ones on the diagonal and nothing below: the k of them lead to one block.
fn vector(k: usize, i: usize) -> Vec<u8> {
    (0..k)
        .map(|j| {
            if j < i {
                0
            } else if j == i {
                1
            } else {
                (i * 13 + j * 5) as u8
            }
        })
        .collect()
}

fn round_trip(data: &[u8], k: usize) -> Vec<u8> {
    let encoder = Encoder::new(data.to_vec(), k).unwrap();
    let mut decoder = Decoder::new(encoder.get_piece_byte_len(), k).unwrap();
    for i in (0..k).rev() {
        assert!(!decoder.is_already_decoded());
        // in reverse order the count can stand still or fall; that is no fault
        let _ = decoder.decode(&encoder.code(&vector(k, i)).unwrap());
    }
    for i in 0..k {
        if !decoder.is_already_decoded() {
            let _ = decoder.decode(&encoder.code(&vector(k, i)).unwrap());
        }
    }
    assert!(decoder.is_already_decoded());
    assert_eq!(decoder.get_decoded_data(), decoder.get_decoded_data());
    decoder.get_decoded_data().unwrap()
}

#[test]
fn data_comes_back() {
    for (n, k) in [(1, 1), (1, 5), (4, 3), (5, 3), (6, 3), (100, 7), (3839, 16), (15359, 32)] {
        let data = bytes(n, k);
        assert_eq!(round_trip(&data, k), data, "{n} bytes in {k} pieces");
    }
}

#[test]
fn data_that_contains_the_marker_comes_back() {
    for data in [vec![BOUNDARY_MARKER], vec![BOUNDARY_MARKER; 9], vec![1, BOUNDARY_MARKER, 0, 0]] {
        assert_eq!(round_trip(&data, 3), data);
    }
}

#[test]
fn through_a_relay() {
    let data = bytes(50, 3);
    let encoder = Encoder::new(data.clone(), 4).unwrap();
    let whole = encoder.get_full_coded_piece_byte_len();
    let mut held = Vec::new();
    for i in 0..4 {
        held.extend(encoder.code(&vector(4, i)).unwrap());
    }
    held.extend([9, 9]); // less than one piece more: ignored
    let recoder = Recoder::new(held, whole, 4).unwrap();
    assert_eq!(recoder.get_num_pieces_recoded_together(), 4);
    assert_eq!(recoder.get_original_num_pieces_coded_together(), 4);
    assert_eq!(recoder.get_piece_byte_len(), encoder.get_piece_byte_len());
    assert_eq!(recoder.get_full_coded_piece_byte_len(), whole);
    let mut decoder = Decoder::new(encoder.get_piece_byte_len(), 4).unwrap();
    for i in 0..4 {
        assert_eq!(decoder.decode(&recoder.recode(&vector(4, i)).unwrap()), Ok(()));
    }
    assert_eq!(decoder.get_decoded_data(), Ok(data));
}

/// P7: three copies of the piece with coefficients 0, 0, 1 make the count 1, 2, 1, each with Ok. It is a count of rows and no fault.
#[test]
fn the_count_falls() {
    let mut decoder = Decoder::new(2, 3).unwrap();
    let mut counts = Vec::new();
    for taken in 1..=3 {
        assert_eq!(decoder.decode(&[0, 0, 1, BOUNDARY_MARKER, 0]), Ok(()));
        assert_eq!(decoder.get_received_piece_count(), taken);
        assert_eq!(decoder.get_remaining_piece_count(), 3 - decoder.get_useful_piece_count());
        counts.push(decoder.get_useful_piece_count());
    }
    assert_eq!(counts, [1, 2, 1]);
    assert_eq!(decoder.decode(&[0, 1, 0, 0x63, 0x64]), Ok(()));
    assert_eq!(decoder.decode(&[1, 0, 0, 0x61, 0x62]), Ok(()));
    assert_eq!(decoder.get_decoded_data().unwrap(), b"abcd");
}

/// P8 and P9: 8 says that the piece was taken.
#[test]
fn not_useful_is_taken() {
    let mut decoder = Decoder::new(2, 3).unwrap();
    for _ in 0..2 {
        decoder.decode(&[0, 0, 1, BOUNDARY_MARKER, 0]).unwrap();
    }
    assert_eq!(decoder.decode(&[0, 1, 0, 0x63, 0x64]), Err(RLNCError::PieceNotUseful));
    assert_eq!((decoder.get_useful_piece_count(), decoder.get_received_piece_count()), (2, 3));
    let mut decoder = Decoder::new(1, 1).unwrap();
    assert_eq!(decoder.decode(&[0, 7]), Err(RLNCError::PieceNotUseful));
    assert_eq!((decoder.get_useful_piece_count(), decoder.get_received_piece_count()), (0, 1));
}

/// P1, P2, P4, and every inverse.
#[test]
fn field() {
    assert_eq!((gf256::mul(0x57, 0x83), gf256::mul(0x57, 0x13)), (0xc1, 0xfe));
    assert_eq!((gf256::inv(1), gf256::inv(2), gf256::inv(0)), (Some(1), Some(141), None));
    assert_eq!((gf256::div(9, 0), gf256::div(0, 9)), (None, Some(0)));
    for a in 1..=255 {
        assert_eq!(gf256::mul(a, gf256::inv(a).unwrap()), 1);
        assert_eq!(gf256::div(gf256::mul(a, 77), a), Some(77));
    }
}

/// P10 to P12, and the row helpers against the field byte by byte.
#[test]
fn worked_rows() {
    let encoder = Encoder::without_padding(vec![1, 2], 2).unwrap();
    let mut payload = [0];
    assert_eq!(encoder.code_with_coding_vector(&[1, 3], &mut payload), Ok(()));
    assert_eq!(payload, [7]);
    let recoder = Recoder::new(vec![1, 0, 1, 0, 1, 2], 3, 2).unwrap();
    assert_eq!(recoder.recode(&[2, 3]), Ok(vec![2, 3, 4]));
    let mut decoder = Decoder::new(1, 2).unwrap();
    assert_eq!(decoder.decode(&[3, 1, 1]), Ok(()));
    assert_eq!(decoder.decode(&[0, 1, 2]), Ok(()));
    assert!(decoder.is_already_decoded());

    for scalar in [0, 1, 2, 0x53, 255] {
        let (a, b) = (bytes(70, 1), bytes(70, 2));
        let scaled: Vec<u8> = a.iter().map(|&x| gf256::mul(scalar, x)).collect();
        let added: Vec<u8> = scaled.iter().zip(&b).map(|(x, y)| x ^ y).collect();
        let mut row = a.clone();
        rows::inplace_mul_vec_by_scalar(&mut row, scalar);
        assert_eq!(row, scaled);
        assert_eq!(rows::inplace_add_vectors(&mut row, &b), Ok(()));
        assert_eq!(row, added);
        let mut row = b.clone();
        assert_eq!(rows::mul_vec_by_scalar_then_add_into_vec(&mut row, &a, scalar), Ok(()));
        assert_eq!(row, added);
        let mut both = [a.clone(), b.clone()].concat();
        assert_eq!(rows::mul_part_by_scalar_then_add_into_part(&mut both, 0, 70, 70, scalar), Ok(()));
        assert_eq!(both, [a.clone(), added.clone()].concat());
        let mut sum = vec![0; 70];
        assert_eq!(rows::combine(&[a, b].concat(), &[scalar, 1], &mut sum), Ok(()));
        assert_eq!(sum, added);
    }
}
