//! The stored form and the piece stream.
use rlnc_rattle::full::{decoder::Decoder, encoder::Encoder};
use rlnc_rattle::stream::{self, Geometry, Record};
use rlnc_rattle::RLNCError::*;
use rlnc_rattle::BOUNDARY_MARKER;

const KINDS: [(Geometry, u8, usize, usize); 3] =
    [(Geometry::Of3By2, 0x21, 3, 2), (Geometry::Of16By240, 0x22, 16, 240), (Geometry::Of32By480, 0x23, 32, 480)];

/// A decoder that is saved and loaded between all its pieces ends as one that is not.
#[test]
fn saved_and_loaded() {
    for (geometry, kind, k, len) in KINDS {
        assert_eq!((geometry.piece_count(), geometry.piece_byte_len(), geometry.body_len()), (k, len, k + len));
        let data: Vec<u8> = (0..k * len - 1).map(|i| (i * 3 + 1) as u8).collect();
        let encoder = Encoder::new(data.clone(), k).unwrap();
        let mut kept = Decoder::new(len, k).unwrap();
        let mut stored = kept.clone();
        for i in 0..k {
            let mut vector = vec![(i + 2) as u8; k];
            vector[i] ^= 1;
            let piece = encoder.code(&vector).unwrap();
            assert_eq!(kept.decode(&piece), stored.decode(&piece));
            let form = stored.save().unwrap();
            assert_eq!((form.len(), form[0], form[1] as usize), (4 + k * (k + len), kind, kept.get_useful_piece_count()));
            assert_eq!(form[2] as usize * 256 + form[3] as usize, kept.get_received_piece_count());
            stored = Decoder::load(&form).unwrap();
            assert_eq!(stored.save().unwrap(), form);
        }
        assert_eq!(stored.save(), kept.save());
        assert_eq!(stored.get_decoded_data(), kept.get_decoded_data());
    }
}

#[test]
fn forms_that_do_not_load() {
    let mut decoder = Decoder::new(2, 3).unwrap();
    decoder.decode(&[0, 0, 1, BOUNDARY_MARKER, 0]).unwrap();
    let form = decoder.save().unwrap();
    assert_eq!(form[..9], [0x21, 1, 0, 1, 0, 0, 1, BOUNDARY_MARKER, 0]);
    assert_eq!(Decoder::load(&[]).unwrap_err(), CutRecord);
    assert_eq!(Decoder::load(&[0x24]).unwrap_err(), UnknownKind);
    assert_eq!(Decoder::load(&form[..18]).unwrap_err(), CutRecord);
    for (at, byte) in [(1, 4), (1, 2), (3, 0), (9, 1), (18, 1)] {
        let mut bad = form.clone();
        bad[at] = byte;
        assert_eq!(Decoder::load(&bad).unwrap_err(), BadState, "byte {at}");
    }
    // bytes after the body are not read
    assert_eq!(Decoder::load(&[&form[..], &[9]].concat()).unwrap().save().unwrap(), form);
    assert_eq!(Decoder::new(3, 3).unwrap().save(), Err(UnknownKind));
}

#[test]
fn written_and_read() {
    for (geometry, _, k, len) in KINDS {
        let piece: Vec<u8> = (0..k + len).map(|i| i as u8).collect();
        let mut bytes = stream::write(geometry, &piece).unwrap();
        assert_eq!((bytes[0], &bytes[1..]), (geometry.kind(), &piece[..]));
        bytes.extend([stream::END, 9]);
        assert_eq!(stream::read(None, &bytes), Ok(Record::Piece(geometry, &piece)));
        assert_eq!(stream::read(Some(geometry), &bytes), Ok(Record::Piece(geometry, &piece)));
        assert_eq!(stream::read(Some(geometry), &bytes[1 + piece.len()..]), Ok(Record::End));
        assert_eq!(stream::read_kind(None, geometry.kind(), piece.len()), Ok(Some(geometry)));
        assert_eq!(stream::read_kind(None, geometry.kind(), piece.len() - 1), Err(CutRecord));
        assert_eq!(stream::write(geometry, &piece[1..]), Err(InvalidPieceLength));
    }
}

#[test]
fn records_that_do_not_read() {
    assert_eq!(stream::read(None, &[]), Err(CutRecord));
    assert_eq!(stream::read(None, &[0x14]), Err(UnknownKind));
    assert_eq!(stream::read(None, &[0]), Err(UnknownKind));
    assert_eq!(stream::read(None, &[0x11, 0, 0, 0, 0]), Err(CutRecord));
    // a second geometry is told before the body's length
    assert_eq!(stream::read(Some(Geometry::Of3By2), &[0x12]), Err(MixedKinds));
    assert_eq!(stream::read(Some(Geometry::Of3By2), &[0x01]), Ok(Record::End));
    assert_eq!(stream::read_kind(Some(Geometry::Of32By480), 0x01, 0), Ok(None));
}
