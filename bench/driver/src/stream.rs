//! Joins a stream of 65,535 pieces of 32 x 480 that never completes, since no piece has the last column: records read and pieces taken one after
//! the other, by one loop over the Rust's Decoder and over the proved one, after a check that both give the same answers, counts and end.
use crate::{Bytes, ours, pieces, table};
use rlnc::RLNCError;
use rlnc::full::decoder::Decoder;
use std::hint::black_box;
use std::time::Instant;

const K: usize = 32;
const LEN: usize = 480;
const PIECES: usize = 65_535;
const PIECE: u8 = 0x13;
const END: u8 = 0x01;

// Pieces that truthfully combine one block, with random coefficients but for the last, which is 0.
fn made() -> Vec<u8> {
    let mut bytes = Bytes(0xa0761d6478bd642f);
    let mut block = vec![0; K * LEN];
    let encoder = ours::Encoder::new(&bytes.row(K * LEN - 1), &mut block, K).unwrap();
    let mut stream = Vec::with_capacity(PIECES * (1 + K + LEN) + 1);
    let mut piece = vec![0; K + LEN];
    for _ in 0..PIECES {
        let mut vector = bytes.row(K);
        vector[K - 1] = 0;
        assert!(encoder.code_with_buf(&block, &vector, &mut piece) == 0);
        stream.push(PIECE);
        stream.extend_from_slice(&piece);
    }
    stream.push(END);
    stream
}

// Something that takes pieces: the answer to each, rows and taken, and the answer at the end, each by its number.
trait Joiner {
    fn take(&mut self, piece: &[u8]) -> u8;
    fn counts(&self) -> (usize, usize);
    fn end(&mut self) -> u8;
}

struct Theirs(Decoder);

struct Proved {
    decoder: ours::Decoder,
    elements: Vec<u8>,
    data: Vec<u8>,
}

fn theirs() -> Theirs {
    Theirs(Decoder::new(LEN, K).unwrap())
}

fn proved() -> Proved {
    let mut elements = vec![0; K * (K + LEN)];
    let decoder = ours::Decoder::new(LEN, K, &mut elements).unwrap();
    Proved { decoder, elements, data: vec![0; K * LEN] }
}

impl Joiner for Theirs {
    fn take(&mut self, piece: &[u8]) -> u8 {
        match self.0.decode(piece) {
            Ok(()) => 0,
            Err(RLNCError::PieceNotUseful) => 8,
            Err(other) => panic!("{other:?}"),
        }
    }

    fn counts(&self) -> (usize, usize) {
        (self.0.get_useful_piece_count(), self.0.get_received_piece_count())
    }

    fn end(&mut self) -> u8 {
        match self.0.clone().get_decoded_data() {
            Err(RLNCError::NotAllPiecesReceivedYet) => 10,
            other => panic!("{other:?}"),
        }
    }
}

impl Joiner for Proved {
    fn take(&mut self, piece: &[u8]) -> u8 {
        self.decoder.decode(&mut self.elements, piece)
    }

    fn counts(&self) -> (usize, usize) {
        (self.decoder.useful_piece_count, self.decoder.received_piece_count)
    }

    fn end(&mut self) -> u8 {
        self.decoder.get_decoded_data(&self.elements, &mut self.data).unwrap_err()
    }
}

// Reads records up to the end, by the library for both, and takes their pieces; `each` sees every answer. Answers the number of answers 8 and
// the end's.
fn join(stream: &[u8], joiner: &mut impl Joiner, mut each: impl FnMut(u8, (usize, usize))) -> (usize, u8) {
    let (mut at, mut so_far, mut repeats) = (0, 0, 0);
    loop {
        match ours::stream_read(so_far, &stream[at..]) {
            Ok(PIECE) => {
                let answer = joiner.take(&stream[at + 1..at + 1 + K + LEN]);
                repeats += usize::from(answer == 8);
                each(answer, joiner.counts());
                at += 1 + K + LEN;
                so_far = PIECE;
            }
            Ok(END) => return (repeats, joiner.end()),
            other => panic!("{other:?}"),
        }
    }
}

fn compare(stream: &[u8]) {
    let (mut a, mut b) = (Vec::new(), Vec::new());
    let ends = (
        join(stream, &mut theirs(), |answer, counts| a.push((answer, counts))),
        join(stream, &mut proved(), |answer, counts| b.push((answer, counts))),
    );
    assert!(a == b && a.len() == PIECES, "the answers or the counts differ");
    assert!(ends.0 == ends.1 && ends.0.1 == 10, "the ends differ");
    let (repeats, answer) = ends.1;
    println!("\nstream: the same answers and counts for {} pieces, and the same end: end {answer} 0 {repeats}", table::grouped(PIECES));
}

// The seconds of each lap of 64 pieces.
fn laps(stream: &[u8], mut joiner: impl Joiner) -> Vec<f64> {
    let (mut laps, mut pieces, mut start) = (Vec::new(), 0, Instant::now());
    black_box(join(black_box(stream), &mut joiner, |_, _| {
        pieces += 1;
        if pieces % 64 == 0 {
            laps.push(start.elapsed().as_secs_f64());
            start = Instant::now();
        }
    }));
    laps.push(start.elapsed().as_secs_f64());
    laps
}

pub fn run() {
    let stream = made();
    compare(&stream);
    let best = pieces::turns(9, 1, || laps(&stream, theirs()), || laps(&stream, proved()));
    let [ratio, target] = table::ratio(best.0, best.1, 3.0);
    let rate = |seconds: f64| format!("{:.1}", stream.len() as f64 / seconds / 1e6);
    table::head(&["work", "bytes", "Rust, s", "proved, s", "Rust, MB/s", "proved, MB/s", "ratio", "target"]);
    table::line(&[
        format!("join {} pieces of {}", table::grouped(PIECES), table::size(K, LEN)),
        table::grouped(stream.len()),
        format!("{:.3}", best.0),
        format!("{:.3}", best.1),
        rate(best.0),
        rate(best.1),
        ratio,
        target,
    ]);
}
