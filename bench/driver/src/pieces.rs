//! Measures coding, recoding, taking pieces and recovery: the Rust's Encoder, Recoder and Decoder and the proved ones, on the same data with
//! the same vectors, after a check that both give the same answers and bytes.
use crate::{Bytes, ours, table};
use rand::Script;
use rlnc::RLNCError;
use rlnc::full::{decoder::Decoder, encoder::Encoder, recoder::Recoder};
use std::hint::black_box;
use std::time::Instant;

// Data that fills k pieces of len bytes up to the marker, both encoders of it, and pieces that it was coded into.
struct Coded {
    k: usize,
    len: usize,
    data: Vec<u8>,
    vectors: Vec<Vec<u8>>,
    theirs: Encoder,
    proved: ours::Encoder,
    block: Vec<u8>,
    pieces: Vec<Vec<u8>>,
}

impl Coded {
    // More pieces than k, since a random one is of no use now and then.
    fn new(k: usize, len: usize, bytes: &mut Bytes) -> Coded {
        let data = bytes.row(k * len - 1);
        let vectors: Vec<Vec<u8>> = (0..k + 16).map(|_| bytes.row(k)).collect();
        let theirs = Encoder::new(data.clone(), k).unwrap();
        let mut block = vec![0xff; k * len];
        let proved = ours::Encoder::new(&data, &mut block, k).unwrap();
        assert!(proved.piece_byte_len == len && theirs.get_piece_byte_len() == len, "{k} x {len}: the piece lengths differ");
        let pieces = vectors.iter().map(|vector| theirs.code(&mut Script::new(vector))).collect();
        Coded { k, len, data, vectors, theirs, proved, block, pieces }
    }

    fn full(&self) -> usize {
        self.k + self.len
    }

    // Both recoders of the first k pieces.
    fn recoders(&self) -> (Recoder, ours::Recoder, Vec<u8>) {
        let pieces = self.pieces[..self.k].concat();
        let theirs = Recoder::new(pieces.clone(), self.full(), self.k).unwrap();
        (theirs, ours::Recoder { num_pieces_received: self.k, full_coded_piece_byte_len: self.full(), num_pieces_coded_together: self.k }, pieces)
    }

    // Both give the same pieces, the same answer to each piece taken, also to one twice, and the data.
    fn compare(&self) -> usize {
        let (k, len) = (self.k, self.len);
        let mut cases = 0;
        let mut out = vec![0; self.full()];
        for (vector, piece) in self.vectors.iter().zip(&self.pieces) {
            let answer = self.proved.code_with_buf(&self.block, vector, &mut out);
            assert!(answer == 0 && &out == piece, "{k} x {len}: the coded pieces differ");
            cases += 1;
        }
        let (mut theirs, proved, pieces) = self.recoders();
        for vector in &self.vectors {
            let answer = proved.recode_with_buf(&pieces, vector, &mut out);
            assert!(answer == 0 && out == theirs.recode(&mut Script::new(vector)), "{k} x {len}: the recoded pieces differ");
            cases += 1;
        }
        let mut elements = vec![0xff; k * self.full()];
        let mut decoder = ours::Decoder::new(len, k, &mut elements).unwrap();
        let mut theirs = Decoder::new(len, k).unwrap();
        for (i, piece) in self.pieces.iter().enumerate() {
            for _ in 0..if i % 8 == 1 { 2 } else { 1 } {
                let answer = match theirs.decode(piece) {
                    Ok(()) => 0,
                    Err(RLNCError::PieceNotUseful) => 8,
                    Err(RLNCError::ReceivedAllPieces) => 9,
                    Err(other) => panic!("{k} x {len}: {other:?}"),
                };
                assert!(decoder.decode(&mut elements, piece) == answer, "{k} x {len}: the answers to piece {i} differ");
                let counts = (theirs.get_useful_piece_count(), theirs.get_received_piece_count());
                assert!((decoder.useful_piece_count, decoder.received_piece_count) == counts, "{k} x {len}: the counts differ");
                cases += 1;
            }
        }
        assert!(theirs.is_already_decoded(), "{k} x {len}: the pieces are too few");
        let mut data = vec![0; k * len];
        let n = decoder.get_decoded_data(&elements, &mut data).unwrap();
        let recovered = theirs.get_decoded_data().unwrap();
        assert!(data[..n] == self.data && recovered == self.data, "{k} x {len}: the data differs");
        cases + 1
    }
}

// The seconds of each lap of so many calls.
fn laps(calls: usize, lap: usize, mut call: impl FnMut(usize)) -> Vec<f64> {
    let one = |from: usize| {
        let start = Instant::now();
        (from..calls.min(from + lap)).for_each(&mut call);
        start.elapsed().as_secs_f64()
    };
    (0..calls).step_by(lap).map(one).collect()
}

// The seconds of a call for each of the two, which take turns: of each lap the best, so that what interrupts a lap does not count.
pub fn turns(count: usize, calls: usize, mut theirs: impl FnMut() -> Vec<f64>, mut proved: impl FnMut() -> Vec<f64>) -> (f64, f64) {
    let mut best = (theirs(), proved());
    let keep = |best: &mut [f64], now: Vec<f64>| best.iter_mut().zip(now).for_each(|(b, n)| *b = b.min(n));
    for _ in 1..count {
        keep(&mut best.0, theirs());
        keep(&mut best.1, proved());
    }
    let per_call = |laps: &[f64]| laps.iter().sum::<f64>() / calls as f64;
    (per_call(&best.0), per_call(&best.1))
}

// A line of the table, with the least ratio that is asked for, if there is one.
fn line(name: &str, c: &Coded, bytes: usize, best: (f64, f64), least: Option<f64>) {
    let [ratio, target] = table::ratio(best.0, best.1, least.unwrap_or(0.0));
    table::line(&[
        name.to_string(),
        table::size(c.k, c.len),
        format!("{:.2}", best.0 * 1e6),
        format!("{:.2}", best.1 * 1e6),
        table::speed(bytes, best.0),
        table::speed(bytes, best.1),
        ratio,
        if least.is_some() { target } else { String::new() },
    ]);
}

// So many turns, and calls in a lap.
fn measure(c: &Coded, count: usize, lap: usize) {
    let (k, len) = (c.k, c.len);
    let (mut out, mut other) = (vec![0; c.full()], vec![0; c.full()]);
    let best = turns(
        count,
        16,
        || laps(16, lap, |i| c.theirs.code_with_buf(&mut Script::new(black_box(&c.vectors[i])), black_box(&mut out)).unwrap()),
        || laps(16, lap, |i| assert!(c.proved.code_with_buf(black_box(&c.block), black_box(&c.vectors[i]), black_box(&mut other)) == 0)),
    );
    line("code", c, k * len, best, Some(6.0));

    let (mut theirs, proved, pieces) = c.recoders();
    let best = turns(
        count,
        16,
        || laps(16, lap, |i| theirs.recode_with_buf(&mut Script::new(black_box(&c.vectors[i])), black_box(&mut out)).unwrap()),
        || laps(16, lap, |i| assert!(proved.recode_with_buf(black_box(&pieces), black_box(&c.vectors[i]), black_box(&mut other)) == 0)),
    );
    line("recode", c, k * c.full(), best, Some(6.0));

    // A fresh decoder filled, per piece. A piece meets each row held twice, on its way in and back, and is a row itself: k rows on average.
    let mut elements = vec![0; k * c.full()];
    let (mut full, mut filled) = (Decoder::new(len, k).unwrap(), ours::Decoder::new(len, k, &mut elements).unwrap());
    let taken = c.pieces.iter().take_while(|piece| !matches!(full.decode(piece), Err(RLNCError::ReceivedAllPieces))).count();
    let best = turns(
        count / 4 + 5,
        taken,
        || {
            laps(taken, lap, |i| {
                if i == 0 {
                    full = Decoder::new(len, k).unwrap();
                }
                let _ = black_box(full.decode(black_box(&c.pieces[i])));
            })
        },
        || {
            laps(taken, lap, |i| {
                if i == 0 {
                    filled = ours::Decoder::new(len, k, &mut elements).unwrap();
                }
                black_box(filled.decode(&mut elements, black_box(&c.pieces[i])));
            })
        },
    );
    line("take", c, k * c.full(), best, Some(3.0));

    let mut data = vec![0; k * len];
    let best = turns(
        100,
        1,
        || {
            let mut full = Some(full.clone());
            laps(1, 1, |_| drop(black_box(full.take().unwrap().get_decoded_data().unwrap())))
        },
        || laps(1, 1, |_| assert!(filled.get_decoded_data(black_box(&elements), black_box(&mut data)).is_ok())),
    );
    line("recover", c, k * len, best, None);
}

pub fn run() {
    let mut bytes = Bytes(0x8cb92ba72f3d8dd7);
    let mut cases = 0;
    for (k, len) in [(1, 2), (1, 70), (2, 1), (3, 5), (16, 33), (100, 100)] {
        cases += Coded::new(k, len, &mut bytes).compare();
    }
    let small = Coded::new(32, 480, &mut bytes);
    let large = Coded::new(256, 4096, &mut bytes);
    cases += small.compare() + large.compare();
    println!("\npieces: the same answers and bytes in {} cases", table::grouped(cases));
    table::head(&["work", "pieces", "Rust, us", "proved, us", "Rust, GB/s", "proved, GB/s", "ratio", "target"]);
    measure(&small, 1000, 16);
    measure(&large, 40, 1);
}
