//! A piece stream read by the paper's rules: its listing with the answers of the Rust's decoder, and the script of the calls that it makes.
use crate::drawn::damage;
use crate::drive::number;
use crate::paper;
use crate::parts::{self, Drawn, piece};
use crate::script::Call;
use rlnc::full::decoder::Decoder;
use std::io::Write;

/// The sizes of a kind's pieces.
fn geometry(kind: u8) -> Option<(usize, usize)> {
    match kind {
        0x11 => Some((3, 2)),
        0x12 => Some((16, 240)),
        0x13 => Some((32, 480)),
        _ => None,
    }
}

/// Why a stream stops, and the offset of the record.
struct Stop(u8, usize);

/// Hands on the sizes and the body of each whole piece record up to the end record. An unlisted kind is told before a second geometry, and
/// that before a short body.
fn records(stream: &[u8], mut take: impl FnMut((usize, usize), &[u8])) -> Result<(), Stop> {
    let (mut at, mut first) = (0, None);
    loop {
        let kind = *stream.get(at).ok_or(Stop(25, at))?;
        if kind == 0x01 {
            return Ok(());
        }
        let (k, len) = geometry(kind).ok_or(Stop(24, at))?;
        if *first.get_or_insert(kind) != kind {
            return Err(Stop(26, at));
        }
        take((k, len), stream.get(at + 1..at + 1 + k + len).ok_or(Stop(25, at))?);
        at += 1 + k + len;
    }
}

#[derive(Default)]
struct Joined {
    decoder: Option<Decoder>,
    pieces: usize,
    repeats: usize,
}

impl Joined {
    fn piece(&mut self, (k, len): (usize, usize), body: &[u8], out: &mut impl Write) {
        let decoder = self.decoder.get_or_insert_with(|| Decoder::new(len, k).expect("sizes within the limits"));
        let spent = !decoder.is_already_decoded() && decoder.get_received_piece_count() == paper::TAKEN_LIMIT;
        let answer = if spent { paper::TOO_MANY_TAKEN } else { decoder.decode(body).map_or_else(number, |()| paper::OK) };
        self.pieces += 1;
        self.repeats += usize::from(answer == 8);
        let (rows, taken) = (decoder.get_useful_piece_count(), decoder.get_received_piece_count());
        writeln!(out, "{} {answer} {rows} {taken}", self.pieces).expect("a line is written");
    }

    fn finish(self, out: &mut impl Write) {
        let recovered = self.decoder.map_or(Err(paper::NOT_ALL_PIECES_RECEIVED_YET), |decoder| decoder.get_decoded_data().map_err(number));
        match recovered {
            Err(answer) => writeln!(out, "end {answer} 0 {}", self.repeats),
            Ok(data) => writeln!(out, "end 0 {} {}\n{}", data.len(), self.repeats, crate::script::hex(&data)),
        }
        .expect("a line is written");
    }
}

pub fn run(stream: &[u8], out: &mut impl Write) {
    writeln!(out, "n answer rows taken").expect("a line is written");
    let mut joined = Joined::default();
    match records(stream, |sizes, body| joined.piece(sizes, body, out)) {
        Ok(()) => joined.finish(out),
        Err(Stop(answer, at)) => writeln!(out, "stop {answer} {at}").expect("a line is written"),
    }
}

fn put(call: Call, out: &mut impl Write) {
    let mut bytes = Vec::new();
    call.put(&mut bytes);
    out.write_all(&bytes).expect("a call is written");
}

/// The calls that a stream makes, as one case: a new decoder, which has to clear its matrix, each piece, and recovery at the end record.
pub fn script(stream: &[u8], out: &mut impl Write) {
    parts::begin().into_iter().for_each(|call| put(call, out));
    let mut sizes = None;
    let ended = records(stream, |(k, len), body| {
        if sizes.replace((k, len)).is_none() {
            put(parts::new_decoder(len, k, &vec![0xee; k * (k + len)]), out);
        }
        put(parts::decode(k * (k + len), body), out);
    });
    if let (Ok(()), Some((k, len))) = (ended, sizes) {
        put(parts::recover(k * (k + len), &vec![0; k * len]), out);
    }
}

/// A piece of another geometry among the records.
fn stranger(drawn: &Drawn) -> Vec<u8> {
    let kind = drawn.of(&[0x11, 0x12, 0x13]);
    let (k, len) = geometry(kind).expect("a listed kind");
    [vec![kind], drawn.bytes(k + len)].concat()
}

/// A good stream with pieces lost, repeated, exchanged or of other bytes; now and then records of other lengths or kinds; now and then
/// bytes lost, added or changed.
fn damaged(drawn: &Drawn) -> Vec<u8> {
    let kind = drawn.of(&[0x11, 0x11, 0x11, 0x11, 0x12, 0x13]);
    let (k, len) = geometry(kind).expect("a listed kind");
    let mut block = drawn.bytes(k * len);
    let end = drawn.within(1, k * len - 1);
    block[end..].fill(0);
    block[end] = 0x81;
    let mut pieces: Vec<Vec<u8>> = (0..k + drawn.below(6)).map(|_| piece(&drawn.bytes(k), &block)).collect();
    damage(drawn, &mut pieces);
    let framed = !drawn.one_in(5);
    let mut records: Vec<Vec<u8>> = pieces.into_iter().map(|piece| [vec![kind], piece].concat()).collect();
    if framed {
        records.iter_mut().for_each(|record| record.resize(1 + k + len, 0));
    }
    if drawn.one_in(8) {
        let at = drawn.below(records.len() + 1);
        records.insert(at, stranger(drawn));
    }
    let mut stream = [records.concat(), vec![0x01]].concat();
    for _ in 0..drawn.of(&[0, 0, 0, 1, 2]) {
        let at = drawn.below(stream.len());
        match drawn.below(4) {
            0 if stream.len() > 1 => drop(stream.remove(at)),
            1 => stream.insert(at, drawn.byte()),
            2 => stream[at] = drawn.of(&[0x01, 0x11, 0x12, 0x13, 0x14, drawn.byte()]),
            _ => stream.truncate(at + 1),
        }
    }
    stream
}

pub fn streams(count: usize, seed: u64, folder: &str) {
    let drawn = Drawn::new(seed);
    for i in 0..count {
        std::fs::write(format!("{folder}/{i}.set"), damaged(&drawn)).expect("a stream is written");
    }
}
