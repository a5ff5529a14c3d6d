//! Cases drawn from a seed: lengths around each boundary, and damaged copies of good streams.
use crate::forms;
use crate::matrices;
use crate::odd::history;
use crate::parts::*;
use crate::script::op;

const M: u8 = 0x81;

/// Small sizes mostly, those of the streams and the limits now and then.
fn sizes(drawn: &Drawn) -> (usize, usize) {
    match drawn.below(400) {
        0 => (32, 480),
        1..=3 => (16, 240),
        4 => (drawn.of(&[255, 256]), drawn.of(&[1, 2])),
        5 => (drawn.within(1, 3), drawn.of(&[4095, 4096])),
        6..=40 => (drawn.within(1, 20), drawn.within(1, 40)),
        _ => (drawn.within(1, 7), drawn.within(1, 9)),
    }
}

/// A block: padded data, data with markers in it, or bytes that break the padding rule.
fn block(drawn: &Drawn, size: usize) -> Vec<u8> {
    let mut block = drawn.bytes(size);
    if drawn.one_in(3) {
        block.iter_mut().for_each(|byte| *byte = [0, 0, M, 0x61][*byte as usize % 4]);
    }
    if !drawn.one_in(4) {
        let end = drawn.below(size);
        block[end..].fill(0);
        block[end] = M;
    }
    block
}

/// A vector: any, of few values, sparse, a unit, late, one of the earlier ones, or a sum of them.
fn vector(drawn: &Drawn, k: usize, earlier: &[Vec<u8>]) -> Vec<u8> {
    match drawn.below(8) {
        0 => (0..k).map(|_| drawn.of(&[0, 0, 1])).collect(),
        1 => (0..k).map(|_| if drawn.one_in(3) { drawn.byte() } else { 0 }).collect(),
        2 => unit(k, drawn.below(k)),
        3 => {
            let from = drawn.below(k);
            [vec![0; from], drawn.bytes(k - from)].concat()
        }
        4 if !earlier.is_empty() => earlier[drawn.below(earlier.len())].clone(),
        5 if !earlier.is_empty() => combined(&drawn.bytes(earlier.len()), &earlier.concat(), k),
        _ => drawn.bytes(k),
    }
}

fn vectors(drawn: &Drawn, k: usize, count: usize) -> Vec<Vec<u8>> {
    let mut all: Vec<Vec<u8>> = Vec::new();
    for _ in 0..count {
        let next = vector(drawn, k, &all);
        all.push(next);
    }
    all
}

/// So many pieces of a size, with a few more than are wanted where that is not too much.
fn enough(drawn: &Drawn, k: usize) -> usize {
    match k {
        0..=8 => drawn.within(1, 2 * k + 2),
        9..=32 => k + drawn.below(6),
        _ => 3,
    }
}

/// A decoder asked with pieces and buffers of every length around what it wants.
fn decoding(drawn: &Drawn) -> Case {
    let (k, len) = sizes(drawn);
    let full = k + len;
    let block = block(drawn, k * len);
    let room = drawn.around(k * full);
    let mut case = begin();
    if drawn.one_in(4) {
        let rows = drawn.below(k + 1);
        case.push(set_decoder([k, len, rows, rows + drawn.below(3)], &drawn.bytes(room)));
    } else {
        let elements = drawn.bytes(room);
        case.push(new_decoder(len, k, &elements));
    }
    let truthful = !drawn.one_in(3);
    let count = enough(drawn, k);
    for vector in vectors(drawn, k, count) {
        let mut piece = if truthful { piece(&vector, &block) } else { [vector, drawn.bytes(len)].concat() };
        if drawn.one_in(9) {
            piece.resize(drawn.around(full), 7);
        }
        let lent = if drawn.one_in(12) { drawn.around(k * full) } else { room };
        case.push(decode(lent, &piece));
        if drawn.one_in(3) && k <= 8 {
            let out = drawn.bytes(drawn.around(k * len));
            case.push(recover(lent, &out));
        }
    }
    let out = drawn.bytes(drawn.around(k * len));
    case.push(recover(room, &out));
    case
}

/// Data that is padded, coded, recoded, taken and recovered.
fn chain(drawn: &Drawn) -> Case {
    let (k, len) = match sizes(drawn) {
        (k, _) if k > 32 => (k, 1),
        sizes => sizes,
    };
    let n = (k * len - 1).saturating_sub(drawn.below(k.min(k * len))).max(1);
    let len = (n + 1).div_ceil(k);
    let (full, size) = (k + len, k * len);
    let mut data = drawn.bytes(n);
    if drawn.one_in(3) {
        data.iter_mut().for_each(|byte| *byte = [0, M, 0x61][*byte as usize % 3]);
    }
    let block = [data.clone(), vec![M], vec![0; size - n - 1]].concat();
    let mut case = alone(padded(&data, k, &drawn.bytes(size + drawn.below(3))));
    let count = enough(drawn, k);
    let mut pieces = Vec::new();
    for vector in vectors(drawn, k, count) {
        let (short, exact) = (drawn.bytes(drawn.around(len)), drawn.bytes(full));
        case.push(payload(size, &vector, &short));
        case.push(whole(size, &vector, &exact));
        pieces.push(piece(&vector, &block));
    }
    let tail = drawn.bytes(drawn.below(full));
    let held = [pieces.concat(), tail].concat();
    case.push(new_recoder(&held, full, k));
    for _ in 0..count.min(6) {
        let numbers = vector(drawn, count, &[]);
        let out = drawn.bytes(full);
        case.push(recode(held.len(), &numbers, &out));
        pieces.push(combined(&numbers, &held, full));
    }
    case.extend(history(k, len, &pieces).into_iter().skip(1));
    case
}

fn encoding(drawn: &Drawn) -> Case {
    let (k, len) = (drawn.within(1, 9), drawn.within(1, 9));
    let n = drawn.around(k * len - 1);
    let size = k * (n + 1).div_ceil(k);
    let room = drawn.around(size);
    let (data, buffer) = (drawn.bytes(n), drawn.bytes(room));
    let mut case = if drawn.one_in(2) { alone(padded(&data, k, &buffer)) } else { alone(unpadded(&buffer, k)) };
    for _ in 0..4 {
        let (vector, out) = (drawn.bytes(drawn.around(k)), drawn.bytes(drawn.around(len)));
        case.push(payload(drawn.around(room), &vector, &out));
        case.push(whole(drawn.around(room), &vector, &[drawn.bytes(k), out].concat()));
    }
    case
}

fn recoding(drawn: &Drawn) -> Case {
    let (k, len, m) = (drawn.within(1, 9), drawn.within(1, 9), drawn.within(1, 9));
    let full = k + len;
    let held = drawn.bytes(drawn.around(m * full));
    let mut case = alone(new_recoder(&held, full, k));
    for _ in 0..5 {
        let (numbers, out) = (vector(drawn, m, &[]), drawn.bytes(drawn.around(full)));
        let most = drawn.around(m).min(m);
        case.push(recode(drawn.around(held.len()), &numbers[..most], &out));
    }
    case
}

fn rows(drawn: &Drawn) -> Case {
    let len = drawn.within(0, 300);
    let mut case = begin();
    for _ in 0..4 {
        let scalar = drawn.of(&[0, 1, 2, drawn.byte(), drawn.byte()]) as usize;
        let (a, b) = (drawn.bytes(len), drawn.bytes(if drawn.one_in(4) { drawn.around(len) } else { len }));
        case.push(plain(op::SCALE, [scalar, 0, 0, 0, 0], &a, &[]));
        case.push(plain(op::MULTIPLY_ADD, [scalar, 0, 0, 0, 0], &a, &b));
        case.push(plain(op::ADD, [0; 5], &a, &b));
        let places = [drawn.below(len + 2), drawn.below(len + 2), drawn.below(len / 2 + 2), scalar, 0];
        case.push(plain(op::PART, places, &a, &[]));
    }
    case
}

pub fn case(drawn: &Drawn) -> Case {
    match drawn.below(20) {
        0..=8 => decoding(drawn),
        9..=11 => chain(drawn),
        12..=14 => matrices::drawn(drawn),
        15 | 16 => encoding(drawn),
        17 => recoding(drawn),
        18 => forms::drawn(drawn),
        _ => rows(drawn),
    }
}

/// The pieces of a good stream, damaged once or a few times.
pub fn damage(drawn: &Drawn, pieces: &mut Vec<Vec<u8>>) {
    for _ in 0..drawn.within(1, 4) {
        let Some(last) = pieces.len().checked_sub(1) else { return };
        let (i, j) = (drawn.within(0, last), drawn.within(0, last));
        match drawn.below(8) {
            0 => pieces.swap(i, j),
            1 => drop(pieces.remove(i)),
            2 => pieces.insert(j, pieces[i].clone()),
            3 => drop(pieces[i].pop()),
            4 => pieces[i].push(drawn.byte()),
            5 => pieces[i] = pieces[j].clone(),
            _ => {
                let n = pieces[i].len();
                if n > 0 {
                    pieces[i][drawn.below(n)] = drawn.of(&[0, 1, M, drawn.byte()]);
                }
            }
        }
    }
}

/// A damaged copy of a good stream, taken and recovered.
pub fn damaged(drawn: &Drawn) -> Case {
    let (k, len) = sizes(drawn);
    let mut block = drawn.bytes(k * len);
    block[k * len - 1] = M;
    let count = enough(drawn, k).max(k.min(32) + 1);
    let mut pieces: Vec<Vec<u8>> = (0..count).map(|_| piece(&drawn.bytes(k), &block)).collect();
    damage(drawn, &mut pieces);
    if k <= 8 {
        return history(k, len, &pieces);
    }
    let lent = k * (k + len);
    let mut case = alone(new_decoder(len, k, &drawn.bytes(lent)));
    case.extend(pieces.iter().map(|piece| decode(lent, piece)));
    case.push(recover(lent, &drawn.bytes(k * len)));
    case
}
