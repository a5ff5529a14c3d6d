//! The odd cases, which are the same in every run.
use crate::parts::*;
use crate::script::op;

const M: u8 = 0x81;

/// What the lent buffers hold before.
const FILL: u8 = 0xee;

pub fn cases() -> Vec<Case> {
    let drawn = Drawn::new(0);
    let mut cases = Vec::new();
    cases.extend((0..256).map(|x| alone(plain(op::FIELD, [x, 0, 0, 0, 0], &[], &[]))));
    rows(&mut cases, &drawn);
    paper(&mut cases);
    vectors(&mut cases, &drawn);
    paddings(&mut cases);
    crate::limits::cases(&mut cases);
    crate::forms::cases(&mut cases);
    crate::matrices::cases(&mut cases, &drawn);
    cases
}

/// The row helpers: each length around the sizes that loops are cut into, and unequal ones.
fn rows(cases: &mut Vec<Case>, drawn: &Drawn) {
    for len in (0..=9).chain([15, 16, 17, 31, 32, 33, 63, 64, 65, 127, 128, 129, 257]) {
        for scalar in [0, 1, 2, 3, M as usize, 255] {
            let (a, b) = (drawn.bytes(len), drawn.bytes(len));
            let mut case = alone(plain(op::SCALE, [scalar, 0, 0, 0, 0], &a, &[]));
            case.push(plain(op::ADD, [0; 5], &a, &b));
            case.push(plain(op::MULTIPLY_ADD, [scalar, 0, 0, 0, 0], &a, &b));
            case.push(plain(op::PART, [len + 1, 0, len, scalar, 0], &drawn.bytes(2 * len + 2), &[]));
            case.push(plain(op::PART, [0, len, len, scalar, 0], &drawn.bytes(2 * len), &[]));
            cases.push(case);
        }
        for (a, b) in [(len + 1, len), (len, len + 1)] {
            let (a, b) = (drawn.bytes(a), drawn.bytes(b));
            let mut case = alone(plain(op::ADD, [0; 5], &a, &b));
            (0..3).for_each(|scalar| case.push(plain(op::MULTIPLY_ADD, [scalar, 0, 0, 0, 0], &a, &b)));
            cases.push(case);
        }
        // one byte in common, or one byte outside
        if len > 0 {
            let mut case = begin();
            for (from, to, room) in [(0, len - 1, 2 * len), (len - 1, 0, 2 * len), (0, len, 2 * len - 1), (len, 0, 2 * len - 1)] {
                case.push(plain(op::PART, [from, to, len, 3, 0], &drawn.bytes(room), &[]));
            }
            cases.push(case);
        }
    }
}

/// A decoder that takes these pieces, with more room than it needs, and is asked for the data after each of them.
pub fn history(k: usize, len: usize, pieces: &[Vec<u8>]) -> Case {
    let lent = k * (k + len) + 3;
    let mut case = begin();
    case.push(new_decoder(len, k, &vec![FILL; lent]));
    for piece in pieces {
        case.push(decode(lent, piece));
        case.push(recover(lent, &vec![FILL; k * len + 2]));
    }
    case
}

/// P7 to P12 of the paper, and its stream.
fn paper(cases: &mut Vec<Case>) {
    let late = |payload: [u8; 2]| vec![0, 0, 1, payload[0], payload[1]];
    cases.push(history(3, 2, &[late([1, 2]), late([1, 2]), late([1, 2])]));
    cases.push(history(3, 2, &[late([1, 2]), late([1, 2]), vec![0, 1, 0, 3, 4]]));
    cases.push(history(1, 1, &[vec![0, 9]]));
    cases.push(history(2, 1, &[vec![3, 1, 1], vec![0, 1, 2]]));
    let stream = [late([M, 0]), late([M, 0]), late([M, 0]), vec![0, 1, 0, 0x63, 0x64], vec![1, 0, 0, 0x61, 0x62]];
    cases.push(history(3, 2, &stream));
    let mut coded = begin();
    coded.push(unpadded(&[1, 2], 2));
    coded.push(payload(2, &[1, 3], &[FILL]));
    coded.push(whole(2, &[1, 3], &[FILL; 3]));
    cases.push(coded);
    let mut recoded = begin();
    recoded.push(new_recoder(&[1, 0, 1, 0, 1, 2], 3, 2));
    recoded.push(recode(6, &[2, 3], &[FILL; 3]));
    cases.push(recoded);
}

/// Vectors that random ones never are, for small sizes.
fn odd_vectors(k: usize, drawn: &Drawn) -> Vec<Vec<Vec<u8>>> {
    let units: Vec<Vec<u8>> = (0..k).map(|i| unit(k, i)).collect();
    let vector = drawn.bytes(k);
    let times = |factor: u8| combined(&[factor], &vector, k);
    let late = |from: usize, drawn: &Drawn| [vec![0; from], drawn.bytes(k - from)].concat();
    let mut lists = vec![
        vec![vec![0; k]; k + 1],
        [units.clone(), units.clone()].concat(),
        units.iter().rev().cloned().collect(),
        units.iter().flat_map(|unit| vec![unit.clone(); 3]).collect(),
        units.iter().rev().flat_map(|unit| vec![unit.clone(); 3]).collect(),
        vec![vector.clone(); k + 2],
        [times(1), times(2), times(M), times(255), vec![0; k]].to_vec(),
        [vec![vec![0; k]], units.clone(), vec![vec![1; k]]].concat(),
        vec![vec![1; k]; 3].into_iter().chain(units.clone()).collect(),
    ];
    for from in 1..k {
        lists.push((0..k + 1).map(|_| late(from, drawn)).chain(units.clone()).collect());
    }
    // each a sum of earlier ones, with a new one now and then
    let mut sums = vec![drawn.bytes(k)];
    for i in 1..2 * k + 1 {
        let numbers = drawn.bytes(sums.len());
        sums.push(if i % 3 == 0 { drawn.bytes(k) } else { combined(&numbers, &sums.concat(), k) });
    }
    lists.push(sums);
    lists.push((0..k + 3).map(|_| drawn.bytes(k)).collect());
    lists
}

/// Each list of odd vectors with truthful payloads and with others.
fn vectors(cases: &mut Vec<Case>, drawn: &Drawn) {
    for (k, len) in [(1, 1), (1, 3), (2, 1), (2, 2), (3, 2), (4, 1), (4, 3), (5, 2)] {
        for list in odd_vectors(k, drawn) {
            let mut block = drawn.bytes(k * len);
            block[k * len - 1] = M;
            let truthful: Vec<Vec<u8>> = list.iter().map(|vector| piece(vector, &block)).collect();
            let untruthful: Vec<Vec<u8>> = list.iter().map(|vector| [vector.clone(), drawn.bytes(len)].concat()).collect();
            cases.push(history(k, len, &truthful));
            cases.push(history(k, len, &untruthful));
        }
    }
}

/// Blocks of each padding, the broken ones among them, each recovered with too little room, just enough, and more.
fn paddings(cases: &mut Vec<Case>) {
    let a = 0x61;
    let blocks: [&[u8]; 18] = [
        &[M, 0],
        &[a, M, 0, 0],
        &[a, M, M, 0],
        &[a, a],
        &[a, M, a, 0],
        &[0, 0],
        &[0, M],
        &[M, M],
        &[M, 0, 0, 0, 0, 0],
        &[a, M],
        &[M, a, M, 0],
        &[M, a, 0, 0],
        &[0, 0, 0, M],
        &[M, M, M, M],
        &[a, M, 0, 0, 0, 0],
        &[a, 0, M, 0, 0, 1],
        &[M],
        &[a],
    ];
    for block in blocks {
        for k in [1, 2, 3, 4, 6].into_iter().filter(|k| block.len() % k == 0) {
            let len = block.len() / k;
            let pieces: Vec<Vec<u8>> = (0..k).rev().map(|i| piece(&unit(k, i), block)).collect();
            let mut case = history(k, len, &pieces);
            let lent = k * (k + len);
            for room in [0, block.len() - 1, block.len(), block.len() + 1] {
                case.push(recover(lent, &vec![FILL; room]));
            }
            cases.push(case);
        }
    }
}
