//! Matrices that the rules are applied to as they are given, loaded ones that no history of calls makes among them.
use crate::parts::*;
use crate::script::op;

/// A matrix in a buffer with a few bytes more. Rows that end early are filled with payload bytes that tell them apart.
fn reduced(k: usize, cols: usize, rows: &[Vec<u8>]) -> Case {
    let mut buffer = Vec::new();
    for (i, row) in rows.iter().enumerate() {
        buffer.extend_from_slice(row);
        buffer.extend((row.len()..cols).map(|j| (16 * (i + 1) + j - row.len()) as u8));
    }
    buffer.resize(k * cols + 3, 0xee);
    alone(plain(op::RREF, [k, rows.len(), cols, 0, 0], &buffer, &[]))
}

pub fn cases(cases: &mut Vec<Case>, drawn: &Drawn) {
    for (k, cols) in [(0, 0), (0, 3), (1, 1), (1, 3), (2, 4), (5, 7)] {
        cases.push(reduced(k, cols, &[]));
    }
    for byte in [0, 1, 2, 141, 255] {
        cases.push(reduced(1, 1, &[vec![byte]]));
        cases.push(reduced(1, 3, &[vec![byte, byte, 7]]));
    }
    units_and_zeros(cases);
    late_columns(cases, drawn);
    first_row_below(cases);
    multiples(cases, drawn);
    sizes(cases, drawn);
    // the larger sizes of the streams, all rows held, and two of the same coefficients
    for (k, cols) in [(16, 256), (32, 512)] {
        let mut rows: Vec<Vec<u8>> = (0..k).map(|_| drawn.bytes(cols)).collect();
        rows[k / 2] = [rows[1][..k].to_vec(), rows[k / 2][k..].to_vec()].concat();
        cases.push(reduced(k, cols, &rows));
    }
}

fn units_and_zeros(cases: &mut Vec<Case>) {
    for k in [2, 3, 4] {
        for cols in [k, k + 2] {
            (1..=k).for_each(|n| cases.push(reduced(k, cols, &vec![vec![0; k]; n])));
            cases.push(reduced(k, cols, &(0..k).map(|i| unit(k, i)).collect::<Vec<_>>()));
            cases.push(reduced(k, cols, &(0..k).rev().map(|i| unit(k, i)).collect::<Vec<_>>()));
            for i in 0..k {
                (1..=k).for_each(|n| cases.push(reduced(k, cols, &vec![unit(k, i); n])));
                let mut rows = vec![unit(k, i); k];
                rows[k - 1] = unit(k, (i + 1) % k);
                cases.push(reduced(k, cols, &rows));
            }
        }
    }
}

fn late_columns(cases: &mut Vec<Case>, drawn: &Drawn) {
    for k in [3, 4, 5] {
        for from in 1..k {
            for n in [k - from, k] {
                let rows: Vec<Vec<u8>> = (0..n).map(|_| [vec![0; from], drawn.bytes(k - from)].concat()).collect();
                cases.push(reduced(k, k + 2, &rows));
            }
        }
    }
}

/// The first row below with a nonzero entry is not the last.
fn first_row_below(cases: &mut Vec<Case>) {
    let three: [[[u8; 3]; 3]; 5] = [
        [[0, 1, 2], [3, 0, 1], [5, 1, 0]],
        [[0, 0, 1], [0, 1, 0], [1, 0, 0]],
        [[0, 0, 0], [7, 0, 0], [9, 0, 0]],
        [[0, 0, 0], [7, 1, 0], [9, 0, 3]],
        [[0, 0, 1], [0, 0, 1], [0, 1, 0]],
    ];
    three.iter().for_each(|rows| cases.push(reduced(3, 5, &rows.map(|row| row.to_vec()))));
    let four: [[[u8; 4]; 4]; 2] =
        [[[0, 1, 0, 0], [0, 0, 1, 0], [2, 0, 0, 1], [3, 0, 1, 0]], [[1, 2, 3, 4], [2, 4, 6, 9], [3, 6, 5, 1], [1, 2, 3, 5]]];
    four.iter().for_each(|rows| cases.push(reduced(4, 6, &rows.map(|row| row.to_vec()))));
    cases.push(reduced(2, 3, &[vec![3, 1, 1], vec![0, 1, 2]]));
}

fn multiples(cases: &mut Vec<Case>, drawn: &Drawn) {
    for k in [2, 3, 4, 5] {
        let (row, other) = (drawn.bytes(k), drawn.bytes(k));
        cases.push(reduced(k, k + 2, &[row.clone(), row.clone()]));
        cases.push(reduced(k, k, &vec![row.clone(); k]));
        if k > 2 {
            let sum = combined(&[1, 1], &[row.clone(), other.clone()].concat(), k);
            cases.push(reduced(k, k + 2, &[row.clone(), other.clone(), sum]));
            cases.push(reduced(k, k, &[vec![0; k], row.clone(), vec![0; k]]));
            cases.push(reduced(k, k + 1, &[row.clone(), vec![0; k], other.clone()]));
            cases.push(reduced(k, k + 2, &[other, [vec![0; k - 1], vec![9]].concat(), row]));
        }
    }
}

/// Records that fit the buffer and records that do not, for each of the three entries.
fn sizes(cases: &mut Vec<Case>, drawn: &Drawn) {
    for (k, rows, cols) in
        [(0, 0, 0), (0, 1, 0), (2, 0, 3), (2, 1, 3), (2, 2, 3), (2, 3, 3), (3, 1, 2), (2, 1, 2), (2, 4294967295, 3), (4294967295, 1, 4294967295)]
    {
        for room in [0, 5, 6, 8] {
            let buffer = drawn.bytes(room);
            let mut case = alone(plain(op::RREF, [k, rows, cols, 0, 0], &buffer, &[]));
            for len in [2, 3, 4] {
                case.push(plain(op::ADD_ROW, [k, rows, cols, 0, 0], &buffer, &drawn.bytes(len)));
            }
            for (i, j) in [(0, 0), (0, 1), (1, 0), (1, 1), (2, 0), (0, 2)] {
                case.push(plain(op::SWAP_ROWS, [k, rows, cols, i, j], &buffer, &[]));
            }
            cases.push(case);
        }
    }
}

/// Few values, sparse, or all bytes.
pub fn drawn(drawn: &Drawn) -> Case {
    let k = drawn.within(1, 8);
    let cols = k + drawn.of(&[0, 1, 2, 5, 9]);
    let n = drawn.of(&[k, k, drawn.below(k + 1)]);
    let (most, empty) = (drawn.of(&[2, 3, 4, 256]), drawn.of(&[0, 0, 3, 6]));
    let mut rows: Vec<Vec<u8>> =
        (0..n).map(|_| (0..cols).map(|_| if drawn.below(10) < empty { 0 } else { drawn.below(most) as u8 }).collect()).collect();
    if n > 1 && drawn.one_in(3) {
        rows[n - 1] = combined(&drawn.bytes(n - 1), &rows[..n - 1].concat(), cols);
    }
    let mut case = reduced(k, cols, &rows);
    if drawn.one_in(4) {
        let (buffer, row) = (drawn.bytes(drawn.around(k * cols)), drawn.bytes(drawn.around(cols)));
        case.push(plain(op::ADD_ROW, [k, drawn.below(k + 1), cols, 0, 0], &buffer, &row));
        case.push(plain(op::SWAP_ROWS, [k, n, cols, drawn.below(k + 1), drawn.below(k)], &buffer, &[]));
    }
    case
}
