//! Cases at the limits: every refusal of each entry on both sides of its condition, and the order of those that hold together.
use crate::parts::*;

const FILL: u8 = 0xee;

pub fn cases(cases: &mut Vec<Case>) {
    padded_blocks(cases);
    unpadded_blocks(cases);
    coding(cases);
    recoders(cases);
    recoding(cases);
    new_decoders(cases);
    taking(cases);
    records(cases);
}

fn padded_blocks(cases: &mut Vec<Case>) {
    for (n, k) in [(0, 0), (0, 1), (0, 257), (1, 0), (1, 257), (1, 65536), (4095, 1), (4096, 1), (4097, 1), (1, 5), (4, 3), (5, 3), (6, 3)] {
        let size = if k == 0 || k > 256 { 8 } else { k * (n + 1_usize).div_ceil(k) };
        for room in [0, size - 1, size, size + 3] {
            cases.push(alone(padded(&vec![7; n], k, &vec![FILL; room])));
        }
    }
    for (n, k) in [(254, 255), (255, 255), (254, 256), (255, 256), (256, 256), (257, 256), (511, 256)] {
        let size = k * (n + 1_usize).div_ceil(k);
        for room in [size - 1, size] {
            cases.push(alone(padded(&vec![7; n], k, &vec![FILL; room])));
        }
    }
    // every length for small k, each block then read back by unit vectors
    for k in 1..=6 {
        for n in 1..=14 {
            let len = (n + 1_usize).div_ceil(k);
            let data: Vec<u8> = (0..n).map(|i| [0x81, 0, 0x61][(i + n) % 3]).collect();
            let mut case = alone(padded(&data, k, &vec![FILL; k * len + n % 3]));
            (0..k).for_each(|i| case.push(whole(k * len, &unit(k, i), &vec![FILL; k + len])));
            cases.push(case);
        }
    }
}

fn unpadded_blocks(cases: &mut Vec<Case>) {
    for (n, k) in [
        (0, 0),
        (0, 257),
        (1, 0),
        (1, 257),
        (257, 257),
        (258, 257),
        (256, 256),
        (512, 256),
        (513, 256),
        (4096, 1),
        (4097, 1),
        (8193, 2),
        (6, 3),
        (7, 3),
        (2, 3),
    ] {
        cases.push(alone(unpadded(&vec![7; n], k)));
    }
}

fn coding(cases: &mut Vec<Case>) {
    let block = [1, 2, 3, 4, 5, 6];
    for lent in [0, 5, 6, 7] {
        for vector in [0, 2, 3, 4] {
            let mut case = alone(unpadded(&block, 3));
            for out in [1, 2, 3] {
                case.push(payload(lent, &vec![3; vector], &vec![FILL; out]));
                case.push(whole(lent, &vec![3; vector], &vec![FILL; out + 3]));
            }
            cases.push(case);
        }
    }
    // a refused block leaves the encoder as it was
    let mut case = alone(unpadded(&block, 3));
    case.push(unpadded(&block, 4));
    case.push(payload(6, &[1, 2, 3], &[FILL; 2]));
    cases.push(case);
    let mut case = alone(payload(6, &[], &[]));
    case.push(whole(0, &[], &[]));
    cases.push(case);
    for (k, len) in [(0, 1), (1, 0), (256, 1), (257, 1), (1, 4096), (1, 4097), (256, 4096), (0, 0), (4294967295, 4294967295)] {
        let mut case = alone(set_encoder(k, len));
        for lent in [0, 255, 256] {
            let vector = vec![2; if k == 256 { 256 } else { 1 }];
            case.push(payload(lent, &vector, &vec![FILL; len.min(5)]));
            case.push(whole(lent, &vector, &vec![FILL; vector.len() + 1]));
        }
        cases.push(case);
    }
}

fn recoders(cases: &mut Vec<Case>) {
    let sizes = [
        (0, 0, 0),
        (0, 3, 2),
        (1, 0, 0),
        (1, 0, 2),
        (1, 3, 0),
        (1, 1, 1),
        (3, 2, 3),
        (3, 3, 3),
        (1, 4, 3),
        (4, 5, 3),
        (5, 5, 3),
        (9, 5, 3),
        (10, 5, 3),
        (512, 2, 1),
        (513, 2, 1),
        (514, 2, 1),
        (515, 2, 1),
        (257, 257, 256),
        (258, 258, 257),
        (256, 257, 256),
        (257, 258, 257),
        (4097, 4097, 1),
        (4098, 4098, 1),
        (4097, 4098, 1),
        (4352, 4352, 256),
        (4353, 4353, 256),
        (1, 4294967295, 4294967294),
    ];
    for (n, full, k) in sizes {
        cases.push(alone(new_recoder(&vec![7; n], full, k)));
    }
}

fn recoding(cases: &mut Vec<Case>) {
    let pieces: Vec<u8> = (1..=17).collect();
    for lent in [0, 14, 15, 16] {
        for vector in [0, 2, 3, 4] {
            let mut case = alone(new_recoder(&pieces, 5, 3));
            [4, 5, 6].iter().for_each(|out| case.push(recode(lent, &vec![9; vector], &vec![FILL; *out])));
            cases.push(case);
        }
    }
    // a refused one leaves the recoder as it was
    let mut case = alone(recode(0, &[], &[]));
    case.push(new_recoder(&pieces, 5, 3));
    case.push(new_recoder(&pieces[..4], 5, 3));
    case.push(recode(15, &[1, 2, 3], &[FILL; 5]));
    cases.push(case);
    for (m, full, k) in [(0, 5, 3), (1, 0, 0), (1, 3, 3), (1, 4, 3), (256, 2, 1), (257, 2, 1), (1, 257, 256), (1, 258, 257), (1, 4098, 1), (1, 2, 3)]
    {
        for lent in [0, 511, 512] {
            let mut case = alone(set_recoder(m, full, k));
            case.push(recode(lent, &vec![2; m], &vec![FILL; full.min(260)]));
            cases.push(case);
        }
    }
    let mut case = alone(set_recoder(1, 4097, 1));
    [4096, 4097].iter().for_each(|lent| case.push(recode(*lent, &[3], &[FILL; 4097])));
    cases.push(case);
}

fn new_decoders(cases: &mut Vec<Case>) {
    for (len, k) in [(0, 0), (0, 1), (0, 257), (1, 0), (4097, 0), (4097, 257), (1, 257), (4097, 1), (1, 1), (2, 3), (4294967295, 1), (1, 4294967295)]
    {
        let size = if k == 3 { 15 } else { 2 };
        for room in [0, size - 1, size, size + 3] {
            cases.push(alone(new_decoder(len, k, &vec![FILL; room])));
        }
    }
    for room in [4096, 4097, 4098] {
        cases.push(alone(new_decoder(4096, 1, &vec![FILL; room])));
    }
}

/// F - 1, F and F + 1, each with a matrix that is too short, long enough and longer; 9 before 12, 12 before 23.
fn taking(cases: &mut Vec<Case>) {
    for lent in [14, 15, 16] {
        let mut case = alone(new_decoder(2, 3, &[FILL; 18]));
        for vector in [[0, 0, 1], [0, 0, 1], [1, 0, 0], [0, 1, 0], [1, 1, 1]] {
            let piece = [vector.to_vec(), vec![5, 0x81, 7]].concat();
            (3..=6).for_each(|n| case.push(decode(lent, &piece[..n])));
            case.push(decode(lent, &[]));
            [5, 6, 8].iter().for_each(|room| case.push(recover(lent, &vec![FILL; *room])));
        }
        // a refused one leaves the decoder as it was
        case.push(new_decoder(0, 3, &[]));
        case.push(recover(lent, &[FILL; 9]));
        cases.push(case);
    }
    for taken in [65533, 65534, 65535, 65536] {
        for rows in [0, 1, 2] {
            let mut case = alone(set_decoder([2, 1, rows, taken], &[1, 0, 5, 0, 1, 6, FILL]));
            for piece in [&[0, 0, 1][..], &[0, 1], &[0, 0, 1], &[1, 1, 2], &[1, 0, 2], &[1, 1, 2, 3]] {
                case.push(decode(6, piece));
            }
            case.push(recover(7, &[FILL; 3]));
            cases.push(case);
        }
    }
}

/// Records of good and of bad numbers beside the same matrix.
fn records(cases: &mut Vec<Case>) {
    let matrix: Vec<u8> = (0..40).map(|i| (i * 7 % 5) as u8).collect();
    for k in [0, 1, 3, 256, 257] {
        for len in [0, 2, 4096, 4097] {
            for (rows, taken) in [(0, 0), (1, 1), (1, 0), (3, 3), (3, 2), (4, 4), (k, 65535), (k, 65536), (k + 1, 65535)] {
                let mut case = alone(set_decoder([k, len, rows, taken], &matrix));
                case.push(decode(40, &vec![1; (k + len).min(60)]));
                case.push(recover(40, &vec![FILL; (k * len).min(60)]));
                cases.push(case);
            }
        }
    }
}
