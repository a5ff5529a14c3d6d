//! Cases of the stored form: refusals on both sides of their conditions, and histories that are saved, loaded and go on.
use crate::parts::*;

const FILL: u8 = 0xee;

/// A form of three pieces of two bytes.
fn form(rows: u8, taken: u16, matrix: &[u8]) -> Vec<u8> {
    let mut form = [&[0x21, rows], &taken.to_be_bytes()[..], matrix].concat();
    form.resize(19, 0);
    form
}

pub fn cases(cases: &mut Vec<Case>) {
    let held = form(2, 3, &[0, 1, 0, 5, 6, 0, 0, 1, 7, 8]);
    for n in [0, 1, 2, 4, 18, 19] {
        cases.push(alone(load(&held[..n], &[FILL; 17])));
    }
    cases.push(alone(load(&[&held[..], &[1, 2]].concat(), &[FILL; 17])));
    for kind in [0x00, 0x01, 0x11, 0x20, 0x24, 0xff] {
        cases.push(alone(load(&[kind], &[FILL; 3])));
    }
    for room in [0, 14, 15, 16] {
        let mut case = alone(load(&held, &vec![FILL; room]));
        [18, 19, 20].iter().for_each(|n| case.push(save(room, &vec![FILL; *n])));
        cases.push(case);
    }
    // 25 before 21, and 21 before 22
    cases.push(alone(load(&held[..18], &[FILL; 14])));
    cases.push(alone(load(&form(4, 4, &[]), &[FILL; 14])));
    for (rows, taken) in [(0, 0), (1, 0), (1, 1), (3, 2), (3, 3), (4, 4), (3, 65535), (255, 65535)] {
        for matrix in [vec![], vec![9; 5], vec![9; 6], vec![9; 15]] {
            let mut case = alone(load(&form(rows, taken, &matrix), &[FILL; 17]));
            case.push(save(16, &[FILL; 21]));
            case.push(decode(16, &[1, 0, 0, 3, 4]));
            case.push(recover(16, &[FILL; 7]));
            cases.push(case);
        }
    }
    // a size that is not listed: 22, 24, 21
    let mut case = alone(new_decoder(1, 3, &[FILL; 12]));
    case.push(save(12, &[]));
    case.push(save(12, &[FILL; 20]));
    case.push(save(11, &[FILL; 20]));
    cases.push(case);
    going_on(cases);
}

/// The paper's stream, saved and loaded into another matrix after each piece.
fn going_on(cases: &mut Vec<Case>) {
    let pieces = [[0, 0, 1, 0x81, 0], [0, 0, 1, 0x81, 0], [0, 0, 1, 0x81, 0], [0, 1, 0, 0x63, 0x64], [1, 0, 0, 0x61, 0x62]];
    let rows: [&[[u8; 5]]; 5] = [&pieces[..1], &pieces[..2], &pieces[2..3], &[pieces[3], pieces[2]], &[pieces[4], pieces[3], pieces[2]]];
    for (taken, held) in rows.iter().enumerate() {
        let mut case = alone(load(&form(held.len() as u8, taken as u16 + 1, &held.concat()), &[FILL; 15]));
        pieces[taken + 1..].iter().for_each(|piece| case.push(decode(15, piece)));
        case.push(save(15, &[FILL; 19]));
        case.push(recover(15, &[FILL; 6]));
        cases.push(case);
    }
}

/// A drawn form, with rows that no history of calls makes, and pieces taken after it.
pub fn drawn(drawn: &Drawn) -> Case {
    let rows = drawn.below(4);
    let most = drawn.of(&[2, 4, 256]);
    let mut matrix: Vec<u8> = (0..5 * rows).map(|_| drawn.below(most) as u8).collect();
    if drawn.one_in(8) {
        matrix.push(drawn.byte());
    }
    let mut bytes = form(rows as u8, (rows + drawn.below(3)).saturating_sub(drawn.below(2)) as u16, &matrix);
    bytes.truncate(drawn.around(19));
    let mut case = alone(load(&bytes, &drawn.bytes(drawn.around(15))));
    for _ in 0..drawn.within(1, 4) {
        case.push(decode(15, &(0..5).map(|_| drawn.below(most) as u8).collect::<Vec<u8>>()));
        case.push(save(15, &drawn.bytes(drawn.around(19))));
    }
    case.push(recover(15, &drawn.bytes(6)));
    case
}
