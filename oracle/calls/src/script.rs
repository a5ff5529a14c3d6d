//! The script: calls one after the other, each with its slices. oracle/README.md has the format.

/// Whom a call asks, and what for: the kinds of call.
pub mod op {
    pub const FIELD: u8 = 0x01;
    pub const SCALE: u8 = 0x02;
    pub const ADD: u8 = 0x03;
    pub const MULTIPLY_ADD: u8 = 0x04;
    pub const PART: u8 = 0x05;
    pub const ADD_ROW: u8 = 0x06;
    pub const SWAP_ROWS: u8 = 0x07;
    pub const RREF: u8 = 0x08;
    pub const PADDED: u8 = 0x11;
    pub const UNPADDED: u8 = 0x12;
    pub const SET_ENCODER: u8 = 0x13;
    pub const CODE_PAYLOAD: u8 = 0x14;
    pub const CODE_WHOLE: u8 = 0x15;
    pub const NEW_RECODER: u8 = 0x21;
    pub const SET_RECODER: u8 = 0x22;
    pub const RECODE: u8 = 0x23;
    pub const NEW_DECODER: u8 = 0x31;
    pub const SET_DECODER: u8 = 0x32;
    pub const DECODE: u8 = 0x33;
    pub const RECOVER: u8 = 0x34;
    pub const SAVE: u8 = 0x35;
    pub const LOAD: u8 = 0x36;
    pub const BEGIN: u8 = 0x40;
}

/// How much of a kept buffer there is to lend: of the block, the pieces and the matrix.
pub const ROOM: usize = 65536;
pub const MATRIX_ROOM: usize = 66048;

#[derive(Clone, Default)]
pub struct Call {
    pub op: u8,
    pub n: [usize; 5],
    pub lent: usize,
    pub load: Vec<u8>,
    pub a: Vec<u8>,
    pub b: Vec<u8>,
}

impl Call {
    pub fn put(&self, out: &mut Vec<u8>) {
        out.push(self.op);
        for n in self.n.iter().chain([&self.lent]) {
            out.extend_from_slice(&u32::try_from(*n).expect("a number of four bytes").to_be_bytes());
        }
        for part in [&self.load, &self.a, &self.b] {
            out.extend_from_slice(&u16::try_from(part.len()).expect("a length of two bytes").to_be_bytes());
        }
        for part in [&self.a, &self.b, &self.load] {
            out.extend_from_slice(part);
        }
    }

    /// In words, for a reader.
    pub fn told(&self) -> String {
        let [p, q, r, s, t] = self.n;
        let what = match self.op {
            op::FIELD => format!("the field at {p}"),
            op::SCALE => format!("scale a by {p}"),
            op::ADD => "add b to a".into(),
            op::MULTIPLY_ADD => format!("add {p} times b to a"),
            op::PART => format!("in a, add {s} times the {r} bytes at {p} to those at {q}"),
            op::ADD_ROW => format!("add row b to matrix a of k {p}, rows {q}, cols {r}"),
            op::SWAP_ROWS => format!("swap rows {s} and {t} of matrix a of k {p}, rows {q}, cols {r}"),
            op::RREF => format!("reduce matrix a of k {p}, rows {q}, cols {r}"),
            op::PADDED => format!("new padded block of data a, k {p}"),
            op::UNPADDED => format!("new unpadded block, k {p}"),
            op::SET_ENCODER => format!("encoder record k {p}, L {q}"),
            op::CODE_PAYLOAD => "code a payload with vector a into b".into(),
            op::CODE_WHOLE => "code a whole piece with vector a into b".into(),
            op::NEW_RECODER => format!("new recoder, F {p}, k {q}"),
            op::SET_RECODER => format!("recoder record pieces {p}, F {q}, k {r}"),
            op::RECODE => "recode with vector a into b".into(),
            op::NEW_DECODER => format!("new decoder, L {p}, k {q}"),
            op::SET_DECODER => format!("decoder record k {p}, L {q}, rows {r}, taken {s}"),
            op::DECODE => "take piece a".into(),
            op::RECOVER => "recover into b".into(),
            op::SAVE => "save the decoder into b".into(),
            op::LOAD => "load the decoder of form a".into(),
            _ => "a case begins".into(),
        };
        let bytes = |name: &str, part: &[u8]| if part.is_empty() { String::new() } else { format!("\n  {name} {}", hex(part)) };
        let lent = if (0x10..0x40).contains(&self.op) { format!(", {} bytes lent", self.lent) } else { String::new() };
        format!("{what}{lent}{}{}{}", bytes("a:", &self.a), bytes("b:", &self.b), bytes("written anew:", &self.load))
    }
}

pub fn hex(part: &[u8]) -> String {
    let digit = |n: u8| char::from(b"0123456789abcdef"[n as usize]);
    part.iter().flat_map(|byte| [digit(byte >> 4), digit(byte & 15)]).collect()
}

/// The calls of a script, up to one that is cut short.
pub fn read(script: &[u8]) -> Vec<Call> {
    let mut calls = Vec::new();
    let mut at = 0;
    while let Some(head) = script.get(at..at + 31) {
        let four = |i: usize| u32::from_be_bytes(head[i..i + 4].try_into().unwrap()) as usize;
        let two = |i: usize| u16::from_be_bytes(head[i..i + 2].try_into().unwrap()) as usize;
        let lens = [two(27), two(29), two(25)];
        at += 31;
        let mut part = |len: usize| {
            at += len;
            script.get(at - len..at).map(<[u8]>::to_vec)
        };
        let (Some(a), Some(b), Some(load)) = (part(lens[0]), part(lens[1]), part(lens[2])) else { break };
        calls.push(Call { op: head[0], n: [four(1), four(5), four(9), four(13), four(17)], lent: four(21), load, a, b });
    }
    calls
}
