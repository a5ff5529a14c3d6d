//! Measures the row helpers, the work on whole pieces and a stream: the Rust's portable loops and the proved code, in one run, turn by turn, after
//! a check that both give the same bytes; then the proved code beside other libraries. `bench/run` builds and starts it, with the names of
//! the parts to measure, or none for all.
mod others;
mod ours;
mod pieces;
mod stream;
mod table;

use rlnc::common::simd;
use std::hint::black_box;
use std::time::Instant;

// The bytes of xorshift64*, so that each run sees the same rows. (Without the product all vectors would be sums of 64.)
struct Bytes(u64);

impl Bytes {
    fn next(&mut self) -> u8 {
        self.0 ^= self.0 << 13;
        self.0 ^= self.0 >> 7;
        self.0 ^= self.0 << 17;
        (self.0.wrapping_mul(0x2545f4914f6cdd1d) >> 56) as u8
    }

    fn row(&mut self, len: usize) -> Vec<u8> {
        (0..len).map(|_| self.next()).collect()
    }
}

// A row helper at work on two rows of len bytes, of which the first is changed. The proved ones answer with a number, and 0 is Ok.
type Helper = fn(&mut [u8], usize, u8) -> u8;

struct Work {
    name: &'static str,
    theirs: Helper,
    proved: Helper,
}

const MULTIPLY_ADD: Work = Work {
    name: "multiply and add",
    theirs: |rows, len, factor| {
        let (dst, src) = rows.split_at_mut(len);
        simd::gf256_mul_vec_by_scalar_then_add_into_vec(dst, src, factor);
        0
    },
    proved: |rows, len, factor| {
        let (dst, src) = rows.split_at_mut(len);
        ours::mul_vec_by_scalar_then_add_into_vec(dst, src, factor)
    },
};

const IN_ONE_BUFFER: Work = Work {
    name: "the same in one buffer",
    theirs: MULTIPLY_ADD.theirs,
    proved: |rows, len, factor| ours::mul_part_by_scalar_then_add_into_part(rows, len, 0, len, factor),
};

const SCALE: Work = Work {
    name: "scale",
    theirs: |rows, len, factor| {
        simd::gf256_inplace_mul_vec_by_scalar(&mut rows[..len], factor);
        0
    },
    proved: |rows, len, factor| {
        ours::inplace_mul_vec_by_scalar(&mut rows[..len], factor);
        0
    },
};

const ADD: Work = Work {
    name: "add",
    theirs: |rows, len, _| {
        let (dst, src) = rows.split_at_mut(len);
        simd::gf256_inplace_add_vectors(dst, src);
        0
    },
    proved: |rows, len, _| {
        let (dst, src) = rows.split_at_mut(len);
        ours::inplace_add_vectors(dst, src)
    },
};

// Both give the same bytes, for each factor, on rows of each length to 70 and of those measured.
fn compare() -> usize {
    let mut bytes = Bytes(0x9e3779b97f4a7c15);
    let mut cases = 0;
    for len in (0..=70).chain([512, 4352]) {
        for factor in 0..=255 {
            let rows = bytes.row(2 * len);
            for work in [MULTIPLY_ADD, IN_ONE_BUFFER, SCALE, ADD] {
                let (mut a, mut b) = (rows.clone(), rows.clone());
                (work.theirs)(&mut a, len, factor);
                let answer = (work.proved)(&mut b, len, factor);
                assert!(answer == 0 && a == b, "{}, rows of {len} bytes, factor {factor}: the bytes differ", work.name);
                cases += 1;
            }
        }
    }
    cases
}

// The seconds of a call, over a batch.
fn timed(helper: Helper, rows: &mut [u8], len: usize, factors: &[u8], batch: usize) -> f64 {
    let start = Instant::now();
    for i in 0..batch {
        black_box(helper(black_box(rows), len, black_box(factors[i % factors.len()])));
    }
    start.elapsed().as_secs_f64() / batch as f64
}

// The best seconds of a call for each of the two, over batches that take turns on the same rows.
fn measure(work: &Work, len: usize, factors: &[u8]) -> (f64, f64) {
    let mut room = Bytes(0x2545f4914f6cdd1d).row(2 * len + 64);
    let at = room.as_ptr().align_offset(64);
    let rows = &mut room[at..at + 2 * len];
    let batch = 200_000 / len + 20;
    let mut best = (f64::MAX, f64::MAX);
    for _ in 0..300 {
        best.0 = best.0.min(timed(black_box(work.theirs), rows, len, factors, batch));
        best.1 = best.1.min(timed(black_box(work.proved), rows, len, factors, batch));
    }
    best
}

fn main() {
    let named: Vec<String> = std::env::args().skip(1).collect();
    let parts: [(&str, fn()); 4] = [("rows", rows), ("pieces", pieces::run), ("stream", stream::run), ("others", others::run)];
    if let Some(name) = named.iter().find(|name| parts.iter().all(|(part, _)| part != name)) {
        eprintln!("bench: no part '{name}'; there are rows, pieces, stream, others");
        std::process::exit(2);
    }
    for (part, run) in parts {
        if named.is_empty() || named.iter().any(|name| name == part) {
            run();
        }
    }
}

fn rows() {
    println!("\nrows: the same bytes in {} cases", table::grouped(compare()));
    let mut bytes = Bytes(0xd1342543de82ef95);
    let many: Vec<u8> = (0..251).map(|_| bytes.next() % 254 + 2).collect();
    let runs: [(&str, Work, &[u8]); 8] = [
        ("", MULTIPLY_ADD, &many),
        ("", IN_ONE_BUFFER, &many),
        ("", SCALE, &many),
        ("", ADD, &many),
        (", factor 1", MULTIPLY_ADD, &[1]),
        (", factor 0", MULTIPLY_ADD, &[0]),
        (", factor 0", SCALE, &[0]),
        (", factor 1", SCALE, &[1]),
    ];
    table::head(&["work", "bytes", "Rust, ns", "proved, ns", "Rust, GB/s", "proved, GB/s", "ratio"]);
    for (factor, work, factors) in runs {
        for len in [512, 4352] {
            let (theirs, proved) = measure(&work, len, factors);
            let idle = factors == [0] || (work.name == SCALE.name && factors == [1]);
            let speed = |seconds| if idle { String::new() } else { table::speed(len, seconds) };
            table::line(&[
                format!("{}{factor}", work.name),
                table::grouped(len),
                format!("{:.1}", theirs * 1e9),
                format!("{:.1}", proved * 1e9),
                speed(theirs),
                speed(proved),
                format!("{:.2}", theirs / proved),
            ]);
        }
    }
}
