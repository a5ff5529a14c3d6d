//! The Rust's side of the comparison. `make` writes a script of cases, `drive` runs the Rust on it, `differ` holds the two outputs against
//! each other. `join` prints the listing of a stream, `script` writes the script of the calls that it makes, `parted` says where two listings
//! part, and `streams` writes damaged copies of good streams.
mod decoding;
mod differ;
mod drawn;
mod drive;
mod encoding;
mod forms;
mod join;
mod limits;
mod matrices;
mod odd;
mod paper;
mod parts;
mod recoding;
mod script;
mod stored;

use parts::{Case, Drawn};
use std::io::{BufWriter, Read, Write};

/// So many cases: the odd ones, then twice as many drawn ones as damaged streams. A case whose script is longer than `most` is left out.
fn make(count: usize, seed: u64, most: usize) -> Vec<Case> {
    let mut cases: Vec<Case> = odd::cases();
    let short = |case: &Case| case.iter().map(|call| 31 + call.a.len() + call.b.len() + call.load.len()).sum::<usize>() <= most;
    cases.retain(short);
    cases.truncate(count);
    let drawn = Drawn::new(seed);
    let random = (count - cases.len()) * 2 / 3 + cases.len();
    while cases.len() < count {
        let case = if cases.len() < random { drawn::case(&drawn) } else { drawn::damaged(&drawn) };
        if short(&case) {
            cases.push(case);
        }
    }
    cases
}

fn input() -> Vec<u8> {
    let mut bytes = Vec::new();
    std::io::stdin().read_to_end(&mut bytes).expect("the input is read");
    bytes
}

fn main() {
    let words: Vec<String> = std::env::args().skip(1).collect();
    let words: Vec<&str> = words.iter().map(String::as_str).collect();
    let number = |word: &str| word.parse::<usize>().expect("a number");
    let mut out = BufWriter::new(std::io::stdout().lock());
    match words[..] {
        ["make", count, seed, most] => {
            let mut script = Vec::new();
            make(number(count), number(seed) as u64, number(most)).iter().flatten().for_each(|call| call.put(&mut script));
            out.write_all(&script).expect("the script is written");
        }
        ["drive"] => {
            let mut driver = drive::Driver::default();
            script::read(&input()).into_iter().for_each(|call| writeln!(out, "{}", driver.line(call)).expect("a line is written"));
        }
        ["differ", script, theirs, ours] => {
            drop(out);
            std::process::exit(differ::run(script, theirs, ours));
        }
        ["parted", theirs, ours] => {
            drop(out);
            differ::parted(theirs, ours);
        }
        ["join"] => join::run(&input(), &mut out),
        ["script"] => join::script(&input(), &mut out),
        ["streams", count, seed, folder] => join::streams(number(count), number(seed) as u64, folder),
        _ => {
            let streams = "join | script | parted THEIRS OURS | streams COUNT SEED FOLDER";
            eprintln!("usage: calls make COUNT SEED MOST | drive | differ SCRIPT THEIRS OURS | {streams}");
            std::process::exit(2);
        }
    }
}
