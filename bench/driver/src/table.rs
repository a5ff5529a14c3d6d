//! Tables as bench/README.md has them, so that what is printed can be pasted.

pub fn head(cells: &[&str]) {
    println!("\n| {} |\n|{}", cells.join(" | "), "---|".repeat(cells.len()));
}

pub fn line(cells: &[String]) {
    println!("| {} |", cells.join(" | "));
}

// A number with a comma before each three digits.
pub fn grouped(n: usize) -> String {
    let digits = n.to_string();
    let groups: Vec<&str> = digits.as_bytes().rchunks(3).rev().map(|group| std::str::from_utf8(group).unwrap()).collect();
    groups.join(",")
}

// k x len
pub fn size(k: usize, len: usize) -> String {
    format!("{} x {}", grouped(k), grouped(len))
}

// Bytes in seconds, in GB/s.
pub fn speed(bytes: usize, seconds: f64) -> String {
    format!("{:.2}", bytes as f64 / seconds / 1e9)
}

// The ratio of two times, and the least one that is asked for.
pub fn ratio(theirs: f64, proved: f64, least: f64) -> [String; 2] {
    let ratio = theirs / proved;
    [format!("{ratio:.2}"), format!("{least}{}", if ratio < least { ", missed" } else { "" })]
}
