//! The field of FIPS 197. A sum is exclusive or.
use crate::entries;

pub fn mul(a: u8, b: u8) -> u8 {
    unsafe { entries::rlnc_gf256_mul(a, b) }
}

/// Zero has no inverse.
pub fn inv(a: u8) -> Option<u8> {
    let mut inverse = 0;
    unsafe { entries::rlnc_gf256_inv(a, &mut inverse) }.then_some(inverse)
}

/// Division by zero has no answer.
pub fn div(a: u8, b: u8) -> Option<u8> {
    let mut quotient = 0;
    unsafe { entries::rlnc_gf256_div(a, b, &mut quotient) }.then_some(quotient)
}
