//! The row helpers, under the Rust crate's names without their `gf256_`.
use crate::{entries, RLNCError};

/// Each byte times the scalar.
pub fn inplace_mul_vec_by_scalar(vec: &mut [u8], scalar: u8) {
    unsafe { entries::rlnc_inplace_mul_vec_by_scalar(vec.as_mut_ptr(), vec.len(), scalar) }
}

/// Each byte of `vec_src` added to that of `vec_dst` at its place. 12 for unequal lengths.
pub fn inplace_add_vectors(vec_dst: &mut [u8], vec_src: &[u8]) -> Result<(), RLNCError> {
    RLNCError::check(unsafe { entries::rlnc_inplace_add_vectors(vec_dst.as_mut_ptr(), vec_dst.len(), vec_src.as_ptr(), vec_src.len()) })
}

/// Each byte of `mul_vec` times the scalar added to that of `add_into_vec` at its place. 12 for unequal lengths.
pub fn mul_vec_by_scalar_then_add_into_vec(add_into_vec: &mut [u8], mul_vec: &[u8], scalar: u8) -> Result<(), RLNCError> {
    RLNCError::check(unsafe {
        entries::rlnc_mul_vec_by_scalar_then_add_into_vec(add_into_vec.as_mut_ptr(), add_into_vec.len(), mul_vec.as_ptr(), mul_vec.len(), scalar)
    })
}

/// The `len` bytes at `from` times the scalar added to those at `to`. 22 where the parts do not lie in the buffer, or share a byte.
pub fn mul_part_by_scalar_then_add_into_part(buffer: &mut [u8], from: usize, to: usize, len: usize, scalar: u8) -> Result<(), RLNCError> {
    RLNCError::check(unsafe { entries::rlnc_mul_part_by_scalar_then_add_into_part(buffer.as_mut_ptr(), buffer.len(), from, to, len, scalar) })
}

/// The sum over rows of number times row: rows as long as `out`, one for each number. 22 where `rows` has fewer.
pub fn combine(rows: &[u8], numbers: &[u8], out: &mut [u8]) -> Result<(), RLNCError> {
    RLNCError::check(unsafe { entries::rlnc_combine(rows.as_ptr(), rows.len(), numbers.as_ptr(), numbers.len(), out.as_mut_ptr(), out.len()) })
}
