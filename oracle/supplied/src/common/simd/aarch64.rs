//! Not the Rust's text: its own file was not to be had. Each function answers `false`, "not done here", and touches nothing, so that the
//! portable loops of simd/mod.rs do the work.

#[inline(always)]
pub fn gf256_inplace_mul_vec_by_scalar(_vec: &mut [u8], _scalar: u8) -> bool {
    false
}

#[inline(always)]
pub fn gf256_inplace_add_vectors(_vec_dst: &mut [u8], _vec_src: &[u8]) -> bool {
    false
}

#[inline(always)]
pub fn gf256_mul_vec_by_scalar_then_add_into_vec(_add_into_vec: &mut [u8], _mul_vec: &[u8], _scalar: u8) -> bool {
    false
}
