//! A stand-in for rand 0.9, with the names that the Rust uses and no more: `Rng` with `fill_bytes`, through its supertrait `RngCore`, and
//! `random`; `distr::{Distribution, StandardUniform}`. Nothing here is random.

pub trait RngCore {
    fn fill_bytes(&mut self, dst: &mut [u8]);
}

pub trait Rng: RngCore {
    fn random<T>(&mut self) -> T
    where
        distr::StandardUniform: distr::Distribution<T>,
    {
        use distr::Distribution;
        distr::StandardUniform.sample(self)
    }
}

impl<R: RngCore + ?Sized> Rng for R {}

impl<R: RngCore + ?Sized> RngCore for &mut R {
    fn fill_bytes(&mut self, dst: &mut [u8]) {
        (**self).fill_bytes(dst)
    }
}

pub mod distr {
    use super::Rng;

    pub trait Distribution<T> {
        fn sample<R: Rng + ?Sized>(&self, rng: &mut R) -> T;
    }

    pub struct StandardUniform;

    impl Distribution<u8> for StandardUniform {
        fn sample<R: Rng + ?Sized>(&self, rng: &mut R) -> u8 {
            let mut byte = [0u8; 1];
            rng.fill_bytes(&mut byte);
            byte[0]
        }
    }
}

/// Hands out the bytes that it was given, in order. To ask for more than are left is a fault of the test, and panics.
pub struct Script<'a> {
    left: &'a [u8],
}

impl<'a> Script<'a> {
    pub fn new(bytes: &'a [u8]) -> Self {
        Script { left: bytes }
    }

    pub fn left(&self) -> usize {
        self.left.len()
    }
}

impl RngCore for Script<'_> {
    fn fill_bytes(&mut self, dst: &mut [u8]) {
        assert!(dst.len() <= self.left.len(), "the script has {} bytes left, and {} were asked for", self.left.len(), dst.len());
        let (now, later) = self.left.split_at(dst.len());
        dst.copy_from_slice(now);
        self.left = later;
    }
}
