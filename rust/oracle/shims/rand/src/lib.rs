//! In place of rand: the traits by which the source samples, which nothing here does.

pub trait Rng {
    fn next_u64(&mut self) -> u64;
}

pub mod distr {
    use super::Rng;

    pub struct StandardUniform;

    pub trait Distribution<T> {
        fn sample<R: Rng + ?Sized>(&self, rng: &mut R) -> T;
    }
}
