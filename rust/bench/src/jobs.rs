//! What is timed.

use crate::rounds::Job;
use lichenfrock::Goldilocks;
use oracle::{Arithmetic, Random, Source};
use std::cell::RefCell;
use std::hint::black_box;

/// Words in a list, and calls in a timing of an operation on words.
const COUNT: usize = 4096;
/// Calls in a timing of inverses and roots.
const FEW: usize = 64;

/// The Rust's operations behind a call.
mod called {
    use super::{Arithmetic, Source};

    macro_rules! called {
        ($($operation:ident($($x:ident),*))*) => {
            $(
                #[inline(never)]
                pub fn $operation($($x: u64),*) -> u64 {
                    Source::$operation($($x),*)
                }
            )*
        };
    }

    called!(add(x, y) mul(x, y) square(x) mul_2exp_u64(x, exp) div_2exp_u64(x, exp));
}

/// The jobs, in document 01's order.
pub fn all() -> Vec<Job> {
    let any = |random: &mut Random| random.word();
    let exponent = |random: &mut Random| random.word() % 192;
    vec![
        each("add, call", any, |x, y| x + Goldilocks::new(y), called::add),
        each("add, in line", any, |x, y| x + Goldilocks::new(y), Source::add),
        each("mul, call", any, |x, y| x * Goldilocks::new(y), called::mul),
        each("mul, in line", any, |x, y| x * Goldilocks::new(y), Source::mul),
        each("square, call", any, |x, _| x.square(), |x, _| called::square(x)),
        each("square, in line", any, |x, _| x.square(), |x, _| Source::square(x)),
        sum(),
        dots::<8>(),
        dots::<64>(),
        dots::<4096>(),
        each("mul_2exp_u64, call", exponent, Goldilocks::mul_2exp_u64, called::mul_2exp_u64),
        each("mul_2exp_u64, in line", exponent, Goldilocks::mul_2exp_u64, Source::mul_2exp_u64),
        each("div_2exp_u64, call", exponent, Goldilocks::div_2exp_u64, called::div_2exp_u64),
        each("div_2exp_u64, in line", exponent, Goldilocks::div_2exp_u64, Source::div_2exp_u64),
        few("try_inverse", |x| x.try_inverse().is_ok(), |x| Source::try_inverse(x).is_ok()),
        few("try_sqrt", |x| x.try_sqrt().is_ok(), |x| Source::try_sqrt(x).is_ok()),
        encode(),
        decode(),
    ]
}

fn job(name: &str, ours: impl Fn() + 'static, theirs: impl Fn() + 'static) -> Job {
    Job {
        name: name.to_owned(),
        ours: Box::new(ours),
        theirs: Box::new(theirs),
    }
}

/// Random words, and the same as elements.
fn random_words(count: usize) -> (Vec<u64>, Vec<Goldilocks>) {
    let mut random = Random::from(1);
    let words: Vec<u64> = (0..count).map(|_| random.word()).collect();
    let elements = words.iter().copied().map(Goldilocks::new).collect();
    (words, elements)
}

/// An operation on a random word and a second one, over a list into another.
fn each(
    name: &str,
    second: impl Fn(&mut Random) -> u64,
    ours: impl Fn(Goldilocks, u64) -> Goldilocks + 'static,
    theirs: impl Fn(u64, u64) -> u64 + 'static,
) -> Job {
    let mut random = Random::from(1);
    let pairs: Vec<(u64, u64)> = (0..COUNT).map(|_| (random.word(), second(&mut random))).collect();
    let elements: Vec<(Goldilocks, u64)> = pairs.iter().map(|&(x, y)| (Goldilocks::new(x), y)).collect();
    job(name, over(elements, Goldilocks::ZERO, ours), over(pairs, 0, theirs))
}

/// Writes what a function of two gives for each pair.
fn over<X: Copy, Y: Copy, Z: Copy>(pairs: Vec<(X, Y)>, nothing: Z, function: impl Fn(X, Y) -> Z) -> impl Fn() {
    let answers = RefCell::new(vec![nothing; pairs.len()]);
    move || {
        let mut answers = answers.borrow_mut();
        for (answer, &(x, y)) in answers.iter_mut().zip(black_box(&pairs)) {
            *answer = function(x, y);
        }
        black_box(&answers);
    }
}

/// An inverse or a root of each of a few words.
fn few(name: &str, ours: impl Fn(Goldilocks) -> bool + 'static, theirs: impl Fn(u64) -> bool + 'static) -> Job {
    let (words, elements) = random_words(FEW);
    job(
        name,
        move || {
            black_box(black_box(&elements).iter().filter(|&&x| ours(x)).count());
        },
        move || {
            black_box(black_box(&words).iter().filter(|&&x| theirs(x)).count());
        },
    )
}

fn sum() -> Job {
    let (words, elements) = random_words(COUNT);
    job(
        "sum of 4096",
        move || {
            black_box(Goldilocks::sum_array(black_box(&elements)).is_ok());
        },
        move || {
            black_box(Source::sum::<COUNT>(black_box(&words)));
        },
    )
}

/// A list of 4,096 words against itself, `N` pairs at a time.
fn dots<const N: usize>() -> Job {
    let (words, elements) = random_words(COUNT);
    job(
        &format!("dot of {N}"),
        move || {
            for part in black_box(&elements).chunks_exact(N) {
                black_box(Goldilocks::dot_product(part, part).is_ok());
            }
        },
        move || {
            for part in black_box(&words).chunks_exact(N) {
                black_box(Source::dot::<N>(part, part));
            }
        },
    )
}

fn encode() -> Job {
    let (words, elements) = random_words(COUNT);
    job(
        "encode of 4096",
        move || {
            let mut bytes = [0; 8 * COUNT];
            black_box(Goldilocks::encode(black_box(&elements), black_box(&mut bytes)).is_ok());
        },
        move || {
            let mut bytes = [0; 8 * COUNT];
            black_box(Source::encode(black_box(&words), black_box(&mut bytes)).is_ok());
        },
    )
}

fn decode() -> Job {
    let (words, _) = random_words(COUNT);
    let bytes: Vec<u8> = words.into_iter().flat_map(|word| Source::as_canonical_u64(word).to_le_bytes()).collect();
    let same = bytes.clone();
    job(
        "decode of 4096",
        move || {
            let mut words = [Goldilocks::ZERO; COUNT];
            black_box(Goldilocks::decode(black_box(&bytes), black_box(&mut words)).is_ok());
        },
        move || {
            let mut words = [0; COUNT];
            black_box(Source::decode(black_box(&same), black_box(&mut words)).is_ok());
        },
    )
}
