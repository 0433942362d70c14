//! Every operation on edge words, against arithmetic modulo P that is written here with Rust's own `u128`.

use lichenfrock::{Goldilocks, Refusal};

const P: u128 = Goldilocks::ORDER_U64 as u128;

/// Words near every boundary: 0, 2^16, 2^31, 2^32, 2^33, 2^48, 2^63, P / 2, P and 2^64.
fn edge_words() -> Vec<u64> {
    let boundaries = [
        0,
        1 << 16,
        1 << 31,
        1 << 32,
        1 << 33,
        1 << 48,
        1 << 63,
        Goldilocks::ORDER_U64 / 2,
        Goldilocks::ORDER_U64,
    ];
    boundaries
        .iter()
        .flat_map(|boundary: &u64| (0..7).map(move |k| boundary.wrapping_add(k).wrapping_sub(3)))
        .collect()
}

fn power(x: u128, mut exp: u64) -> u128 {
    let (mut square, mut product) = (x % P, 1);
    while exp > 0 {
        if exp % 2 == 1 {
            product = product * square % P;
        }
        square = square * square % P;
        exp /= 2;
    }
    product
}

#[track_caller]
fn same(ours: Goldilocks, element: u128) {
    assert_eq!(u128::from(ours.as_canonical_u64()), element % P);
}

#[test]
fn of_two_words() {
    for x in edge_words() {
        for y in edge_words() {
            let (a, b) = (Goldilocks::new(x), Goldilocks::new(y));
            let (m, n) = (u128::from(x), u128::from(y));
            same(a + b, m + n);
            same(a - b, m + 2 * P - n);
            same(a * b, m * n % P);
            same(Goldilocks::reduce128((n << 64) + m), (n << 64) + m);
            same(Goldilocks::from_u128((n << 64) + m), (n << 64) + m);
            assert_eq!(a == b, m % P == n % P);
            assert_eq!(a.cmp(&b), (m % P).cmp(&(n % P)));
            let mut assigned = a;
            assigned += b;
            assigned *= a;
            assigned -= b;
            same(assigned, ((m + n) % P * (m % P) + 2 * P - n) % P);
        }
    }
}

#[test]
fn of_one_word() {
    for x in edge_words() {
        let (a, m) = (Goldilocks::new(x), u128::from(x));
        same(-a, 2 * P - m);
        same(a.square(), m * m % P);
        same(a.halve() + a.halve(), m);
        same(a.injective_exp_root_n(), power(m, 10_540_996_611_094_048_183));
        assert_eq!(a.is_zero(), m % P == 0);
        match a.try_inverse() {
            Ok(inverse) => same(inverse * a, 1),
            Err(refusal) => assert!(refusal == Refusal::InverseOfZero && m % P == 0),
        }
        match a.try_sqrt() {
            Ok(root) => same(root.square(), m),
            Err(refusal) => assert!(refusal == Refusal::NoSquareRoot && power(m, (P as u64 - 1) / 2) == P - 1),
        }
        for exp in (0..400).chain([u64::MAX]) {
            same(a.mul_2exp_u64(exp), m % P * power(2, exp));
            same(a.div_2exp_u64(exp), m % P * power(power(2, exp), P as u64 - 2));
        }
        for k in 0..=33 {
            assert_eq!(
                a.slot(k),
                if k <= 32 {
                    Ok((m % P) as u64 & ((1 << k) - 1))
                } else {
                    Err(Refusal::Above32)
                }
            );
        }
        assert_eq!(Goldilocks::from_canonical_checked_u64(x).is_ok(), m < P);
        same(Goldilocks::from_i64(x as i64), (i128::from(x as i64) + P as i128) as u128);
    }
}

#[test]
fn of_lists() {
    let words: Vec<u64> = edge_words().into_iter().cycle().take(4_097).collect();
    let list: Vec<Goldilocks> = words.iter().copied().map(Goldilocks::new).collect();
    for n in [0, 1, 2, 3, 4, 5, 63, 4_095, 4_096] {
        let total = words[..n].iter().map(|&x| u128::from(x)).sum::<u128>();
        let pairs = words[..n]
            .iter()
            .zip(&words[1..])
            .map(|(&x, &y)| u128::from(x) * u128::from(y) % P)
            .sum::<u128>();
        same(Goldilocks::sum_array(&list[..n]).unwrap(), total);
        same(list[..n].iter().sum(), total);
        same(list[..n].iter().copied().sum(), total);
        same(Goldilocks::dot_product(&list[..n], &list[1..=n]).unwrap(), pairs);
    }
    for three in list.windows(3) {
        for n in 0..=3 {
            let sum: Goldilocks = three[..n].iter().sum();
            assert_eq!(Goldilocks::sum_array(&three[..n]).map(Goldilocks::held_word), Ok(sum.held_word()));
        }
    }
    same(
        list[1..8].iter().product(),
        words[1..8].iter().fold(1, |product, &x| product * u128::from(x) % P),
    );
    same(
        list[1..8].iter().copied().product(),
        words[1..8].iter().fold(1, |product, &x| product * u128::from(x) % P),
    );
}

#[test]
fn generators() {
    let generators: Vec<Goldilocks> = (0..=32).map(|bits| Goldilocks::two_adic_generator(bits).unwrap()).collect();
    assert_eq!(generators[0], Goldilocks::ONE);
    assert_eq!(generators[1], Goldilocks::NEG_ONE);
    assert!(generators.windows(2).all(|pair| pair[1].square() == pair[0]));
    assert_eq!(Goldilocks::two_adic_generator(33), Err(Refusal::Above32));
}
