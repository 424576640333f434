//! Ways to find a greatest common divisor. Each is right for all numbers of 64 bits; the divisor of 0 and 0 is 0.

use crate::chance::Chance;
use std::num::NonZeroU64;

pub type Pair = (u64, u64);

/// A way: its name, its answer to a pair, and the sum of its answers to many, in a loop of its own.
pub struct Method {
    pub name: &'static str,
    of: fn(u64, u64) -> u64,
    pub sum: fn(&[Pair]) -> u64,
}

macro_rules! methods {
    ($($name:ident),*; the proved check takes $in_use:ident) => {
        pub const METHODS: &[Method] = &[$(Method {
            name: stringify!($name),
            of: $name,
            sum: |pairs| pairs.iter().fold(0, |sum, &(a, b)| sum.wrapping_add($name(a, b))),
        }),*];
        pub const IN_USE: &str = stringify!($in_use);
    };
}

methods!(
    euclid, euclid_32, least_remainder, subtract_first, even_remainder, binary, one_division_then_binary;
    the proved check takes binary
);

/// Both numbers in 32 bits, where they fit.
fn short(a: u64, b: u64) -> Option<(u32, u32)> {
    ((a | b) <= u64::from(u32::MAX)).then_some((a as u32, b as u32))
}

// ---- By divisions

pub fn euclid(mut a: u64, mut b: u64) -> u64 {
    while b != 0 {
        (a, b) = (b, a % b);
    }
    a
}

/// Euclid. Once both numbers fit in 32 bits, so do all that follow.
fn euclid_32(mut a: u64, mut b: u64) -> u64 {
    while b != 0 {
        if let Some((mut x, mut y)) = short(a, b) {
            while y != 0 {
                (x, y) = (y, x % y);
            }
            return x.into();
        }
        (a, b) = (b, a % b);
    }
    a
}

/// Euclid, but a remainder is counted down from the next multiple where that is nearer.
fn least_remainder(mut a: u64, mut b: u64) -> u64 {
    while b != 0 {
        if let Some((mut x, mut y)) = short(a, b) {
            while y != 0 {
                let rest = x % y;
                (x, y) = (y, rest.min(y - rest));
            }
            return x.into();
        }
        let rest = a % b;
        (a, b) = (b, rest.min(b - rest));
    }
    a
}

/// Euclid, but it divides only where two differences do not suffice.
fn subtract_first(mut a: u64, mut b: u64) -> u64 {
    while b != 0 {
        (a, b) = (b, rest_by_differences(a, b));
    }
    a
}

fn rest_by_differences(a: u64, b: u64) -> u64 {
    if a < b {
        return a;
    }
    let once = a - b;
    if once < b {
        return once;
    }
    let twice = once - b;
    if twice < b {
        return twice;
    }
    twice % b
}

/// Euclid on odd numbers. Counted up or down, one remainder is even: that one goes on, without its factors of 2.
fn even_remainder(a: u64, b: u64) -> u64 {
    if a == 0 || b == 0 {
        return a | b;
    }
    let (mut x, mut y) = (without_twos(a), without_twos(b));
    loop {
        let rest = x % y;
        if rest == 0 {
            return y << (a | b).trailing_zeros();
        }
        (x, y) = (y, without_twos(if rest % 2 == 0 { rest } else { y - rest }));
    }
}

// ---- By differences

/// A number that is not 0, without its factors of 2.
fn without_twos(a: u64) -> u64 {
    a >> a.trailing_zeros()
}

/// The greater of two odd numbers gives way to their difference, without its factors of 2.
fn binary(a: u64, b: u64) -> u64 {
    if a == 0 || b == 0 {
        return a | b;
    }
    let (mut x, mut y) = (without_twos(a), without_twos(b));
    while let Some(difference) = NonZeroU64::new(x.wrapping_sub(y)) {
        (x, y) = ((x.max(y) - x.min(y)) >> difference.trailing_zeros(), x.min(y));
    }
    x << (a | b).trailing_zeros()
}

fn one_division_then_binary(a: u64, b: u64) -> u64 {
    let (lesser, greater) = (a.min(b), a.max(b));
    if lesser == greater || lesser == 0 {
        return greater;
    }
    let rest = match short(greater, lesser) {
        Some((greater, lesser)) => u64::from(greater % lesser),
        None => greater % lesser,
    };
    binary(lesser, rest)
}

// ---- Their test

/// Every way has to give the divisor that Euclid gives.
pub fn compare(pairs: impl IntoIterator<Item = Pair>) {
    for (a, b) in pairs {
        for method in METHODS {
            assert_eq!((method.of)(a, b), euclid(a, b), "{} of {} and {}", method.name, a, b);
        }
    }
}

/// Compares the ways on all pairs of numbers at edges, and on pairs by chance of any count of bits.
pub fn test() {
    let edges = [0, 1, 2, 3, (1 << 32) - 1, 1 << 32, (1 << 32) + 1, (1 << 63) - 1, 1 << 63, u64::MAX - 1, u64::MAX];
    compare(edges.iter().flat_map(|&a| edges.iter().map(move |&b| (a, b))));
    let mut chance = Chance::new(1, 0);
    let mut any_size = || chance.next() >> chance.below(64);
    compare((0..5_000).map(|_| {
        let common = any_size();
        (any_size().wrapping_mul(common), any_size().wrapping_mul(common))
    }));
}
