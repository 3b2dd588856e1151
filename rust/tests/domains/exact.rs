//! What the calls are to answer, over whole numbers of 128 bits.

/// The greatest common divisor.
pub fn gcd(a: i128, b: i128) -> i128 {
    let (mut a, mut b) = (a.abs(), b.abs());
    while b != 0 {
        (a, b) = (b, a % b);
    }
    a
}

/// The least common multiple, or `None` where it does not fit.
pub fn lcm(a: i128, b: i128) -> Option<i128> {
    if a == 0 || b == 0 {
        return Some(0);
    }
    (a / gcd(a, b)).checked_mul(b).map(i128::abs)
}

/// The quotient rounded down.
pub fn floor(a: i128, b: i128) -> i128 {
    a / b - i128::from(a % b != 0 && (a < 0) != (b < 0))
}

/// The quotient rounded up.
pub fn ceil(a: i128, b: i128) -> i128 {
    a / b + i128::from(a % b != 0 && (a < 0) == (b < 0))
}

/// The number from 0 to below `m` that is congruent to `a`.
pub fn residue(a: i128, m: i128) -> i128 {
    a.rem_euclid(m)
}

/// Whether one of the numbers divides the other.
pub fn divides(a: i128, b: i128) -> bool {
    if a == 0 || b == 0 {
        a == 0 && b == 0 || a != b
    } else {
        a % b == 0 || b % a == 0
    }
}

/// The number of choices of `k` of `n` things, by Pascal's rule, or `None` where it is above `most` or undefined.
pub fn coefficient(n: i128, k: i128, most: i128) -> Option<i128> {
    if n < 0 || k < 0 {
        return None;
    }
    if k > n {
        return Some(0);
    }
    let k = k.min(n - k);
    let mut coefficient: i128 = 1;
    for i in 0..k {
        coefficient = coefficient.checked_mul(n - i)? / (i + 1);
        if coefficient > most {
            return None;
        }
    }
    Some(coefficient)
}

/// The number of ways to put things into groups of these sizes, or `None` where it is above `most` or undefined.
pub fn multinomial(sizes: &[i128], most: i128) -> Option<i128> {
    let (mut total, mut ways) = (0, 1_i128);
    for size in sizes {
        total += size;
        ways = ways.checked_mul(coefficient(total, *size, most)?)?;
    }
    Some(ways).filter(|ways| *ways <= most)
}

/// The greatest number whose power is at most `x`, with the sign of `x`, or `None` where there is no root.
pub fn root(x: i128, degree: u32) -> Option<i128> {
    if degree == 0 || degree % 2 == 0 && x < 0 {
        return None;
    }
    let mut root: i128 = 0;
    while (root + 1)
        .checked_pow(degree)
        .is_some_and(|power| power <= x.abs())
    {
        root += 1;
    }
    Some(if x < 0 { -root } else { root })
}

/// Random numbers of every length, by SplitMix64.
pub struct Random(pub u64);

impl Random {
    pub fn bits(&mut self) -> u64 {
        self.0 = self.0.wrapping_add(0x9E3779B97F4A7C15);
        let z = (self.0 ^ (self.0 >> 30)).wrapping_mul(0xBF58476D1CE4E5B9);
        let z = (z ^ (z >> 27)).wrapping_mul(0x94D049BB133111EB);
        z ^ (z >> 31)
    }

    /// A number, one in eight of them near an end of the type.
    pub fn number(&mut self) -> u128 {
        let wide = u128::from(self.bits()) << 64 | u128::from(self.bits());
        match self.bits() % 8 {
            0 => wide % 4,
            1 => u128::MAX - wide % 4,
            2 => (1 << (self.bits() % 128)) - (wide % 2),
            _ => wide >> (self.bits() % 128),
        }
    }
}
