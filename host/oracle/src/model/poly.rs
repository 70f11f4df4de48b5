//! Polynomials over GF(2) with up to 256 coefficients: the whole product first, then long division.

/// Bit k of `low` is the coefficient of x^k, bit k of `high` that of x^(128+k).
#[derive(Clone, Copy, PartialEq, Eq, Debug)]
pub struct Poly {
    pub high: u128,
    pub low: u128,
}

impl Poly {
    /// The degree; none for the zero polynomial.
    pub fn degree(self) -> Option<u32> {
        match (self.high, self.low) {
            (0, 0) => None,
            (0, low) => Some(127 - low.leading_zeros()),
            (high, _) => Some(255 - high.leading_zeros()),
        }
    }

    /// Times x^n, for n up to 127. What would pass x^255 is lost, so callers keep below it.
    pub fn shifted(self, n: u32) -> Poly {
        if n == 0 {
            return self;
        }
        Poly { high: self.high << n | self.low >> (128 - n), low: self.low << n }
    }

    pub fn plus(self, other: Poly) -> Poly {
        Poly { high: self.high ^ other.high, low: self.low ^ other.low }
    }

    /// The whole carry-less product of two polynomials of degree under 128.
    pub fn product(a: u128, b: u128) -> Poly {
        let a = Poly { high: 0, low: a };
        let mut sum = Poly { high: 0, low: 0 };
        let mut rest = b;
        while rest != 0 {
            sum = sum.plus(a.shifted(rest.trailing_zeros()));
            rest &= rest - 1;
        }
        sum
    }

    /// The remainder of long division by any divisor but zero.
    pub fn remainder(self, divisor: Poly) -> Poly {
        let divisor_degree = divisor.degree().expect("a divisor is not zero");
        let mut rest = self;
        while let Some(degree) = rest.degree().filter(|&d| d >= divisor_degree) {
            rest = rest.plus(divisor.shifted(degree - divisor_degree));
        }
        rest
    }
}
