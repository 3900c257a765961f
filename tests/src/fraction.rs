//! Exact fractions, as large as a binary32 asks for: 100 times the largest is below 2^135, and the least
//! is 1 / 2^149. Long division and Euclid's rule know nothing of how a float is stored.

/// A whole number below 2^256 by its two halves, the upper first, so that the derived order is that of
/// the numbers.
#[derive(Clone, Copy, Debug, PartialEq, Eq, PartialOrd, Ord)]
struct Natural {
    upper: u128,
    lower: u128,
}

impl Natural {
    fn new(lower: u128) -> Natural {
        Natural { upper: 0, lower }
    }

    /// It × 2^power.
    fn doubled(self, power: u32) -> Natural {
        let Natural { upper, lower } = self;
        assert!(self.digits() + power <= 256, "{self:?} × 2^{power}");
        match power {
            0 => self,
            1..128 => Natural {
                upper: upper << power | lower >> (128 - power),
                lower: lower << power,
            },
            _ => Natural {
                upper: lower << (power - 128),
                lower: 0,
            },
        }
    }

    /// It less another, which is not larger.
    fn less(self, other: Natural) -> Natural {
        let (lower, borrowed) = self.lower.overflowing_sub(other.lower);
        Natural {
            upper: self.upper - other.upper - u128::from(borrowed),
            lower,
        }
    }

    /// How many digits it has in base two.
    fn digits(self) -> u32 {
        match self.upper {
            0 => 128 - self.lower.leading_zeros(),
            upper => 256 - upper.leading_zeros(),
        }
    }

    /// The digit at a place from 0, the lowest.
    fn digit(self, place: u32) -> u128 {
        match place {
            0..128 => self.lower >> place & 1,
            _ => self.upper >> (place - 128) & 1,
        }
    }

    /// What is left of it by another: as the machine has it where both fit, else by long division in
    /// base two, which brings the digits down one by one.
    fn remainder(self, by: Natural) -> Natural {
        if self.upper == 0 && by.upper == 0 {
            return Natural::new(self.lower % by.lower);
        }
        if self < by {
            return self;
        }
        let mut left = Natural::new(0);
        for place in (0..self.digits()).rev() {
            left = left.doubled(1);
            left.lower += self.digit(place);
            if left >= by {
                left = left.less(by);
            }
        }
        left
    }
}

/// The greatest common divisor, by Euclid.
fn gcd(a: Natural, b: Natural) -> Natural {
    if b == Natural::new(0) {
        a
    } else {
        gcd(b, a.remainder(b))
    }
}

/// A whole number from 0 on over a positive one.
#[derive(Clone, Copy, Debug)]
pub struct Fraction {
    num: Natural,
    den: Natural,
}

impl Fraction {
    /// number × 2^power.
    pub fn new(number: u32, power: i32) -> Fraction {
        let times = |n: u32, power: i32| Natural::new(n.into()).doubled(power.max(0) as u32);
        Fraction {
            num: times(number, power),
            den: times(1, -power),
        }
    }

    /// Whether its denominator is 1 in lowest terms. There both parts are divided by their gcd, so this is
    /// where the gcd is the whole denominator.
    pub fn is_whole(&self) -> bool {
        gcd(self.num, self.den) == self.den
    }
}
