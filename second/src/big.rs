//! A small signed big integer: sign and magnitude, base 2^32, least limb first.
//! Sizes of tickets can have some eighty digits (and far more where refusal 9
//! has not been looked at), so sizes and first patches are computed here
//! exactly, without any thought about overflow.

use std::cmp::Ordering;
use std::fmt;

#[derive(Clone, Debug, PartialEq, Eq)]
pub struct Big {
    negative: bool,  // never set for zero
    limbs: Vec<u32>, // no leading zero limbs; empty is zero
}

impl Big {
    pub fn zero() -> Big {
        Big { negative: false, limbs: Vec::new() }
    }

    pub fn one() -> Big {
        Big::from(1)
    }

    pub fn from(n: i128) -> Big {
        let mut rest = n.unsigned_abs();
        let mut limbs = Vec::new();
        while rest > 0 {
            limbs.push(rest as u32);
            rest >>= 32;
        }
        Big { negative: n < 0, limbs }
    }

    fn made(negative: bool, mut limbs: Vec<u32>) -> Big {
        while limbs.last() == Some(&0) {
            limbs.pop();
        }
        Big { negative: negative && !limbs.is_empty(), limbs }
    }

    pub fn is_zero(&self) -> bool {
        self.limbs.is_empty()
    }

    /// −1, 0 or 1.
    pub fn sign(&self) -> i32 {
        if self.is_zero() {
            0
        } else if self.negative {
            -1
        } else {
            1
        }
    }

    pub fn negated(&self) -> Big {
        Big::made(!self.negative, self.limbs.clone())
    }

    pub fn abs(&self) -> Big {
        Big::made(false, self.limbs.clone())
    }

    fn compare_limbs(a: &[u32], b: &[u32]) -> Ordering {
        a.len().cmp(&b.len()).then_with(|| a.iter().rev().cmp(b.iter().rev()))
    }

    pub fn plus(&self, other: &Big) -> Big {
        if self.negative == other.negative {
            let mut limbs = Vec::new();
            let mut carry = 0u64;
            for i in 0..self.limbs.len().max(other.limbs.len()) {
                let a = *self.limbs.get(i).unwrap_or(&0) as u64;
                let b = *other.limbs.get(i).unwrap_or(&0) as u64;
                let sum = a + b + carry;
                limbs.push(sum as u32);
                carry = sum >> 32;
            }
            limbs.push(carry as u32);
            return Big::made(self.negative, limbs);
        }
        // Unlike signs: the smaller magnitude is taken from the larger.
        let (large, small) = match Big::compare_limbs(&self.limbs, &other.limbs) {
            Ordering::Less => (other, self),
            _ => (self, other),
        };
        let mut limbs = Vec::new();
        let mut borrow = 0i64;
        for i in 0..large.limbs.len() {
            let a = large.limbs[i] as i64;
            let b = *small.limbs.get(i).unwrap_or(&0) as i64;
            let mut difference = a - b - borrow;
            borrow = 0;
            if difference < 0 {
                difference += 1 << 32;
                borrow = 1;
            }
            limbs.push(difference as u32);
        }
        Big::made(large.negative, limbs)
    }

    pub fn minus(&self, other: &Big) -> Big {
        self.plus(&other.negated())
    }

    pub fn times(&self, other: &Big) -> Big {
        let mut limbs = vec![0u32; self.limbs.len() + other.limbs.len()];
        for (i, &a) in self.limbs.iter().enumerate() {
            let mut carry = 0u64;
            for (j, &b) in other.limbs.iter().enumerate() {
                let here = limbs[i + j] as u64 + a as u64 * b as u64 + carry;
                limbs[i + j] = here as u32;
                carry = here >> 32;
            }
            limbs[i + other.limbs.len()] = carry as u32;
        }
        Big::made(self.negative != other.negative, limbs)
    }

    pub fn power(&self, exponent: u32) -> Big {
        (0..exponent).fold(Big::one(), |product, _| product.times(self))
    }

    /// Quotient (toward zero) and remainder of the magnitude by a small divisor.
    pub fn divided(&self, divisor: u32) -> (Big, u32) {
        let mut limbs = self.limbs.clone();
        let mut rest = 0u64;
        for limb in limbs.iter_mut().rev() {
            let here = (rest << 32) | *limb as u64;
            *limb = (here / divisor as u64) as u32;
            rest = here % divisor as u64;
        }
        (Big::made(self.negative, limbs), rest as u32)
    }

    /// Division that must come out whole; anything else is a mistake of this program.
    pub fn divided_whole(&self, divisor: u32) -> Big {
        let (quotient, rest) = self.divided(divisor);
        assert_eq!(rest, 0, "a division by {divisor} that should be whole is not");
        quotient
    }

    pub fn to_i128(&self) -> Option<i128> {
        if self.limbs.len() > 3 {
            return None; // below 2^96 is more than anything here needs
        }
        let size = self.limbs.iter().rev().fold(0i128, |n, &limb| (n << 32) | limb as i128);
        Some(if self.negative { -size } else { size })
    }
}

impl PartialOrd for Big {
    fn partial_cmp(&self, other: &Big) -> Option<Ordering> {
        Some(self.cmp(other))
    }
}

impl Ord for Big {
    fn cmp(&self, other: &Big) -> Ordering {
        self.minus(other).sign().cmp(&0)
    }
}

impl fmt::Display for Big {
    fn fmt(&self, f: &mut fmt::Formatter) -> fmt::Result {
        let mut groups = Vec::new();
        let mut rest = self.abs();
        while !rest.is_zero() {
            let (quotient, group) = rest.divided(1_000_000_000);
            groups.push(group);
            rest = quotient;
        }
        let mut text = groups.pop().unwrap_or(0).to_string();
        for group in groups.iter().rev() {
            text.push_str(&format!("{group:09}"));
        }
        write!(f, "{}{}", if self.negative { "-" } else { "" }, text)
    }
}

#[cfg(test)]
mod tests {
    use super::*;

    #[test]
    fn agrees_with_machine_arithmetic() {
        let samples: Vec<i128> = vec![0, 1, -1, 7, -90_000, 1 << 32, -(1 << 32), (1 << 32) - 1, (1 << 62) - 1, -(1 << 45) - 3, 123_456_789_012];
        for &a in &samples {
            for &b in &samples {
                assert_eq!(Big::from(a).plus(&Big::from(b)), Big::from(a + b));
                assert_eq!(Big::from(a).minus(&Big::from(b)), Big::from(a - b));
                assert_eq!(Big::from(a).times(&Big::from(b)), Big::from(a * b));
                assert_eq!(Big::from(a).cmp(&Big::from(b)), a.cmp(&b));
            }
            assert_eq!(Big::from(a).to_string(), a.to_string());
            assert_eq!(Big::from(a).to_i128(), Some(a));
            assert_eq!(Big::from(a * 35).divided_whole(35), Big::from(a));
        }
        assert_eq!(Big::from(10).power(40).to_string(), format!("1{}", "0".repeat(40)));
    }
}
