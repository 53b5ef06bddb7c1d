//! Natural numbers of any size, for counting histories exactly.

use std::cmp::Ordering;
use std::fmt;

/// Limbs of 64 bits, the lowest first; the highest is not 0.
#[derive(Clone, Default, PartialEq, Eq, Debug)]
pub struct Natural {
    limbs: Vec<u64>,
}

impl Natural {
    pub fn of_limbs(limbs: &[u64]) -> Natural {
        let length = limbs.iter().rposition(|&limb| limb != 0).map_or(0, |place| place + 1);
        Natural { limbs: limbs[..length].to_vec() }
    }

    pub fn is_zero(&self) -> bool {
        self.limbs.is_empty()
    }

    pub fn add(&mut self, other: &Natural) {
        if self.limbs.len() < other.limbs.len() {
            self.limbs.resize(other.limbs.len(), 0);
        }
        if add_limbs(&mut self.limbs, &other.limbs) {
            self.limbs.push(1);
        }
    }

    /// What is left; 0 if the other is larger.
    pub fn minus(&self, other: &Natural) -> Natural {
        if *self <= *other {
            return Natural::default();
        }
        let mut limbs = self.limbs.clone();
        let mut borrow = false;
        for (place, limb) in limbs.iter_mut().enumerate() {
            let (less, first) = limb.overflowing_sub(other.limbs.get(place).copied().unwrap_or(0));
            let (less, second) = less.overflowing_sub(u64::from(borrow));
            (*limb, borrow) = (less, first || second);
        }
        Natural::of_limbs(&limbs)
    }

    pub fn times(&self, other: &Natural) -> Natural {
        let mut limbs = vec![0u64; self.limbs.len() + other.limbs.len()];
        for (i, &a) in self.limbs.iter().enumerate() {
            let mut carry = 0u128;
            for (j, &b) in other.limbs.iter().enumerate() {
                let sum = u128::from(a) * u128::from(b) + u128::from(limbs[i + j]) + carry;
                limbs[i + j] = sum as u64;
                carry = sum >> 64;
            }
            limbs[i + other.limbs.len()] = carry as u64;
        }
        Natural::of_limbs(&limbs)
    }

    /// Divides in place, and gives the remainder.
    fn divide(&mut self, by: u64) -> u64 {
        let mut rest = 0u128;
        for limb in self.limbs.iter_mut().rev() {
            let whole = rest << 64 | u128::from(*limb);
            *limb = (whole / u128::from(by)) as u64;
            rest = whole % u128::from(by);
        }
        *self = Natural::of_limbs(&self.limbs);
        rest as u64
    }

    fn to_f64(&self) -> f64 {
        self.limbs.iter().rev().fold(0.0, |sum, &limb| sum * 18446744073709551616.0 + limb as f64)
    }

    /// This many hundredths of the whole.
    pub fn percent_of(&self, whole: &Natural) -> f64 {
        match (self.to_f64(), whole.to_f64()) {
            (part, whole) if whole.is_finite() && whole > 0.0 => 100.0 * part / whole,
            (_, 0.0) => 0.0,
            // Beyond the range of floating-point numbers: the leading limbs tell.
            _ => {
                let cut = whole.limbs.len().saturating_sub(2);
                let top = |n: &Natural| Natural::of_limbs(n.limbs.get(cut..).unwrap_or(&[])).to_f64();
                100.0 * top(self) / top(whole)
            }
        }
    }

    fn digits(&self) -> String {
        let mut left = self.clone();
        let mut groups = Vec::new();
        while !left.is_zero() {
            groups.push(left.divide(1_000_000_000));
        }
        let Some(first) = groups.pop() else { return "0".to_string() };
        groups.iter().rev().fold(first.to_string(), |text, group| format!("{text}{group:09}"))
    }
}

/// Adds in place; gives whether it went over.
pub fn add_limbs(to: &mut [u64], from: &[u64]) -> bool {
    let mut carry = false;
    for (place, limb) in to.iter_mut().enumerate() {
        let (sum, first) = limb.overflowing_add(from.get(place).copied().unwrap_or(0));
        let (sum, second) = sum.overflowing_add(u64::from(carry));
        (*limb, carry) = (sum, first || second);
    }
    carry
}

impl From<u64> for Natural {
    fn from(number: u64) -> Natural {
        Natural::of_limbs(&[number])
    }
}

impl PartialOrd for Natural {
    fn partial_cmp(&self, other: &Natural) -> Option<Ordering> {
        Some(self.cmp(other))
    }
}

impl Ord for Natural {
    fn cmp(&self, other: &Natural) -> Ordering {
        let by_length = self.limbs.len().cmp(&other.limbs.len());
        by_length.then_with(|| self.limbs.iter().rev().cmp(other.limbs.iter().rev()))
    }
}

/// Digits with commas between the thousands.
impl fmt::Display for Natural {
    fn fmt(&self, to: &mut fmt::Formatter) -> fmt::Result {
        to.write_str(&grouped(&self.digits()))
    }
}

/// "28,828,800"
pub fn grouped(digits: &str) -> String {
    let mut text = String::new();
    for (place, digit) in digits.chars().enumerate() {
        if place > 0 && (digits.len() - place).is_multiple_of(3) {
            text.push(',');
        }
        text.push(digit);
    }
    text
}

#[cfg(test)]
mod tests {
    use super::*;

    fn factorial(n: u64) -> Natural {
        (1..=n).fold(Natural::from(1), |product, factor| product.times(&Natural::from(factor)))
    }

    #[test]
    fn factorials() {
        assert_eq!(factorial(13).to_string(), "6,227,020,800");
        assert_eq!(factorial(25).to_string(), "15,511,210,043,330,985,984,000,000");
        let long = factorial(60);
        assert_eq!(long.digits().len(), 82);
        assert!(long.digits().starts_with("83209871127413901442763411832233643807541726063612459524"));
    }

    #[test]
    fn sums_and_differences() {
        let (a, b) = (factorial(40), factorial(39));
        let mut sum = a.clone();
        sum.add(&b);
        assert_eq!(sum.minus(&b), a);
        assert_eq!(sum.minus(&a), b);
        assert!(b.minus(&a).is_zero() && a > b);
        let mut carried = Natural::from(u64::MAX);
        carried.add(&Natural::from(1));
        assert_eq!(carried.to_string(), "18,446,744,073,709,551,616");
        assert_eq!(Natural::default().to_string(), "0");
    }

    #[test]
    fn shares() {
        assert!((Natural::from(882_180).percent_of(&Natural::from(28_828_800)) - 3.06).abs() < 0.01);
        assert!((factorial(400).percent_of(&factorial(400)) - 100.0).abs() < 1e-9);
        assert_eq!(Natural::default().percent_of(&factorial(400)), 0.0);
    }
}
