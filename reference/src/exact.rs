//! The exact chance at a setting, with whole numbers of any size.

use crate::chain::{Chain, Edge, Row};
use crate::value::Side;
use std::cmp::Ordering;

/// A setting: every rate is numerator / denominator.
#[derive(Clone, Debug, PartialEq, Eq)]
pub struct Setting {
    pub denominator: u32,
    pub numerators: Vec<u32>,
}

impl Setting {
    /// Whether the setting lies in the box.
    pub fn lies_in(&self, grid: u32, sides: &[Side]) -> bool {
        self.compare(grid, sides, |a, b| a <= b)
    }

    pub fn lies_strictly_in(&self, grid: u32, sides: &[Side]) -> bool {
        self.compare(grid, sides, |a, b| a < b)
    }

    fn compare(&self, grid: u32, sides: &[Side], fits: fn(u64, u64) -> bool) -> bool {
        let q = self.denominator as u64;
        sides.iter().zip(&self.numerators).all(|(side, &numerator)| {
            let middle = grid as u64 * numerator as u64;
            fits(side.low as u64 * q, middle) && fits(middle, side.high as u64 * q)
        })
    }
}

/// A whole number of any size: little-endian digits of 32 bits and a sign.
/// There are no leading zero digits, and zero is not negative.
#[derive(Clone, Debug, PartialEq, Eq)]
pub struct Big {
    negative: bool,
    digits: Vec<u32>,
}

impl Big {
    pub fn zero() -> Big {
        Big { negative: false, digits: vec![] }
    }

    pub fn one() -> Big {
        Big { negative: false, digits: vec![1] }
    }

    pub fn from(value: i128) -> Big {
        let mut rest = value.unsigned_abs();
        let mut digits = vec![];
        while rest > 0 {
            digits.push(rest as u32);
            rest >>= 32;
        }
        Big { negative: value < 0, digits }
    }

    pub fn is_negative(&self) -> bool {
        self.negative
    }

    fn cleaned(negative: bool, mut digits: Vec<u32>) -> Big {
        while digits.last() == Some(&0) {
            digits.pop();
        }
        Big { negative: negative && !digits.is_empty(), digits }
    }

    pub fn add(&self, other: &Big) -> Big {
        if self.negative == other.negative {
            return Big::cleaned(self.negative, add_digits(&self.digits, &other.digits));
        }
        match compare_digits(&self.digits, &other.digits) {
            Ordering::Less => {
                Big::cleaned(other.negative, subtract_digits(&other.digits, &self.digits))
            }
            _ => Big::cleaned(self.negative, subtract_digits(&self.digits, &other.digits)),
        }
    }

    pub fn multiply(&self, other: &Big) -> Big {
        let digits = multiply_digits(&self.digits, &other.digits);
        Big::cleaned(self.negative != other.negative, digits)
    }

    pub fn compare(&self, other: &Big) -> Ordering {
        match (self.negative, other.negative) {
            (false, true) => Ordering::Greater,
            (true, false) => Ordering::Less,
            (false, false) => compare_digits(&self.digits, &other.digits),
            (true, true) => compare_digits(&other.digits, &self.digits),
        }
    }
}

fn add_digits(a: &[u32], b: &[u32]) -> Vec<u32> {
    let mut carry = 0u64;
    let mut sum = vec![];
    for i in 0..a.len().max(b.len()) {
        carry += *a.get(i).unwrap_or(&0) as u64 + *b.get(i).unwrap_or(&0) as u64;
        sum.push(carry as u32);
        carry >>= 32;
    }
    sum.push(carry as u32);
    sum
}

/// a − b, where a is not below b.
fn subtract_digits(a: &[u32], b: &[u32]) -> Vec<u32> {
    let mut borrow = 0i64;
    let mut difference = vec![];
    for i in 0..a.len() {
        let part = a[i] as i64 - *b.get(i).unwrap_or(&0) as i64 - borrow;
        borrow = (part < 0) as i64;
        difference.push(part as u32);
    }
    difference
}

fn multiply_digits(a: &[u32], b: &[u32]) -> Vec<u32> {
    let mut product = vec![0u32; a.len() + b.len()];
    for (i, &x) in a.iter().enumerate() {
        let mut carry = 0u64;
        for (k, &y) in b.iter().enumerate() {
            carry += product[i + k] as u64 + x as u64 * y as u64;
            product[i + k] = carry as u32;
            carry >>= 32;
        }
        product[i + b.len()] = carry as u32;
    }
    product
}

/// Compares digit lists that have no leading zeros.
fn compare_digits(a: &[u32], b: &[u32]) -> Ordering {
    a.len().cmp(&b.len()).then_with(|| a.iter().rev().cmp(b.iter().rev()))
}

/// e(s, s'): the sum of coefficient × numerators × q^(3 − size of the product).
pub fn edge_number(row: &Row, edge: &Edge, setting: &Setting) -> i128 {
    let q = setting.denominator as i128;
    let mut sum = 0;
    for (number, &coefficient) in edge.coefficients.iter().enumerate() {
        let mut term = coefficient as i128;
        for (p, &rate) in row.rates.iter().enumerate() {
            if number >> p & 1 == 1 {
                term *= setting.numerators[rate] as i128;
            }
        }
        sum += term * q.pow(3 - number.count_ones());
    }
    sum
}

/// Works out H(k, s) and M^k, one step after another.
pub struct Steps {
    /// For each state that is not bad, its successors with e(s, s').
    edges: Vec<Vec<(usize, Big)>>,
    bad: Vec<bool>,
    start: usize,
    m: Big,
    pub step: u64,
    pub h: Vec<Big>,
    pub power: Big,
}

impl Steps {
    pub fn new(chain: &Chain, setting: &Setting) -> Steps {
        let edges_of = |row: &Row| {
            let number = |edge: &Edge| Big::from(edge_number(row, edge, setting));
            row.edges.iter().map(|edge| (edge.successor, number(edge))).collect()
        };
        let bad: Vec<bool> = (0..chain.states).map(|s| chain.is_bad(s)).collect();
        let h = bad.iter().map(|&is_bad| if is_bad { Big::one() } else { Big::zero() }).collect();
        let q = setting.denominator as i128;
        Steps {
            edges: chain.rows.iter().map(edges_of).collect(),
            bad,
            start: chain.start,
            m: Big::from(chain.unit as i128 * q * q * q),
            step: 0,
            h,
            power: Big::one(),
        }
    }

    /// From k to k + 1.
    pub fn advance(&mut self) {
        self.power = self.power.multiply(&self.m);
        let mut next = vec![];
        for state in 0..self.h.len() {
            next.push(if self.bad[state] { self.power.clone() } else { self.weighted_sum(state) });
        }
        self.h = next;
        self.step += 1;
    }

    fn weighted_sum(&self, state: usize) -> Big {
        let terms = self.edges[state].iter().map(|(successor, e)| e.multiply(&self.h[*successor]));
        terms.fold(Big::zero(), |sum, term| sum.add(&term))
    }

    /// Whether the chance within this many steps is above so many millionths.
    pub fn is_above(&self, limit: u32) -> bool {
        let left = self.h[self.start].multiply(&Big::from(1_000_000));
        let right = self.power.multiply(&Big::from(limit as i128));
        left.compare(&right) == Ordering::Greater
    }

    /// Whether the chances of all states stay as they are from here on.
    pub fn is_settled(&self) -> bool {
        let stays = |state: usize| {
            self.bad[state] || self.weighted_sum(state) == self.h[state].multiply(&self.m)
        };
        (0..self.h.len()).all(stays)
    }

    /// Whether some edge has a negative chance.
    pub fn has_negative_chance(&self) -> bool {
        self.edges.iter().flatten().any(|(_, e)| e.is_negative())
    }
}
