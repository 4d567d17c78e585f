//! A search for witnesses by value iteration over the corners. It is only a
//! helper of the generator: what it finds is judged like any other witness.

use crate::chain::Chain;
use crate::value::{corner_count, whole, Region};
use crate::witness::{corner_values, MILLION};

/// A row on a box: its whole, its successors, and its values at each corner.
pub struct CornerRow {
    whole: i128,
    successors: Vec<usize>,
    corners: Vec<Vec<i128>>,
    /// The same values as chances.
    chances: Vec<Vec<f64>>,
}

pub fn corner_rows(chain: &Chain, region: &Region) -> Vec<CornerRow> {
    let one = |row| {
        let whole = whole(row, chain.unit, region.grid);
        let corners: Vec<Vec<i128>> =
            (0..corner_count(row)).map(|corner| corner_values(row, region, corner)).collect();
        let as_chances = |values: &Vec<i128>| values.iter().map(|&x| x as f64 / whole as f64).collect();
        let chances = corners.iter().map(as_chances).collect();
        let successors = row.edges.iter().map(|edge| edge.successor).collect();
        CornerRow { whole, successors, corners, chances }
    };
    chain.rows.iter().map(one).collect()
}

pub fn has_negative(rows: &[CornerRow]) -> bool {
    rows.iter().flat_map(|row| row.corners.iter().flatten()).any(|&value| value < 0)
}

impl CornerRow {
    fn expected(&self, list: &[f64]) -> impl Iterator<Item = f64> + '_ {
        let numbers: Vec<f64> = self.successors.iter().map(|&s| list[s]).collect();
        self.chances.iter().map(move |chances| chances.iter().zip(&numbers).map(|(c, x)| c * x).sum())
    }

    /// The sums of value × number, in whole numbers.
    fn sums<'a>(&'a self, list: &'a [u32]) -> impl Iterator<Item = i128> + 'a {
        self.corners.iter().map(|values| {
            values.iter().zip(&self.successors).map(|(value, &s)| value * list[s] as i128).sum()
        })
    }
}

const SWEEPS: usize = 2000;

/// Repeats a sweep until it changes nothing any more, or too often.
fn settle(mut sweep: impl FnMut() -> bool) {
    for _ in 0..SWEEPS {
        if !sweep() {
            return;
        }
    }
}

/// Chances from below: the largest or the least over the corners.
fn chances(chain: &Chain, rows: &[CornerRow], largest: bool) -> Vec<f64> {
    let bad: Vec<bool> = (0..chain.states).map(|s| chain.is_bad(s)).collect();
    let mut list: Vec<f64> = bad.iter().map(|&b| if b { 1.0 } else { 0.0 }).collect();
    settle(|| {
        let mut changed = false;
        for s in (0..rows.len()).rev().filter(|&s| !bad[s]) {
            let sums = rows[s].expected(&list);
            let new = if largest { sums.fold(0.0, f64::max) } else { sums.fold(1.0, f64::min) };
            changed |= new > list[s] + 1e-11;
            list[s] = f64::max(list[s], new);
        }
        changed
    });
    list
}

fn ceiling(sum: i128, whole: i128) -> u32 {
    ((sum + whole - 1).div_euclid(whole)).clamp(0, MILLION as i128) as u32
}

fn floor(sum: i128, whole: i128) -> u32 {
    sum.div_euclid(whole).clamp(0, MILLION as i128) as u32
}

/// A list v for a safe witness, rounded up.
pub fn safe_list(chain: &Chain, rows: &[CornerRow]) -> Vec<u32> {
    let guess = chances(chain, rows, true);
    let mut v: Vec<u32> = guess.iter().map(|x| ((x * 1e6 - 1e-6).ceil().clamp(0.0, 1e6)) as u32).collect();
    settle(|| {
        let mut changed = false;
        for s in (0..rows.len()).filter(|&s| !chain.is_bad(s)) {
            let sum = rows[s].sums(&v).max().unwrap();
            let least = ceiling(sum, rows[s].whole);
            changed |= least > v[s];
            v[s] = v[s].max(least);
        }
        changed
    });
    v
}

/// Lists v and w for an unsafe witness, v rounded down and w rounded up.
/// Numbers v below `smallest` are set to 0, except where the state is bad.
pub fn unsafe_lists(chain: &Chain, rows: &[CornerRow], smallest: u32) -> (Vec<u32>, Vec<u32>) {
    let guess = chances(chain, rows, false);
    let mut v: Vec<u32> = guess.iter().map(|x| ((x * 1e6 + 1e-6).floor().clamp(0.0, 1e6)) as u32).collect();
    settle(|| {
        let mut changed = false;
        for s in (0..rows.len()).filter(|&s| !chain.is_bad(s)) {
            let most = floor(rows[s].sums(&v).min().unwrap(), rows[s].whole);
            let new = if most < smallest { 0 } else { most.min(v[s]) };
            changed |= new < v[s];
            v[s] = new;
        }
        changed
    });
    let w = steps_list(chain, rows, &v);
    (v, w)
}

/// A list w for a given v: steps spent among the tested states.
fn steps_list(chain: &Chain, rows: &[CornerRow], v: &[u32]) -> Vec<u32> {
    let tested: Vec<usize> = (0..rows.len()).filter(|&s| !chain.is_bad(s) && v[s] > 0).collect();
    let mut guess = vec![0.0; rows.len()];
    settle(|| {
        let mut changed = false;
        for &s in &tested {
            let new: f64 = 1.0 + rows[s].expected(&guess).fold(0.0, f64::max);
            changed |= new > guess[s] + 1e-6 && new < 1e6;
            guess[s] = new.min(1e6);
        }
        changed
    });
    let mut w: Vec<u32> = guess.iter().map(|x| x.ceil() as u32).collect();
    settle(|| {
        let mut changed = false;
        for &s in &tested {
            let sum = rows[s].whole + rows[s].sums(&w).max().unwrap();
            let least = ceiling(sum, rows[s].whole);
            changed |= least > w[s];
            w[s] = w[s].max(least);
        }
        changed
    });
    w
}
