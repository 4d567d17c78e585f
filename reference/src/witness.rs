//! Judging witnesses for a region.

use crate::chain::{Chain, Row};
use crate::refusal::{at, plain, Refusal};
use crate::value::{corner_count, corner_marks, edge_value, whole, Region};

pub const MILLION: u32 = 1_000_000;

#[derive(Clone, Copy, Debug, PartialEq, Eq)]
pub enum Verdict {
    Open,
    Safe { bound: u32 },
    Unsafe { bound: u32, steps: u64 },
}

/// A claim about rows: the states it tests, the number of each state, what it
/// adds for a step, and whether left is to be at most right (or at least).
struct Claim<'a> {
    tested: Vec<bool>,
    numbers: &'a [u32],
    adds: i128,
    at_most: bool,
}

pub fn judge_safe(chain: &Chain, region: &Region, limit: u32, v: &[u32]) -> Result<Verdict, Refusal> {
    try_rate_count(chain, region)?;
    try_length(chain, v)?;
    try_numbers(chain, v, &[])?;
    try_chances(chain, region)?;
    let tested = (0..chain.states).map(|s| !chain.is_bad(s)).collect();
    try_claim(chain, region, &Claim { tested, numbers: v, adds: 0, at_most: true }, 19)?;
    let bound = v[chain.start];
    if bound > limit {
        return Err(plain(21));
    }
    Ok(Verdict::Safe { bound })
}

pub fn judge_unsafe(
    chain: &Chain,
    region: &Region,
    limit: u32,
    v: &[u32],
    w: &[u32],
) -> Result<Verdict, Refusal> {
    try_rate_count(chain, region)?;
    try_length(chain, v)?;
    try_length(chain, w)?;
    try_numbers(chain, v, w)?;
    try_chances(chain, region)?;
    let tested: Vec<bool> = (0..chain.states).map(|s| !chain.is_bad(s) && v[s] > 0).collect();
    let at_least = Claim { tested: tested.clone(), numbers: v, adds: 0, at_most: false };
    try_claim(chain, region, &at_least, 19)?;
    let steps = Claim { tested, numbers: w, adds: 1, at_most: true };
    try_claim(chain, region, &steps, 20)?;
    let bound = v[chain.start];
    if bound <= limit {
        return Err(plain(21));
    }
    let steps = MILLION as u64 * w[chain.start] as u64 / (bound - limit) as u64 + 1;
    Ok(Verdict::Unsafe { bound, steps })
}

fn try_rate_count(chain: &Chain, region: &Region) -> Result<(), Refusal> {
    if region.sides.len() != chain.rates {
        return Err(plain(7));
    }
    Ok(())
}

fn try_length(chain: &Chain, list: &[u32]) -> Result<(), Refusal> {
    if list.len() != chain.states {
        return Err(plain(16));
    }
    Ok(())
}

/// v and w (empty for a safe witness) together, state by state.
fn try_numbers(chain: &Chain, v: &[u32], w: &[u32]) -> Result<(), Refusal> {
    for state in 0..chain.states {
        let too_big = v[state] > MILLION || w.get(state).is_some_and(|&x| x > MILLION);
        let wrong_at_bad = chain.is_bad(state) && v[state] != MILLION;
        if too_big || wrong_at_bad {
            return Err(at(17, state));
        }
    }
    Ok(())
}

/// No edge of any row, of bad states too, is negative at any corner.
fn try_chances(chain: &Chain, region: &Region) -> Result<(), Refusal> {
    for (state, row) in chain.rows.iter().enumerate() {
        for corner in 0..corner_count(row) {
            if corner_values(row, region, corner).iter().any(|&value| value < 0) {
                return Err(at(18, state));
            }
        }
    }
    Ok(())
}

fn try_claim(chain: &Chain, region: &Region, claim: &Claim, number: u32) -> Result<(), Refusal> {
    for (state, row) in chain.rows.iter().enumerate() {
        if !claim.tested[state] {
            continue;
        }
        for corner in 0..corner_count(row) {
            if !claim_holds(chain, region, claim, state, corner) {
                return Err(at(number, state));
            }
        }
    }
    Ok(())
}

fn claim_holds(chain: &Chain, region: &Region, claim: &Claim, state: usize, corner: usize) -> bool {
    let row = &chain.rows[state];
    let unit = whole(row, chain.unit, region.grid);
    let mut left = claim.adds * unit;
    for (edge, value) in row.edges.iter().zip(corner_values(row, region, corner)) {
        left += value * claim.numbers[edge.successor] as i128;
    }
    let right = claim.numbers[state] as i128 * unit;
    if claim.at_most {
        left <= right
    } else {
        left >= right
    }
}

/// The values of all edges of a row at a corner.
pub fn corner_values(row: &Row, region: &Region, corner: usize) -> Vec<i128> {
    let marks = corner_marks(row, &region.sides, corner);
    row.edges.iter().map(|edge| edge_value(edge, region.grid as i128, &marks)).collect()
}
