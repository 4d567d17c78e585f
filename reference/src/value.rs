//! Regions, corners and the values of edges at corners.

use crate::chain::{Edge, Row};
use crate::refusal::{plain, Refusal};

/// The low and the high grid number of one rate.
#[derive(Clone, Copy, Debug, PartialEq, Eq)]
pub struct Side {
    pub low: u32,
    pub high: u32,
}

/// A grid together with a box on it.
#[derive(Clone, Debug, PartialEq, Eq)]
pub struct Region {
    pub grid: u32,
    pub sides: Vec<Side>,
}

impl Region {
    /// Makes a region from a list low, high, low, high and so on.
    pub fn new(grid: u32, list: &[u32]) -> Result<Region, Refusal> {
        if !(1..=1000).contains(&grid) {
            return Err(plain(6));
        }
        let sides = pair_up(list).filter(|sides| (1..=4).contains(&sides.len())).ok_or(plain(7))?;
        if sides.iter().any(|side| side.low >= side.high || side.high > grid) {
            return Err(plain(7));
        }
        Ok(Region { grid, sides })
    }

    pub fn volume(&self) -> u64 {
        volume(&self.sides)
    }
}

/// The product of the widths.
pub fn volume(sides: &[Side]) -> u64 {
    sides.iter().map(|side| (side.high - side.low) as u64).product()
}

/// Sides from a list low, high, low, high; none if the last pair is incomplete.
pub fn pair_up(list: &[u32]) -> Option<Vec<Side>> {
    if list.len() % 2 != 0 {
        return None;
    }
    Some(list.chunks(2).map(|pair| Side { low: pair[0], high: pair[1] }).collect())
}

/// The number of corners of a row.
pub fn corner_count(row: &Row) -> usize {
    1 << row.rates.len()
}

/// The grid numbers of the row's rates at a corner: bit p set means rate p is high.
pub fn corner_marks(row: &Row, sides: &[Side], corner: usize) -> Vec<i128> {
    let end = |p: usize, side: Side| if corner >> p & 1 == 1 { side.high } else { side.low };
    row.rates.iter().enumerate().map(|(p, &rate)| end(p, sides[rate]) as i128).collect()
}

/// The value of an edge with the row's rates at `marks`, each a part of `grid`.
/// The rates are set one after another, the last one first.
pub fn edge_value(edge: &Edge, grid: i128, marks: &[i128]) -> i128 {
    let mut table: Vec<i128> = edge.coefficients.iter().map(|&c| c as i128).collect();
    for &mark in marks.iter().rev() {
        let half = table.len() / 2;
        table = (0..half).map(|i| grid * table[i] + mark * table[i + half]).collect();
    }
    table[0]
}

/// K × G^j, the value of the chance 1.
pub fn whole(row: &Row, unit: u32, grid: u32) -> i128 {
    unit as i128 * (grid as i128).pow(row.rates.len() as u32)
}
