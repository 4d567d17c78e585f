//! The map: a field of rates divided into boxes, with a verdict for each.

use crate::chain::Chain;
use crate::refusal::{plain, Refusal};
use crate::value::{pair_up, volume, Region, Side};
use crate::witness::{judge_safe, judge_unsafe, Verdict, MILLION};

pub const MOST_BOXES: usize = 128;

#[derive(Clone, Debug, PartialEq, Eq)]
pub struct MapBox {
    pub sides: Vec<Side>,
    pub verdict: Verdict,
}

#[derive(Clone, Debug, PartialEq, Eq)]
pub struct Map {
    pub chain: Chain,
    pub grid: u32,
    pub limit: u32,
    pub boxes: Vec<MapBox>,
}

/// A closed map. Nothing changes it.
pub struct ClosedMap(Map);

impl Map {
    pub fn new(chain: Chain) -> Map {
        let sides = vec![Side { low: 0, high: 1 }; chain.rates];
        let boxes = vec![MapBox { sides, verdict: Verdict::Open }];
        Map { chain, grid: 1, limit: 0, boxes }
    }

    pub fn lay_out(&mut self, grid: u32, limit: u32, list: &[u32]) -> Result<(), Refusal> {
        if self.boxes.len() != 1 || self.boxes[0].verdict != Verdict::Open {
            return Err(plain(8));
        }
        if !(1..=1000).contains(&grid) || limit > MILLION {
            return Err(plain(6));
        }
        let sides = pair_up(list).ok_or(plain(7))?;
        if sides.len() != self.chain.rates
            || sides.iter().any(|side| side.low >= side.high || side.high > grid)
        {
            return Err(plain(7));
        }
        self.grid = grid;
        self.limit = limit;
        self.boxes[0].sides = sides;
        Ok(())
    }

    pub fn split(&mut self, number: u32, rate: u32, place: u32) -> Result<(), Refusal> {
        let number = self.open_box(number)?;
        let rate = rate as usize;
        if rate >= self.chain.rates {
            return Err(plain(11));
        }
        let side = self.boxes[number].sides[rate];
        if place <= side.low || place >= side.high {
            return Err(plain(11));
        }
        if self.boxes.len() >= MOST_BOXES {
            return Err(plain(12));
        }
        let mut high_half = self.boxes[number].clone();
        high_half.sides[rate].low = place;
        self.boxes[number].sides[rate].high = place;
        self.boxes.push(high_half);
        Ok(())
    }

    pub fn safe_witness(&mut self, number: u32, v: &[u32]) -> Result<(), Refusal> {
        let number = self.open_box(number)?;
        let verdict = judge_safe(&self.chain, &self.region(number), self.limit, v)?;
        self.boxes[number].verdict = verdict;
        Ok(())
    }

    pub fn unsafe_witness(&mut self, number: u32, v: &[u32], w: &[u32]) -> Result<(), Refusal> {
        let number = self.open_box(number)?;
        let verdict = judge_unsafe(&self.chain, &self.region(number), self.limit, v, w)?;
        self.boxes[number].verdict = verdict;
        Ok(())
    }

    pub fn count(&self) -> usize {
        self.boxes.len()
    }

    pub fn find(&self, number: u32) -> Result<&MapBox, Refusal> {
        self.boxes.get(number as usize).ok_or(plain(9))
    }

    /// The volumes of all safe, all unsafe and all open boxes.
    pub fn measure(&self) -> [u64; 3] {
        let mut volumes = [0; 3];
        for one in &self.boxes {
            let kind = match one.verdict {
                Verdict::Safe { .. } => 0,
                Verdict::Unsafe { .. } => 1,
                Verdict::Open => 2,
            };
            volumes[kind] += volume(&one.sides);
        }
        volumes
    }

    pub fn close(self) -> ClosedMap {
        ClosedMap(self)
    }

    /// The grid with the sides of one box.
    pub fn region(&self, number: usize) -> Region {
        Region { grid: self.grid, sides: self.boxes[number].sides.clone() }
    }

    /// The index of a box that is there (9) and open (10).
    fn open_box(&self, number: u32) -> Result<usize, Refusal> {
        if self.find(number)?.verdict != Verdict::Open {
            return Err(plain(10));
        }
        Ok(number as usize)
    }

    /// The line of a box, as in the sheet.
    pub fn box_line(&self, number: u32) -> Result<String, Refusal> {
        let one = self.find(number)?;
        let mut line = number.to_string();
        for side in &one.sides {
            line += &format!(" {} {}", side.low, side.high);
        }
        line += &match one.verdict {
            Verdict::Open => " open\n".to_string(),
            Verdict::Safe { bound } => format!(" safe {bound}\n"),
            Verdict::Unsafe { bound, steps } => format!(" unsafe {bound} {steps}\n"),
        };
        Ok(line)
    }
}

impl ClosedMap {
    pub fn map(&self) -> &Map {
        &self.0
    }

    pub fn sheet(&self) -> String {
        let mut text = String::new();
        for number in 0..self.0.boxes.len() {
            text += &self.0.box_line(number as u32).expect("the box is there");
        }
        let [safe, not_safe, open] = self.0.measure();
        text + &format!("{safe} {not_safe} {open}\n")
    }
}
