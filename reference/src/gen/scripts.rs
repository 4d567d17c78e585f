//! Random scripts that make sense for a chain, with faults strewn in.

use crate::chain::Chain;
use crate::map::{Map, MOST_BOXES};
use crate::program::carry_out;
use crate::rng::Rng;
use crate::script::parse;
use crate::search::{corner_rows, has_negative, safe_list, unsafe_lists};
use crate::value::Side;
use crate::witness::{Verdict, MILLION};

/// Writes lines and carries them out at once, so that it knows the map.
pub struct Player<'a> {
    pub rng: &'a mut Rng,
    pub map: Map,
    pub lines: Vec<String>,
}

impl<'a> Player<'a> {
    pub fn new(rng: &'a mut Rng, chain: Chain) -> Player<'a> {
        Player { rng, map: Map::new(chain), lines: vec![] }
    }

    /// Adds a line, and tells whether it was taken.
    pub fn line(&mut self, line: String) -> bool {
        let call = parse(line.as_bytes(), self.map.chain.states);
        self.lines.push(line);
        call.is_ok_and(|call| carry_out(&mut self.map, &call).is_ok())
    }

    /// The script, with or without `E`, lines behind it, and a last byte 10.
    pub fn finish(mut self) -> Vec<u8> {
        if self.rng.percent(85) {
            self.lines.push("E".to_string());
            if self.rng.percent(15) {
                for line in ["Q 0", "E", "C 0 0 1", "x", ""] {
                    self.lines.push(line.to_string());
                }
            }
        }
        let mut script = self.lines.join("\n").into_bytes();
        if self.rng.percent(85) && !self.lines.is_empty() {
            script.push(b'\n');
        }
        script
    }

    // Fields

    pub fn random_grid(&mut self) -> u32 {
        match self.rng.below(8) {
            0 => 1,
            1 => 2,
            2 | 3 => 10,
            4 => 100,
            5 => 1000,
            _ => self.rng.range(1, 1000) as u32,
        }
    }

    pub fn random_sides(&mut self, grid: u32) -> Vec<Side> {
        let narrow = self.rng.percent(40);
        let all = self.rng.percent(20);
        (0..self.map.chain.rates).map(|_| self.random_side(grid, narrow, all)).collect()
    }

    fn random_side(&mut self, grid: u32, narrow: bool, all: bool) -> Side {
        if all {
            return Side { low: 0, high: grid };
        }
        let low = self.rng.below(grid as usize) as u32;
        let most = if narrow { (low + 1 + grid / 10).min(grid) } else { grid };
        Side { low, high: self.rng.range(low as usize + 1, most as usize) as u32 }
    }

    /// A limit that a part of the field is likely to keep.
    fn random_limit(&mut self, grid: u32, sides: &[Side]) -> u32 {
        if self.rng.percent(15) {
            return self.rng.pick(&[0, 1, 1_000_000, 999_999, 500_000]);
        }
        let trial = if self.rng.percent(40) { sides.to_vec() } else { self.part(sides) };
        let (safe, not_safe) = self.bounds(grid, trial);
        match self.rng.below(6) {
            0 => safe,
            1 => safe.saturating_sub(1),
            2 => not_safe,
            3 => not_safe.saturating_sub(1),
            4 => self.rng.range(not_safe.min(safe) as usize / 2, safe as usize) as u32,
            _ => (safe / 2 + not_safe / 2).min(MILLION),
        }
    }

    /// A small part of the sides.
    fn part(&mut self, sides: &[Side]) -> Vec<Side> {
        let shrink = |side: &Side, rng: &mut Rng| {
            let low = rng.range(side.low as usize, side.high as usize - 1) as u32;
            let high = (low + 1 + (side.high - side.low) / 8).min(side.high);
            Side { low, high }
        };
        sides.iter().map(|side| shrink(side, self.rng)).collect()
    }

    /// The bounds of the witnesses that the search finds on a box.
    fn bounds(&self, grid: u32, sides: Vec<Side>) -> (u32, u32) {
        let region = crate::value::Region { grid, sides };
        let rows = corner_rows(&self.map.chain, &region);
        if has_negative(&rows) {
            return (MILLION, 0);
        }
        let start = self.map.chain.start;
        let safe = safe_list(&self.map.chain, &rows)[start];
        (safe, unsafe_lists(&self.map.chain, &rows, 1).0[start])
    }

    pub fn lay_out_well(&mut self) -> bool {
        let grid = self.random_grid();
        let sides = self.random_sides(grid);
        let limit = self.random_limit(grid, &sides);
        self.line(lay_out_line(grid, limit, &sides))
    }

    pub fn lay_out_badly(&mut self) {
        let mut grid = self.random_grid();
        let mut sides = self.random_sides(grid);
        let mut limit = self.rng.below(1_000_001) as u32;
        for _ in 0..self.rng.range(1, 2) {
            let last = sides.len().max(1) - 1;
            match self.rng.below(9) {
                0 => grid = self.rng.pick(&[0, 1001, 4_294_967_295, 65_536]),
                1 => limit = self.rng.pick(&[1_000_001, 4_294_967_295, 1_000_000]),
                2 => sides.push(Side { low: 0, high: 1 }),
                3 => drop(sides.pop()),
                4 if !sides.is_empty() => sides[last].high = sides[last].low,
                5 if !sides.is_empty() => sides[last].high = grid.saturating_add(1),
                6 if !sides.is_empty() => sides[0] = Side { low: sides[0].high, high: sides[0].low },
                7 if !sides.is_empty() => sides[last].high = 4_294_967_295,
                _ => sides.clear(),
            }
        }
        let mut line = lay_out_line(grid, limit, &sides);
        if self.rng.percent(15) {
            line += " 1";
        }
        self.line(line);
    }

    // Cuts

    pub fn cut_well(&mut self, number: usize) -> bool {
        let sides = self.map.boxes[number].sides.clone();
        let wide: Vec<usize> = (0..sides.len()).filter(|&r| sides[r].high - sides[r].low > 1).collect();
        if wide.is_empty() {
            return false;
        }
        let rate = self.rng.pick(&wide);
        let (low, high) = (sides[rate].low as usize, sides[rate].high as usize);
        let place = if self.rng.percent(50) { (low + high) / 2 } else { self.rng.range(low + 1, high - 1) };
        self.line(format!("C {number} {rate} {place}"))
    }

    pub fn cut_badly(&mut self) {
        let number = self.any_box();
        let rate = self.rng.below(self.map.chain.rates);
        let side = self.map.boxes[number as usize % self.map.count()].sides[rate];
        let rates = self.map.chain.rates as u32;
        let line = match self.rng.below(5) {
            0 => format!("C {number} {rate} {}", side.low),
            1 => format!("C {number} {rate} {}", side.high),
            2 => format!("C {number} {} {}", self.rng.pick(&[rates, 4, 4_294_967_295]), side.low + 1),
            3 => format!("C {} {rate} {}", self.wrong_box(), side.low + 1),
            _ => format!("C {number} {rate} {}", self.rng.pick(&[0u32, 1001, 4_294_967_295])),
        };
        self.line(line);
    }

    /// Any box, judged or not.
    fn any_box(&mut self) -> u32 {
        self.rng.below(self.map.count()) as u32
    }

    fn wrong_box(&mut self) -> u32 {
        let count = self.map.count() as u32;
        self.rng.pick(&[count, count + 1, 128, 129, 4_294_967_295])
    }

    pub fn open_boxes(&self) -> Vec<usize> {
        let is_open = |&i: &usize| self.map.boxes[i].verdict == Verdict::Open;
        (0..self.map.count()).filter(is_open).collect()
    }

    // Witnesses

    /// The usual course for a box: a witness that can be taken, else a cut.
    pub fn work_on(&mut self, number: usize) -> bool {
        let rows = corner_rows(&self.map.chain, &self.map.region(number));
        if has_negative(&rows) {
            if self.rng.percent(20) {
                self.give_any(number);
            }
            return self.cut_well(number);
        }
        let start = self.map.chain.start;
        let v = safe_list(&self.map.chain, &rows);
        if v[start] <= self.map.limit {
            return self.line(witness_line('S', number as u32, &[&v]));
        }
        let smallest = if self.rng.percent(70) { 1 } else { self.map.limit / 10 + 1 };
        let (v, mut w) = unsafe_lists(&self.map.chain, &rows, smallest);
        if v[start] > self.map.limit {
            if self.rng.percent(25) {
                // A multiple of a good w is good too, and makes large step numbers.
                let most = w.iter().max().map_or(1, |&x| MILLION / x.max(1));
                let times = self.rng.range(1, most as usize) as u32;
                w.iter_mut().for_each(|x| *x *= times);
            }
            return self.line(witness_line('U', number as u32, &[&v, &w])) || self.cut_well(number);
        }
        self.cut_well(number)
    }

    /// A witness for this box, of either kind, damaged or not.
    pub fn give_any(&mut self, number: usize) {
        let rows = corner_rows(&self.map.chain, &self.map.region(number));
        let safe = self.rng.percent(50);
        let (mut v, mut w) = if safe {
            (safe_list(&self.map.chain, &rows), vec![])
        } else {
            unsafe_lists(&self.map.chain, &rows, 1)
        };
        if self.rng.percent(75) {
            for _ in 0..self.rng.range(1, 2) {
                self.damage_list(&mut v, &mut w, safe);
            }
        }
        let letter = if safe { 'S' } else { 'U' };
        let number = if self.rng.percent(4) { self.wrong_box() } else { number as u32 };
        self.line(witness_line(letter, number, &[&v, &w]));
    }

    /// Witnesses that are one too tight at one state, so that as a rule a
    /// single corner of its row refuses them. Rows with more rates come first.
    pub fn probe(&mut self, number: usize) {
        let rows = corner_rows(&self.map.chain, &self.map.region(number));
        let v = safe_list(&self.map.chain, &rows);
        let (u, w) = unsafe_lists(&self.map.chain, &rows, 1);
        for _ in 0..self.rng.range(1, 3) {
            let state = self.rich_state();
            let (mut v, mut u, mut w) = (v.clone(), u.clone(), w.clone());
            let line = match self.rng.below(3) {
                0 => {
                    v[state] = v[state].saturating_sub(1);
                    witness_line('S', number as u32, &[&v])
                }
                1 => {
                    u[state] += 1;
                    witness_line('U', number as u32, &[&u, &w])
                }
                _ => {
                    w[state] = w[state].saturating_sub(1);
                    witness_line('U', number as u32, &[&u, &w])
                }
            };
            if self.line(line) {
                return;
            }
        }
    }

    /// Of three random states the one whose row names the most rates.
    fn rich_state(&mut self) -> usize {
        let states = self.map.chain.states;
        let trial: Vec<usize> = (0..3).map(|_| self.rng.below(states)).collect();
        let rates = |&state: &usize| self.map.chain.rows[state].rates.len();
        trial.into_iter().max_by_key(rates).expect("three states")
    }

    fn damage_list(&mut self, v: &mut Vec<u32>, w: &mut Vec<u32>, safe: bool) {
        let list: &mut Vec<u32> = if safe || self.rng.percent(50) { v } else { w };
        if list.is_empty() {
            list.push(1);
            return;
        }
        let at = self.rng.below(list.len());
        match self.rng.below(13) {
            0..=3 => list[at] = list[at].saturating_sub(1),
            4 | 5 => list[at] += 1,
            6 => list[at] = self.rng.pick(&[1_000_001, 4_294_967_295, 1_000_000, 2_000_000]),
            7 => list[at] = self.rng.pick(&[0, 1, 999_999]),
            8 => drop(list.pop()),
            9 => list.push(0),
            10 => {
                let other = self.rng.below(list.len());
                list.swap(at, other);
            }
            11 => list[at] = self.rng.below(1_000_001) as u32,
            _ => {
                let all = self.rng.pick(&[0, 1_000_000]);
                list.fill(all);
            }
        }
    }

    pub fn ask(&mut self) {
        let number = if self.rng.percent(85) { self.any_box() } else { self.wrong_box() };
        self.line(format!("Q {number}"));
    }

    /// A call that is refused because the map is in use or the box is judged.
    fn call_too_late(&mut self) {
        let judged: Vec<usize> =
            (0..self.map.count()).filter(|&i| self.map.boxes[i].verdict != Verdict::Open).collect();
        if judged.is_empty() || self.rng.percent(30) {
            self.lay_out_well();
            return;
        }
        let number = self.rng.pick(&judged);
        match self.rng.below(3) {
            0 => drop(self.line(format!("C {number} 0 1"))),
            1 => drop(self.line(format!("S {number} 0"))),
            _ => self.give_any(number),
        }
    }

    /// Plays this many moves, each of which makes about one line.
    pub fn play(&mut self, moves: usize) {
        for _ in 0..moves {
            let open = self.open_boxes();
            if open.is_empty() && self.rng.percent(70) {
                self.ask();
                return;
            }
            let number = if open.is_empty() { 0 } else { self.rng.pick(&open) };
            match self.rng.below(20) {
                0..=8 if !open.is_empty() => drop(self.work_on(number)),
                9 | 10 if !open.is_empty() => self.probe(number),
                0..=12 => self.give_any(number),
                13 | 14 if !open.is_empty() => drop(self.cut_well(number)),
                13..=15 => self.cut_badly(),
                16 | 17 => self.ask(),
                18 => self.call_too_late(),
                _ if self.rng.percent(50) => self.lay_out_badly(),
                _ => {
                    let line = self.rng.pick(&["E 0", "Q", "C 0 0", "L 10", "S", "U", ""]);
                    self.line(line.to_string());
                }
            }
        }
    }
}

pub fn lay_out_line(grid: u32, limit: u32, sides: &[Side]) -> String {
    let list: Vec<String> = sides.iter().map(|side| format!(" {} {}", side.low, side.high)).collect();
    format!("L {grid} {limit}{}", list.concat())
}

pub fn witness_line(letter: char, number: u32, lists: &[&[u32]]) -> String {
    let list: Vec<String> = lists.concat().iter().map(|x| format!(" {x}")).collect();
    format!("{letter} {number}{}", list.concat())
}

/// A script for a chain: a beginning, a field, and some moves.
pub fn play_script(rng: &mut Rng, chain: &Chain, moves: usize) -> Vec<u8> {
    let mut player = Player::new(rng, chain.clone());
    if player.rng.percent(8) {
        // On the new map, before anything is laid out.
        player.give_any(0);
    }
    if player.rng.percent(25) {
        player.lay_out_badly();
    }
    if player.rng.percent(20) {
        player.lay_out_well();
        player.ask();
    }
    if player.rng.percent(95) {
        player.lay_out_well();
    }
    player.play(moves);
    player.finish()
}

/// A script that makes the map full, or nearly, and goes on from there.
pub fn full_script(rng: &mut Rng, chain: &Chain) -> Vec<u8> {
    let mut player = Player::new(rng, chain.clone());
    let grid = player.rng.pick(&[1000, 500, 200]);
    let sides: Vec<Side> = (0..chain.rates).map(|_| Side { low: 0, high: grid }).collect();
    let limit = player.rng.below(1_000_001) as u32;
    player.line(lay_out_line(grid, limit, &sides));
    for _ in 0..player.rng.range(124, 132) {
        let open = player.open_boxes();
        let number = player.rng.pick(&open);
        player.cut_well(number);
    }
    if player.map.count() == MOST_BOXES {
        player.cut_badly();
    }
    let moves = player.rng.range(2, 12);
    player.play(moves);
    player.finish()
}

/// The largest field and lists of the largest and the least numbers.
pub fn largest_script(rng: &mut Rng, chain: &Chain) -> Vec<u8> {
    let mut player = Player::new(rng, chain.clone());
    let side = player.rng.pick(&[Side { low: 0, high: 1000 }, Side { low: 999, high: 1000 }]);
    let limit = player.rng.pick(&[0, 999_999, 1_000_000]);
    player.line(lay_out_line(1000, limit, &vec![side; chain.rates]));
    let bad_only: Vec<u32> = chain.marks.iter().map(|&mark| mark as u32 * MILLION).collect();
    for _ in 0..player.rng.range(1, 4) {
        let v = if player.rng.percent(50) { bad_only.clone() } else { vec![MILLION; chain.states] };
        let w = vec![player.rng.pick(&[0, 999_999, MILLION]); chain.states];
        let line = match player.rng.below(3) {
            0 => witness_line('S', 0, &[&v]),
            _ => witness_line('U', 0, &[&v, &w]),
        };
        player.line(line);
    }
    player.play(5);
    player.finish()
}
