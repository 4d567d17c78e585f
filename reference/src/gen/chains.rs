//! Random lawful chains.

use crate::chain::{looping_row, Chain, Edge, Row};
use crate::pass_line::pass_line;
use crate::rng::Rng;
use std::collections::BTreeSet;

/// What a random chain is to be like.
pub struct Shape {
    pub most_states: usize,
    /// The chance, in percent, that a row gets coefficients that may lead to
    /// negative chances.
    pub wild: usize,
}

/// A random chain, or a pass line with small numbers.
pub fn any_chain(rng: &mut Rng, shape: &Shape) -> Chain {
    if rng.percent(10) && shape.most_states >= 5 {
        let passes = rng.range(1, (shape.most_states - 2).min(8));
        let repeats = rng.below(((shape.most_states - 2) / passes).min(6));
        return pass_line(passes, repeats).expect("B and R are within their limits");
    }
    random_chain(rng, shape)
}

pub fn random_chain(rng: &mut Rng, shape: &Shape) -> Chain {
    let states = random_states(rng, shape.most_states);
    let rates = rng.range(1, 4);
    let unit = random_unit(rng);
    let start = if rng.percent(70) { 0 } else { rng.below(states) };
    // A tidy chain ends in a good and a bad state, so that chances lie between.
    let tidy = states >= 3 && rng.percent(65);
    let mut chain = Chain { states, rates, unit, start, marks: vec![0; states], rows: vec![] };
    for state in 0..states {
        chain.marks[state] = random_mark(rng, state, states, tidy);
        let ends = tidy && state + 2 >= states;
        let row = if ends { looping_row(state, unit) } else { random_row(rng, &chain, state, shape.wild) };
        chain.rows.push(row);
    }
    if rng.percent(60) && start + 1 < states {
        chain.marks[start] = 0;
    }
    chain
}

/// Small chains come up more often than large ones.
fn random_states(rng: &mut Rng, most: usize) -> usize {
    let end = match rng.below(10) {
        0..=4 => most.min(6),
        5..=7 => most.min(20),
        _ => most,
    };
    rng.range(1, end)
}

fn random_unit(rng: &mut Rng) -> u32 {
    match rng.below(8) {
        0 | 1 => 1,
        2 => 2,
        3 => 10,
        4 => 100,
        5 => 1000,
        _ => rng.range(1, 1000) as u32,
    }
}

/// The last state is often bad, the others seldom.
fn random_mark(rng: &mut Rng, state: usize, states: usize, tidy: bool) -> u8 {
    let chance = match states - state {
        1 if tidy => 100,
        2 if tidy => 0,
        1 => 80,
        _ => 8,
    };
    rng.percent(chance) as u8
}

fn random_row(rng: &mut Rng, chain: &Chain, state: usize, wild: usize) -> Row {
    let near_end = state + 2 >= chain.states;
    if rng.percent(if near_end { 70 } else { 4 }) {
        return looping_row(state, chain.unit);
    }
    let rates = random_rates(rng, chain.rates);
    let successors = random_successors(rng, state, chain.states);
    let mut row = row_of_corners(rng, rates, &successors, chain.unit);
    if rng.percent(wild) {
        make_wild(rng, &mut row);
    }
    row
}

fn random_rates(rng: &mut Rng, rates: usize) -> Vec<usize> {
    let count = rng.below(rates.min(3) + 1);
    let mut chosen = BTreeSet::new();
    while chosen.len() < count {
        chosen.insert(rng.below(rates));
    }
    chosen.into_iter().collect()
}

/// Successors are often near, or among the last two states.
fn random_successors(rng: &mut Rng, state: usize, states: usize) -> Vec<usize> {
    let most = if rng.percent(80) { 4 } else { 8 };
    let least = if rng.percent(90) { 2 } else { 1 };
    let count = rng.range(least, most).min(states);
    let mut chosen = BTreeSet::new();
    while chosen.len() < count {
        chosen.insert(match rng.below(5) {
            0 | 1 => (state + rng.range(1, 3)).min(states - 1),
            2 => states - 1 - rng.below(2).min(states - 1),
            _ => rng.below(states),
        });
    }
    chosen.into_iter().collect()
}

/// Chooses chances at the corners of all rates from 0 to 1, and works out the
/// coefficients. The sums are then right, and no chance is negative anywhere.
fn row_of_corners(rng: &mut Rng, rates: Vec<usize>, successors: &[usize], unit: u32) -> Row {
    let size = 1usize << rates.len();
    let parts: Vec<Vec<i32>> = (0..size).map(|_| divide(rng, unit as i32, successors.len())).collect();
    let edge = |e: usize| {
        let mut table: Vec<i32> = parts.iter().map(|part| part[e]).collect();
        for bit in 0..rates.len() {
            for i in (0..size).filter(|i| i >> bit & 1 == 1) {
                table[i] -= table[i ^ (1 << bit)];
            }
        }
        Edge { successor: successors[e], coefficients: table }
    };
    let edges = (0..successors.len()).map(edge).collect();
    Row { rates, edges }
}

/// Divides a whole number into parts, some of them often 0.
fn divide(rng: &mut Rng, whole: i32, count: usize) -> Vec<i32> {
    let mut parts = vec![0; count];
    if rng.percent(20) {
        parts[rng.below(count)] = whole;
        return parts;
    }
    let mut rest = whole;
    for _ in 0..count {
        let piece = rng.below(rest as usize + 1) as i32;
        parts[rng.below(count)] += piece;
        rest -= piece;
    }
    parts[rng.below(count)] += rest;
    parts
}

/// Moves some amount between two edges, in one coefficient number.
fn make_wild(rng: &mut Rng, row: &mut Row) {
    if row.edges.len() < 2 {
        return;
    }
    let times = if rng.percent(30) { 40 } else { rng.range(1, 3) };
    for _ in 0..times {
        let from = rng.below(row.edges.len());
        let to = (from + rng.range(1, row.edges.len() - 1)) % row.edges.len();
        let number = rng.below(row.edges[0].coefficients.len());
        let room_down = row.edges[from].coefficients[number] + 8000;
        let room_up = 8000 - row.edges[to].coefficients[number];
        let room = room_down.min(room_up);
        let amount = match rng.below(4) {
            0 => room,
            1 => rng.below(room as usize + 1) as i32,
            _ => room.min(rng.range(0, 40) as i32),
        };
        row.edges[from].coefficients[number] -= amount;
        row.edges[to].coefficients[number] += amount;
    }
}

/// A chain with the largest unit, whose rows name three rates and have many
/// edges, so that the numbers of a judgement become as large as they can.
pub fn largest_chain(rng: &mut Rng) -> Chain {
    let states = rng.range(3, 12);
    let rates = rng.range(3, 4);
    let mut chain = Chain { states, rates, unit: 1000, start: 0, marks: vec![0; states], rows: vec![] };
    for _ in 0..states {
        let mut named: Vec<usize> = (0..rates).collect();
        while named.len() > 3 {
            named.remove(rng.below(named.len()));
        }
        let first = rng.below(states.saturating_sub(8) + 1);
        let successors: Vec<usize> = (first..states.min(first + 8)).collect();
        let mut row = row_of_corners(rng, named, &successors, 1000);
        if rng.percent(10) {
            make_wild(rng, &mut row);
        }
        chain.rows.push(row);
    }
    let bad = if rng.percent(50) { 0 } else { states - 1 };
    chain.marks[bad] = 1;
    chain
}

/// A lawful chain whose file has exactly this length (enough for one state).
pub fn chain_of_length(rng: &mut Rng, length: usize) -> Chain {
    let states = rng.range((length - 51) / 30, (length - 51) / 12).clamp(1, 4096);
    let unit = random_unit(rng);
    let mut rows: Vec<Row> = (0..states).map(|state| looping_row(state, unit)).collect();
    // A loop takes 11 bytes with its mark and offset. A named rate takes 3
    // more in such a row, a further edge 4 more.
    let mut missing = length.checked_sub(51 + 11 * states).expect("there is room");
    let with_rate = (0..4).find(|k| missing >= 3 * k && (missing - 3 * k) % 4 == 0);
    let with_rate = with_rate.expect("the rest is large enough").min(states);
    for row in rows.iter_mut().take(with_rate) {
        row.rates = vec![0];
        row.edges[0].coefficients.push(0);
        missing -= 3;
    }
    let mut state = states - 1;
    while missing > 0 {
        let more = (missing / 4).min(7);
        rows[state] = wide_row(state, states, 1 + more, unit);
        missing -= 4 * more;
        state -= 1;
    }
    let marks = (0..states).map(|_| rng.percent(5) as u8).collect();
    Chain { states, rates: 1, unit, start: rng.below(states), marks, rows }
}

/// A row without rates and with this many edges; the first has the chance 1.
fn wide_row(state: usize, states: usize, edges: usize, unit: u32) -> Row {
    let first = state.min(states - edges);
    let edge = |i: usize| Edge {
        successor: first + i,
        coefficients: vec![if i == 0 { unit as i32 } else { 0 }],
    };
    Row { rates: vec![], edges: (0..edges).map(edge).collect() }
}
