//! A chain as a plain value, and the rules that it has to keep.

use crate::refusal::{plain, Refusal};

#[derive(Clone, Debug, PartialEq, Eq)]
pub struct Edge {
    pub successor: usize,
    /// 2^j coefficients, number 0 first.
    pub coefficients: Vec<i32>,
}

#[derive(Clone, Debug, PartialEq, Eq)]
pub struct Row {
    /// The rates that the row names, ascending.
    pub rates: Vec<usize>,
    pub edges: Vec<Edge>,
}

#[derive(Clone, Debug, PartialEq, Eq)]
pub struct Chain {
    pub states: usize,
    pub rates: usize,
    pub unit: u32,
    pub start: usize,
    /// 1 where the state is bad, 0 where it is not.
    pub marks: Vec<u8>,
    pub rows: Vec<Row>,
}

impl Chain {
    pub fn mark(&self, state: usize) -> Result<u8, Refusal> {
        self.marks.get(state).copied().ok_or(plain(13))
    }

    pub fn row(&self, state: usize) -> Result<&Row, Refusal> {
        self.rows.get(state).ok_or(plain(13))
    }

    pub fn is_bad(&self, state: usize) -> bool {
        self.marks[state] == 1
    }

    /// Whether the chain keeps every rule and limit.
    pub fn lawful(&self) -> bool {
        let numbers = (1..=4096).contains(&self.states)
            && (1..=4).contains(&self.rates)
            && (1..=1000).contains(&self.unit)
            && self.start < self.states;
        numbers
            && self.marks.len() == self.states
            && self.rows.len() == self.states
            && self.marks.iter().all(|&mark| mark <= 1)
            && self.rows.iter().all(|row| self.row_has_form(row) && sums_are_right(row, self.unit))
    }

    fn row_has_form(&self, row: &Row) -> bool {
        let successors: Vec<usize> = row.edges.iter().map(|edge| edge.successor).collect();
        row.rates.len() <= 3
            && ascends_below(&row.rates, self.rates)
            && (1..=8).contains(&row.edges.len())
            && ascends_below(&successors, self.states)
            && row.edges.iter().all(|edge| edge_has_form(edge, row.rates.len()))
    }
}

fn edge_has_form(edge: &Edge, rate_count: usize) -> bool {
    edge.coefficients.len() == 1 << rate_count
        && edge.coefficients.iter().all(|c| (-8000..=8000).contains(c))
}

fn ascends_below(list: &[usize], end: usize) -> bool {
    list.iter().all(|&x| x < end) && list.windows(2).all(|pair| pair[0] < pair[1])
}

/// The coefficients with number 0 add up to K, those with any other number to 0.
pub fn sums_are_right(row: &Row, unit: u32) -> bool {
    (0..1usize << row.rates.len()).all(|number| {
        let sum: i64 = row.edges.iter().map(|edge| edge.coefficients[number] as i64).sum();
        sum == if number == 0 { unit as i64 } else { 0 }
    })
}

/// A row without rates and with a single edge back to the state.
pub fn looping_row(state: usize, unit: u32) -> Row {
    Row { rates: vec![], edges: vec![Edge { successor: state, coefficients: vec![unit as i32] }] }
}

/// Chain D of the documentation.
pub fn chain_d() -> Chain {
    let edge = |successor: usize, a: i32, b: i32| Edge { successor, coefficients: vec![a, b] };
    Chain {
        states: 4,
        rates: 2,
        unit: 1,
        start: 0,
        marks: vec![0, 0, 1, 0],
        rows: vec![
            Row { rates: vec![0], edges: vec![edge(1, 0, 1), edge(3, 1, -1)] },
            Row { rates: vec![1], edges: vec![edge(0, 0, 1), edge(2, 1, -1)] },
            looping_row(2, 1),
            looping_row(3, 1),
        ],
    }
}
