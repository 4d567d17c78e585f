//! The pass line: a chain worked out from the numbers of passes and repeats.

use crate::chain::{looping_row, Chain, Edge, Row};
use crate::refusal::{plain, Refusal};

/// The chain of B passes with R repeats; 14 where one of them is outside its limits.
pub fn pass_line(passes: usize, repeats: usize) -> Result<Chain, Refusal> {
    if !(1..=64).contains(&passes) || repeats > 31 {
        return Err(plain(14));
    }
    let states = passes * (repeats + 1) + 2;
    let mut rows = vec![];
    for pass in 0..passes {
        for try_number in 0..=repeats {
            rows.push(try_row(pass, try_number, repeats, states));
        }
    }
    rows.push(looping_row(states - 2, 1));
    rows.push(looping_row(states - 1, 1));
    let mut marks = vec![0; states];
    marks[states - 1] = 1;
    Ok(Chain { states, rates: 2, unit: 1, start: 0, marks, rows })
}

fn try_row(pass: usize, try_number: usize, repeats: usize, states: usize) -> Row {
    let next_pass = (pass + 1) * (repeats + 1);
    let late = states - 1;
    if try_number < repeats {
        let next_try = pass * (repeats + 1) + try_number + 1;
        Row {
            rates: vec![0, 1],
            edges: vec![
                edge(next_try, &[0, 1, 0, -1]),
                edge(next_pass, &[1, -1, 0, 0]),
                edge(late, &[0, 0, 0, 1]),
            ],
        }
    } else {
        Row { rates: vec![0], edges: vec![edge(next_pass, &[1, -1]), edge(late, &[0, 1])] }
    }
}

fn edge(successor: usize, coefficients: &[i32]) -> Edge {
    Edge { successor, coefficients: coefficients.to_vec() }
}
