//! Measures the engine, linked as a static library, beside a plain Rust program, on the same chain and in one run.
mod plain;

use plain::{Chain, Edge, Field, Row};
use std::time::Instant;

extern "C" {
    fn ratemap_open(file: *const u8, length: usize) -> u32;
    fn ratemap_write(file: *const u8, length: usize, buffer: *mut u8, room: usize) -> usize;
    fn ratemap_safe(file: *const u8, length: usize, grid: u32, limit: u32, sides: *const u32, side_count: usize, v: *const u32, v_count: usize) -> u32;
    fn ratemap_unsafe(file: *const u8, length: usize, grid: u32, limit: u32, sides: *const u32, side_count: usize, v: *const u32, v_count: usize, w: *const u32, w_count: usize) -> u32;
}

const SIDES: [u32; 6] = [100, 300, 200, 400, 50, 250];

/// A chain of 8 edges and 3 rates in every row. From a state the job goes on to one of the next seven, or, with a chance
/// that grows with all three rates, to the bad last state.
fn chain(states: usize) -> Chain {
    let last = states - 1;
    let rows = (0..states)
        .map(|s| {
            let mut successors: Vec<u32> = (0..7).map(|k| ((s * 7 + k * (states / 8) + 1) % last) as u32).collect();
            successors.sort();
            successors.dedup();
            for k in 0.. {
                if successors.len() == 7 {
                    break;
                }
                if !successors.contains(&k) {
                    successors.push(k);
                    successors.sort();
                }
            }
            let mut edges: Vec<Edge> = successors
                .iter()
                .enumerate()
                .map(|(k, successor)| {
                    let part = if k == 0 { 100 } else { 150 };
                    Edge { successor: *successor, coefficients: [part, -4, -3, -2, -2, -1, -1, -1] }
                })
                .collect();
            edges.push(Edge { successor: last as u32, coefficients: [0, 28, 21, 14, 14, 7, 7, 7] });
            Row { rates: vec![0, 1, 2], edges }
        })
        .collect();
    let mut marks = vec![0; states];
    marks[last] = 1;
    Chain { rates: 3, unit: 1000, start: 0, marks, rows }
}

/// The shortest of some times, in milliseconds.
fn best(times: usize, mut call: impl FnMut()) -> f64 {
    (0..times)
        .map(|_| {
            let began = Instant::now();
            call();
            began.elapsed().as_secs_f64() * 1e3
        })
        .fold(f64::INFINITY, f64::min)
}

fn main() {
    println!("| states | call | plain Rust, ms | engine, ms | engine / Rust |");
    println!("|---|---|---|---|---|");
    for states in [512, 1024, 2048, 4096] {
        let made = chain(states);
        let file = plain::write(&made);
        let field = Field { grid: 1000, low: [SIDES[0], SIDES[2], SIDES[4], 0], high: [SIDES[1], SIDES[3], SIDES[5], 0] };
        let v = vec![1_000_000u32; states];
        let mut w = vec![200u32; states];
        w[states - 1] = 0;
        let read = plain::open(&file).expect("the file opens");
        let mut buffer = vec![0u8; file.len()];
        let safe = || unsafe { ratemap_safe(file.as_ptr(), file.len(), 1000, 1_000_000, SIDES.as_ptr(), 6, v.as_ptr(), v.len()) };
        let exceeding = || unsafe { ratemap_unsafe(file.as_ptr(), file.len(), 1000, 999_999, SIDES.as_ptr(), 6, v.as_ptr(), v.len(), w.as_ptr(), w.len()) };
        assert_eq!(unsafe { ratemap_open(file.as_ptr(), file.len()) }, 0);
        assert_eq!(unsafe { ratemap_write(file.as_ptr(), file.len(), buffer.as_mut_ptr(), buffer.len()) }, file.len());
        assert_eq!(buffer, file);
        assert_eq!(plain::safe(&read, &field, 1_000_000, &v), 0);
        assert_eq!(safe(), 0);
        assert_eq!(plain::exceeding(&read, &field, 999_999, &v, &w), 0);
        assert_eq!(exceeding(), 0);

        let opening = best(40, || assert_eq!(unsafe { ratemap_open(file.as_ptr(), file.len()) }, 0));
        let plain_opening = best(40, || assert!(plain::open(&file).is_some()));
        let lines = [
            ("open", plain_opening, opening),
            (
                "write",
                best(40, || assert_eq!(plain::write(&read).len(), file.len())),
                best(40, || unsafe {
                    ratemap_write(file.as_ptr(), file.len(), buffer.as_mut_ptr(), buffer.len());
                }) - opening,
            ),
            ("safe witness", best(40, || assert_eq!(plain::safe(&read, &field, 1_000_000, &v), 0)), best(40, || assert_eq!(safe(), 0)) - opening),
            (
                "unsafe witness",
                best(40, || assert_eq!(plain::exceeding(&read, &field, 999_999, &v, &w), 0)),
                best(40, || assert_eq!(exceeding(), 0)) - opening,
            ),
        ];
        for (call, rust, engine) in lines {
            println!("| {states} | {call} | {rust:.2} | {engine:.2} | {:.2} |", engine / rust);
        }
    }
}
