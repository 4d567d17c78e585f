//! A seeded generator of cases. The same seed and number give the same case.

pub mod chains;
pub mod damage;
pub mod scripts;

use crate::chain::{chain_d, Chain};
use crate::file::write;
use crate::pass_line::pass_line;
use crate::program::MOST_BYTES;
use crate::rng::Rng;
use chains::{any_chain, chain_of_length, largest_chain, Shape};
use damage::{damage_file, damage_script, lines_script, script_of_length};
use scripts::{full_script, largest_script, play_script};

/// What the program gets: the bytes of `job.chn` and of the script.
pub struct Case {
    pub kind: &'static str,
    pub file: Vec<u8>,
    pub script: Vec<u8>,
}

#[derive(Clone, Copy, PartialEq, Eq)]
pub enum Size {
    Any,
    Small,
}

/// Case number `index` of a seed.
pub fn case(seed: u64, index: u64, size: Size) -> Case {
    let mut rng = Rng::for_case(seed, index);
    let rng = &mut rng;
    match rng.below(100) {
        0 | 1 => largest_case(rng),
        2..=47 => play_case(rng, size),
        48..=62 => damaged_script_case(rng, size),
        63..=65 => lines_case(rng),
        66..=91 => damaged_file_case(rng, size),
        92..=94 if size == Size::Any => full_case(rng),
        95..=96 if size == Size::Any => long_script_case(rng),
        97 if size == Size::Any => long_file_case(rng),
        98 => noise_case(rng),
        99 if size == Size::Any && rng.percent(25) => most_states_case(rng),
        _ => play_case(rng, size),
    }
}

fn shape(rng: &mut Rng, size: Size) -> Shape {
    Shape {
        most_states: if size == Size::Small { 7 } else { 60 },
        wild: if rng.percent(75) { 0 } else { rng.pick(&[5, 20, 60]) },
    }
}

fn some_chain(rng: &mut Rng, size: Size) -> Chain {
    if rng.percent(4) {
        return chain_d();
    }
    let shape = shape(rng, size);
    any_chain(rng, &shape)
}

fn moves(rng: &mut Rng, size: Size) -> usize {
    match size {
        Size::Small => rng.range(1, 14),
        Size::Any => rng.pick(&[3, 8, 15, 30, 60]),
    }
}

fn play_case(rng: &mut Rng, size: Size) -> Case {
    let chain = some_chain(rng, size);
    let moves = moves(rng, size);
    let script = play_script(rng, &chain, moves);
    Case { kind: "play", file: write(&chain), script }
}

fn largest_case(rng: &mut Rng) -> Case {
    let chain = largest_chain(rng);
    let script = largest_script(rng, &chain);
    Case { kind: "largest numbers", file: write(&chain), script }
}

fn damaged_script_case(rng: &mut Rng, size: Size) -> Case {
    let mut case = play_case(rng, size);
    let states = u16::from_le_bytes([case.file[44], case.file[45]]) as usize;
    case.script = damage_script(rng, &case.script, states);
    Case { kind: "damaged script", ..case }
}

fn lines_case(rng: &mut Rng) -> Case {
    let chain = some_chain(rng, Size::Small);
    Case { kind: "odd lines", file: write(&chain), script: lines_script(rng) }
}

fn damaged_file_case(rng: &mut Rng, size: Size) -> Case {
    let chain = some_chain(rng, size);
    let file = damage_file(rng, &chain);
    let script = match rng.below(3) {
        0 => vec![],
        1 => b"Q 0\nE\n".to_vec(),
        _ => play_script(rng, &chain, 2),
    };
    Case { kind: "damaged file", file, script }
}

pub fn full_case(rng: &mut Rng) -> Case {
    let chain = any_chain(rng, &Shape { most_states: 8, wild: 0 });
    let script = full_script(rng, &chain);
    Case { kind: "full map", file: write(&chain), script }
}

/// Scripts of about the greatest length, now and then with a bad file.
fn long_script_case(rng: &mut Rng) -> Case {
    let length = rng.pick(&[MOST_BYTES - 1, MOST_BYTES, MOST_BYTES, MOST_BYTES + 1, MOST_BYTES + 1, 70_000, 140_000]);
    let mut case = play_case(rng, Size::Small);
    case.script = script_of_length(rng, &case.script, length);
    if rng.percent(15) {
        case.file.pop();
    }
    Case { kind: "long script", ..case }
}

/// Files of about the greatest length, lawful or not.
fn long_file_case(rng: &mut Rng) -> Case {
    let length = rng.pick(&[MOST_BYTES - 1, MOST_BYTES, MOST_BYTES, MOST_BYTES + 1, MOST_BYTES + 1, 70_000]);
    let mut file = match rng.below(5) {
        0 => write(&pass_line(64, 31).expect("the longest pass line")),
        1 => vec![rng.below(2) as u8; length],
        _ => write(&chain_of_length(rng, length)),
    };
    if rng.percent(25) {
        let place = rng.below(file.len());
        file[place] ^= 1 << rng.below(8);
    }
    let script = rng.pick(&["L 10 5 0 1\nQ 0\nS 0 1\nE\n", "", "E", "L 10 5 0 4\nC 0 0 2\nU 1 0\nE\nE\n"]);
    let mut script = script.as_bytes().to_vec();
    if rng.percent(15) {
        script.resize(MOST_BYTES + 1, b'\n');
    }
    Case { kind: "long file", file, script }
}

/// About 4,096 states, with witnesses as far as the script has room for them.
fn most_states_case(rng: &mut Rng) -> Case {
    let states = rng.pick(&[4095, 4096, 4097]);
    let mut chain = chain_of_length(rng, 51 + 11 * 4096 + 13);
    chain.rows = (0..states).map(|s| crate::chain::looping_row(s, chain.unit)).collect();
    chain.marks = (0..states).map(|s| (s % 512 == 511) as u8).collect();
    chain.states = states;
    chain.start = rng.pick(&[0, states - 1, 511]);
    let v: Vec<u32> = chain.marks.iter().map(|&mark| 1_000_000 * mark as u32).collect();
    let w = vec![0; states];
    let script = [
        scripts::witness_line('U', 0, &[&v, &w]),
        scripts::witness_line('S', 0, &[&v]),
        "E\n".to_string(),
    ];
    Case { kind: "most states", file: write(&chain), script: script.join("\n").into_bytes() }
}

/// Random bytes for the file, the script, or both.
fn noise_case(rng: &mut Rng) -> Case {
    let noise = |rng: &mut Rng| {
        let length = rng.below(120);
        (0..length).map(|_| if rng.percent(50) { rng.below(5) as u8 } else { rng.below(256) as u8 }).collect()
    };
    let text = |rng: &mut Rng| {
        let length = rng.below(120);
        (0..length).map(|_| rng.pick(b"LCSUQE 0123 4567 89\n\n  01")).collect()
    };
    let file = if rng.percent(30) { noise(rng) } else { write(&chain_d()) };
    let script = if rng.percent(30) { noise(rng) } else { text(rng) };
    Case { kind: "noise", file, script }
}
