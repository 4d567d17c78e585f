//! Damaged scripts and damaged files.

use crate::chain::{Chain, Row};
use crate::file::{assemble, bodies_of, row_bytes, write};
use crate::rng::Rng;

// Scripts

/// Lines that are malformed, or that only just are not.
const LINES: &[&str] = &[
    "", " ", "E ", " E", "e", "E 0", "EE", "E\t", "E\r", "X", "0", "\t", "\r", "Q", "Q ", "Q  0", "Q 0 ",
    "Q 0 0", "Q0", "q 0", "Q\t0", "Q 0\t", "Q 0\r", "Q +0", "Q -0", "Q -1", "Q 0.0", "Q 0x0", "Q 00",
    "Q 0000000000", "Q 00000000000", "Q 4294967295", "Q 4294967296", "Q 9999999999", "Q 10000000000",
    "Q 04294967295", "Q 18446744073709551616", "Q 99999999999999999999", "QQ 0", "Q 0Q", "Q 0,", "C", "C 0",
    "C 0 0", "C 0 0 1 1", "C 0 0  1", "C 0 0 1 ", "c 0 0 1", "C 0 0 4294967296", "C 0 0 4294967295",
    "C 4294967295 0 1", "C 0 4294967295 1", "C 4294967296 0 1", "L", "L 10", "L 10 ", "L 10 5", "L 10 5 ",
    "L  10 5", "l 10 5 0 1", "L 0010 5 0 1", "L 10 5 0 1 0 4294967296", "L 4294967296 0", "L 4294967295 0",
    "L 10 4294967295 0 1", "S", "S ", "S 0", "S 0 ", "s 0", "S 0  0", "S 4294967296", "S 4294967295 0",
    "S 0 4294967296", "S 0 4294967295", "S 0 00000000001", "S 0 0000000001", "U", "U ", "U 0", "U 0 ", "u 0",
    "U 0 4294967296", "U 9", "S 9", "E\0", "\0", "E;", "# note", "Q 0 # note", "Q \u{661}", "\u{c9}",
];

/// Puts some damage into a script.
pub fn damage_script(rng: &mut Rng, script: &[u8], states: usize) -> Vec<u8> {
    let mut lines: Vec<Vec<u8>> = script.split(|&b| b == b'\n').map(|line| line.to_vec()).collect();
    for _ in 0..rng.range(1, 8) {
        let at = rng.below(lines.len());
        match rng.below(8) {
            0 | 1 => lines.insert(at, rng.pick(LINES).as_bytes().to_vec()),
            2 => lines.insert(at, long_unsafe_line(rng, states)),
            3 => lines[at] = with_other_number(rng, &lines[at]),
            4 => lines[at] = with_other_count(rng, &lines[at]),
            _ => damage_bytes(rng, &mut lines[at]),
        }
    }
    if rng.percent(10) {
        lines.push(vec![]);
    }
    lines.join(&b'\n')
}

/// Only malformed lines and the like.
pub fn lines_script(rng: &mut Rng) -> Vec<u8> {
    let count = rng.range(0, 30);
    let lines: Vec<&[u8]> = (0..count).map(|_| rng.pick(LINES).as_bytes()).collect();
    lines.join(&b'\n')
}

/// A `U` line whose count of numbers is about n or 2n.
fn long_unsafe_line(rng: &mut Rng, states: usize) -> Vec<u8> {
    let counts = [0, 1, states - 1, states, states + 1, 2 * states - 1, 2 * states, 2 * states + 1, 3 * states];
    let count = rng.pick(&counts);
    let mut line = b"U 0".to_vec();
    for _ in 0..count {
        line.extend(rng.pick(&[" 0", " 1000000", " 1", " 1000001"]).as_bytes());
    }
    line
}

fn words(line: &[u8]) -> Vec<Vec<u8>> {
    line.split(|&b| b == b' ').map(|word| word.to_vec()).collect()
}

/// Changes how one number is written, or the number.
fn with_other_number(rng: &mut Rng, line: &[u8]) -> Vec<u8> {
    let mut words = words(line);
    let at = rng.below(words.len());
    let old = String::from_utf8_lossy(&words[at]).into_owned();
    words[at] = match rng.below(10) {
        0 => format!("0{old}"),
        1 => format!("{old:0>10}"),
        2 => format!("{old:0>11}"),
        3 => "4294967296".to_string(),
        4 => "4294967295".to_string(),
        5 => "9999999999".to_string(),
        6 => format!("+{old}"),
        7 => format!("-{old}"),
        8 => String::new(),
        _ => format!("{old}0"),
    }
    .into_bytes();
    words.join(&b' ')
}

fn with_other_count(rng: &mut Rng, line: &[u8]) -> Vec<u8> {
    let mut words = words(line);
    match rng.below(3) {
        0 => drop(words.pop()),
        1 => words.push(rng.below(20).to_string().into_bytes()),
        _ => {
            let at = rng.below(words.len());
            words.remove(at);
        }
    }
    words.join(&b' ')
}

fn damage_bytes(rng: &mut Rng, line: &mut Vec<u8>) {
    let at = rng.below(line.len() + 1);
    match rng.below(10) {
        0 => line.insert(at, b' '),
        1 => line.push(b' '),
        2 => line.push(b'\r'),
        3 => line.insert(at, b'\t'),
        4 => line.insert(at, rng.range(128, 255) as u8),
        5 => line.make_ascii_lowercase(),
        6 if at < line.len() => line[at] = rng.below(256) as u8,
        7 if at < line.len() => drop(line.remove(at)),
        8 if at < line.len() => line[at] = rng.pick(b"0123456789 -+LCSUQE\0/:"),
        9 => line.insert(0, b' '),
        _ => line.insert(at, rng.below(256) as u8),
    }
}

/// A script of exactly this many bytes, in one of several ways.
pub fn script_of_length(rng: &mut Rng, script: &[u8], length: usize) -> Vec<u8> {
    let mut bytes = script.to_vec();
    match rng.below(4) {
        // Lines behind the script (often behind its `E`).
        0 => bytes.resize(length, b'\n'),
        // Many questions, and one that is cut off.
        1 => {
            let filler: Vec<u8> = b"Q 0\n".iter().copied().cycle().take(length - bytes.len()).collect();
            bytes = [filler, bytes].concat();
        }
        // One long line of numbers.
        2 => {
            let mut line = b"S 0".to_vec();
            while line.len() + bytes.len() + 3 < length {
                line.extend(b" 1");
            }
            line.resize(length - bytes.len() - 1, b'0');
            line.push(b'\n');
            bytes = [line, bytes].concat();
        }
        // Bytes without a line end.
        _ => bytes.resize(length, b'7'),
    }
    bytes
}

// Files

/// A damaged file of a chain.
pub fn damage_file(rng: &mut Rng, chain: &Chain) -> Vec<u8> {
    let mut bytes = match rng.below(10) {
        0..=4 => write(&unlawful(rng, chain)),
        5..=7 => odd_bodies(rng, chain),
        _ => write(chain),
    };
    let already = rng.percent(70) && bytes != write(chain);
    let more = if already { 0 } else { rng.range(1, 2) };
    for _ in 0..more {
        damage_raw(rng, &mut bytes);
    }
    bytes
}

/// A chain with one or two numbers outside their limits.
fn unlawful(rng: &mut Rng, chain: &Chain) -> Chain {
    let mut chain = chain.clone();
    for _ in 0..if rng.percent(75) { 1 } else { 2 } {
        match rng.below(10) {
            0 | 2 => damage_numbers(rng, &mut chain),
            1 => {
                let state = rng.below(chain.marks.len());
                chain.marks[state] = rng.pick(&[2, 3, 128, 255]);
            }
            _ => {
                let limits = (chain.rates, chain.states);
                let mut state = rng.below(chain.rows.len());
                if rng.percent(40) {
                    state = richest_row(&chain);
                }
                damage_row(rng, &mut chain.rows[state], limits);
            }
        }
    }
    chain
}

fn damage_numbers(rng: &mut Rng, chain: &mut Chain) {
    match rng.below(4) {
        0 => chain.states = rng.pick(&[0, chain.states + 1, chain.marks.len() - 1, 4097, 65_535, 4096]),
        1 => chain.rates = rng.pick(&[0, 5, 5, 255, 4]),
        2 => chain.unit = rng.pick(&[0, 1001, 65_535, chain.unit + 1]),
        _ => chain.start = rng.pick(&[chain.states, chain.states + 1, 65_535]),
    }
}

/// A row that names the most rates.
fn richest_row(chain: &Chain) -> usize {
    (0..chain.rows.len()).max_by_key(|&state| chain.rows[state].rates.len()).expect("a state")
}

fn damage_row(rng: &mut Rng, row: &mut Row, (rates, states): (usize, usize)) {
    if row.edges.is_empty() {
        return;
    }
    let at = rng.below(row.edges.len());
    let last_number = row.edges[at].coefficients.len() - 1;
    let number = if rng.percent(30) { last_number } else { rng.below(last_number + 1) };
    match rng.below(17) {
        0 => row.rates.push(rng.below(rates + 1)),
        1 if !row.rates.is_empty() => row.rates[0] = rng.pick(&[rates, 4, 255]),
        2 => row.rates.reverse(),
        3 => row.rates = vec![0, 1, 2, 3],
        4 => row.edges.clear(),
        5 => row.edges.reverse(),
        6 => row.edges[at].successor = rng.pick(&[states, states + 1, 65_535]),
        7 => row.edges.push(row.edges[at].clone()),
        8 => row.edges[at].coefficients[number] = rng.pick(&[8001, -8001, 32_767, -32_768, 8000, -8000]),
        9..=11 => row.edges[at].coefficients[number] += if rng.percent(50) { 1 } else { -1 },
        12 => {
            // The sum over all numbers stays.
            row.edges[at].coefficients[number] += 1;
            row.edges[at].coefficients[0] -= 1;
        }
        13 | 14 if row.edges.len() >= 3 => {
            let target: i32 = row.edges.iter().map(|edge| edge.coefficients[number]).sum();
            stand_at_limit(rng, row, number, target);
        }
        15 => {
            // All sums stay, so this may leave the row lawful.
            let other = rng.below(row.edges.len());
            row.edges[at].coefficients[number] += 1;
            row.edges[other].coefficients[number] -= 1;
        }
        _ => {
            while row.edges.len() < 9 {
                row.edges.push(row.edges[at].clone());
            }
        }
    }
}

/// Puts one coefficient just inside or just outside its limits and keeps the sum.
fn stand_at_limit(rng: &mut Rng, row: &mut Row, number: usize, sum: i32) {
    for edge in &mut row.edges {
        edge.coefficients[number] = 0;
    }
    let extreme = rng.pick(&[8000, -8000, 8001, -8001]);
    let first = rng.below(3);
    let half = (sum - extreme) / 2;
    row.edges[first].coefficients[number] = extreme;
    row.edges[(first + 1) % 3].coefficients[number] = half;
    row.edges[(first + 2) % 3].coefficients[number] = sum - extreme - half;
}

/// Bodies of wrong lengths and wrong row offsets, under a head that fits them.
fn odd_bodies(rng: &mut Rng, chain: &Chain) -> Vec<u8> {
    let mut bodies = bodies_of(chain);
    for _ in 0..if rng.percent(70) { 1 } else { 2 } {
        match rng.below(8) {
            0 => {
                let which = rng.below(4);
                let extra = rng.range(1, 5);
                bodies[which].extend(vec![rng.below(3) as u8; extra]);
            }
            1 => {
                let which = rng.below(4);
                bodies[which].pop();
            }
            2 | 3 => {
                // Body 4 ends inside a row.
                let length = rng.below(bodies[3].len().max(1));
                bodies[3].truncate(length);
            }
            4 | 5 if !bodies[2].is_empty() => {
                let at = rng.below(bodies[2].len());
                bodies[2][at] = bodies[2][at].wrapping_add(rng.pick(&[1, 255, 128]));
            }
            6 => bodies[3].extend(row_bytes(&chain.rows[rng.below(chain.rows.len())])),
            _ => bodies.swap(rng.below(4), rng.below(4)),
        }
    }
    assemble(&bodies)
}

/// Damage that knows nothing of the meaning of bytes, and some of the head.
fn damage_raw(rng: &mut Rng, bytes: &mut Vec<u8>) {
    let length = bytes.len();
    if length == 0 {
        return;
    }
    let place = if rng.percent(30) { rng.below(length.min(52)) } else { rng.below(length) };
    match rng.below(12) {
        0 => bytes.truncate(rng.below(length.min(60))),
        1 => bytes.truncate(rng.below(length)),
        2 => bytes[place] = rng.below(256) as u8,
        3 => bytes[place] = bytes[place].wrapping_add(1),
        4 => bytes[place] = bytes[place].wrapping_sub(1),
        5 => bytes[place] ^= 1 << rng.below(8),
        6 => bytes.swap(place, rng.below(length)),
        7 => bytes.extend(vec![rng.below(256) as u8; rng.range(1, 4)]),
        8 => drop(bytes.remove(place)),
        9 => bytes.insert(place, rng.below(4) as u8),
        10 if length > 44 => swap_sections(rng, bytes),
        _ if length > 44 => overflow_head(rng, bytes),
        _ => bytes.clear(),
    }
}

/// Exchanges two entries of the contents, or parts of them.
fn swap_sections(rng: &mut Rng, bytes: &mut [u8]) {
    let (a, b) = (rng.below(4), rng.below(4));
    let (from, to) = rng.pick(&[(0, 10), (0, 2), (2, 6), (6, 10)]);
    for i in from..to {
        bytes.swap(4 + 10 * a + i, 4 + 10 * b + i);
    }
}

/// Lengths so large that sums of 32 bits come round to right looking numbers.
fn overflow_head(rng: &mut Rng, bytes: &mut [u8]) {
    let first = rng.below(4);
    let whole = bytes.len() as u32;
    let mut end = u32::from_le_bytes(bytes[6 + 10 * first..10 + 10 * first].try_into().unwrap());
    for i in first..4 {
        let place = 6 + 10 * i;
        bytes[place..place + 4].copy_from_slice(&end.to_le_bytes());
        let old = u32::from_le_bytes(bytes[place + 4..place + 8].try_into().unwrap());
        let length = if i == first {
            rng.pick(&[u32::MAX, u32::MAX - end, 0u32.wrapping_sub(end), 1 << 31, u32::MAX - 43])
        } else if i == 3 {
            whole.wrapping_sub(end)
        } else {
            old
        };
        bytes[place + 4..place + 8].copy_from_slice(&length.to_le_bytes());
        end = end.wrapping_add(length);
    }
}
