//! Script lines: their form, and the calls they stand for.

use crate::refusal::{plain, Refusal};

#[derive(Clone, Debug, PartialEq, Eq)]
pub enum Call {
    LayOut { grid: u32, limit: u32, sides: Vec<u32> },
    Cut { number: u32, rate: u32, place: u32 },
    Safe { number: u32, v: Vec<u32> },
    Unsafe { number: u32, v: Vec<u32>, w: Vec<u32> },
    Question { number: u32 },
    End,
}

/// The lines of a script, without their last byte 10.
pub fn lines(script: &[u8]) -> Vec<&[u8]> {
    let mut lines: Vec<&[u8]> = script.split(|&byte| byte == b'\n').collect();
    if lines.last().is_some_and(|last| last.is_empty()) {
        lines.pop();
    }
    lines
}

/// The call of a line over a chain of `states` states, or 23.
pub fn parse(line: &[u8], states: usize) -> Result<Call, Refusal> {
    call_of(line, states).ok_or(plain(23))
}

fn call_of(line: &[u8], states: usize) -> Option<Call> {
    let (&letter, rest) = line.split_first()?;
    let numbers = numbers_of(rest)?;
    match (letter, numbers.as_slice()) {
        (b'L', [grid, limit, sides @ ..]) => {
            Some(Call::LayOut { grid: *grid, limit: *limit, sides: sides.to_vec() })
        }
        (b'C', &[number, rate, place]) => Some(Call::Cut { number, rate, place }),
        (b'S', [number, v @ ..]) => Some(Call::Safe { number: *number, v: v.to_vec() }),
        (b'U', [number, list @ ..]) => {
            let (v, w) = list.split_at(states.min(list.len()));
            Some(Call::Unsafe { number: *number, v: v.to_vec(), w: w.to_vec() })
        }
        (b'Q', &[number]) => Some(Call::Question { number }),
        (b'E', &[]) => Some(Call::End),
        _ => None,
    }
}

/// Numbers with exactly one space before each, and nothing else.
fn numbers_of(rest: &[u8]) -> Option<Vec<u32>> {
    if rest.is_empty() {
        return Some(vec![]);
    }
    let parts = rest.strip_prefix(b" ")?;
    parts.split(|&byte| byte == b' ').map(number_of).collect()
}

/// 1 to 10 decimal digits, below 4,294,967,296.
fn number_of(digits: &[u8]) -> Option<u32> {
    if !(1..=10).contains(&digits.len()) || !digits.iter().all(u8::is_ascii_digit) {
        return None;
    }
    let value = digits.iter().fold(0u64, |sum, digit| 10 * sum + (digit - b'0') as u64);
    u32::try_from(value).ok()
}
