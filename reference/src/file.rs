//! Chain files: opening bytes, and writing a chain.

use crate::chain::{sums_are_right, Chain, Edge, Row};
use crate::refusal::{at, Refusal};

const HEAD: usize = 44;

/// Where a body begins and ends in the file.
#[derive(Clone, Copy)]
struct Body {
    offset: u64,
    length: u64,
}

impl Body {
    fn end(&self) -> u64 {
        self.offset + self.length
    }
}

/// A little-endian number of `width` bytes. The bytes are there.
fn number(bytes: &[u8], place: usize, width: usize) -> u64 {
    (0..width).map(|i| (bytes[place + i] as u64) << (8 * i)).sum()
}

/// Opens a file: the chain, or the first fault with its place.
pub fn open(bytes: &[u8]) -> Result<Chain, Refusal> {
    let bodies = open_head(bytes)?;
    let mut chain = open_numbers(bytes, &bodies)?;
    chain.marks = open_marks(bytes, &bodies, chain.states)?;
    chain.rows = open_rows(bytes, &bodies, &chain)?;
    Ok(chain)
}

/// A field of the head. Where the file ends first, the place is its end.
fn head_field(bytes: &[u8], place: usize, width: usize) -> Result<u64, Refusal> {
    if place + width > bytes.len() {
        return Err(at(1, bytes.len()));
    }
    Ok(number(bytes, place, width))
}

fn head_field_is(bytes: &[u8], place: usize, width: usize, right: u64) -> Result<(), Refusal> {
    if head_field(bytes, place, width)? != right {
        return Err(at(1, place));
    }
    Ok(())
}

fn open_head(bytes: &[u8]) -> Result<[Body; 4], Refusal> {
    head_field_is(bytes, 0, 2, 1)?;
    head_field_is(bytes, 2, 2, 4)?;
    let mut bodies = [Body { offset: HEAD as u64, length: 0 }; 4];
    let mut end = HEAD as u64;
    for i in 0..4 {
        let place = 4 + 10 * i;
        head_field_is(bytes, place, 2, i as u64 + 1)?;
        head_field_is(bytes, place + 2, 4, end)?;
        let length = head_field(bytes, place + 6, 4)?;
        bodies[i] = Body { offset: end, length };
        end = bodies[i].end();
    }
    // Offsets follow each other, so this also puts every body inside the file.
    if end != bytes.len() as u64 {
        return Err(at(1, 40));
    }
    Ok(bodies)
}

/// Body 1. The chain that comes back has no marks and no rows yet.
fn open_numbers(bytes: &[u8], bodies: &[Body; 4]) -> Result<Chain, Refusal> {
    if bodies[0].length != 7 {
        return Err(at(2, 10));
    }
    let states = number(bytes, 44, 2) as usize;
    let rates = number(bytes, 46, 1) as usize;
    let unit = number(bytes, 47, 2) as u32;
    let start = number(bytes, 49, 2) as usize;
    if !(1..=4096).contains(&states) {
        return Err(at(2, 44));
    }
    if !(1..=4).contains(&rates) {
        return Err(at(2, 46));
    }
    if !(1..=1000).contains(&unit) {
        return Err(at(2, 47));
    }
    if start >= states {
        return Err(at(2, 49));
    }
    Ok(Chain { states, rates, unit, start, marks: vec![], rows: vec![] })
}

fn open_marks(bytes: &[u8], bodies: &[Body; 4], states: usize) -> Result<Vec<u8>, Refusal> {
    if bodies[1].length != states as u64 {
        return Err(at(3, 20));
    }
    let marks = bytes[51..51 + states].to_vec();
    match marks.iter().position(|&mark| mark > 1) {
        Some(state) => Err(at(3, 51 + state)),
        None => Ok(marks),
    }
}

fn open_rows(bytes: &[u8], bodies: &[Body; 4], chain: &Chain) -> Result<Vec<Row>, Refusal> {
    if bodies[2].length != 4 * chain.states as u64 {
        return Err(at(4, 30));
    }
    let first = bodies[3].offset as usize;
    let mut reader = RowReader { bytes, place: first };
    let mut rows = vec![];
    for state in 0..chain.states {
        let offset_place = 51 + chain.states + 4 * state;
        if number(bytes, offset_place, 4) != (reader.place - first) as u64 {
            return Err(at(4, offset_place));
        }
        let row_place = reader.place;
        let row = reader.row(chain)?;
        if !sums_are_right(&row, chain.unit) {
            return Err(at(5, row_place));
        }
        rows.push(row);
    }
    if reader.place != bytes.len() {
        return Err(at(4, 40));
    }
    Ok(rows)
}

/// Reads body 4, which ends with the file, field by field.
struct RowReader<'a> {
    bytes: &'a [u8],
    place: usize,
}

impl RowReader<'_> {
    /// The next field with its place. Where body 4 ends first, the place is its end.
    fn field(&mut self, width: usize) -> Result<(u64, usize), Refusal> {
        let place = self.place;
        if place + width > self.bytes.len() {
            return Err(at(4, self.bytes.len()));
        }
        self.place += width;
        Ok((number(self.bytes, place, width), place))
    }

    fn row(&mut self, chain: &Chain) -> Result<Row, Refusal> {
        let rates = self.rates(chain.rates)?;
        let (edge_count, place) = self.field(1)?;
        if !(1..=8).contains(&edge_count) {
            return Err(at(4, place));
        }
        let mut edges: Vec<Edge> = vec![];
        for _ in 0..edge_count {
            let least = edges.last().map_or(0, |edge| edge.successor + 1);
            let successor = self.ascending(2, least, chain.states)?;
            let coefficients = self.coefficients(1 << rates.len())?;
            edges.push(Edge { successor, coefficients });
        }
        Ok(Row { rates, edges })
    }

    fn rates(&mut self, chain_rates: usize) -> Result<Vec<usize>, Refusal> {
        let (rate_count, place) = self.field(1)?;
        if rate_count > 3 {
            return Err(at(4, place));
        }
        let mut rates: Vec<usize> = vec![];
        for _ in 0..rate_count {
            let least = rates.last().map_or(0, |rate| rate + 1);
            rates.push(self.ascending(1, least, chain_rates)?);
        }
        Ok(rates)
    }

    /// A field that is at least `least` and below `end`.
    fn ascending(&mut self, width: usize, least: usize, end: usize) -> Result<usize, Refusal> {
        let (value, place) = self.field(width)?;
        if (value as usize) < least || value as usize >= end {
            return Err(at(4, place));
        }
        Ok(value as usize)
    }

    fn coefficients(&mut self, count: usize) -> Result<Vec<i32>, Refusal> {
        let mut list = vec![];
        for _ in 0..count {
            let (value, place) = self.field(2)?;
            let coefficient = value as u16 as i16 as i32;
            if !(-8000..=8000).contains(&coefficient) {
                return Err(at(4, place));
            }
            list.push(coefficient);
        }
        Ok(list)
    }
}

/// The file of a chain. (Of an unlawful chain it makes an unlawful file.)
pub fn write(chain: &Chain) -> Vec<u8> {
    assemble(&bodies_of(chain))
}

/// The four bodies of a chain's file.
pub fn bodies_of(chain: &Chain) -> [Vec<u8>; 4] {
    let mut numbers = vec![];
    numbers.extend((chain.states as u16).to_le_bytes());
    numbers.push(chain.rates as u8);
    numbers.extend((chain.unit as u16).to_le_bytes());
    numbers.extend((chain.start as u16).to_le_bytes());
    let mut offsets = vec![];
    let mut rows = vec![];
    for row in &chain.rows {
        offsets.extend((rows.len() as u32).to_le_bytes());
        rows.extend(row_bytes(row));
    }
    [numbers, chain.marks.clone(), offsets, rows]
}

pub fn row_bytes(row: &Row) -> Vec<u8> {
    let mut bytes = vec![row.rates.len() as u8];
    bytes.extend(row.rates.iter().map(|&rate| rate as u8));
    bytes.push(row.edges.len() as u8);
    for edge in &row.edges {
        bytes.extend((edge.successor as u16).to_le_bytes());
        for &coefficient in &edge.coefficients {
            bytes.extend((coefficient as i16).to_le_bytes());
        }
    }
    bytes
}

/// A head for the bodies, and the bodies behind it.
pub fn assemble(bodies: &[Vec<u8>; 4]) -> Vec<u8> {
    let mut bytes = vec![1, 0, 4, 0];
    let mut offset = HEAD as u32;
    for (i, body) in bodies.iter().enumerate() {
        bytes.extend((i as u16 + 1).to_le_bytes());
        bytes.extend(offset.to_le_bytes());
        bytes.extend((body.len() as u32).to_le_bytes());
        offset += body.len() as u32;
    }
    bytes.extend(bodies.concat());
    bytes
}
