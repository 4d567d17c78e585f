//! The same checks as a plain Rust program would do them: a chain read into rows, each corner evaluated by halving
//! tables of 64-bit numbers, sums in 128 bits.

pub struct Edge {
    pub successor: u32,
    pub coefficients: [i16; 8],
}

pub struct Row {
    pub rates: Vec<u8>,
    pub edges: Vec<Edge>,
}

pub struct Chain {
    pub rates: u32,
    pub unit: u32,
    pub start: u32,
    pub marks: Vec<u8>,
    pub rows: Vec<Row>,
}

pub struct Field {
    pub grid: u32,
    pub low: [u32; 4],
    pub high: [u32; 4],
}

struct Reader<'a> {
    bytes: &'a [u8],
    at: usize,
}

impl Reader<'_> {
    fn number(&mut self, width: usize) -> Option<u32> {
        let field = self.bytes.get(self.at..self.at + width)?;
        self.at += width;
        Some(field.iter().rev().fold(0, |n, b| n << 8 | u32::from(*b)))
    }

    fn within(&mut self, width: usize, low: u32, high: u32) -> Option<u32> {
        self.number(width).filter(|n| low <= *n && *n <= high)
    }

    fn row(&mut self, states: u32, rates: u32, unit: u32) -> Option<Row> {
        let named = self.within(1, 0, 3)? as usize;
        let mut row = Row { rates: Vec::with_capacity(named), edges: Vec::with_capacity(8) };
        for _ in 0..named {
            let least = row.rates.last().map_or(0, |r| u32::from(*r) + 1);
            row.rates.push(self.within(1, least, rates.checked_sub(1)?)? as u8);
        }
        let mut sums = [0i32; 8];
        for _ in 0..self.within(1, 1, 8)? {
            let least = row.edges.last().map_or(0, |e| e.successor + 1);
            let mut edge = Edge { successor: self.within(2, least, states - 1)?, coefficients: [0; 8] };
            for i in 0..1 << named {
                let coefficient = self.number(2)? as u16 as i16;
                if !(-8000..=8000).contains(&coefficient) {
                    return None;
                }
                edge.coefficients[i] = coefficient;
                sums[i] += i32::from(coefficient);
            }
            row.edges.push(edge);
        }
        (sums[0] == unit as i32 && sums[1..].iter().all(|s| *s == 0)).then_some(row)
    }
}

/// Opens a chain file, or tells that it is none.
pub fn open(bytes: &[u8]) -> Option<Chain> {
    let mut r = Reader { bytes, at: 0 };
    r.within(2, 1, 1)?;
    r.within(2, 4, 4)?;
    let mut end = 44;
    for kind in 1..=4 {
        r.within(2, kind, kind)?;
        r.within(4, end, end)?;
        end = end.checked_add(r.number(4)?)?;
    }
    if end as usize != bytes.len() {
        return None;
    }
    let states = r.within(2, 1, 4096)?;
    let rates = r.within(1, 1, 4)?;
    let unit = r.within(2, 1, 1000)?;
    let start = r.within(2, 0, states - 1)?;
    let mut marks = Vec::with_capacity(states as usize);
    for _ in 0..states {
        marks.push(r.within(1, 0, 1)? as u8);
    }
    let mut offsets = Reader { bytes, at: r.at };
    let body = r.at + 4 * states as usize;
    r.at = body;
    let mut rows = Vec::with_capacity(states as usize);
    for _ in 0..states {
        if body + offsets.number(4)? as usize != r.at {
            return None;
        }
        rows.push(r.row(states, rates, unit)?);
    }
    (r.at == bytes.len()).then_some(Chain { rates, unit, start, marks, rows })
}

/// Writes the file of a chain.
pub fn write(chain: &Chain) -> Vec<u8> {
    let states = chain.rows.len();
    let mut numbers = Vec::new();
    numbers.extend((states as u16).to_le_bytes());
    numbers.push(chain.rates as u8);
    numbers.extend((chain.unit as u16).to_le_bytes());
    numbers.extend((chain.start as u16).to_le_bytes());
    let mut offsets = Vec::with_capacity(4 * states);
    let mut rows = Vec::new();
    for row in &chain.rows {
        offsets.extend((rows.len() as u32).to_le_bytes());
        rows.push(row.rates.len() as u8);
        rows.extend(&row.rates);
        rows.push(row.edges.len() as u8);
        for edge in &row.edges {
            rows.extend((edge.successor as u16).to_le_bytes());
            for coefficient in &edge.coefficients[..1 << row.rates.len()] {
                rows.extend(coefficient.to_le_bytes());
            }
        }
    }
    let mut out = vec![1, 0, 4, 0];
    let mut at = 44;
    for (kind, body) in [&numbers, &chain.marks, &offsets, &rows].into_iter().enumerate() {
        out.extend((kind as u16 + 1).to_le_bytes());
        out.extend((at as u32).to_le_bytes());
        out.extend((body.len() as u32).to_le_bytes());
        at += body.len();
    }
    for body in [numbers, chain.marks.clone(), offsets, rows] {
        out.extend(body);
    }
    out
}

fn corner(field: &Field, row: &Row, number: usize) -> [u32; 3] {
    let mut point = [0; 3];
    for (p, rate) in row.rates.iter().enumerate() {
        let side = if number >> p & 1 == 1 { &field.high } else { &field.low };
        point[p] = side[*rate as usize];
    }
    point
}

fn value(grid: u32, point: &[u32], coefficients: &[i16; 8]) -> i64 {
    let mut table = coefficients.map(i64::from);
    for p in (0..point.len()).rev() {
        for i in 0..1 << p {
            table[i] = i64::from(grid) * table[i] + i64::from(point[p]) * table[i + (1 << p)];
        }
    }
    table[0]
}

fn chances(chain: &Chain, field: &Field) -> Option<usize> {
    chain.rows.iter().position(|row| {
        let named = row.rates.len();
        (0..1 << named).any(|number| {
            let point = corner(field, row, number);
            row.edges.iter().any(|e| value(field.grid, &point[..named], &e.coefficients) < 0)
        })
    })
}

/// The first state at which `adds` and the sum over the edges is not in order with the state's number.
fn claim(chain: &Chain, field: &Field, tests: impl Fn(usize) -> bool, numbers: &[u32], adds: i128, most: bool) -> Option<usize> {
    (0..chain.rows.len()).find(|&s| {
        if !tests(s) {
            return false;
        }
        let row = &chain.rows[s];
        let named = row.rates.len();
        let scale = i128::from(chain.unit) * i128::from(field.grid).pow(named as u32);
        (0..1 << named).any(|number| {
            let point = corner(field, row, number);
            let sum: i128 = row
                .edges
                .iter()
                .map(|e| i128::from(value(field.grid, &point[..named], &e.coefficients)) * i128::from(numbers[e.successor as usize]))
                .sum();
            let left = adds * scale + sum;
            let right = i128::from(numbers[s]) * scale;
            if most { left > right } else { left < right }
        })
    })
}

fn numbers_ok(chain: &Chain, v: &[u32], w: &[u32]) -> bool {
    v.len() == chain.rows.len()
        && w.len() == v.len()
        && (0..v.len()).all(|s| v[s] <= 1_000_000 && w[s] <= 1_000_000 && (chain.marks[s] == 0 || v[s] == 1_000_000))
}

/// 0 where a safe witness is taken, else the number of its refusal.
pub fn safe(chain: &Chain, field: &Field, limit: u32, v: &[u32]) -> u32 {
    if !numbers_ok(chain, v, v) {
        return 17;
    }
    if chances(chain, field).is_some() {
        return 18;
    }
    if claim(chain, field, |s| chain.marks[s] == 0, v, 0, true).is_some() {
        return 19;
    }
    if v[chain.start as usize] > limit { 21 } else { 0 }
}

/// 0 where an unsafe witness is taken, else the number of its refusal.
pub fn exceeding(chain: &Chain, field: &Field, limit: u32, v: &[u32], w: &[u32]) -> u32 {
    if !numbers_ok(chain, v, w) {
        return 17;
    }
    if chances(chain, field).is_some() {
        return 18;
    }
    let tested = |s: usize| chain.marks[s] == 0 && v[s] > 0;
    if claim(chain, field, tested, v, 0, false).is_some() {
        return 19;
    }
    if claim(chain, field, tested, w, 1, true).is_some() {
        return 20;
    }
    if v[chain.start as usize] <= limit { 21 } else { 0 }
}
