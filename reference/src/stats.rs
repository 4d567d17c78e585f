//! Counts of refusals and verdicts over many cases.

use crate::script::lines;
use std::collections::{BTreeMap, BTreeSet};

#[derive(Default)]
pub struct Stats {
    pub cases: u64,
    pub kinds: BTreeMap<&'static str, u64>,
    /// By refusal number: how often it came up, in how many cases, and at which places.
    pub refusals: BTreeMap<u32, (u64, u64, BTreeSet<u64>)>,
    /// Lines taken, by their letter.
    pub taken: BTreeMap<char, u64>,
    /// Answers to questions, and box lines of sheets, by their verdict.
    pub asked: BTreeMap<String, u64>,
    pub sheet_boxes: BTreeMap<String, u64>,
    /// Judged boxes in sheets whose bound is neither 0 nor 1,000,000.
    pub middle_bounds: BTreeMap<String, u64>,
    pub sheets: u64,
    pub full_maps: u64,
    pub empty_outputs: u64,
    pub bytes: [u64; 3],
    /// The most script lines and output bytes of one case.
    pub most_output: usize,
}

impl Stats {
    pub fn add(&mut self, kind: &'static str, file: &[u8], script: &[u8], output: &[u8]) {
        self.cases += 1;
        *self.kinds.entry(kind).or_default() += 1;
        for (sum, part) in self.bytes.iter_mut().zip([file, script, output]) {
            *sum += part.len() as u64;
        }
        self.most_output = self.most_output.max(output.len());
        self.empty_outputs += output.is_empty() as u64;
        self.add_output(script, output);
    }

    fn add_output(&mut self, script: &[u8], output: &[u8]) {
        let script_lines = lines(script);
        let text = std::str::from_utf8(output).expect("the output is plain text");
        let mut seen = BTreeSet::new();
        let mut boxes_in_sheet = 0;
        let mut sheet = false;
        for (i, line) in text.lines().enumerate() {
            let words: Vec<&str> = line.split(' ').collect();
            sheet |= words[0] != "refused" && script_lines.get(i).is_some_and(|l| *l == b"E");
            if words[0] == "refused" {
                let entry = self.refusals.entry(words[1].parse().unwrap()).or_default();
                entry.0 += 1;
                entry.1 += seen.insert(words[1]) as u64;
                entry.2.insert(words[2].parse().unwrap());
            } else if words[0] == "ok" {
                *self.taken.entry(script_lines[i][0] as char).or_default() += 1;
            } else if let Some(at) = words.iter().position(|w| w.ends_with("safe") || *w == "open") {
                let counts = if sheet { &mut self.sheet_boxes } else { &mut self.asked };
                *counts.entry(words[at].to_string()).or_default() += 1;
                if sheet && words.get(at + 1).is_some_and(|w| *w != "0" && *w != "1000000") {
                    *self.middle_bounds.entry(words[at].to_string()).or_default() += 1;
                }
                boxes_in_sheet += sheet as u64;
            }
        }
        self.sheets += sheet as u64;
        self.full_maps += (boxes_in_sheet == 128) as u64;
    }

    pub fn print(&self) {
        println!("cases {}, bytes of files {}, scripts {}, outputs {}; longest output {}",
            self.cases, self.bytes[0], self.bytes[1], self.bytes[2], self.most_output);
        println!("sheets {}, full maps in sheets {}, empty outputs {}", self.sheets, self.full_maps, self.empty_outputs);
        println!("kinds:");
        for (kind, count) in &self.kinds {
            println!("  {kind:20} {count}");
        }
        println!("refusals (number, times, cases, different places):");
        for (number, (times, cases, places)) in &self.refusals {
            println!("  {number:2} {times:8} {cases:8} {:8}", places.len());
        }
        println!("lines taken: {:?}", self.taken);
        println!("boxes asked for: {:?}", self.asked);
        println!("boxes in sheets: {:?}", self.sheet_boxes);
        println!("with a bound other than 0 and 1000000: {:?}", self.middle_bounds);
    }
}
