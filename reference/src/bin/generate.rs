//! generate SEED COUNT DIR          writes each case to DIR/N/
//! generate SEED COUNT --stats      prints counts of refusals and verdicts
//! generate SEED COUNT --pack FILE [--no-long]
//!                                  packs COUNT small cases into one byte stream

use reference::gen::{case, full_case, Case, Size};
use reference::program::run;
use reference::rng::Rng;
use reference::stats::Stats;
use std::collections::BTreeSet;
use std::fs;

fn main() {
    let arguments: Vec<String> = std::env::args().skip(1).collect();
    let words: Vec<&str> = arguments.iter().map(String::as_str).collect();
    match words.as_slice() {
        [seed, count, "--stats"] => print_stats(number(seed), number(count)),
        [seed, count, "--pack", path] => pack(number(seed), number(count), path, true),
        [seed, count, "--pack", path, "--no-long"] => pack(number(seed), number(count), path, false),
        [seed, count, folder] => write_cases(number(seed), number(count), folder),
        _ => {
            eprintln!("generate SEED COUNT DIR | --stats | --pack FILE [--no-long]");
            std::process::exit(2);
        }
    }
}

fn number(word: &str) -> u64 {
    word.parse().expect("a number")
}

fn write_cases(seed: u64, count: u64, folder: &str) {
    for index in 0..count {
        let case = case(seed, index, Size::Any);
        let place = format!("{folder}/{index}");
        fs::create_dir_all(&place).expect("a folder for the case");
        let save = |name: &str, bytes: &[u8]| fs::write(format!("{place}/{name}"), bytes).expect("a file");
        save("job.chn", &case.file);
        save("script", &case.script);
        save("expected", &run(&case.file, &case.script));
    }
}

fn print_stats(seed: u64, count: u64) {
    let mut stats = Stats::default();
    for index in 0..count {
        let case = case(seed, index, Size::Any);
        stats.add(case.kind, &case.file, &case.script, &run(&case.file, &case.script));
    }
    stats.print();
}

/// The most bytes of a packed case, except the two that are too long.
const MOST_PACKED: usize = 2000;

fn pack(seed: u64, count: u64, path: &str, long: bool) {
    let mut bytes = vec![];
    let mut stats = Stats::default();
    let mut seen = BTreeSet::new();
    let mut index = 0;
    let mut first = if long { long_cases() } else { vec![] };
    first.push(small_full_case(seed));
    for case in first {
        let output = run(&case.file, &case.script);
        add_packed(&mut bytes, &mut stats, &case, &output);
    }
    while stats.cases < count {
        let case = case(seed, index, Size::Small);
        let output = run(&case.file, &case.script);
        index += 1;
        let size = case.file.len() + case.script.len() + output.len();
        if size <= MOST_PACKED && is_wanted(&mut seen, index, &output, stats.cases, count) {
            add_packed(&mut bytes, &mut stats, &case, &output);
        }
    }
    fs::write(path, &bytes).expect("the packed file");
    println!("{} bytes from {index} cases", bytes.len());
    stats.print();
}

/// Near the end only cases that show something new are taken; before, every one.
fn is_wanted(seen: &mut BTreeSet<String>, index: u64, output: &[u8], taken: u64, count: u64) -> bool {
    let is_new = new_signs(seen, output);
    is_new || taken * 10 < count * 9 || index > 20 * count
}

/// Whether the output has a refusal with a place, or a verdict, not seen before.
fn new_signs(seen: &mut BTreeSet<String>, output: &[u8]) -> bool {
    let text = String::from_utf8_lossy(output).into_owned();
    let mut is_new = false;
    for line in text.lines() {
        let sign = line.split(' ').find(|w| w.ends_with("safe") || *w == "open" || *w == "refused");
        match sign {
            Some("refused") => is_new |= seen.insert(line.to_string()),
            Some(verdict) => is_new |= seen.insert(verdict.to_string()),
            None => {}
        }
    }
    is_new
}

/// A case of a full map in which a lawful cut is refused, not too large.
fn small_full_case(seed: u64) -> Case {
    let cases = (0..).map(|index| full_case(&mut Rng::for_case(seed, index)));
    let fits = |case: &Case| {
        let output = run(&case.file, &case.script);
        let size = case.file.len() + case.script.len() + output.len();
        size < 6000 && String::from_utf8_lossy(&output).contains("refused 12 0")
    };
    cases.into_iter().find(fits).expect("such cases come up")
}

/// A file and a script that are one byte too long.
fn long_cases() -> Vec<Case> {
    let file = reference::file::write(&reference::chain::chain_d());
    let long = vec![b'\n'; reference::program::MOST_BYTES + 1];
    vec![
        Case { kind: "long script", file, script: long.clone() },
        Case { kind: "long file", file: long, script: b"E\n".to_vec() },
    ]
}

fn add_packed(bytes: &mut Vec<u8>, stats: &mut Stats, case: &Case, output: &[u8]) {
    stats.add(case.kind, &case.file, &case.script, output);
    for part in [&case.file[..], &case.script, output] {
        bytes.extend((part.len() as u32).to_le_bytes());
    }
    for part in [&case.file[..], &case.script, output] {
        bytes.extend(part);
    }
}
