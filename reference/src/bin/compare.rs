//! compare RATEMAP SEED COUNT [FOLDER]
//! Runs an executable on fresh cases and compares its output byte by byte
//! with this implementation. Differing cases are kept in FOLDER (`kept`).

use reference::gen::{case, Case, Size};
use reference::program::run;
use std::fs;
use std::io::{Read, Write};
use std::path::{Path, PathBuf};
use std::process::{Command, Stdio};
use std::thread;
use std::time::Instant;

const MOST_KEPT: u64 = 10;

struct Answer {
    output: Vec<u8>,
    errors: Vec<u8>,
    status: Option<i32>,
}

fn main() {
    let arguments: Vec<String> = std::env::args().skip(1).collect();
    if arguments.len() < 3 {
        eprintln!("compare RATEMAP SEED COUNT [FOLDER]");
        std::process::exit(2);
    }
    let program = fs::canonicalize(&arguments[0]).expect("the executable");
    let seed: u64 = arguments[1].parse().expect("a seed");
    let count: u64 = arguments[2].parse().expect("a count");
    let keep = PathBuf::from(arguments.get(3).map_or("kept", String::as_str));
    let folder = std::env::temp_dir().join(format!("compare-{}", std::process::id()));
    fs::create_dir_all(&folder).expect("a temporary folder");
    let differing = compare(&program, seed, count, &folder, &keep);
    fs::remove_dir_all(&folder).expect("the temporary folder goes");
    std::process::exit((differing > 0) as i32);
}

fn compare(program: &Path, seed: u64, count: u64, folder: &Path, keep: &Path) -> u64 {
    let begin = Instant::now();
    let mut differing = 0;
    for index in 0..count {
        let case = case(seed, index, Size::Any);
        let expected = run(&case.file, &case.script);
        let answer = ask(program, &case, folder, index);
        if answer.output == expected && answer.status == Some(0) && answer.errors.is_empty() {
            continue;
        }
        differing += 1;
        if differing <= MOST_KEPT {
            keep_case(&keep.join(format!("{seed}-{index}")), &case, &expected, &answer);
        }
    }
    let seconds = begin.elapsed().as_secs_f64();
    println!("seed {seed}: {count} cases, {differing} differ, {seconds:.1} seconds");
    differing
}

/// Runs the executable on a case. An empty file is now and then no file at all.
fn ask(program: &Path, case: &Case, folder: &Path, index: u64) -> Answer {
    let chain_file = folder.join("job.chn");
    if case.file.is_empty() && index & 1 == 0 {
        let _ = fs::remove_file(&chain_file);
    } else {
        fs::write(&chain_file, &case.file).expect("job.chn");
    }
    let mut child = Command::new(program)
        .current_dir(folder)
        .stdin(Stdio::piped())
        .stdout(Stdio::piped())
        .stderr(Stdio::piped())
        .spawn()
        .expect("the executable runs");
    let mut input = child.stdin.take().expect("standard input");
    let mut pipe = child.stdout.take().expect("standard output");
    let mut output = vec![];
    thread::scope(|scope| {
        // A program may stop reading a script that is too long.
        scope.spawn(move || drop(input.write_all(&case.script)));
        pipe.read_to_end(&mut output).expect("the output");
    });
    let rest = child.wait_with_output().expect("the executable ends");
    Answer { output, errors: rest.stderr, status: rest.status.code() }
}

fn keep_case(place: &Path, case: &Case, expected: &[u8], answer: &Answer) {
    fs::create_dir_all(place).expect("a folder for the case");
    let save = |name: &str, bytes: &[u8]| fs::write(place.join(name), bytes).expect("a file");
    save("job.chn", &case.file);
    save("script", &case.script);
    save("expected", expected);
    save("output", &answer.output);
    save("errors", &answer.errors);
    println!("differs ({}, status {:?}): {}", case.kind, answer.status, place.display());
}
