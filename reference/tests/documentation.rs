//! Every worked example of the documentation.

use reference::chain::{chain_d, looping_row, Chain, Edge, Row};
use reference::exact::{edge_number, Big, Setting, Steps};
use reference::file::{open, write};
use reference::map::Map;
use reference::pass_line::pass_line;
use reference::program::run;
use reference::refusal::{at, plain, Refusal};
use reference::script::{lines, parse, Call};
use reference::value::{corner_count, corner_marks, edge_value, Region};
use reference::witness::{judge_safe, judge_unsafe, Verdict};

/// The table of files.md, row by row.
const CHAIN_D: &str = "
    01 00 04 00
    01 00 2c 00 00 00 07 00 00 00
    02 00 33 00 00 00 04 00 00 00
    03 00 37 00 00 00 10 00 00 00
    04 00 47 00 00 00 2a 00 00 00
    04 00 02 01 00 00 00
    00 00 01 00
    00 00 00 00 0f 00 00 00 1e 00 00 00 24 00 00 00
    01 00 02
    01 00 00 00 01 00
    03 00 01 00 ff ff
    01 01 02
    00 00 00 00 01 00
    02 00 01 00 ff ff
    00 01 02 00 01 00
    00 01 03 00 01 00";

fn chain_d_file() -> Vec<u8> {
    CHAIN_D.split_whitespace().map(|byte| u8::from_str_radix(byte, 16).unwrap()).collect()
}

fn with_byte(place: usize, byte: u8) -> Vec<u8> {
    let mut bytes = chain_d_file();
    bytes[place] = byte;
    bytes
}

fn sides_15_26() -> Region {
    Region::new(10, &[1, 5, 2, 6]).unwrap()
}

/// A row that names the rates 0 and 1, with the edge p − p × t.
fn pass_row() -> Row {
    Row { rates: vec![0, 1], edges: vec![Edge { successor: 1, coefficients: vec![0, 1, 0, -1] }] }
}

// boxes.md

#[test]
fn a_box_has_a_volume() {
    assert_eq!(sides_15_26().volume(), 16);
}

#[test]
fn regions_are_refused_with_6_and_then_7() {
    assert_eq!(Region::new(0, &[1, 0]), Err(plain(6)));
    assert_eq!(Region::new(1001, &[0, 1]), Err(plain(6)));
    assert_eq!(Region::new(10, &[1, 1]), Err(plain(7)));
    assert_eq!(Region::new(10, &[1, 11]), Err(plain(7)));
    assert_eq!(Region::new(10, &[1, 5, 2]), Err(plain(7)));
    assert_eq!(Region::new(10, &[]), Err(plain(7)));
}

#[test]
fn settings_lie_in_a_box_or_not() {
    let place = |q: u32, a: u32, b: u32| {
        let setting = Setting { denominator: q, numerators: vec![a, b] };
        let region = sides_15_26();
        (setting.lies_in(10, &region.sides), setting.lies_strictly_in(10, &region.sides))
    };
    assert_eq!(place(3, 1, 1), (true, true));
    assert_eq!(place(2, 1, 1), (true, false));
    assert_eq!(place(3, 2, 1), (false, false));
}

#[test]
fn corners_are_numbered_by_bits() {
    let row = pass_row();
    let sides = sides_15_26().sides;
    assert_eq!(corner_count(&row), 4);
    let corners: Vec<Vec<i128>> = (0..4).map(|corner| corner_marks(&row, &sides, corner)).collect();
    assert_eq!(corners, [[1, 2], [5, 2], [1, 6], [5, 6]]);
}

#[test]
fn the_value_of_an_edge() {
    let edge = &pass_row().edges[0];
    assert_eq!(edge_value(edge, 10, &[3, 5]), 15);
    let values: Vec<i128> =
        [[1, 2], [5, 2], [1, 6], [5, 6]].iter().map(|marks| edge_value(edge, 10, marks)).collect();
    assert_eq!(values, [8, 40, 4, 20]);
}

// chains.md

#[test]
fn chances_follow_from_coefficients() {
    let edge = Edge { successor: 0, coefficients: vec![30, 50] };
    // (30 + 50 × 0.4) / 100 in units of 1 / (100 × 10)
    assert_eq!(edge_value(&edge, 10, &[4]), 500);
}

#[test]
fn three_rates_are_set_in_the_order_of_their_bits() {
    let names = [1, 10, 100, 1000, 7, 70, 700, 7000];
    let edge = Edge { successor: 0, coefficients: names.to_vec() };
    let (a, b, c) = (2, 3, 5);
    let products = [1, a, b, a * b, c, a * c, b * c, a * b * c];
    let direct: i128 = (0..8usize)
        .map(|i| names[i] as i128 * products[i] * 10i128.pow(3 - i.count_ones()))
        .sum();
    assert_eq!(edge_value(&edge, 10, &[a, b, c]), direct);
}

#[test]
fn chain_d_is_lawful_and_refuses_state_4() {
    let chain = chain_d();
    assert!(chain.lawful());
    assert_eq!(chain.mark(2), Ok(1));
    assert_eq!(chain.mark(4), Err(plain(13)));
    assert_eq!(chain.row(4), Err(plain(13)));
    assert_eq!(chain.row(3), Ok(&looping_row(3, 1)));
}

#[test]
fn unlawful_chains_are_known() {
    let changes: [fn(&mut Chain); 9] = [
        |c| c.rates = 5,
        |c| c.unit = 2,
        |c| c.start = 4,
        |c| c.marks[0] = 2,
        |c| c.rows[0].rates[0] = 2,
        |c| c.rows[0].edges[0].successor = 3,
        |c| c.rows[0].edges[0].coefficients[1] = 2,
        |c| c.rows[0].edges.clear(),
        |c| c.states = 5,
    ];
    for change in changes {
        let mut chain = chain_d();
        change(&mut chain);
        assert!(!chain.lawful());
    }
}

// files.md

#[test]
fn the_file_of_chain_d() {
    assert_eq!(chain_d_file().len(), 113);
    assert_eq!(write(&chain_d()), chain_d_file());
    assert_eq!(open(&chain_d_file()), Ok(chain_d()));
}

#[test]
fn damaged_files_of_chain_d() {
    assert_eq!(open(&with_byte(2, 5)), Err(at(1, 2)));
    assert_eq!(open(&chain_d_file()[..100]), Err(at(1, 40)));
    assert_eq!(open(&with_byte(53, 2)), Err(at(3, 53)));
    assert_eq!(open(&with_byte(78, 2)), Err(at(5, 71)));
    assert_eq!(open(&[]), Err(at(1, 0)));
}

#[test]
fn a_cut_head_is_refused_at_its_end() {
    for length in 0..44 {
        assert_eq!(open(&chain_d_file()[..length]), Err(at(1, length)));
    }
    for length in 44..113 {
        assert_eq!(open(&chain_d_file()[..length]), Err(at(1, 40)));
    }
    // A part of a field is not judged.
    assert_eq!(open(&[1, 0, 5]), Err(at(1, 3)));
    assert_eq!(open(&[2, 0, 5]), Err(at(1, 0)));
}

#[test]
fn places_of_other_faults() {
    let place = |place: usize, byte: u8| open(&with_byte(place, byte)).unwrap_err();
    assert_eq!(place(10, 8), at(1, 16));
    assert_eq!(place(44, 0), at(2, 44));
    assert_eq!(place(44, 5), at(3, 20));
    assert_eq!(place(46, 0), at(2, 46));
    assert_eq!(place(46, 5), at(2, 46));
    assert_eq!(place(47, 0), at(2, 47));
    assert_eq!(place(47, 2), at(5, 71));
    assert_eq!(place(49, 4), at(2, 49));
    assert_eq!(place(59, 14), at(4, 59));
    assert_eq!(place(71, 4), at(4, 71));
    assert_eq!(place(72, 2), at(4, 72));
    assert_eq!(place(73, 0), at(4, 73));
    assert_eq!(place(73, 9), at(4, 73));
    assert_eq!(place(74, 4), at(4, 74));
    assert_eq!(place(80, 1), at(4, 80));
    assert_eq!(place(79, 0x40), at(4, 78));
    assert_eq!(place(108, 2), at(4, 113));
}

#[test]
fn more_bytes_than_rows() {
    let mut bytes = chain_d_file();
    bytes.push(0);
    assert_eq!(open(&bytes), Err(at(1, 40)));
    bytes[40] += 1;
    assert_eq!(open(&bytes), Err(at(4, 40)));
}

// pass-line.md

#[test]
fn the_pass_line_of_the_example() {
    let chain = pass_line(2, 1).unwrap();
    assert!(chain.lawful());
    assert_eq!((chain.states, chain.rates, chain.unit, chain.start), (6, 2, 1, 0));
    assert_eq!(chain.marks, [0, 0, 0, 0, 0, 1]);
    let edge = |successor, c: &[i32]| Edge { successor, coefficients: c.to_vec() };
    let again = |next, pass| {
        let edges = vec![edge(next, &[0, 1, 0, -1]), edge(pass, &[1, -1, 0, 0]), edge(5, &[0, 0, 0, 1])];
        Row { rates: vec![0, 1], edges }
    };
    let last = |pass| Row { rates: vec![0], edges: vec![edge(pass, &[1, -1]), edge(5, &[0, 1])] };
    assert_eq!(chain.rows, [again(1, 2), last(2), again(3, 4), last(4), looping_row(4, 1), looping_row(5, 1)]);
    assert_eq!(chain.row(6), Err(plain(13)));
}

#[test]
fn the_limits_of_the_pass_line() {
    assert_eq!(pass_line(1, 0).unwrap().states, 3);
    assert_eq!(pass_line(64, 31).unwrap().states, 2050);
    assert!(pass_line(64, 31).unwrap().lawful());
    for (passes, repeats) in [(0, 0), (65, 0), (1, 32)] {
        assert_eq!(pass_line(passes, repeats), Err(plain(14)));
    }
}

// witnesses.md

#[test]
fn the_exact_chance_of_chain_d() {
    let setting = Setting { denominator: 10, numerators: vec![3, 5] };
    let chain = chain_d();
    let numbers: Vec<i128> = chain.rows[..2]
        .iter()
        .flat_map(|row| row.edges.iter().map(|edge| edge_number(row, edge, &setting)))
        .collect();
    assert_eq!(numbers, [300, 700, 500, 500]);
    let mut steps = Steps::new(&chain, &setting);
    let table = [[0, 0, 1, 0], [0, 500, 1000, 0], [150_000, 500_000, 1_000_000, 0]];
    for row in table {
        assert_eq!(steps.h, row.map(Big::from));
        if row[0] > 0 {
            assert!(!steps.is_above(150_000));
            assert!(steps.is_above(149_999));
        }
        steps.advance();
    }
}

fn safe(limit: u32, v: [u32; 4]) -> Result<Verdict, Refusal> {
    judge_safe(&chain_d(), &sides_15_26(), limit, &v)
}

#[test]
fn worked_safe_witnesses() {
    let good = [444445, 888889, 1000000, 0];
    assert_eq!(safe(450_000, good), Ok(Verdict::Safe { bound: 444_445 }));
    assert_eq!(safe(444_444, good), Err(plain(21)));
    assert_eq!(safe(450_000, [444444, 888889, 1000000, 0]), Err(at(19, 0)));
    assert_eq!(safe(450_000, [444445, 888888, 1000000, 0]), Err(at(19, 1)));
    assert_eq!(safe(450_000, [444445, 888889, 999999, 0]), Err(at(17, 2)));
}

#[test]
fn worked_unsafe_witnesses() {
    let judge = |limit: u32, w: [u32; 4]| {
        judge_unsafe(&chain_d(), &sides_15_26(), limit, &[42500, 425500, 1000000, 0], &w)
    };
    assert_eq!(judge(40_000, [3, 3, 0, 0]), Ok(Verdict::Unsafe { bound: 42_500, steps: 1201 }));
    assert_eq!(judge(42_500, [3, 3, 0, 0]), Err(plain(21)));
    assert_eq!(judge(40_000, [2, 3, 0, 0]), Err(at(20, 0)));
}

#[test]
fn one_looping_state_cannot_be_unsafe() {
    let chain =
        Chain { states: 1, rates: 1, unit: 1, start: 0, marks: vec![0], rows: vec![looping_row(0, 1)] };
    let region = Region::new(1, &[0, 1]).unwrap();
    assert_eq!(judge_unsafe(&chain, &region, 0, &[1_000_000], &[5]), Err(at(20, 0)));
}

#[test]
fn chances_are_refused_where_a_box_is_too_large() {
    let edge = |successor, a, b| Edge { successor, coefficients: vec![a, b] };
    let first = Row { rates: vec![0], edges: vec![edge(0, 1, -2), edge(1, 0, 2)] };
    let chain = Chain {
        states: 2,
        rates: 1,
        unit: 1,
        start: 0,
        marks: vec![0, 0],
        rows: vec![first, looping_row(1, 1)],
    };
    let judge = |high| judge_safe(&chain, &Region::new(10, &[1, high]).unwrap(), 0, &[0, 0]);
    assert_eq!(judge(5), Ok(Verdict::Safe { bound: 0 }));
    assert_eq!(judge(6), Err(at(18, 0)));
}

#[test]
fn witness_refusals_come_in_order() {
    let chain = chain_d();
    let region = sides_15_26();
    let wrong = Region::new(10, &[1, 5]).unwrap();
    assert_eq!(judge_safe(&chain, &wrong, 0, &[]), Err(plain(7)));
    assert_eq!(judge_safe(&chain, &region, 0, &[0]), Err(plain(16)));
    let v = [0, 0, 1_000_000, 0];
    assert_eq!(judge_unsafe(&chain, &region, 0, &v, &[0; 3]), Err(plain(16)));
    assert_eq!(judge_unsafe(&chain, &region, 0, &v[..3], &[0; 4]), Err(plain(16)));
    assert_eq!(judge_unsafe(&chain, &region, 0, &v, &[0, 0, 0, 1_000_001]), Err(at(17, 3)));
    assert_eq!(judge_unsafe(&chain, &region, 0, &v, &[0, 1_000_001, 0, 0]), Err(at(17, 1)));
    assert_eq!(judge_unsafe(&chain, &region, 0, &v, &[0; 4]), Err(plain(21)));
}

// map.md

#[test]
fn lay_out_and_split_are_refused_in_order() {
    let mut map = Map::new(chain_d());
    assert_eq!(map.lay_out(0, 1, &[]), Err(plain(6)));
    assert_eq!(map.lay_out(10, 1_000_001, &[]), Err(plain(6)));
    assert_eq!(map.lay_out(10, 1, &[1, 5, 2]), Err(plain(7)));
    assert_eq!(map.lay_out(10, 450_000, &[1, 5, 2, 6]), Ok(()));
    for (number, rate, place, refusal) in [(1, 0, 3, 9), (0, 2, 3, 11), (0, 0, 1, 11), (0, 0, 5, 11)] {
        assert_eq!(map.split(number, rate, place), Err(plain(refusal)));
    }
    assert_eq!(map.split(0, 0, 3), Ok(()));
    assert_eq!(map.lay_out(0, 1, &[]), Err(plain(8)));
    assert_eq!(map.safe_witness(1, &[444445, 888889, 1000000, 0]), Ok(()));
    assert_eq!(map.split(1, 9, 9), Err(plain(10)));
    assert_eq!(map.safe_witness(1, &[]), Err(plain(10)));
    assert_eq!(map.measure(), [8, 0, 8]);
}

#[test]
fn the_127th_split_makes_a_map_full() {
    let mut map = Map::new(chain_d());
    map.lay_out(1000, 0, &[0, 1000, 0, 1000]).unwrap();
    for number in 0..127 {
        assert_eq!(map.split(number, 0, number + 1), Ok(()));
    }
    assert_eq!(map.count(), 128);
    assert_eq!(map.split(127, 0, 500), Err(plain(12)));
    assert_eq!(map.split(127, 0, 127), Err(plain(11)));
    assert_eq!(map.measure(), [0, 0, 1_000_000]);
}

// script.md

const SCRIPT: &str = "L 10 450000 1 5 2 6\nC 0 0 3\nS 0 0\nS 1 444445 888889 1000000 0\nE\n";
const OUTPUT: &str = "ok\nok\nrefused 16 0\nok\n0 1 3 2 6 open\n1 3 5 2 6 safe 444445\n8 0 8\n";

fn output(script: &str) -> String {
    String::from_utf8(run(&chain_d_file(), script.as_bytes())).unwrap()
}

#[test]
fn the_script_example() {
    assert_eq!(output(SCRIPT), OUTPUT);
    assert_eq!(output(SCRIPT.trim_end()), OUTPUT);
    assert_eq!(output(&format!("{SCRIPT}Q 0\nE\nnonsense")), OUTPUT);
}

#[test]
fn what_comes_first() {
    let long = vec![b'\n'; 65_537];
    assert_eq!(run(&long, &long), b"refused 22 0\n");
    assert_eq!(run(&[], &long), b"refused 1 0\n");
    assert_eq!(run(&chain_d_file(), &long), b"refused 22 0\n");
    assert_eq!(run(&chain_d_file(), &long[1..]).len(), 65_536 * "refused 23 0\n".len());
    assert_eq!(run(&chain_d_file(), b""), b"");
}

#[test]
fn lines_end_with_byte_10() {
    assert_eq!(lines(b"").len(), 0);
    assert_eq!(lines(b"\n").len(), 1);
    assert_eq!(lines(b"E").len(), 1);
    assert_eq!(lines(b"E\n").len(), 1);
    assert_eq!(lines(b"E\n\n").len(), 2);
}

#[test]
fn malformed_lines() {
    let wrong: [&[u8]; 27] = [
        b"", b"X 0", b"q 0", b"Q\t0", b"Q 0\r", b"Q  0", b"Q 0 ", b" Q 0", b"Q +0", b"Q -0", b"Q 00000000000",
        b"Q 4294967296", b"C 0 0", b"C 0 0 1 1", b"Q", b"Q 0 0", b"E 0", b"E ", b"L", b"L 10", b"S", b"U", b"Q0",
        b"Q ", b"S 0 ", b"U 0 4294967296", b"Q 0\xff",
    ];
    for line in wrong {
        assert_eq!(parse(line, 4), Err(plain(23)), "{line:?}");
    }
}

#[test]
fn lines_that_only_just_have_the_form() {
    assert_eq!(parse(b"Q 0000000007", 4), Ok(Call::Question { number: 7 }));
    assert_eq!(parse(b"Q 4294967295", 4), Ok(Call::Question { number: 4_294_967_295 }));
    assert_eq!(parse(b"L 10 5", 4), Ok(Call::LayOut { grid: 10, limit: 5, sides: vec![] }));
    assert_eq!(parse(b"S 1", 4), Ok(Call::Safe { number: 1, v: vec![] }));
    let parts = |line: &[u8]| match parse(line, 2) {
        Ok(Call::Unsafe { v, w, .. }) => (v, w),
        other => panic!("{other:?}"),
    };
    assert_eq!(parts(b"U 0"), (vec![], vec![]));
    assert_eq!(parts(b"U 0 1 2"), (vec![1, 2], vec![]));
    assert_eq!(parts(b"U 0 1 2 3 4"), (vec![1, 2], vec![3, 4]));
    assert_eq!(parts(b"U 0 1 2 3 4 5"), (vec![1, 2], vec![3, 4, 5]));
}

#[test]
fn a_new_map_takes_a_witness() {
    assert_eq!(output("Q 0\nS 0 1000000 1000000 1000000 0\nE"), "0 0 1 0 1 open\nrefused 21 0\n0 0 1 0 1 open\n0 0 1\n");
    assert_eq!(output("L 10 1000000 0 10 0 10\nS 0 1000000 1000000 1000000 0\nL 1 1 0 1 0 1"), "ok\nok\nrefused 8 0\n");
    assert_eq!(
        output("L 10 40000 1 5 2 6\nU 0 42500 425500 1000000 0 3 3 0 0\nQ 0\nC 0 0 3\nQ 1\n"),
        "ok\nok\n0 1 5 2 6 unsafe 42500 1201\nrefused 10 0\nrefused 9 0\n"
    );
}
