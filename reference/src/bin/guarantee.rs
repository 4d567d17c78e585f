//! guarantee SEED COUNT
//! Tries the guarantee itself on random small chains: at random settings of
//! every judged box the exact chance is worked out and compared.

use reference::exact::{Setting, Steps};
use reference::gen::chains::{any_chain, Shape};
use reference::gen::scripts::Player;
use reference::map::Map;
use reference::rng::Rng;
use reference::value::{volume, Side};
use reference::witness::Verdict;

/// Safe boxes are tried for all numbers of steps up to this one.
const SAFE_STEPS: u64 = 40;
/// Unsafe boxes are followed up to this number of steps.
const UNSAFE_STEPS: u64 = 200;
const SETTINGS_OF_A_BOX: usize = 6;
const SETTINGS_OF_A_FIELD: usize = 30;

#[derive(Default, Debug)]
struct Counts {
    maps: u64,
    safe_boxes: u64,
    unsafe_boxes: u64,
    open_boxes: u64,
    /// Judged boxes whose bound is neither 0 nor 1,000,000.
    middle_bounds: u64,
    safe_comparisons: u64,
    unsafe_shown: u64,
    unsafe_shown_at_the_step_number: u64,
    unsafe_undecided: u64,
    settings_on_the_grid: u64,
    settings_between: u64,
    field_settings: u64,
    violations: u64,
}

fn main() {
    let arguments: Vec<u64> =
        std::env::args().skip(1).map(|word| word.parse().expect("guarantee SEED COUNT")).collect();
    let (seed, count) = (arguments[0], arguments[1]);
    let mut counts = Counts::default();
    for index in 0..count {
        let mut rng = Rng::for_case(seed, index);
        let (map, field) = random_map(&mut rng);
        let before = counts.violations;
        try_map(&mut rng, &map, &mut counts);
        try_cover(&mut rng, &map, &field, &mut counts);
        if counts.violations > before {
            println!("violation: seed {seed}, map {index}: {map:?}");
        }
    }
    println!("{counts:#?}");
    std::process::exit((counts.violations > 0) as i32);
}

/// A map over a small chain, with as many witnesses as are found in some
/// moves, and its field.
fn random_map(rng: &mut Rng) -> (Map, Vec<Side>) {
    let wild = if rng.percent(70) { 0 } else { 20 };
    let chain = any_chain(rng, &Shape { most_states: 8, wild });
    let mut player = Player::new(rng, chain);
    player.lay_out_well();
    if player.rng.percent(30) {
        // A low limit makes for small step numbers.
        let limit = player.rng.pick(&[0, 1000, 50_000]);
        let sides = player.map.boxes[0].sides.clone();
        player.line(reference::gen::scripts::lay_out_line(player.map.grid, limit, &sides));
    }
    let field = player.map.boxes[0].sides.clone();
    for _ in 0..player.rng.range(1, 25) {
        let open = player.open_boxes();
        if open.is_empty() {
            break;
        }
        let number = player.rng.pick(&open);
        if player.rng.percent(35) {
            player.give_any(number);
        } else {
            player.work_on(number);
        }
    }
    (player.map, field)
}

fn try_map(rng: &mut Rng, map: &Map, counts: &mut Counts) {
    counts.maps += 1;
    for one in &map.boxes {
        match one.verdict {
            Verdict::Open => counts.open_boxes += 1,
            Verdict::Safe { .. } => counts.safe_boxes += 1,
            Verdict::Unsafe { .. } => counts.unsafe_boxes += 1,
        }
        let bound = match one.verdict {
            Verdict::Open => continue,
            Verdict::Safe { bound } | Verdict::Unsafe { bound, .. } => bound,
        };
        counts.middle_bounds += (bound != 0 && bound != 1_000_000) as u64;
        for _ in 0..SETTINGS_OF_A_BOX {
            let setting = random_setting(rng, map.grid, &one.sides);
            count_setting(map.grid, &setting, counts);
            try_setting(map, one.verdict, &setting, counts);
        }
    }
}

fn count_setting(grid: u32, setting: &Setting, counts: &mut Counts) {
    let on_a_mark = |&x: &u32| x as u64 * grid as u64 % setting.denominator as u64 == 0;
    if setting.numerators.iter().all(on_a_mark) {
        counts.settings_on_the_grid += 1;
    } else {
        counts.settings_between += 1;
    }
}

/// A setting in the box: on grid marks, between them, or at faces.
fn random_setting(rng: &mut Rng, grid: u32, sides: &[Side]) -> Setting {
    if rng.percent(30) {
        if let Some(setting) = setting_with_denominator(rng, grid, sides) {
            return setting;
        }
    }
    let times = if rng.percent(25) { 1 } else { rng.range(1, 12) as u32 };
    let numerator = |rng: &mut Rng, side: &Side| match rng.below(4) {
        0 => side.low * times,
        1 => side.high * times,
        _ => rng.range((side.low * times) as usize, (side.high * times) as usize) as u32,
    };
    let numerators = sides.iter().map(|side| numerator(rng, side)).collect();
    Setting { denominator: grid * times, numerators }
}

/// A setting whose denominator need not be a multiple of the grid, if there is one.
fn setting_with_denominator(rng: &mut Rng, grid: u32, sides: &[Side]) -> Option<Setting> {
    let q = rng.range(1, 3000) as u32;
    let mut numerators = vec![];
    for side in sides {
        let least = (side.low * q).div_ceil(grid);
        let most = side.high * q / grid;
        if least > most {
            return None;
        }
        numerators.push(rng.range(least as usize, most as usize) as u32);
    }
    Some(Setting { denominator: q, numerators })
}

fn try_setting(map: &Map, verdict: Verdict, setting: &Setting, counts: &mut Counts) {
    let mut steps = Steps::new(&map.chain, setting);
    if steps.has_negative_chance() {
        report(counts, "a judged box has a negative chance", setting, 0);
    }
    match verdict {
        Verdict::Safe { bound } => try_safe(map.limit, bound, &mut steps, setting, counts),
        Verdict::Unsafe { steps: number, .. } => try_unsafe(map.limit, number, &mut steps, setting, counts),
        Verdict::Open => {}
    }
}

fn try_safe(limit: u32, bound: u32, steps: &mut Steps, setting: &Setting, counts: &mut Counts) {
    for _ in 0..=SAFE_STEPS {
        counts.safe_comparisons += 1;
        if steps.is_above(limit) || steps.is_above(bound) {
            report(counts, "a safe box is above its limit or bound", setting, steps.step);
        }
        steps.advance();
    }
}

/// The chance never falls with the steps, so being above at an earlier step will do.
fn try_unsafe(limit: u32, number: u64, steps: &mut Steps, setting: &Setting, counts: &mut Counts) {
    let last = number.min(UNSAFE_STEPS);
    let mut was_above = false;
    while steps.step < last {
        if steps.is_above(limit) {
            was_above = true;
            if number > UNSAFE_STEPS {
                break;
            }
        } else if was_above {
            report(counts, "the chance falls with the steps", setting, steps.step);
        }
        steps.advance();
    }
    if steps.is_above(limit) {
        counts.unsafe_shown += 1;
        counts.unsafe_shown_at_the_step_number += (steps.step == number) as u64;
    } else if steps.step == number || steps.is_settled() {
        report(counts, "an unsafe box is not above its limit", setting, steps.step);
    } else {
        counts.unsafe_undecided += 1;
    }
}

/// Boxes cover the field and are apart inside, and their volumes add up.
fn try_cover(rng: &mut Rng, map: &Map, field: &[Side], counts: &mut Counts) {
    if map.measure().iter().sum::<u64>() != volume(field) {
        report(counts, "the volumes do not add up", &Setting { denominator: 1, numerators: vec![] }, 0);
    }
    for _ in 0..SETTINGS_OF_A_FIELD {
        counts.field_settings += 1;
        let setting = random_setting(rng, map.grid, field);
        let holding = map.boxes.iter().filter(|b| setting.lies_in(map.grid, &b.sides)).count();
        let strictly = map.boxes.iter().filter(|b| setting.lies_strictly_in(map.grid, &b.sides)).count();
        if holding == 0 || strictly > 1 || (strictly == 1 && holding > 1) {
            report(counts, "boxes do not cover the field, or overlap", &setting, 0);
        }
    }
}

fn report(counts: &mut Counts, what: &str, setting: &Setting, step: u64) {
    counts.violations += 1;
    println!("{what}: {setting:?}, step {step}");
}
