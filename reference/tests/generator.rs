//! The generator and the file format together.

use reference::file::{open, write};
use reference::gen::chains::{any_chain, chain_of_length, Shape};
use reference::gen::{case, Size};
use reference::program::run;
use reference::rng::Rng;

#[test]
fn random_chains_are_lawful_and_come_back_from_their_files() {
    for seed in 0..500 {
        let mut rng = Rng::new(seed);
        let wild = rng.pick(&[0, 50]);
        let chain = any_chain(&mut rng, &Shape { most_states: 60, wild });
        assert!(chain.lawful());
        assert_eq!(open(&write(&chain)), Ok(chain));
    }
}

#[test]
fn chains_of_a_given_length() {
    for (seed, length) in [65_535, 65_536, 65_537, 65_538, 70_000].into_iter().enumerate() {
        let chain = chain_of_length(&mut Rng::new(seed as u64), length);
        assert!(chain.lawful());
        assert_eq!(write(&chain).len(), length);
    }
}

#[test]
fn what_opens_is_lawful_and_written_the_same() {
    let mut opened = 0;
    for index in 0..1500 {
        let case = case(3, index, Size::Any);
        if let Ok(chain) = open(&case.file) {
            assert!(chain.lawful());
            assert_eq!(write(&chain), case.file);
            opened += 1;
        }
    }
    assert!(opened > 500);
}

#[test]
fn the_same_seed_gives_the_same_cases() {
    for index in 0..50 {
        let (a, b) = (case(9, index, Size::Any), case(9, index, Size::Any));
        assert_eq!((&a.file, &a.script), (&b.file, &b.script));
        assert_eq!(run(&a.file, &a.script), run(&b.file, &b.script));
    }
}
