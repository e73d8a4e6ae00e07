//! The ways to the largest set against each other, and the calls in bytes against the model.
#![deny(warnings)]

use reading::largest::{by_take_off, slowly};
use reading::nights::{night, KINDS};
use reading::selftest;
use reading::sheet::sheet_of;

#[test]
fn against_each_other() {
    for seed in 1..=4 {
        if let Err(what) = selftest::run(seed, 400) {
            panic!("{what}");
        }
    }
}

#[test]
fn nights_fast_and_slow() {
    for kind in KINDS {
        for seed in 1..=3 {
            let file = night(seed, kind, Some(3_000)).unwrap();
            assert!(file == night(seed, kind, Some(3_000)).unwrap());
            assert!(sheet_of(&file, by_take_off) == sheet_of(&file, slowly), "night {seed} {kind}");
        }
    }
}
