//! Which calls are drawn, and whom they name.

use load_driver::ask::Kind;
use load_driver::chooser::{Choice, Chooser};
use load_driver::customers::{Name, write_opening};
use load_driver::mix::Mix;
use load_driver::random::Random;

const DRAWS: u32 = 200_000;

/// How often each customer is drawn.
fn drawn(choice: Choice, customers: u32) -> Vec<u32> {
    let chooser = Chooser::new(choice, customers);
    let (mut random, mut counts) = (Random::new(1), vec![0; customers as usize]);
    for _ in 0..DRAWS {
        counts[chooser.one(&mut random) as usize] += 1;
    }
    counts
}

/// Compares a count with this part of all draws: they differ by five standard deviations at most.
fn is_about(count: u32, part: f64) {
    let expected = part * f64::from(DRAWS);
    let most = 5.0 * (expected * (1.0 - part)).sqrt();
    let off = (f64::from(count) - expected).abs();
    assert!(off <= most, "{count} in place of {expected}");
}

#[test]
fn uniform() {
    for count in drawn(Choice::Uniform, 10) {
        is_about(count, 0.1);
    }
}

#[test]
fn a_hot_spot_gets_its_part_and_the_others_the_rest() {
    let (size, percent) = (100, 25);
    let counts = drawn(Choice::HotSpot { size, percent }, 1_000);
    let (hot, others) = counts.split_at(100);
    is_about(hot.iter().sum(), 0.25);
    for count in hot {
        is_about(*count, 0.0025);
    }
    for count in others {
        is_about(*count, 0.75 / 900.0);
    }
}

#[test]
fn a_hot_spot_of_all_is_none() {
    for percent in [0, 100] {
        for count in drawn(Choice::HotSpot { size: 10, percent }, 10) {
            is_about(count, 0.1);
        }
    }
}

#[test]
fn zipf_follows_its_law() {
    for power in [0.0, 0.5, 1.0, 1.5] {
        let weights: Vec<f64> = (1..=50).map(|n| f64::from(n).powf(-power)).collect();
        let sum: f64 = weights.iter().sum();
        for (count, weight) in drawn(Choice::Zipf(power), 50).iter().zip(weights) {
            is_about(*count, weight / sum);
        }
    }
    // Rounding leaves nobody beyond the last.
    assert_eq!(drawn(Choice::Zipf(10.0), 65_536).len(), 65_536);
}

#[test]
fn two_customers_differ_and_are_of_the_same_part() {
    let (size, percent) = (3, 50);
    let chooser = Chooser::new(Choice::HotSpot { size, percent }, 10);
    let mut random = Random::new(1);
    for _ in 0..10_000 {
        let (first, second) = chooser.two(&mut random);
        assert!(first != second && first < 10 && second < 10);
        assert_eq!(first < size, second < size);
    }
    // If there is one customer in the part, or almost, the second is the next one.
    let only = Chooser::new(
        Choice::HotSpot {
            size: 1,
            percent: 100,
        },
        2,
    );
    assert_eq!(only.two(&mut random), (0, 1));
    let first = Chooser::new(Choice::Zipf(10.0), 2);
    assert!((0..1_000).all(|_| matches!(first.two(&mut random), (0, 1) | (1, 0))));
    assert_eq!(Chooser::new(Choice::Uniform, 1).two(&mut random), (0, 0));
}

#[test]
fn a_mix_is_by_weights() {
    let count = |mix: &Mix, kind| {
        let mut random = Random::new(1);
        let draws = (0..DRAWS).filter(|_| mix.draw(&mut random) == kind);
        draws.count() as u32
    };
    for kind in Kind::ALL {
        let part = if kind == Kind::Pay { 0.25 } else { 0.15 };
        is_about(count(&Mix::default(), kind), part);
    }
    let mix = Mix::new([0, 3, 0, 0, 1, 0]).expect("not all are 0");
    is_about(count(&mix, Kind::Deposit), 0.75);
    is_about(count(&mix, Kind::Check), 0.25);
    assert_eq!(Mix::new([0; 6]), None);
    assert_eq!(Mix::new([u32::MAX; 6]), None);
}

#[test]
fn an_opening() {
    let mut out = Vec::new();
    write_opening(&mut out, 2).expect("a list of bytes takes all");
    assert_eq!(
        out,
        b"customer_0 100.00 100.00\ncustomer_1 100.00 100.00\nbegin\n"
    );
    assert_eq!(Name::of(65_535).as_bytes(), b"customer_65535");
}
