//! Compares the product's column kernels with plain Rust loops, over columns of 65,536 values. The
//! answers must be the same, and one table shows what a call of each takes. With the word `--check` there
//! is no table.

use std::env;
use std::hint::black_box;
use std::time::{Duration, Instant};

const CUSTOMERS: usize = 65_536;
const LIMIT: i64 = 1_000_000_000_000;
const CALLS: u32 = 2_000;
const RUNS: usize = 9;

mod product {
    // A slice is passed as a pointer and a length.
    unsafe extern "C" {
        fn kernel_sum(values: *const i64, length: usize) -> i64;
        fn kernel_first_difference(
            left: *const i64,
            left_length: usize,
            right: *const i64,
            right_length: usize,
        ) -> usize;
        fn kernel_first_outside(values: *const i64, length: usize, low: i64, high: i64) -> usize;
        fn kernel_count_below(values: *const i64, length: usize, low: i64) -> usize;
    }

    // Safety, here and below: the pointer and the length are a slice's. The number of values and
    // their sizes are within what `kernel_sum` allows.
    pub fn sum(values: &[i64]) -> i64 {
        unsafe { kernel_sum(values.as_ptr(), values.len()) }
    }

    // The columns must have one length.
    pub fn first_difference(left: &[i64], right: &[i64]) -> usize {
        assert_eq!(left.len(), right.len());
        unsafe { kernel_first_difference(left.as_ptr(), left.len(), right.as_ptr(), right.len()) }
    }

    pub fn first_outside(values: &[i64], low: i64, high: i64) -> usize {
        unsafe { kernel_first_outside(values.as_ptr(), values.len(), low, high) }
    }

    pub fn count_below(values: &[i64], low: i64) -> usize {
        unsafe { kernel_count_below(values.as_ptr(), values.len(), low) }
    }
}

mod plain {
    #[inline(never)]
    pub fn sum(values: &[i64]) -> i64 {
        values.iter().sum()
    }

    #[inline(never)]
    pub fn first_difference(left: &[i64], right: &[i64]) -> usize {
        left.iter()
            .zip(right)
            .position(|(a, b)| a != b)
            .unwrap_or(left.len())
    }

    #[inline(never)]
    pub fn first_outside(values: &[i64], low: i64, high: i64) -> usize {
        values
            .iter()
            .position(|value| *value < low || high < *value)
            .unwrap_or(values.len())
    }

    #[inline(never)]
    pub fn count_below(values: &[i64], low: i64) -> usize {
        values.iter().filter(|value| **value < low).count()
    }
}

// Values from -LIMIT to LIMIT that look random (SplitMix64).
fn column(seed: u64) -> Vec<i64> {
    let mut state = seed;
    let mut next = || {
        state = state.wrapping_add(0x9e37_79b9_7f4a_7c15);
        let mut mixed = state;
        mixed = (mixed ^ (mixed >> 30)).wrapping_mul(0xbf58_476d_1ce4_e5b9);
        mixed = (mixed ^ (mixed >> 27)).wrapping_mul(0x94d0_49bb_1331_11eb);
        ((mixed ^ (mixed >> 31)) % (2 * LIMIT as u64 + 1)) as i64 - LIMIT
    };
    (0..CUSTOMERS).map(|_| next()).collect()
}

fn time_of<T>(mut call: impl FnMut() -> T) -> Duration {
    let start = Instant::now();
    for _ in 0..CALLS {
        black_box(call());
    }
    start.elapsed()
}

// Whether the answers are only compared.
fn only_checks() -> bool {
    env::args().nth(1).as_deref() == Some("--check")
}

// Compares the answers of both. Then the medians of some runs of both, in turn, are a row of the table.
fn compare<T: PartialEq + std::fmt::Debug>(
    name: &str,
    mut product: impl FnMut() -> T,
    mut plain: impl FnMut() -> T,
) {
    assert_eq!(product(), plain(), "{name}");
    if only_checks() {
        return;
    }
    let mut times = (Vec::new(), Vec::new());
    for _ in 0..RUNS {
        times.0.push(time_of(&mut product));
        times.1.push(time_of(&mut plain));
    }
    let median = |mut times: Vec<Duration>| {
        times.sort();
        times[times.len() / 2].as_secs_f64() * 1e6 / f64::from(CALLS)
    };
    let (product, plain) = (median(times.0), median(times.1));
    println!(
        "| {name} | {product:.1} | {plain:.1} | {:.2} |",
        product / plain
    );
}

// Each place of a short column once, so that both blocks and the rest are tested.
fn compare_answers() {
    for length in 0..40 {
        let zeros = vec![0; length];
        for place in 0..length {
            let mut values = zeros.clone();
            values[place] = -1;
            assert_eq!(product::sum(&values), plain::sum(&values));
            assert_eq!(
                product::first_difference(&zeros, &values),
                plain::first_difference(&zeros, &values)
            );
            assert_eq!(
                product::first_outside(&values, 0, 5),
                plain::first_outside(&values, 0, 5)
            );
            assert_eq!(
                product::count_below(&values, 0),
                plain::count_below(&values, 0)
            );
        }
    }
}

fn main() {
    compare_answers();
    let values = black_box(column(20));
    let copy = black_box(values.clone());
    if !only_checks() {
        println!("| kernel | us a call | us, plain | ratio |");
        println!("|---|---|---|---|");
    }
    compare("sum", || product::sum(&values), || plain::sum(&values));
    compare(
        "first_difference, none",
        || product::first_difference(&values, &copy),
        || plain::first_difference(&values, &copy),
    );
    compare(
        "first_outside, none",
        || product::first_outside(&values, -LIMIT, LIMIT),
        || plain::first_outside(&values, -LIMIT, LIMIT),
    );
    compare(
        "count_below",
        || product::count_below(&values, 0),
        || plain::count_below(&values, 0),
    );
    if only_checks() {
        println!("kernels: the same answers for each place of short columns, and for long ones");
    }
}
