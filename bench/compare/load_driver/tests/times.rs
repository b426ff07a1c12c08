//! Percentiles of how long batches took, and when they are due.

use load_driver::histogram::Histogram;
use load_driver::pace::{Pace, Turn};
use load_driver::window::Window;
use std::time::{Duration, Instant};

fn histogram(nanoseconds: impl IntoIterator<Item = u64>) -> Histogram {
    let mut taken = Histogram::default();
    for each in nanoseconds {
        taken.add(Duration::from_nanos(each));
    }
    taken
}

fn percentiles(taken: &Histogram) -> [u64; 4] {
    let at = |percent| taken.percentile(percent).as_nanos() as u64;
    [at(50), at(95), at(99), taken.most().as_nanos() as u64]
}

#[test]
fn short_times_are_exact() {
    assert_eq!(percentiles(&histogram(1..=100)), [50, 95, 99, 100]);
    assert_eq!(
        percentiles(&histogram((1..=200).rev())),
        [100, 190, 198, 200]
    );
    assert_eq!(percentiles(&histogram([7])), [7; 4]);
    assert_eq!(percentiles(&histogram([0, 9])), [0, 9, 9, 9]);
    assert_eq!(percentiles(&histogram([])), [0; 4]);
}

#[test]
fn a_long_one_among_many_is_the_most_and_no_percentile() {
    let taken = histogram([10; 999].into_iter().chain([5_000_000_000]));
    assert_eq!(percentiles(&taken), [10, 10, 10, 5_000_000_000]);
}

/// A percentile is at least the exact one, and at most a hundredth above it.
#[test]
fn long_times_are_within_a_hundredth() {
    for size in [300, 77_777, 123_456_789, 600_000_000_000] {
        let taken = histogram((1..=1_000).map(|part| size * part / 1_000));
        for percent in [1, 50, 95, 99, 100] {
            let exact = size * percent / 100;
            let told = taken.percentile(percent).as_nanos() as u64;
            assert!(
                exact <= told && told <= exact + exact / 100,
                "{told}, {exact}"
            );
        }
    }
    assert_eq!(percentiles(&histogram([u64::MAX])), [u64::MAX; 4]);
}

#[test]
fn two_threads_are_added_up() {
    let mut all = histogram(1..=50);
    all.merge(&histogram(51..=100));
    assert_eq!(percentiles(&all), [50, 95, 99, 100]);
}

#[test]
fn clients_take_turns() {
    let start = Instant::now();
    let (gap, clients) = (1e6, 3);
    let pace = Pace::Open {
        start,
        gap,
        clients,
    };
    let at = |milliseconds| start + Duration::from_millis(milliseconds);
    let turn = |place, round| Turn { place, round };
    assert_eq!(pace.due(turn(2, 0)), Some(at(2)));
    assert_eq!(pace.due(turn(1, 4)), Some(at(13)));
    assert!(!pace.is_due(turn(1, 4), at(12)) && pace.is_due(turn(1, 4), at(13)));
    // However late it is asked.
    assert_eq!(pace.begins(turn(1, 4)), at(13));
    // At 0, 3, 6 and 9, and at 1, 4 and 7.
    assert_eq!(pace.due_before(turn(0, 0), at(10)), 4);
    assert_eq!(pace.due_before(turn(0, 3), at(10)), 1);
    assert_eq!(pace.due_before(turn(1, 0), at(10)), 3);
    assert_eq!(pace.due_before(turn(1, 9), at(10)), 0);
    assert!(Pace::Closed.is_due(turn(1, 4), start));
    assert!(Pace::Closed.begins(turn(1, 4)) >= start);
    assert_eq!(Pace::Closed.due_before(turn(0, 0), at(10)), 0);
}

#[test]
fn a_window_ends_by_the_clock_or_by_its_asks() {
    let start = Instant::now();
    let at = |milliseconds| start + Duration::from_millis(milliseconds);
    let (warm_up, measured) = (Duration::from_millis(10), Duration::from_millis(90));
    let window = Window::new(start, warm_up, measured, 5);
    assert!(!window.measures(at(9)) && window.measures(at(10)));
    assert!(window.measures(at(99)) && !window.measures(at(100)));
    assert!(window.touches(at(9), at(10)) && !window.touches(at(8), at(9)));
    assert!(window.touches(at(99), at(200)) && !window.touches(at(100), at(200)));
    assert!(window.takes(at(0), 2) && window.takes(at(50), 2));
    assert!(!window.takes(at(100), 1));
    assert_eq!(window.measured(), measured);
    // One is left.
    assert!(!window.takes(at(60), 2));
    assert!(window.measures(at(59)) && window.is_over(at(60)));
    assert!(!window.takes(at(60), 1));
    assert_eq!(window.measured(), Duration::from_millis(50));
}
