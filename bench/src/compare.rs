//! Two ways to one answer, timed turn about in one process.
use std::fmt::Debug;
use std::hint::black_box;
use std::time::Instant;

const RUNS: usize = 21;

fn median(mut times: Vec<f64>) -> f64 {
    times.sort_by(f64::total_cmp);
    times[times.len() / 2]
}

/// Seconds of one call, from so many in a row.
fn seconds<T>(calls: usize, mut work: impl FnMut() -> T) -> f64 {
    let start = Instant::now();
    for _ in 0..calls {
        black_box(work());
    }
    start.elapsed().as_secs_f64() / calls as f64
}

/// Prints the median time of a call of each, and their ratio. Short calls are timed many at once.
pub fn compare<T: PartialEq + Debug>(
    name: &str,
    calls: usize,
    mut plain: impl FnMut() -> T,
    mut proved: impl FnMut() -> T,
) {
    assert_eq!(proved(), plain(), "{name}");
    let (mut rust, mut rattle) = (vec![], vec![]);
    for _ in 0..RUNS {
        rust.push(seconds(calls, &mut plain));
        rattle.push(seconds(calls, &mut proved));
    }
    let (rust, rattle) = (1e6 * median(rust), 1e6 * median(rattle));
    println!("{name}: plain Rust {rust:.3} us, proved {rattle:.3} us, ratio {:.3}", rattle / rust);
}
