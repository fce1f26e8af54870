//! Times of single calls on two engines, taken in turns so that a slow moment meets both. What makes the engines ready before each
//! call is not timed, and the time of the clock itself is taken off. Where the clock ticks every 10 ns a median of single calls is a multiple of that; so
//! a figure is the mean of the middle half of the times.
use std::hint::black_box;
use std::time::Instant;

const ROUNDS: usize = 20_001;

/// One row of the table: what, records written, ours and the Rust's in nanoseconds a call, ours through the Rust's.
pub fn row<S>(what: &str, records: usize, state: &mut S, ready: impl Fn(&mut S), ours: impl Fn(&mut S), rust: impl Fn(&mut S)) {
    let (mut a, mut b, mut clock) = (vec![], vec![], vec![]);
    for _ in 0..ROUNDS {
        ready(state);
        a.push(time(|| ours(black_box(state))));
        b.push(time(|| rust(black_box(state))));
        clock.push(time(|| ()));
    }
    let clock = middle(clock);
    let (a, b) = (middle(a) - clock, middle(b) - clock);
    println!("| {what} | {records} | {a:.0} | {b:.0} | {:.2} |", a / b);
}

pub fn head() {
    println!("| call | records | ours, ns | the Rust, ns | ratio |\n|---|---|---|---|---|");
}

fn time(f: impl FnOnce()) -> f64 {
    let start = Instant::now();
    f();
    start.elapsed().as_nanos() as f64
}

/// The mean of the middle half.
fn middle(mut times: Vec<f64>) -> f64 {
    times.sort_by(f64::total_cmp);
    let half = &times[times.len() / 4..times.len() * 3 / 4];
    half.iter().sum::<f64>() / half.len() as f64
}
