//! Times of two functions in one process, taken in turns so that a slow moment meets both: medians, and their ratio.
use std::hint::black_box;
use std::time::Instant;

const ROUNDS: usize = 301;
const CALLS: usize = 2000;

/// One row of the table: what, bytes, ours and the Rust's in nanoseconds a call, ours through the Rust's.
pub fn row<A, B>(what: &str, bytes: usize, mut ours: impl FnMut() -> A, mut rust: impl FnMut() -> B) {
    let (mut a, mut b) = (vec![], vec![]);
    for _ in 0..ROUNDS {
        a.push(time(&mut ours));
        b.push(time(&mut rust));
    }
    let (a, b) = (median(a), median(b));
    println!("| {what} | {bytes} | {a:.0} | {b:.0} | {:.2} |", a / b);
}

pub fn head() {
    println!("| what | bytes | ours, ns | the Rust, ns | ratio |\n|---|---|---|---|---|");
}

fn time<A>(f: &mut impl FnMut() -> A) -> f64 {
    let start = Instant::now();
    for _ in 0..CALLS {
        black_box(f());
    }
    start.elapsed().as_nanos() as f64 / CALLS as f64
}

fn median(mut times: Vec<f64>) -> f64 {
    times.sort_by(f64::total_cmp);
    times[times.len() / 2]
}
