//! `judge session` and `judge trace`: reads the lines of that program on standard input and prints what it has to print.
//! Status 2, with a line on standard error for each place, where the Rust and the documents' text part.
use judge::{Front, Program};
use std::io::{Read, Write};

fn main() {
    let program = match std::env::args().nth(1).as_deref() {
        Some("session") => Program::Session,
        Some("trace") => Program::Trace,
        _ => panic!("judge session|trace < lines"),
    };
    let mut input = vec![];
    std::io::stdin().read_to_end(&mut input).unwrap();
    let mut front = Front::new(program);
    let output = front.run(&input);
    std::io::stdout().write_all(output.as_bytes()).unwrap();
    let partings = front.judge.map_or(vec![], |judge| judge.partings);
    for parting in &partings {
        eprintln!("the Rust and the documents part: {parting}");
    }
    std::process::exit(if partings.is_empty() { 0 } else { 2 });
}
