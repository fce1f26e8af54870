//! `compare-message SEED COUNT`: our `parse` and `build_*` beside the unchanged message.rs in one process, on every
//! directed case of cases/ and COUNT random ones. The last line counts comparisons and differences; status 1 where any differ.
mod ours;

use cases::builds::{builds, Build};
use cases::datagrams;
use cases::dice::Dice;
use judge::messages::parse;
use std::collections::BTreeMap;

fn main() {
    let args: Vec<u64> = std::env::args().skip(1).map(|arg| arg.parse().unwrap()).collect();
    let [seed, count] = args[..] else {
        panic!("compare-message SEED COUNT");
    };
    let mut seen = Seen::default();
    let directed =
        [datagrams::every_set_of_headers, datagrams::cut_and_replaced, datagrams::reordered_and_doubled, datagrams::odd_white_space];
    for datagram in directed.iter().flat_map(|make| make()) {
        seen.parse(&datagram);
    }
    let mut dice = Dice::new(seed, 0);
    for _ in 0..count {
        seen.parse(&datagrams::random(&mut dice));
    }
    for build in builds(&mut dice, count as usize / 5 + 1000) {
        seen.build(&build);
    }
    println!("messages: reached {:?}", seen.kinds);
    println!("messages: {} comparisons, {} differences", seen.comparisons, seen.differences);
    std::process::exit((seen.differences > 0).into());
}

#[derive(Default)]
struct Seen {
    comparisons: u64,
    differences: u64,
    kinds: BTreeMap<String, u64>,
}

impl Seen {
    fn note(&mut self, what: String, same: bool, show: impl Fn() -> String) {
        self.comparisons += 1;
        *self.kinds.entry(what).or_default() += 1;
        if !same {
            self.differences += 1;
            if self.differences <= 5 {
                println!("{}", show());
            }
        }
    }

    fn parse(&mut self, datagram: &[u8]) {
        let (rust, ours) = (parse(datagram), ours::parse(datagram));
        let show = || format!("parse {:?}\n  the Rust {rust:?}\n  ours     {ours:?}", String::from_utf8_lossy(datagram));
        self.note(format!("parse {}", rust.kind), rust == ours, show);
    }

    /// Refusal, length and the whole buffer: what is behind the message keeps its value.
    fn build(&mut self, build: &Build) {
        let rust = build.kind.build(&build.texts, build.room);
        let mut buffer = vec![165; build.room];
        let ours = ours::build(build.kind, &mut buffer, &build.texts);
        let mut expected = vec![165; build.room];
        let answer = match &rust {
            Ok(message) => {
                expected[..message.len()].copy_from_slice(message);
                (0, message.len())
            }
            Err(refusal) => (*refusal, 0),
        };
        let show = || format!("build {:?} {:?} in {}\n  the Rust {answer:?}\n  ours     {ours:?}", build.kind, build.texts, build.room);
        self.note(format!("build {}", answer.0), ours == answer && buffer == expected, show);
    }
}
