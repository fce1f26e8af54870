//! Whole lists of calls through a program of ours and through the judge.
//!
//!     compare-lists session|trace PROGRAM SEED COUNT    each list through PROGRAM, until COUNT calls were made
//!     compare-lists session|trace - SEED COUNT          the judge alone: do the Rust and the documents' text agree?
//!     compare-lists session|trace print SEED NUMBER     the lines of one list
//!
//! The last line counts lists, calls and differences; status 1 where any differ. The first list that differs is cut down
//! to the lines that it takes.
use cases::lists::List;
use judge::{bare, read, Front, Line, Program, OUTBOX, RECORD};
use std::collections::BTreeMap;
use std::io::Write;
use std::process::{exit, Command, Stdio};

fn main() {
    let args: Vec<String> = std::env::args().collect();
    let [_, word, path, seed, count] = args.as_slice() else {
        panic!("compare-lists session|trace PROGRAM|-|print SEED COUNT");
    };
    let program = if word == "trace" { Program::Trace } else { Program::Session };
    let (seed, count) = (seed.parse().unwrap(), count.parse().unwrap());
    if path == "print" {
        let lines = List::new(program, seed, count).lines();
        let text: Vec<u8> = lines.into_iter().flat_map(|(line, _)| line).collect();
        return std::io::stdout().write_all(&text).unwrap();
    }
    let mut seen = Seen::default();
    while seen.calls < count {
        let mut list = List::new(program, seed, seen.lists);
        let lines = list.lines();
        seen.note(&list, &lines);
        seen.outboxes.note(program, &lines);
        if path != "-" && !same(path, &lines) {
            seen.differences += 1;
            if seen.differences == 1 {
                show(program, path, lines);
            }
        }
    }
    let word = if path == "-" { format!("{word} lists, the Rust and the documents' text alone") } else { word.clone() };
    println!("{word}: reached {:?}, at most {} records a call", seen.refusals, seen.records);
    if program == Program::Trace {
        let Outboxes { short, exact, none } = seen.outboxes;
        println!("{word}: outbox too short {short:?}, exactly enough {exact:?}, none lent and none needed {none:?}");
    }
    println!("{word}: {} lists, {} calls, {} differences", seen.lists, seen.calls, seen.differences);
    exit((seen.differences > 0).into());
}

/// What the lists came to.
#[derive(Default)]
struct Seen {
    lists: u64,
    calls: u64,
    differences: u64,
    records: usize,
    refusals: BTreeMap<String, u64>,
    outboxes: Outboxes,
}

/// How often each call that may send was refused by 2, was accepted with an outbox that its records fill, and with none at all.
#[derive(Default)]
struct Outboxes {
    short: BTreeMap<&'static str, u64>,
    exact: BTreeMap<&'static str, u64>,
    none: BTreeMap<&'static str, u64>,
}

impl Outboxes {
    fn note(&mut self, program: Program, lines: &[(Vec<u8>, String)]) {
        let mut lent = OUTBOX;
        for (line, answer) in lines.iter().filter(|(_, answer)| answer != "?\n") {
            match read(program, bare(line)) {
                Some(Line::Outbox(bytes)) => lent = bytes,
                Some(Line::Call(call)) => self.note_call(call.sending_word(), lent, answer),
                None => (),
            }
        }
    }

    fn note_call(&mut self, word: Option<&'static str>, lent: usize, answer: &str) {
        let mut fields = answer.split('\t');
        let (Some(word), Some(refusal), Some(records)) = (word, fields.next(), fields.next()) else {
            return;
        };
        let count = match refusal {
            "2" => &mut self.short,
            "0" if lent == 0 => &mut self.none,
            "0" if lent == RECORD * records.parse::<usize>().unwrap() => &mut self.exact,
            _ => return,
        };
        *count.entry(word).or_default() += 1;
    }
}

impl Seen {
    fn note(&mut self, list: &List, lines: &[(Vec<u8>, String)]) {
        self.lists += 1;
        self.calls += list.front.calls;
        for (_, answer) in lines {
            let fields: Vec<&str> = answer.lines().next().unwrap().split('\t').collect();
            *self.refusals.entry(format!("refusal {:>2}", fields[0])).or_default() += 1;
            if let [_, records, _, joined, alone, group, dropped, ..] = fields[..] {
                self.records = self.records.max(records.parse().unwrap());
                for (name, field) in [("joined", joined), ("alone", alone), ("group", group), ("dropped", dropped)] {
                    *self.refusals.entry(name.into()).or_default() += field.parse::<u64>().unwrap();
                }
            }
        }
        // The Rust and the document's text part: a finding about the papers, not about our programs.
        for parting in list.front.judge.iter().flat_map(|judge| &judge.partings) {
            println!("the Rust and the documents part: {parting}");
            self.differences += 1;
        }
    }
}

fn same(path: &str, lines: &[(Vec<u8>, String)]) -> bool {
    let input: Vec<u8> = lines.iter().flat_map(|(line, _)| line.clone()).collect();
    let expected: String = lines.iter().map(|(_, answer)| answer.as_str()).collect();
    run(path, input) == expected.as_bytes()
}

fn run(path: &str, input: Vec<u8>) -> Vec<u8> {
    let mut child = Command::new(path).stdin(Stdio::piped()).stdout(Stdio::piped()).spawn().unwrap();
    let mut stdin = child.stdin.take().unwrap();
    let writer = std::thread::spawn(move || stdin.write_all(&input));
    let output = child.wait_with_output().unwrap();
    // A program that ends early leaves a broken pipe behind: its output tells.
    let _ = writer.join().unwrap();
    output.stdout
}

/// The shortest list found that still differs: as long as a line can go, it goes.
fn show(program: Program, path: &str, lines: Vec<(Vec<u8>, String)>) {
    let judged = |lines: &[Vec<u8>]| Front::new(program).run(&lines.concat());
    let differs = |lines: &[Vec<u8>]| run(path, lines.concat()) != judged(lines).into_bytes();
    let mut lines: Vec<Vec<u8>> = lines.into_iter().map(|(line, _)| line).collect();
    let mut at = lines.len();
    while at > 0 {
        at -= 1;
        let mut fewer = lines.clone();
        fewer.remove(at);
        if differs(&fewer) {
            lines = fewer;
        }
    }
    println!("--- input that differs\n{}", String::from_utf8_lossy(&lines.concat()));
    println!("--- the judge\n{}", judged(&lines));
    println!("--- {path}\n{}", String::from_utf8_lossy(&run(path, lines.concat())));
}
