//! `record FOLDER`: writes FOLDER/stdin, cases of crates `text`, `message` and `engine` with the answers that are expected, and
//! FOLDER/stdout, what a program that replays them has to print (crates/vectors).
//!
//! One case a line. Its first field is the crate's letter; what stands behind it text.rs, message.rs and engine.rs say. Those of
//! `wrong` come last: what is written there as expected is wrong, so that a replay that sees no difference does not pass for a good one.
mod engine;
mod message;
mod text;

fn main() {
    let folder = std::env::args().nth(1).expect("record FOLDER");
    let right = of_crates([text::lines(), message::lines(), engine::lines()]);
    let wrong = of_crates([text::wrong(), message::wrong(), engine::wrong()]);
    let stdout = format!("{} cases, {} differences\n", right.len() + wrong.len(), wrong.len());
    std::fs::write(format!("{folder}/stdin"), [right, wrong].concat().concat()).unwrap();
    std::fs::write(format!("{folder}/stdout"), stdout).unwrap();
}

fn of_crates(lines: [Vec<String>; 3]) -> Vec<String> {
    let by_letter = ['t', 'm', 'e'].into_iter().zip(lines);
    by_letter.flat_map(|(letter, lines)| lines.into_iter().map(move |line| format!("{letter} {line}"))).collect()
}
