//! Cases of the text rules with the answers of Rust's own library. The inputs are those of cases/src/texts.rs; every answer is
//! computed here by the function of Rust's that the letter stands for.
//!
//! One line a case: a letter, then in hexadecimal the input's length (4 digits), an answer A (16), an answer B (4), then
//! the input, two digits a byte; one blank between.
//!
//! | letter | Rust | A | B |
//! |---|---|---|---|
//! | u | `str::from_utf8` | 1 if it accepts | |
//! | l | `str::lines`, `split_inclusive` | length of the first line | bytes up to the second |
//! | t | `str::trim` | where it starts | its length |
//! | 1 2 4 8 | `parse::<u8>` .. `parse::<u64>` | the number | 1 if there is one |
//! | g | `from_utf8`, `contains`, `trim` | 1 if UTF-8, no CR, no LF, unchanged by `trim` | |
//! | o | `Ord::cmp` of two slices, one behind the other | 0 less, 1 equal, 2 greater | length of the first |
//! | e | the first in `to_ascii_uppercase` is the second | 1 if so | length of the first |
//! | f r | `position`, `rposition` of the last byte in the others | the place, or how many there are | how many |
//! | x | `find` of the second text in the first | the place, or the first's length | length of the first |
use cases::dice::Dice;
use cases::texts;
use std::cmp::Ordering;

pub fn lines() -> Vec<String> {
    all().iter().map(line).collect()
}

/// That `A` is no UTF-8, and that it comes behind `B`.
pub fn wrong() -> Vec<String> {
    [('u', 0, 0, "A"), ('o', 2, 1, "AB")].map(|(letter, a, b, input)| line(&Case { letter, a, b, input: input.into() })).into()
}

struct Case {
    letter: char,
    a: u64,
    b: usize,
    input: Vec<u8>,
}

fn line(case: &Case) -> String {
    let hex: String = case.input.iter().map(|b| format!("{b:02x}")).collect();
    format!("{} {:04x} {:016x} {:04x} {hex}\n", case.letter, case.input.len(), case.a, case.b)
}

fn all() -> Vec<Case> {
    let mut dice = Dice::new(2024, 6);
    let mut cases = vec![];
    let mut push = |letter, input: &[u8], a: u64, b: usize| cases.push(Case { letter, a, b, input: input.to_vec() });
    for text in texts::for_utf8(&mut dice) {
        push('u', &text, std::str::from_utf8(&text).is_ok().into(), 0);
        if text.len() == 2 {
            push('g', &text, good(&text).into(), 0);
        }
    }
    for text in texts::for_lines() {
        if let Some(first) = text.lines().next() {
            push('l', text.as_bytes(), first.len() as u64, text.split_inclusive('\n').next().unwrap().len());
        }
    }
    for text in texts::for_trim(&mut dice) {
        let trimmed = text.trim();
        push('t', text.as_bytes(), trimmed.as_ptr() as u64 - text.as_ptr() as u64, trimmed.len());
        push('g', text.as_bytes(), good(text.as_bytes()).into(), 0);
    }
    for text in texts::for_numbers(&mut dice) {
        let widths = [
            ('1', text.parse::<u8>().ok().map(u64::from)),
            ('2', text.parse::<u16>().ok().map(u64::from)),
            ('4', text.parse::<u32>().ok().map(u64::from)),
            ('8', text.parse::<u64>().ok()),
        ];
        for (letter, number) in widths {
            push(letter, text.as_bytes(), number.unwrap_or(0), number.is_some().into());
        }
    }
    for (first, second) in texts::pairs(&mut dice) {
        let both = [first.as_slice(), &second].concat();
        let order = match first.cmp(&second) {
            Ordering::Less => 0,
            Ordering::Equal => 1,
            Ordering::Greater => 2,
        };
        push('o', &both, order, first.len());
        push('e', &both, (first.to_ascii_uppercase() == second).into(), first.len());
    }
    for (text, part) in texts::hay(&mut dice) {
        let both = [text.as_slice(), &part].concat();
        let place = |found: Option<usize>| found.unwrap_or(text.len()) as u64;
        if let [byte] = part[..] {
            push('f', &both, place(text.iter().position(|b| *b == byte)), text.len());
            push('r', &both, place(text.iter().rposition(|b| *b == byte)), text.len());
        } else {
            let utf8 = |bytes| std::str::from_utf8(bytes).unwrap();
            push('x', &both, place(utf8(&text).find(utf8(&part))), text.len());
        }
    }
    cases
}

fn good(text: &[u8]) -> bool {
    std::str::from_utf8(text).is_ok_and(|t| !t.contains(['\r', '\n']) && t.trim() == t)
}
