//! Our functions, through the static library of crates/message_c: a slice is a pointer and a length.
use judge::messages::{Kind, Parsed, Place};

#[repr(C)]
struct Answer {
    kind: u32,
    mx: u32,
    places: [usize; 6],
}

#[repr(C)]
struct Written {
    refusal: u32,
    len: usize,
}

#[link(name = "message_c", kind = "static")]
extern "C" {
    fn message_c_parse(s: *const u8, n: usize) -> Answer;
    fn message_c_search(b: *mut u8, n: usize, st: *const u8, k: usize) -> Written;
    fn message_c_response(b: *mut u8, n: usize, st: *const u8, k: usize, usn: *const u8, l: usize, at: *const u8, m: usize) -> Written;
    fn message_c_notify(b: *mut u8, n: usize, nt: *const u8, k: usize, usn: *const u8, l: usize, at: *const u8, m: usize) -> Written;
    fn message_c_byebye(b: *mut u8, n: usize, nt: *const u8, k: usize, usn: *const u8, l: usize) -> Written;
}

pub fn parse(s: &[u8]) -> Parsed {
    let answer = unsafe { message_c_parse(s.as_ptr(), s.len()) };
    let [a, an, b, bn, c, cn] = answer.places;
    let place = |start, len| Place { start, len };
    Parsed { kind: answer.kind, places: [place(a, an), place(b, bn), place(c, cn)], mx: answer.mx as u8 }
}

/// Refusal and length.
pub fn build<T: AsRef<[u8]>>(kind: Kind, buffer: &mut [u8], texts: &[T]) -> (u32, usize) {
    let (b, n) = (buffer.as_mut_ptr(), buffer.len());
    let part = |k: usize| (texts[k].as_ref().as_ptr(), texts[k].as_ref().len());
    let (t, k) = part(0);
    let written = unsafe {
        match kind {
            Kind::Search => message_c_search(b, n, t, k),
            Kind::Response => message_c_response(b, n, t, k, part(1).0, part(1).1, part(2).0, part(2).1),
            Kind::Notify => message_c_notify(b, n, t, k, part(1).0, part(1).1, part(2).0, part(2).1),
            Kind::ByeBye => message_c_byebye(b, n, t, k, part(1).0, part(1).1),
        }
    };
    (written.refusal, written.len)
}
