//! Lists of calls out of pseudo-random bytes (hosts/fuzz), the same in every run: each call ends, keeps to what it is lent, and is
//! refused by none but its own numbers. hosts/fuzz/run feeds the same driver by libFuzzer.
mod c;

/// How many lists: some 350,000 calls, in a few seconds.
const LISTS: &str = "3000";

#[test]
fn any_calls_keep_their_promises() {
    let sources = ["calls", "input", "messages", "room", "random"].map(|name| format!("fuzz/{name}.c"));
    let printed = c::printed("random", &sources.each_ref().map(String::as_str), &[LISTS]);
    // A line for each call, those that tell what a call needs apart, and one for the ledger.
    assert_eq!(printed.lines().count(), 12 + 5 + 1, "{printed}");
    // All that can come of a call has come of it: it was accepted, also with an outbox of 0 bytes, and refused by each of its numbers; and
    // replies went every way.
    for count in printed.split_ascii_whitespace().filter_map(|word| word.split_once(':')) {
        assert_ne!(count.1, "0", "{printed}");
    }
}
