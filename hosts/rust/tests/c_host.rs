//! Programs in C, linked with the library: document 01's example prints its answers, and every call takes less than 4 KB of stack.
mod c;

#[test]
fn the_example_in_c() {
    let printed = c::printed("example", &["c/example.c"], &[]);
    let answers: Vec<&str> = printed.lines().take(7).collect();
    let expected = [
        "0 0 0 0 0 0 0 0 0",
        "0 0 0 0 0 0 0 0 0",
        "0 0 0 0 0 0 0 0 0",
        "0 1 0 0 0 0 0 0 0",
        "0 0 1 0 0 0 0 1 0",
        "0 0 1 1 0 0 0 1 0",
        "0 2 0 0 0 1 0 0 6000",
    ];
    assert_eq!(answers, expected.map(|line| line.replace(' ', "\t")));
    assert_eq!(printed.matches("10.0.0.1 to 239.255.255.250 port 1900, 185 bytes:\nNOTIFY * HTTP/1.1\r\n").count(), 2);
}

/// With full tables, on a stack of its own.
#[test]
fn every_call_takes_little_stack() {
    let printed = c::printed("stack", &["c/stack.c"], &[]);
    let calls: Vec<(&str, usize)> =
        printed.lines().filter_map(|line| line.split_once('\t')).map(|(call, bytes)| (call, bytes.parse().unwrap())).collect();
    assert_eq!(calls.len(), 14 + 6);
    for (call, bytes) in calls {
        assert!((1..4096).contains(&bytes), "{call} takes {bytes} bytes of stack");
    }
}
