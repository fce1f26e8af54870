//! The judge against what the papers print: document 01's example and star cases, document 02's changes 1 and 2, and cases of readings.md.
use judge::text::{matches, rewrite};
use judge::{Front, Program};

const EXAMPLE: &str = "new\t0\t0
link\t1\t4161\t0
addr\t1\t10.0.0.1
advertise\tu1\tt:2\thttp://h/d
data\t100\t10.0.0.9\t5000\t10.0.0.1\tM-SEARCH * HTTP/1.1|ST: t:1|MX: 1|
data\t101\t10.0.0.8\t5000\t10.0.0.1\tM-SEARCH * HTTP/1.1|ST: t:1|MX: 1|
timeout\t110
";

const PRINTED: &str = "0\t0\t0\t0\t0\t0\t0\t0\t0
0\t0\t0\t0\t0\t0\t0\t0\t0
0\t0\t0\t0\t0\t0\t0\t0\t0
0\t1\t0\t0\t0\t0\t0\t0\t0
0\t0\t1\t0\t0\t0\t0\t1\t0
0\t0\t1\t1\t0\t0\t0\t1\t0
0\t2\t0\t0\t0\t1\t0\t0\t6000
";

fn run(program: Program, input: &str) -> Vec<String> {
    let mut front = Front::new(program);
    let output = front.run(input.as_bytes());
    assert_eq!(front.judge.map_or(vec![], |judge| judge.partings), Vec::<String>::new());
    output.lines().map(String::from).collect()
}

/// The refusal of the last line, or `?`.
fn last(input: &str) -> String {
    let output = run(Program::Session, input);
    output.last().unwrap().split('\t').next().unwrap().into()
}

const UP: &str = "new\t0\t0\nlink\t1\t4161\t0\naddr\t1\t10.0.0.1\n";

#[test]
fn the_example() {
    assert_eq!(run(Program::Session, EXAMPLE).join("\n") + "\n", PRINTED);
}

#[test]
fn star_cases() {
    let yes = |search: &str, candidate: &str| matches(search.as_bytes(), candidate.as_bytes());
    assert!(yes("t:1", "t:2") && yes("t:+1", "t:1"));
    assert!(!yes("t:2", "t:1") && !yes("ssdp:ALL", "t:1") && !yes("t:18446744073709551616", "t:5"));
    let host = |location: &str| String::from_utf8(rewrite(location.as_bytes(), [10, 0, 0, 1].into())).unwrap();
    assert_eq!(host("http://h:80/d"), "http://10.0.0.1:80/d");
    assert_eq!(host("http://h:80"), "http://10.0.0.1");
    assert_eq!(host("/d"), "/d");
    let salvos = run(Program::Session, "new\t16909060\t0\ntimeout\t0\ntimeout\t6040\ntimeout\t12070\ntimeout\t18090\n");
    let polls: Vec<&str> = salvos.iter().map(|line| line.rsplit('\t').next().unwrap()).collect();
    assert_eq!(polls, ["0", "6040", "12070", "18090", "818100"]);
    let due = |seed: u32| {
        let search = "data\t0\t10.0.0.9\t1\t10.0.0.1\tM-SEARCH * HTTP/1.1|ST: t|MX: 5|";
        let lines = run(Program::Session, &format!("new\t{seed}\t9999\nadvertise\tu\tt\t/d\n{search}\n"));
        lines[2].rsplit('\t').next().unwrap().to_string()
    };
    assert_eq!((due(4999), due(5000)), ("4999".into(), "0".into()));
}

/// Document 02, change 2: 'The delay becomes seed mod min(1000·MX, 5000), with no 10 added.' So a reply is due 'inside the searcher's window', and may be
/// due at the very instant of its search.
#[test]
fn replies_inside_the_window() {
    let search = |mx: u64| format!("data\t100\t10.0.0.9\t1\t10.0.0.1\tM-SEARCH * HTTP/1.1|ST: t|MX: {mx}|");
    let due = |seed: u32, mx: u64| {
        let lines = run(Program::Session, &format!("new\t{seed}\t99999\nadvertise\tu\tt\t/d\n{}\n", search(mx)));
        lines[2].rsplit('\t').next().unwrap().parse::<u64>().unwrap()
    };
    for (seed, mx, delay) in [(0, 1, 0), (999, 1, 999), (1000, 1, 0), (1999, 2, 1999), (4999, 4, 999), (4999, 5, 4999), (5000, 255, 0), (4999, 255, 4999)] {
        assert_eq!(due(seed, mx), 100 + delay, "seed {seed}, MX {mx}");
    }
    for (seed, mx) in [0, 1, 999, 1000, 5009, 0x0102_0304, u32::MAX].into_iter().flat_map(|seed| (1..=255).map(move |mx| (seed, mx))) {
        assert!((100..100 + (1000 * mx).min(5000)).contains(&due(seed, mx)), "seed {seed}, MX {mx}");
    }
    let lines = run(Program::Session, &format!("{UP}advertise\tu\tt\t/d\ntimeout\t0\n{}\ntimeout\t99\ntimeout\t100\n", search(1)));
    let told = ["0\t0\t1\t0\t0\t0\t0\t1\t100", "0\t0\t0\t0\t0\t0\t0\t1\t100", "0\t1\t0\t0\t1\t0\t0\t0\t6000"];
    assert_eq!(lines[5..], told);
}

#[test]
fn refusals_and_edges() {
    let text = |n: usize| "x".repeat(n);
    assert_eq!(last(&format!("{UP}advertise\t u\tt\t{}\n", text(121))), "3");
    assert_eq!(last(&format!("{UP}advertise\t{}\tt\t/\n", text(128))), "0");
    assert_eq!(last(&format!("{UP}advertise\t{}\tt\t/\n", text(129))), "3");
    assert_eq!(last(&format!("{UP}dellink\t0\t7\n")), "11");
    assert_eq!(last(&format!("{UP}deladdr\t0\t10.0.0.1\n")), "11");
    assert_eq!(last(&format!("{UP}link\t0\t0\t0\n")), "11");
    let three = format!("{UP}link\t2\t4161\t0\nlink\t3\t4161\t0\n");
    assert_eq!(last(&format!("{three}link\t5\t65\t9\n")), "0");
    assert_eq!(last(&format!("{three}link\t5\t4161\t1\n")), "13");
    assert_eq!(last(&format!("{three}link\t1\t4096\t5\n")), "0");
    assert_eq!(last(&format!("{UP}link\t2\t4161\t1\n")), "14");
    assert_eq!(last(&format!("{UP}addr\t1\t10.0.0.2\naddr\t1\t10.0.0.3\n")), "13");
    assert_eq!(last(&format!("{UP}deadvertise\t{}\n", text(3000))), "0");
    let data = |rest: &str| last(&format!("{UP}data\t5\t10.0.0.9\t1\t10.0.0.1\t{rest}\n"));
    assert_eq!(data(""), "7");
    assert_eq!(data("x"), "8");
    assert_eq!(data(&format!("M-SEARCH * HTTP/1.1|ST: {}|MX: 0|", text(81))), "9");
    assert_eq!(data(&format!("M-SEARCH * HTTP/1.1|ST: {}|MX: 1|", text(81))), "10");
    assert_eq!(data("M-SEARCH * HTTP/1.1|ST: t|MX: 255|"), "0");
    assert_eq!(data("M-SEARCH * HTTP/1.1|ST: t|MX: 256|"), "8");
    assert_eq!(data("M-SEARCH * HTTP/1.1|ST: t|MX: 1|MX: x|"), "8");
    assert_eq!(last("new\t0\t9223372036854775808\n"), "1");
    assert_eq!(last("new\t0\t18446744073709551616\n"), "?");
    assert_eq!(last("new\t0\t9223372036854775807\ntimeout\t9223372036854775808\n"), "1");
}

#[test]
fn unreadable_lines() {
    assert_eq!(run(Program::Session, ""), Vec::<String>::new());
    assert_eq!(run(Program::Session, "\n"), ["?"]);
    assert_eq!(last("refresh\n"), "?");
    assert_eq!(last(&format!("{UP}refresh\r\n")), "0");
    assert_eq!(last(&format!("{UP}refresh\t\n")), "?");
    assert_eq!(last(&format!("{UP}new\t0\t0\n")), "?");
    assert_eq!(last(&format!("{UP}addr\t1\t10.0.0.01\n")), "?");
    assert_eq!(last(&format!("{UP}data\t5\t10.0.0.9\t65536\t10.0.0.1\tx\n")), "?");
    let long = |n: usize| format!("{UP}deadvertise\t{}", "x".repeat(n - 12));
    assert_eq!(last(&long(4096)), "0");
    assert_eq!(last(&(long(4096) + "\r\n")), "0");
    assert_eq!(last(&(long(4096) + "\r")), "?");
    assert_eq!(last(&long(4097)), "?");
}

#[test]
fn trace_lines() {
    let lines = run(Program::Trace, &format!("{UP}outbox\t62879\nrefresh\noutbox\t62880\nhexaddr\t1\t0a0000\ndellink\t1\t7\n"));
    let last: Vec<&str> = lines.iter().rev().take(8).rev().map(|l| l.as_str()).collect();
    assert_eq!(last, ["ok", "0\t0\t0\t0\t0\t0\t0\t0\t0", "A 0 0 0", "ok", "12\t0\t0\t0\t0\t0\t0\t0\t0", "A 0 0 0", "0\t0\t0\t0\t0\t0\t0\t0\t0", "A 0 0 7"]);
    let told = run(Program::Trace, "new\t0\t0\nsubscribe\tt:2\nsubscribe\tssdp:all\nsubscribe\tt:1\ndata\t0\t1.2.3.4\t1\t10.0.0.1\tNOTIFY * HTTP/1.1|NT: t:1|NTS: ssdp:byebye|USN: u|\n");
    assert_eq!(told.last().unwrap(), "A 6 2 0");
}

/// The largest count of records: a salvo of 8 names and 4 searches, and 8 group replies, over 6 addresses.
fn largest() -> String {
    let mut lines = String::from("new\t0\t0\n");
    for link in 1..=3 {
        lines += &format!("link\t{link}\t4161\t0\naddr\t{link}\t10.0.{link}.1\naddr\t{link}\t10.0.{link}.2\n");
    }
    for k in 0..8 {
        lines += &format!("advertise\tu{k}\tt:{k}\thttp://h/d\n");
    }
    for k in 0..4 {
        lines += &format!("subscribe\tt:{k}\n");
    }
    for k in 8..10 {
        lines += &format!("data\t0\t10.0.0.{k}\t1\t10.0.1.1\tM-SEARCH * HTTP/1.1|ST: ssdp:all|MX: 1|\n");
    }
    lines
}

#[test]
fn largest_timeout() {
    let output = run(Program::Session, &(largest() + "timeout\t10\n"));
    assert_eq!(output.last().unwrap(), "0\t120\t0\t0\t0\t8\t0\t0\t6000");
    needs(&largest(), "timeout\t10", 120);
}

/// The answer to a call that is lent so many bytes, after some lines.
fn lent(before: &str, bytes: usize, call: &str) -> String {
    let output = run(Program::Trace, &format!("{before}outbox\t{bytes}\n{call}\n"));
    output.into_iter().rfind(|line| line.contains('\t')).unwrap()
}

fn refusal(before: &str, bytes: usize, call: &str) -> String {
    lent(before, bytes, call).split('\t').next().unwrap().into()
}

/// 'Refusal 2 is now for an outbox under 524 times the records that this very call would write': one byte less is refused, with the waiting
/// and poll of the engine before it; exactly so many bytes are accepted, and more.
fn needs(before: &str, call: &str, records: usize) {
    let need = 524 * records;
    if records > 0 {
        let untouched = run(Program::Session, before).pop().unwrap();
        let kept: Vec<&str> = untouched.split('\t').skip(7).collect();
        for bytes in [need - 1, 0] {
            assert_eq!(lent(before, bytes, call), format!("2\t0\t0\t0\t0\t0\t0\t{}", kept.join("\t")), "{call}, {bytes} bytes");
        }
    }
    for bytes in [need, need + 1, need + 523, 300_000] {
        let answer = lent(before, bytes, call);
        assert!(answer.starts_with(&format!("0\t{records}\t")), "{call}, {bytes} bytes: {answer}");
    }
}

/// Two names and three subscriptions; three addresses on links that are up, and two on one that is down; no salvo due before 6000.
const HELD: &str = "new\t0\t0\ntimeout\t0
link\t1\t4161\t0\naddr\t1\t10.0.0.1\naddr\t1\t10.0.0.2
link\t2\t4161\t0\naddr\t2\t10.0.0.3
link\t3\t4096\t0\naddr\t3\t10.0.0.4\naddr\t3\t10.0.0.5
advertise\tu\tt:1\thttp://h/d\nadvertise\tv\tt:2\thttp://h/d
subscribe\tt:1\nsubscribe\tt:2\nsubscribe\tt:3
";

/// '.. and is checked last in every call'.
#[test]
fn outbox_is_looked_at_last() {
    let text = |n: usize| "x".repeat(n);
    assert_eq!(refusal(HELD, 0, &format!("advertise\tu\tt\t{}", text(121))), "3");
    assert_eq!(refusal(HELD, 0, "advertise\t u\tt\t/"), "4");
    assert_eq!(refusal(&largest(), 0, "advertise\tu8\tt\t/"), "5");
    assert_eq!(refusal(&largest(), 0, "advertise\tu7\tt\t/"), "2");
    assert_eq!(refusal(HELD, 0, &format!("subscribe\t{}", text(81))), "3");
    assert_eq!(refusal(HELD, 0, "subscribe\tt "), "4");
    assert_eq!(refusal(&largest(), 0, "subscribe\tt"), "5");
    assert_eq!(refusal(HELD, 0, "subscribe\tt"), "2");
    assert_eq!(refusal(HELD, 0, "link\t0\t4161\t0"), "11");
    assert_eq!(refusal(HELD, 0, "link\t4\t4161\t1"), "13");
    assert_eq!(refusal(UP, 0, "link\t4\t4161\t1"), "14");
    assert_eq!(refusal(HELD, 0, "link\t3\t4161\t1"), "2");
    assert_eq!(refusal(HELD, 0, "addr\t0\t10.0.0.6"), "11");
    assert_eq!(refusal(HELD, 0, "hexaddr\t2\t0a000000ff"), "12");
    assert_eq!(refusal(HELD, 0, "addr\t1\t10.0.0.6"), "13");
    assert_eq!(refusal(HELD, 0, "addr\t2\t10.0.0.6"), "2");
    assert_eq!(refusal(HELD, 0, "timeout\t9223372036854775808"), "1");
    assert_eq!(refusal(HELD, 0, "timeout\t9223372036854775807"), "2");
}

/// 'for refresh, advertisements plus searches, times addresses on up links. Searches count 1 when a subscription is `ssdp:all`.'
#[test]
fn outbox_of_each_call() {
    let all = format!("{HELD}subscribe\tssdp:all\n");
    needs(HELD, "refresh", (2 + 3) * 3);
    needs(&all, "refresh", (2 + 1) * 3);
    needs(&format!("{all}deadvertise\tu\ndeadvertise\tv\n"), "refresh", 3);
    needs(HELD, "subscribe\tt:4", 3);
    needs(HELD, "subscribe\tssdp:all", 3);
    needs(HELD, "advertise\tw\tt\t/", 3);
    needs(HELD, "advertise\tu\tt\t/", 3);
    needs(HELD, "deadvertise\tu", 3);
    needs(HELD, "link\t3\t4161\t0", (3 + 2) * 2);
    needs(&all, "link\t3\t4161\t0", (1 + 2) * 2);
    needs(HELD, "addr\t2\t10.0.0.6", 3 + 2);
    needs(&all, "addr\t2\t10.0.0.6", 1 + 2);
}

/// Calls that send nothing: an outbox of 0 bytes will do.
#[test]
fn outbox_of_none() {
    needs(HELD, "deadvertise\tw", 0);
    needs(HELD, &format!("deadvertise\t{}", "x".repeat(3000)), 0);
    needs(HELD, "link\t1\t4161\t0", 0);
    needs(HELD, "link\t1\t4096\t0", 0);
    needs(HELD, "link\t3\t65\t0", 0);
    needs(HELD, "link\t3\t4097\t0", 0);
    needs(UP, "link\t2\t4161\t0", 0);
    needs(HELD, "addr\t2\t10.0.0.3", 0);
    needs(HELD, "addr\t9\t10.0.0.6", 0);
    needs(HELD, "hexaddr\t2\t20010db8000000000000000000000001", 0);
    needs(&format!("{HELD}deladdr\t3\t10.0.0.4\n"), "addr\t3\t10.0.0.6", 0);
    needs(HELD, "timeout\t5999", 0);
    let none = "new\t0\t0\nadvertise\tu\tt\t/\n";
    for call in ["refresh", "subscribe\tt", "advertise\tv\tt\t/", "deadvertise\tu", "timeout\t0"] {
        needs(none, call, 0);
        needs(&format!("{none}link\t1\t4096\t0\naddr\t1\t10.0.0.1\n"), call, 0);
    }
    needs(UP, "refresh", 0);
}

/// 'For handle_timeout that sum counts where the salvo is due, and the replies due are added, group ones once an address.'
#[test]
fn outbox_of_a_timeout() {
    let search = |host: u32, kind: &str| format!("data\t10\t10.0.1.{host}\t1\t10.0.0.1\tM-SEARCH * HTTP/1.1|ST: {kind}|MX: 1|\n");
    let lone = HELD.to_string() + &search(1, "ssdp:all");
    let mixed = lone.clone() + &search(2, "t:2");
    let group = lone.clone() + &search(2, "ssdp:all");
    needs(&lone, "timeout\t9", 0);
    for (waits, replies) in [(&lone, 1 + 1), (&mixed, 1 + 3), (&group, 3 + 3)] {
        needs(waits, "timeout\t10", replies);
        needs(waits, "timeout\t5999", replies);
        needs(waits, "timeout\t6000", (2 + 3) * 3 + replies);
        needs(&format!("{waits}subscribe\tssdp:all\n"), "timeout\t6000", (2 + 1) * 3 + replies);
    }
    needs(HELD, "timeout\t6000", (2 + 3) * 3);
    let down = "link\t1\t4096\t0\nlink\t2\t4096\t0\n";
    for (waits, replies) in [(lone, 2), (mixed, 1), (group, 0)] {
        needs(&(waits + down), "timeout\t6000", replies);
    }
}

/// A call that refusal 2 turns away leaves all as it was: with room the same call then does what it would have done.
#[test]
fn short_outbox_changes_nothing() {
    let search = "data\t10\t10.0.1.1\t1\t10.0.0.1\tM-SEARCH * HTTP/1.1|ST: ssdp:all|MX: 1|\n";
    let calls = ["link\t3\t4161\t0", "addr\t2\t10.0.0.6", "subscribe\tt:4", "advertise\tu\tt:9\t/", "deadvertise\tu", "refresh", "timeout\t6000"];
    for call in calls {
        let rest = format!("outbox\t62880\n{call}\nrefresh\ntimeout\t6000\n");
        let short = run(Program::Trace, &format!("{HELD}{search}outbox\t0\n{call}\n{rest}"));
        let plain = run(Program::Trace, &format!("{HELD}{search}outbox\t0\n{rest}"));
        let at = run(Program::Trace, &format!("{HELD}{search}outbox\t0\n")).len();
        assert_eq!(short[at], "2\t0\t0\t0\t0\t0\t0\t2\t10");
        assert_eq!([&short[..at], &short[at + 2..]].concat(), plain);
    }
}
