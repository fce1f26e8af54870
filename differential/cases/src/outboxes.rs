//! Lists written by hand for document 02's change 1: every call that sends, with an outbox of one byte less than its records take, of exactly
//! as many, and of some more. The records are counted by hand. `session`, which knows no `outbox` line, prints `?` for those and lends all.
use crate::directed::search;
use judge::{LOCATION_SIZE, MAX_TIME, NAMES, OUTBOX, RECORD, TYPE_SIZE};

/// Two names and three subscriptions, none of them `ssdp:all`; three addresses on links that are up, and two on one that is down.
const HELD: &str = "new\t0\t0
link\t1\t4161\t0
addr\t1\t10.0.0.1
addr\t1\t10.0.0.2
link\t2\t4161\t0
addr\t2\t10.0.0.3
link\t3\t4096\t0
addr\t3\t10.0.0.4
addr\t3\t10.0.0.5
advertise\tu\tt:1\thttp://h/d
advertise\tv\tt:2\thttp://h:80/d
subscribe\tt:1
subscribe\tt:2
subscribe\ts
";

pub fn all() -> Vec<String> {
    vec![news(), services(), refreshes(), salvos(), replies(), no_address()]
}

/// A call that writes this many records. With one byte less and with none it is refused, and a refresh shows that all is as before; it is
/// accepted with exactly enough and, once `undo` has taken it back, with some bytes more.
fn at_each_length(records: usize, call: &str, undo: &str) -> String {
    let need = RECORD * records;
    let short = format!("outbox\t{}\n{call}\noutbox\t0\n{call}\n", need.saturating_sub(1)) + &with_room("refresh\n");
    let enough = format!("outbox\t{need}\n{call}\n") + &with_room(undo);
    let more = format!("outbox\t{}\n{call}\n", need + 7) + &with_room(undo);
    if records == 0 {
        enough + &more
    } else {
        short + &enough + &more
    }
}

/// Lines with room for any call, from here on.
fn with_room(lines: &str) -> String {
    format!("outbox\t{OUTBOX}\n{lines}")
}

/// News of links and addresses. Two addresses hear five messages each when their link turns up, and three once a subscription is `ssdp:all`.
fn news() -> String {
    let mut lines = String::from(HELD);
    lines += &at_each_length(10, "link\t3\t4161\t0", "link\t3\t4096\t0\n");
    for nothing in ["link\t3\t4097\t0", "link\t1\t4161\t5", "link\t3\t65\t0"] {
        lines += &at_each_length(0, nothing, "");
    }
    lines += &at_each_length(5, "addr\t2\t10.0.0.6", "deladdr\t2\t10.0.0.6\n");
    for nothing in ["addr\t2\t10.0.0.3", "addr\t9\t10.0.0.6", "hexaddr\t2\t20010db8000000000000000000000001"] {
        lines += &at_each_length(0, nothing, "");
    }
    lines += "deladdr\t3\t10.0.0.5\n";
    lines += &at_each_length(0, "addr\t3\t10.0.0.5", "deladdr\t3\t10.0.0.5\n");
    lines += "outbox\t0\nlink\t0\t4161\t0\nlink\t4\t4161\t1\naddr\t0\t10.0.0.6\nhexaddr\t2\t0a0000\naddr\t1\t10.0.0.6\ndellink\t3\t0\n";
    lines += "link\t4\t4161\t1\nlink\t4\t4161\t0\n";
    lines += &with_room("subscribe\tssdp:all\n");
    lines += &at_each_length(3, "addr\t4\t10.0.0.4", "deladdr\t4\t10.0.0.4\n");
    lines += "addr\t4\t10.0.0.4\naddr\t4\t10.0.0.5\nlink\t4\t4096\t0\n";
    lines + &at_each_length(6, "link\t4\t4161\t0", "link\t4\t4096\t0\n")
}

/// What services ask for goes once to each of three addresses: a name new, replaced with a reply waiting, and withdrawn; a subscription, also beside
/// `ssdp:all`. With no outbox at all, what is refused for its texts or a full table still is.
fn services() -> String {
    let mut lines = String::from("new\t0\t0\nlink\t1\t4161\t0\naddr\t1\t10.0.0.1\naddr\t1\t10.0.0.2\nlink\t2\t4161\t0\naddr\t2\t10.0.0.3\n");
    let wait = search(0, "10.0.0.9\t1", "10.0.0.1", "t:1", "1");
    lines += &at_each_length(3, "advertise\tu\tt:1\thttp://h/d", "deadvertise\tu\n");
    lines += &format!("advertise\tu\tt:1\thttp://h/d\n{wait}");
    lines += &at_each_length(3, "advertise\tu\tt:1\t/d", &wait);
    lines += &at_each_length(3, "deadvertise\tu", &format!("advertise\tu\tt:1\thttp://h/d\n{wait}"));
    lines += &at_each_length(0, "deadvertise\tx", "");
    lines += &at_each_length(3, "subscribe\tt:1", "");
    lines += &at_each_length(3, "subscribe\tssdp:all", "");
    for k in 1..NAMES {
        lines += &format!("advertise\tu{k}\tt\t/\n");
    }
    lines += &format!("outbox\t0\nadvertise\t u\tt\t{}\nadvertise\tu \tt\t/\nadvertise\tu9\tt\t/\n", "x".repeat(LOCATION_SIZE + 1));
    lines + &format!("subscribe\t {}\nsubscribe\t t\nsubscribe\tt\ndeadvertise\tx\n", "x".repeat(TYPE_SIZE))
}

/// Names and searches, once to each address on an up link: fewer searches by `ssdp:all`, fewer addresses, no names.
fn refreshes() -> String {
    let mut lines = HELD.to_string() + &at_each_length(15, "refresh", "") + "subscribe\tssdp:all\n";
    for (change, records) in [("", 9), ("link\t1\t4096\t0\n", 3), ("deadvertise\tu\ndeadvertise\tv\n", 1), ("link\t2\t4096\t0\n", 0)] {
        lines += change;
        lines += &at_each_length(records, "refresh", "");
    }
    lines
}

/// A timeout with the salvo due, whose timer must not step where it is refused; with nothing due; at a time that is refused first.
fn salvos() -> String {
    let mut lines = HELD.to_string() + &at_each_length(15, "timeout\t5", "reset\t0\n");
    lines += "subscribe\tssdp:all\n";
    lines += &at_each_length(9, "timeout\t0", "reset\t0\n");
    lines += "timeout\t0\n";
    lines += &at_each_length(0, "timeout\t5999", "");
    lines + &format!("outbox\t0\ntimeout\t{}\ntimeout\t6000\n", MAX_TIME + 1)
}

/// Replies that are due: a lone one is one record, one to the group a record for each of three addresses, by themselves and with the salvo. The seed is 0:
/// they are due at the very instant of their searches, and not a millisecond before.
fn replies() -> String {
    let lone = search(10, "10.0.0.9\t1", "10.0.0.1", "ssdp:all", "1");
    let one_of_each = lone.clone() + &search(10, "10.0.0.8\t1", "10.0.0.1", "t:2", "1");
    let group = lone.clone() + &search(10, "10.0.0.8\t1", "10.0.0.2", "ssdp:all", "1");
    let mut lines = format!("{HELD}timeout\t0\n");
    for (waits, records) in [(&lone, 2), (&one_of_each, 4), (&group, 6)] {
        lines += waits;
        lines += &at_each_length(0, "timeout\t9", "");
        lines += &at_each_length(records, "timeout\t10", waits);
        lines += "timeout\t10\nreset\t10\n";
        lines += waits;
        lines += &at_each_length(15 + records, "timeout\t10", &format!("reset\t10\n{waits}"));
        lines += "timeout\t10\n";
    }
    lines += "link\t1\t4096\t0\nlink\t2\t4096\t0\n";
    for (waits, records) in [(&lone, 2), (&one_of_each, 1), (&group, 0)] {
        lines += &format!("{waits}reset\t10\n");
        lines += &at_each_length(records, "timeout\t10", &format!("{waits}reset\t10\n"));
        lines += "timeout\t10\n";
    }
    lines
}

/// On no address nothing is sent, and every call is accepted with no outbox.
fn no_address() -> String {
    let services = "advertise\tu\tt\t/\nadvertise\tv\tt\t/\nsubscribe\tt\nsubscribe\tssdp:all\nrefresh\ntimeout\t0\ndeadvertise\tu\n";
    let link = "link\t1\t4161\t0\nrefresh\ntimeout\t6000\nsubscribe\tt\nadvertise\tv\tt\t/\nlink\t1\t4096\t0\naddr\t1\t10.0.0.1\n";
    format!("new\t0\t0\noutbox\t0\n{services}{link}deadvertise\tv\nrefresh\n")
}
