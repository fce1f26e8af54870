//! Lists written by hand: what the papers single out. Each is read line by line like a random one.
use crate::outboxes;
use judge::{LOCATION_SIZE, MAX_TIME, NAMES, NAME_SIZE, SUBSCRIPTIONS, TYPE_SIZE};

/// Document 01's example.
const EXAMPLE: &str = "new\t0\t0
link\t1\t4161\t0
addr\t1\t10.0.0.1
advertise\tu1\tt:2\thttp://h/d
data\t100\t10.0.0.9\t5000\t10.0.0.1\tM-SEARCH * HTTP/1.1|ST: t:1|MX: 1|
data\t101\t10.0.0.8\t5000\t10.0.0.1\tM-SEARCH * HTTP/1.1|ST: t:1|MX: 1|
timeout\t110
";

const UP: &str = "new\t0\t0\nlink\t1\t4161\t0\naddr\t1\t10.0.0.1\n";

pub(crate) fn search(now: u64, from: &str, to: &str, target: &str, mx: &str) -> String {
    format!("data\t{now}\t{from}\t{to}\tM-SEARCH * HTTP/1.1|ST: {target}|MX: {mx}|\n")
}

pub fn all() -> Vec<String> {
    let mut lists = vec![String::new(), "\n".into(), "refresh".into(), EXAMPLE.into(), largest(), sizes(), waits(), links(), salvos(), masks()];
    lists.push(at_once());
    lists.extend(windows());
    lists.extend(end_of_time());
    lists.extend(outboxes::all());
    lists
}

/// 120 records: a salvo of eight names and four searches and eight group replies, over six addresses, with one byte less than they take and
/// with all; then all eight alone.
fn largest() -> String {
    let mut lines = String::from("new\t0\t0\n");
    for link in 1..=3 {
        lines += &format!("link\t{link}\t4161\t0\naddr\t{link}\t10.0.{link}.1\naddr\t{link}\t10.0.{link}.2\n");
    }
    for k in 0..NAMES {
        lines += &format!("advertise\tu{k}\tt:{k}\t://{}\n", "/".repeat(LOCATION_SIZE - 3));
    }
    for k in 0..SUBSCRIPTIONS {
        lines += &format!("subscribe\tt:{k}\n");
    }
    for from in ["10.0.0.8\t1", "10.0.0.9\t1"] {
        lines += &search(0, from, "10.0.1.1", "ssdp:all", "1");
    }
    lines += "outbox\t62879\ntimeout\t10\noutbox\t62880\ntimeout\t10\ntimeout\t10\n";
    lines += &search(20, "10.0.0.8\t1", "255.255.255.255", "t:0", "255");
    lines += "advertise\tu8\tt\t/\nsubscribe\tt\nadvertise\tu7\tt\t/\ndeadvertise\tu6\nadvertise\tu8\tt\t/\ntimeout\t6030\nrefresh\n";
    lines
}

/// Texts at and above each size, empty ones, good and not.
fn sizes() -> String {
    let text = |n: usize| "x".repeat(n);
    let mut lines = String::from(UP);
    let (n, t, l) = (NAME_SIZE, TYPE_SIZE, LOCATION_SIZE);
    for (name, kind, location) in [(n, t, l), (n + 1, t, l), (n, t + 1, l), (n, t, l + 1), (0, 0, 0)] {
        lines += &format!("advertise\t{}\t{}\t{}\n", text(name), text(kind), text(location));
    }
    lines += &format!("advertise\t u\tt\t{}\nadvertise\tu \tt\t/\nadvertise\tu\t\u{3000}t\t/\nadvertise\tu\tt\t/\u{a0}\n", text(l + 1));
    lines += "advertise\tu\u{200b}\t\u{feff}t\t\u{180e}\nadvertise\ta\rb\tt\t/\n";
    lines += &format!("subscribe\t{}\nsubscribe\t{}\nsubscribe\t\nsubscribe\t\u{2028}\n", text(TYPE_SIZE), text(TYPE_SIZE + 1));
    lines += &format!("deadvertise\t{}\ndeadvertise\t\n", text(4000));
    for target in [text(TYPE_SIZE), text(TYPE_SIZE + 1), format!("{}:1", text(TYPE_SIZE - 2)), String::new()] {
        for mx in ["1", "0", "+0", "256", "255", ""] {
            lines += &search(5, "10.0.0.9\t1", "10.0.0.1", &target, mx);
        }
    }
    lines + "timeout\t20\n"
}

/// Same sender, other target and receiving address: one reply; another port: the group; replaced and withdrawn while waiting. By the seed a
/// reply waits 10 ms.
fn waits() -> String {
    let mut lines = UP.replace("new\t0", "new\t10") + "advertise\tu\tt:3\thttp://h:80/d\nadvertise\tv\tssdp:all\t/d\ntimeout\t0\n";
    lines += &search(0, "10.0.0.9\t1", "10.0.0.1", "t:1", "1");
    lines += &search(1, "10.0.0.9\t1", "10.0.0.2", "ssdp:all", "5");
    lines += "timeout\t9\ntimeout\t10\ntimeout\t11\n";
    lines += &search(20, "10.0.0.9\t1", "10.0.0.1", "t:2", "1");
    lines += &search(20, "10.0.0.9\t2", "10.0.0.1", "t:3", "1");
    lines += &search(20, "10.0.0.9\t1", "10.0.0.1", "t:4", "1");
    lines += "link\t1\t4096\t0\ntimeout\t30\n";
    lines += &search(40, "10.0.0.9\t1", "10.0.0.1", "t:+2", "1");
    lines += "deladdr\t1\t10.0.0.1\ntimeout\t50\n";
    lines += &search(60, "10.0.0.9\t1", "9.9.9.9", "t:002", "1");
    lines += "advertise\tu\tt:3\thttp://h:80/d\nadvertise\tu\tt:3\thttp://h:80/d\ntimeout\t70\n";
    lines += &search(80, "10.0.0.9\t1", "9.9.9.9", "ssdp:all", "1");
    lines + "deadvertise\tu\ndeadvertise\tu\ndeadvertise\tv\ntimeout\t90\nreset\t5\ntimeout\t4\n"
}

/// Document 02, change 2: with the seed 0 a reply is due at the very instant of its search, whatever the MX. Poll shows that instant; a timeout
/// before it leaves the reply, a search by another joins it, and a timeout at it sends it. So it is where clocks go backward, where the
/// reply is dropped, and at the last instant.
fn at_once() -> String {
    let mut lines = UP.to_string() + "advertise\tu\tt:3\thttp://h:80/d\ntimeout\t0\n";
    for (now, mx) in [(100, "1"), (200, "2"), (300, "5"), (400, "255")] {
        let [first, second] = ["10.0.0.9\t1", "10.0.0.8\t1"].map(|from| search(now, from, "10.0.0.1", "t:1", mx));
        lines += &format!("{first}timeout\t{}\ntimeout\t{now}\ntimeout\t{now}\n", now - 1);
        lines += &format!("{first}{second}timeout\t{}\ntimeout\t{now}\ntimeout\t{now}\n", now - 1);
    }
    lines += &search(500, "10.0.0.9\t1", "10.0.0.1", "t:1", "1");
    lines += &search(450, "10.0.0.8\t1", "10.0.0.1", "t:1", "1");
    lines += "timeout\t450\ntimeout\t500\ntimeout\t600\n";
    lines += &search(550, "10.0.0.9\t1", "10.0.0.1", "t:1", "1");
    lines += "timeout\t549\ntimeout\t550\n";
    lines += &search(700, "10.0.0.9\t1", "10.0.0.1", "t:1", "1");
    lines += "advertise\tu\tt:3\thttp://h:80/d\ntimeout\t700\n";
    lines += &search(MAX_TIME, "10.0.0.9\t1", "10.0.0.1", "t:1", "5");
    lines + &format!("timeout\t{MAX_TIME}\ntimeout\t{MAX_TIME}\n")
}

/// Seeds around each window, those of the ★ cases among them: a reply leaves at the seed's remainder, and not a millisecond before. Without an
/// address nothing else is sent.
fn windows() -> Vec<String> {
    let list = |seed: u32| {
        let mut lines = format!("new\t{seed}\t0\nadvertise\tu\tt\t/d\ntimeout\t0\n");
        for (k, mx) in [1u32, 2, 3, 4, 5, 6, 255].into_iter().enumerate() {
            let now = 10_000 * (1 + k as u64);
            let due = now + u64::from(seed % (1000 * mx).min(5000));
            lines += &search(now, "10.0.0.9\t1", "10.0.0.1", "t", &mx.to_string());
            lines += &format!("timeout\t{}\ntimeout\t{due}\n", due - 1);
        }
        lines
    };
    [999, 1000, 1999, 2000, 4999, 5000, u32::MAX].map(list).into()
}

/// News of links and addresses: refused, repeated, without MULTICAST, turning up with two addresses, deleted and back.
fn links() -> String {
    let mut lines = String::from("new\t0\t0\nadvertise\tu\tt\thttp://h/\nsubscribe\tt\nsubscribe\ts\n");
    for flags in [0u32, 65, 4096, 4097, 4160, 4161, 4_294_967_295] {
        lines += &format!("link\t0\t{flags}\t0\nlink\t7\t{flags}\t1\nlink\t1\t{flags}\t0\naddr\t1\t10.0.0.1\n");
    }
    lines += "addr\t1\t10.0.0.2\naddr\t1\t10.0.0.3\naddr\t1\t10.0.0.1\naddr\t9\t10.0.0.1\naddr\t0\t10.0.0.1\n";
    lines += "link\t1\t4096\t5\nlink\t1\t0\t0\nlink\t1\t4161\t5\nlink\t1\t65\t0\nrefresh\n";
    lines += "link\t4294967295\t4161\t0\naddr\t4294967295\t10.0.0.1\nlink\t2\t4161\t0\naddr\t2\t10.0.0.9\nlink\t3\t4161\t1\nlink\t3\t65\t1\nrefresh\n";
    lines += "deladdr\t1\t10.0.0.1\ndeladdr\t1\t10.0.0.7\ndeladdr\t0\t10.0.0.1\ndeladdr\t8\t10.0.0.1\naddr\t1\t10.0.0.1\nrefresh\n";
    lines += "subscribe\tssdp:all\nsubscribe\tt\nrefresh\nlink\t1\t4096\t0\nlink\t1\t4161\t0\n";
    lines + "dellink\t0\t7\ndellink\t5\t7\ndellink\t2\t7\nrefresh\nlink\t2\t4161\t0\nrefresh\nlink\t3\t4161\t0\nlink\t3\t4161\t9\n"
}

/// One step a call, however late; each byte of the seed in its phase; reset.
fn salvos() -> String {
    let mut lines = String::from("new\t16909060\t0\n");
    for now in [0, 0, 6039, 6040, 12_070, 18_090, 818_100, 10_000_000, 10_000_000, 10_000_000, 10_000_000, 10_000_000] {
        lines += &format!("timeout\t{now}\n");
    }
    lines + "reset\t77\nrefresh\ntimeout\t76\ntimeout\t77\nreset\t9223372036854775808\n"
}

/// Which subscriptions are told: theirs is the search, the notice's type the candidate.
fn masks() -> String {
    let mut lines = String::from("new\t0\t0\nsubscribe\tt:2\nsubscribe\tssdp:all\nsubscribe\tt:1\nsubscribe\tt:x\n");
    for kind in ["t:1", "t:2", "t:3", "t:x", "t", "ssdp:all", "t:0000000000000000000000000000000000000000000002", "t:18446744073709551616", "", "t:"] {
        lines += &format!("data\t0\t1.2.3.4\t1\t10.0.0.1\tNOTIFY * HTTP/1.1|NT: {kind}|NTS: ssdp:byebye|USN: u|\n");
        lines += &format!("data\t0\t1.2.3.4\t1\t10.0.0.1\tNOTIFY * HTTP/1.1|NT: {kind}|NTS: ssdp:alive|USN: u|LOCATION: /|\n");
        lines += &format!("data\t0\t1.2.3.4\t1\t10.0.0.1\tHTTP/1.1 200 OK|st:{kind}|usn:|location:|\n");
    }
    lines
}

/// At and above the last instant: what is due then is never served.
fn end_of_time() -> Vec<String> {
    let last = MAX_TIME;
    let mut lines = format!("new\t4294967295\t{last}\nadvertise\tu\tt\t/\ntimeout\t{last}\n");
    lines += &search(last, "10.0.0.9\t1", "10.0.0.1", "t", "5");
    lines += &format!("timeout\t{last}\ntimeout\t{}\ntimeout\t{}\nreset\t{last}\n", last + 1, u64::MAX);
    lines += &search(last + 1, "10.0.0.9\t1", "10.0.0.1", "t", "5");
    vec![lines, format!("new\t1\t{}\nnew\t1\t18446744073709551616\nnew\t1\t5\nnew\t1\t5\n", last + 1)]
}
