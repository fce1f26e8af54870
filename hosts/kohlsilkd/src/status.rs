//! The state of a running kohlsilkd: as lines for people, and as one JSON object for programs.
use crate::host::Host;
use crate::json::Json;
use crate::network::Named;
use crate::output;
use crate::print::{Counts, Text};
use crate::traffic::Traffic;
use kohlsilk::{Name, Refusal, Reply};
use std::fmt;
use std::net::Ipv4Addr;

/// Links that are left out are told of up to this many: a machine may have thousands, and the status is to stay short.
const LEFT_OUT: usize = 16;

#[derive(Clone, Copy, Debug, PartialEq, Eq)]
pub enum Form {
    Text,
    Json,
}

/// A link that is served.
pub struct LinkStatus {
    pub name: String,
    pub index: u32,
    pub up: bool,
    pub addresses: Vec<Ipv4Addr>,
    pub traffic: Traffic,
}

/// A link that is not served, and why.
pub struct LeftOutStatus {
    pub name: String,
    pub index: u32,
    pub why: String,
}

pub struct Status<'a> {
    /// Milliseconds since the start.
    pub now: u64,
    pub links: Vec<LinkStatus>,
    pub other_links: Traffic,
    /// Some of the links that are left out, and how many more there are.
    pub left_out: Vec<LeftOutStatus>,
    pub left_out_more: usize,
    pub names: Vec<Name<'a>>,
    pub refusals: Vec<(Refusal, u64)>,
    pub lines_not_printed: u64,
    pub counts: Counts,
}

impl Host {
    pub fn status(&self) -> Status<'_> {
        let left_out = self.around.left_out();
        let told = left_out.iter().take(LEFT_OUT);
        Status {
            now: self.now(),
            links: self.sockets.keys().map(|index| self.link_status(*index)).collect(),
            other_links: self.other_traffic,
            left_out: told.map(|(index, name, why)| LeftOutStatus { name: (*name).into(), index: *index, why: why.to_string() }).collect(),
            left_out_more: left_out.len().saturating_sub(LEFT_OUT),
            names: self.engine.names().collect(),
            refusals: self.refusals.all(),
            lines_not_printed: output::lost(),
            counts: self.counts,
        }
    }

    /// A link that is held.
    fn link_status(&self, index: u32) -> LinkStatus {
        LinkStatus {
            name: self.around.link_name(index).into(),
            index,
            up: self.links.is_up(index),
            addresses: self.links.addresses(index).into(),
            traffic: Traffic { dropped: self.sockets[&index].dropped(), ..self.traffic[&index] },
        }
    }
}

impl Status<'_> {
    pub fn in_form(&self, form: Form) -> String {
        match form {
            Form::Text => format!("{self}"),
            Form::Json => format!("{}\n", self.json()),
        }
    }

    /// The counts, as they are printed at the end too: what was counted of each link, and the ledger.
    pub fn count_lines(&self) -> Vec<String> {
        let mut lines: Vec<String> =
            self.links.iter().map(|link| format!("link {}: {}", Named(&link.name, link.index), link.traffic)).collect();
        if self.other_links != Traffic::default() {
            lines.push(format!("other links: {}", self.other_links));
        }
        if self.lines_not_printed > 0 {
            lines.push(format!("lines not printed {}", self.lines_not_printed));
        }
        lines.push(self.counts.to_string());
        lines
    }

    fn json(&self) -> Json {
        Json::Object(vec![
            ("version", Json::text(env!("CARGO_PKG_VERSION"))),
            ("seconds", Json::Number(self.now / 1000)),
            ("links", Json::list(self.links.iter().map(link_json))),
            ("other_links", Json::Object(traffic_json(&self.other_links))),
            ("left_out", Json::list(self.left_out.iter().map(left_out_json))),
            ("left_out_more", Json::Number(self.left_out_more as u64)),
            ("names", Json::list(self.names.iter().map(|name| name_json(name, self.now)))),
            ("refusals", Json::list(self.refusals.iter().map(refusal_json))),
            ("lines_not_printed", Json::Number(self.lines_not_printed)),
            ("ledger", Json::Object(self.counts.named().map(|(name, count)| (name, Json::Number(count as u64))).into())),
        ])
    }
}

impl fmt::Display for Status<'_> {
    fn fmt(&self, f: &mut fmt::Formatter<'_>) -> fmt::Result {
        writeln!(f, "kohlsilkd {}, for {} seconds", env!("CARGO_PKG_VERSION"), self.now / 1000)?;
        for link in &self.links {
            let addresses: Vec<String> = link.addresses.iter().map(Ipv4Addr::to_string).collect();
            writeln!(f, "link {} {}, addresses {}", Named(&link.name, link.index), up_or_down(link.up), addresses.join(", "))?;
        }
        for link in &self.left_out {
            writeln!(f, "link {} left out: {}", Named(&link.name, link.index), link.why)?;
        }
        if self.left_out_more > 0 {
            writeln!(f, "{} more links left out", self.left_out_more)?;
        }
        for name in &self.names {
            let [usn, kind, location] = [name.name, name.service_type, name.location].map(|text| Text(text.as_bytes()));
            writeln!(f, "name {usn}, type {kind}, location {location}, {}", reply_words(&name.reply))?;
        }
        for (refusal, times) in &self.refusals {
            writeln!(f, "{refusal}: {times} times")?;
        }
        self.count_lines().iter().try_for_each(|line| writeln!(f, "{line}"))
    }
}

pub fn up_or_down(up: bool) -> &'static str {
    match up {
        true => "up",
        false => "down",
    }
}

fn reply_words(reply: &Option<Reply>) -> String {
    match reply {
        None => "no reply waits".into(),
        Some(Reply::Group { .. }) => "a reply to the group waits".into(),
        Some(Reply::Searcher { searcher, .. }) => format!("a reply to {searcher} waits"),
    }
}

fn traffic_json(traffic: &Traffic) -> Vec<(&'static str, Json)> {
    vec![
        ("heard", Json::Number(traffic.heard)),
        ("dropped_unheard", Json::Number(traffic.dropped)),
        ("off_the_link", Json::Number(traffic.off_link)),
        ("records_sent", Json::Number(traffic.sent)),
        ("records_not_sent", Json::Number(traffic.not_sent)),
    ]
}

fn link_json(link: &LinkStatus) -> Json {
    let mut members = vec![
        ("name", Json::text(&link.name)),
        ("index", Json::Number(link.index.into())),
        ("up", Json::Bool(link.up)),
        ("addresses", Json::list(link.addresses.iter().map(Json::text))),
    ];
    members.extend(traffic_json(&link.traffic));
    Json::Object(members)
}

fn left_out_json(link: &LeftOutStatus) -> Json {
    Json::Object(vec![("name", Json::text(&link.name)), ("index", Json::Number(link.index.into())), ("why", Json::text(&link.why))])
}

/// A name; a reply that waits has whom it goes to, and in how many milliseconds.
fn name_json(name: &Name, now: u64) -> Json {
    let waits = |to: Json, due: u64| Json::Object(vec![("to", to), ("in_ms", Json::Number(due.saturating_sub(now)))]);
    let reply = match name.reply {
        None => Json::Null,
        Some(Reply::Group { due }) => waits(Json::text("group"), due),
        Some(Reply::Searcher { due, searcher }) => waits(Json::text(searcher), due),
    };
    Json::Object(vec![
        ("name", Json::text(name.name)),
        ("type", Json::text(name.service_type)),
        ("location", Json::text(name.location)),
        ("reply", reply),
    ])
}

fn refusal_json((refusal, times): &(Refusal, u64)) -> Json {
    Json::Object(vec![
        ("number", Json::Number(refusal.number().into())),
        ("meaning", Json::text(refusal.meaning())),
        ("times", Json::Number(*times)),
    ])
}

#[cfg(test)]
mod tests {
    use super::*;

    fn status() -> Status<'static> {
        let traffic = Traffic { heard: 9, dropped: 1, off_link: 2, sent: 5, not_sent: 3 };
        let reply = Some(Reply::Searcher { due: 2700, searcher: "10.0.0.9:5000".parse().unwrap() });
        Status {
            now: 2500,
            links: vec![LinkStatus { name: "eth0".into(), index: 2, up: true, addresses: vec![[10, 0, 0, 1].into()], traffic }],
            other_links: Traffic::default(),
            left_out: vec![LeftOutStatus { name: "eth1".into(), index: 3, why: "it has no IPv4 address".into() }],
            left_out_more: 4,
            names: vec![Name { name: "u\"\u{1b}", service_type: "t", location: "http://h/", reply }],
            refusals: vec![(Refusal::WAIT_ZERO, 7)],
            lines_not_printed: 0,
            counts: Counts { matched: 6, joined: 1, alone: 2, group: 1, dropped: 1, waiting: 1 },
        }
    }

    #[test]
    fn as_lines() {
        let lines = status().in_form(Form::Text);
        let expected = [
            concat!("kohlsilkd ", env!("CARGO_PKG_VERSION"), ", for 2 seconds"),
            "link eth0 (2) up, addresses 10.0.0.1",
            "link eth1 (3) left out: it has no IPv4 address",
            "4 more links left out",
            "name u\"\\u{1b}, type t, location http://h/, a reply to 10.0.0.9:5000 waits",
            "refused 9: the search gives no time to answer (MX 0): 7 times",
            "link eth0 (2): heard 9, dropped unheard 1, off the link 2, records sent 5, records not sent 3",
            "matched 6, joined 1, alone 2, group 1, dropped 1, waiting 1",
        ];
        assert_eq!(lines.lines().collect::<Vec<_>>(), expected);
    }

    #[test]
    fn as_json() {
        let text = status().in_form(Form::Json);
        assert_eq!(text.lines().count(), 1);
        for part in [
            "\"links\":[{\"name\":\"eth0\",\"index\":2,\"up\":true,\"addresses\":[\"10.0.0.1\"],\"heard\":9,\"dropped_unheard\":1,",
            "\"names\":[{\"name\":\"u\\\"\\u001b\",\"type\":\"t\",\"location\":\"http://h/\",\"reply\":{\"to\":\"10.0.0.9:5000\",\"in_ms\":200}}]",
            "\"refusals\":[{\"number\":9,\"meaning\":\"the search gives no time to answer (MX 0)\",\"times\":7}]",
            "\"ledger\":{\"matched\":6,\"joined\":1,\"alone\":2,\"group\":1,\"dropped\":1,\"waiting\":1}",
        ] {
            assert!(text.contains(part), "{part} in {text}");
        }
    }
}
