//! The engine's links kept to those of the machine: the links that are chosen are joined and handed in, with their addresses; the others
//! are left and taken out.
use crate::choose::{choose, LeftOut};
use crate::host::{error_number, Host};
use crate::netlink::News;
use crate::network::{Link, Named, Network};
use crate::print::{note, remark, report};
use crate::sockets::Sockets;
use crate::status::up_or_down;
use crate::traffic::Traffic;
use kohlsilk::ADDRESSES;
use std::collections::{BTreeMap, BTreeSet};
use std::io;
use std::net::Ipv4Addr;
use std::rc::Rc;

/// What the machine has, what the user has chosen of it, and what was said of the rest.
#[derive(Default)]
pub struct Surroundings {
    pub network: Network,
    /// The links that the user has chosen by name; all, if empty.
    pub names: Vec<String>,
    /// A survey is under way: until its end nothing is chosen.
    surveying: bool,
    /// News was lost since the latest survey began.
    news_lost: bool,
    /// Links that could not be joined, and why. They are tried again when there is news of them.
    failed: BTreeMap<u32, String>,
    said_left_out: BTreeMap<u32, LeftOut>,
    said_absent: BTreeSet<String>,
    /// Links of which it was said that they have more addresses than are served.
    said_addresses: BTreeSet<u32>,
}

impl Surroundings {
    pub fn new(names: &[String]) -> Surroundings {
        Surroundings { names: names.to_vec(), ..Surroundings::default() }
    }

    pub fn link_name(&self, index: u32) -> &str {
        self.network.links.get(&index).map_or("link", |link| &link.name)
    }

    /// A link's name and its index, as they are printed.
    pub fn name(&self, index: u32) -> String {
        Named(self.link_name(index), index).to_string()
    }

    /// A whole survey has ended: nothing is kept of what it did not find.
    fn forget_unseen(&mut self) {
        self.network.forget_unseen();
        self.failed.retain(|index, _| self.network.links.contains_key(index));
    }

    /// The links that are left out, with their names and the reason. The loopback link goes without saying.
    pub fn left_out(&self) -> Vec<(u32, &str, &LeftOut)> {
        let told = self.said_left_out.iter().filter_map(|(index, why)| {
            let link = self.network.links.get(index).filter(|link| !goes_without_saying(link))?;
            Some((*index, link.name.as_str(), why))
        });
        told.collect()
    }

    /// A link could not be joined. It is not held.
    fn fails(&mut self, index: u32, why: String) -> bool {
        self.failed.insert(index, why);
        false
    }

    /// Whether a searcher may be answered: it is on a network of the link by which its search came, which is served, or on this machine.
    pub fn may_answer(&self, searcher: Ipv4Addr, link: u32, is_served: bool) -> bool {
        let is_loopback = self.network.links.get(&link).is_some_and(Link::is_loopback);
        (is_served || is_loopback) && self.network.is_near(link, searcher)
    }

    /// Says of each link that has no place why, once. The loopback link, and what the user has not chosen, go without saying.
    fn say_left_out(&mut self, left_out: BTreeMap<u32, LeftOut>) {
        for (index, why) in &left_out {
            let link = &self.network.links[index];
            let plain = *why == LeftOut::NotNamed || goes_without_saying(link);
            if !plain && self.said_left_out.get(index) != Some(why) {
                remark(format_args!("link {} left out: {why}", Named(&link.name, *index)));
            }
        }
        self.said_left_out = left_out;
        let is_here = |name: &String| self.network.links.values().any(|link| link.name == *name);
        let absent: BTreeSet<String> = self.names.iter().filter(|name| !is_here(name)).cloned().collect();
        for name in absent.difference(&self.said_absent) {
            remark(format_args!("--interface {name}: no link has this name; it is served once one has"));
        }
        self.said_absent = absent;
    }
}

impl Host {
    /// Takes news of the network in, and says whether a survey is needed after it.
    pub fn on_news(&mut self, news: &News) -> bool {
        let around = &mut self.around;
        match *news {
            News::Link { index, ref name, flags, is_port } => {
                around.failed.remove(&index);
                around.network.link(index, name, flags, is_port);
                self.on_flags(index, flags);
            }
            News::LinkGone { index } => {
                around.failed.remove(&index);
                self.leave_link(index);
                self.around.network.link_gone(index);
            }
            News::Address { index, address, subnet } => around.network.address(index, address, subnet),
            News::AddressGone { index, address } => {
                around.network.address_gone(index, address);
                self.take_out_address(index, address);
            }
            News::ListEnd { whole } => {
                around.surveying = false;
                if whole {
                    around.forget_unseen();
                }
                if whole && std::mem::take(&mut self.around.news_lost) {
                    self.leave_all();
                }
                return !whole;
            }
        }
        false
    }

    /// The kernel had more news than it could keep.
    pub fn lost_news(&mut self) {
        self.around.news_lost = true;
    }

    /// Leaves all links, to be joined anew. A link may have gone and another come under its index, in which the group is not joined: after news
    /// was lost nobody can tell.
    fn leave_all(&mut self) {
        remark(format_args!("news of links and addresses was lost: all links are joined anew"));
        self.links.indexes().into_iter().for_each(|index| self.leave_link(index));
    }

    /// A survey begins.
    pub fn begin_survey(&mut self) {
        self.around.surveying = true;
        self.around.network.begin_survey();
    }

    /// Chooses links anew, and hands the engine what has changed by it. A link that cannot be joined leaves its place to another.
    pub fn settle(&mut self) {
        if self.around.surveying {
            return;
        }
        loop {
            let choice = choose(&self.around.network, &self.around.names, &self.around.failed, |index| self.links.holds(index));
            for index in self.links.indexes() {
                if !choice.chosen.contains(&index) {
                    self.leave_link(index);
                }
            }
            if choice.chosen.iter().all(|index| self.links.holds(*index) || self.join_link(*index)) {
                self.around.say_left_out(choice.left_out);
                break;
            }
        }
        for index in self.links.indexes() {
            self.settle_addresses(index);
        }
    }

    /// A link that is held may have turned up or down.
    fn on_flags(&mut self, index: u32, flags: u32) {
        if self.links.holds(index) {
            let (name, up) = (self.around.name(index), self.around.network.links[&index].is_up());
            let answer = self.engine.new_link(index, flags, 0, &mut self.outbox);
            if self.links.is_up(index) != up {
                note(format_args!("link {name} {}", up_or_down(up)));
            }
            self.links.note_link(index, up);
            self.answered(answer, Some(index), || format!("link {name}"));
        }
    }

    /// Joins the group on a link and hands it to the engine with the outcome. Says whether it is held now.
    fn join_link(&mut self, index: u32) -> bool {
        let name = self.around.name(index);
        let link = &self.around.network.links[&index];
        let (flags, up) = (link.flags, link.is_up());
        let opened = Sockets::open(index, self.ttl);
        let outcome = opened.as_ref().map_or_else(error_number, |_| 0);
        let answer = self.engine.new_link(index, flags, outcome, &mut self.outbox);
        if let Err(refusal) = answer {
            self.refusals.count(refusal);
        }
        let sockets = match (opened, &answer) {
            (Ok(sockets), Ok(_)) => sockets,
            (Err(error), _) => return self.around.fails(index, format!("the group cannot be joined on it: {error}")),
            (_, Err(refusal)) => return self.around.fails(index, refusal.to_string()),
        };
        self.sockets.insert(index, Rc::new(sockets));
        self.traffic.insert(index, Traffic::default());
        self.links.note_link(index, up);
        self.answered(answer, Some(index), || format!("link {name}"));
        note(format_args!("link {name} joined, {}", up_or_down(up)));
        true
    }

    /// Leaves the group on a link that is held and takes it out of the engine, with its addresses.
    fn leave_link(&mut self, index: u32) {
        let Some(sockets) = self.sockets.remove(&index) else { return };
        let name = self.around.name(index);
        let left = sockets.group.leave(index);
        let outcome = left.as_ref().map_or_else(error_number, |()| 0);
        let answer = self.engine.deleted_link(index, outcome);
        self.links.addresses(index).to_vec().into_iter().for_each(|address| self.forget_announced(address));
        self.links.forget_link(index);
        self.other_traffic.add(&Traffic { dropped: sockets.dropped(), ..self.traffic.remove(&index).unwrap_or_default() });
        self.around.said_addresses.remove(&index);
        note(format_args!("link {name} left"));
        if let Some(answer) = self.answered(answer, None, || format!("link {name} gone")) {
            if answer.leave != 0 {
                report(format_args!("leaving the group on link {name}: {}", io::Error::from_raw_os_error(answer.leave as i32)));
            }
        }
    }

    /// Takes out the addresses that a link no longer has, and hands in others while there is room, in the order in which they were told of.
    fn settle_addresses(&mut self, index: u32) {
        let Some(link) = self.around.network.links.get(&index) else { return };
        let gone: Vec<Ipv4Addr> = self.links.addresses(index).iter().filter(|held| !link.addresses.contains_key(held)).copied().collect();
        gone.into_iter().for_each(|address| self.take_out_address(index, address));
        while self.links.addresses(index).len() < ADDRESSES {
            let held = self.links.addresses(index);
            let others = self.around.network.links[&index].addresses.iter().filter(|(address, _)| !held.contains(address));
            let Some((address, _)) = others.min_by_key(|(_, address)| address.told) else { return };
            let address = *address;
            let answer = self.engine.new_address(index, &address.octets(), &mut self.outbox);
            self.links.note_address(index, address);
            let name = self.around.name(index);
            if answer.is_ok() {
                note(format_args!("address {address} on link {name}"));
            }
            if self.answered(answer, Some(index), || format!("address {address} on link {name}")).is_none() {
                self.links.forget_address(index, address);
                return;
            }
        }
        let more = self.around.network.links[&index].addresses.len() - ADDRESSES;
        if more > 0 && self.around.said_addresses.insert(index) {
            let name = self.around.name(index);
            remark(format_args!("link {name} has more than {ADDRESSES} addresses: the others are left out until one of these has gone"));
        }
    }

    fn take_out_address(&mut self, index: u32, address: Ipv4Addr) {
        if self.links.addresses(index).contains(&address) {
            let answer = self.engine.deleted_address(index, &address.octets());
            self.links.forget_address(index, address);
            self.forget_announced(address);
            self.around.said_addresses.remove(&index);
            let name = self.around.name(index);
            note(format_args!("address {address} gone from link {name}"));
            self.answered(answer, None, || format!("address {address} gone from link {name}"));
        }
    }
}

/// Whether nobody expects a link to be served: the loopback, or one of which only an address was told.
fn goes_without_saying(link: &Link) -> bool {
    link.is_loopback() || link.name.is_empty()
}
