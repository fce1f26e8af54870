//! The links of this machine and their addresses, as the kernel has told of them.
use kohlsilk::flags;
use std::collections::BTreeMap;
use std::fmt;
use std::net::Ipv4Addr;

#[derive(Default)]
pub struct Network {
    pub links: BTreeMap<u32, Link>,
    /// The number of the latest survey.
    survey: u64,
    /// How many addresses were told of.
    told: u64,
}

#[derive(Default)]
pub struct Link {
    pub name: String,
    pub flags: u32,
    /// It is a port of a bridge, a bond or a team: what comes by it is heard on the link that it is a port of.
    pub is_port: bool,
    pub addresses: BTreeMap<Ipv4Addr, Address>,
    seen: u64,
}

pub struct Address {
    /// Who can be reached from it without a router.
    subnet: Subnet,
    /// Its number among all that were told of: the kernel tells a link's primary address first.
    pub told: u64,
    /// The survey in which it was seen last.
    seen: u64,
}

impl Link {
    pub fn is_up(&self) -> bool {
        self.flags & flags::UP != 0 && self.flags & flags::RUNNING != 0
    }

    pub fn is_loopback(&self) -> bool {
        self.flags & libc::IFF_LOOPBACK as u32 != 0
    }

    pub fn has_multicast(&self) -> bool {
        self.flags & flags::MULTICAST != 0
    }
}

#[derive(Clone, Copy, Debug, PartialEq, Eq)]
pub struct Subnet {
    pub base: Ipv4Addr,
    pub prefix: u8,
}

impl Subnet {
    fn contains(&self, address: Ipv4Addr) -> bool {
        let mask = u32::MAX.checked_shl(32 - u32::from(self.prefix.min(32))).unwrap_or(0);
        (u32::from(self.base) ^ u32::from(address)) & mask == 0
    }
}

/// A link as it is printed: by its name, with its index.
pub struct Named<'a>(pub &'a str, pub u32);

impl fmt::Display for Named<'_> {
    fn fmt(&self, f: &mut fmt::Formatter<'_>) -> fmt::Result {
        write!(f, "{} ({})", self.0, self.1)
    }
}

impl Network {
    pub fn link(&mut self, index: u32, name: &str, flags: u32, is_port: bool) {
        let seen = self.survey;
        let link = self.links.entry(index).or_default();
        (link.flags, link.is_port, link.seen) = (flags, is_port, seen);
        link.name = name.into();
    }

    pub fn link_gone(&mut self, index: u32) {
        self.links.remove(&index);
    }

    /// An address may be told of before its link is: then the link is there without flags, which nothing is sent on.
    pub fn address(&mut self, index: u32, address: Ipv4Addr, subnet: Subnet) {
        let seen = self.survey;
        self.told += 1;
        let link = self.links.entry(index).or_insert_with(|| Link { seen, ..Link::default() });
        let held = link.addresses.entry(address).or_insert(Address { subnet, told: self.told, seen });
        (held.subnet, held.seen) = (subnet, seen);
    }

    pub fn address_gone(&mut self, index: u32, address: Ipv4Addr) {
        if let Some(link) = self.links.get_mut(&index) {
            link.addresses.remove(&address);
        }
    }

    /// Whether an address is on a network of a link, or is this machine's own.
    pub fn is_near(&self, index: u32, address: Ipv4Addr) -> bool {
        let on_link = |link: &Link| link.addresses.values().any(|held| held.subnet.contains(address));
        self.links.get(&index).is_some_and(on_link) || self.is_own(address)
    }

    pub fn is_own(&self, address: Ipv4Addr) -> bool {
        self.links.values().any(|link| link.addresses.contains_key(&address))
    }

    pub fn begin_survey(&mut self) {
        self.survey += 1;
    }

    /// A whole survey has ended: what it did not find has gone, its news having been lost.
    pub fn forget_unseen(&mut self) {
        let survey = self.survey;
        self.links.retain(|_, link| link.seen == survey);
        for link in self.links.values_mut() {
            link.addresses.retain(|_, address| address.seen == survey);
        }
    }
}

#[cfg(test)]
mod tests {
    use super::*;

    fn subnet(base: [u8; 4], prefix: u8) -> Subnet {
        Subnet { base: base.into(), prefix }
    }

    #[test]
    fn who_is_near() {
        let mut network = Network::default();
        network.address(2, [10, 0, 1, 1].into(), subnet([10, 0, 1, 1], 24));
        network.address(2, [10, 9, 0, 1].into(), subnet([10, 9, 0, 2], 32));
        network.address(3, [10, 0, 2, 1].into(), subnet([10, 0, 2, 1], 24));
        let near = |index, address: [u8; 4]| network.is_near(index, address.into());
        assert!(near(2, [10, 0, 1, 255]) && near(2, [10, 9, 0, 2]) && near(3, [10, 0, 2, 9]));
        assert!(!near(3, [10, 0, 1, 255]) && !near(2, [10, 9, 0, 3]) && !near(4, [10, 0, 1, 9]));
        assert!(near(1, [10, 0, 2, 1]), "this machine's own");
        assert!(subnet([0, 0, 0, 0], 0).contains([1, 2, 3, 4].into()));
    }

    #[test]
    fn what_a_survey_does_not_find_has_gone() {
        let [one, two] = [1, 2].map(|k| Ipv4Addr::new(10, 0, 0, k));
        let mut network = Network::default();
        for index in [2, 3] {
            network.link(index, "eth", flags::UP, false);
            network.address(index, one, subnet([10, 0, 0, 1], 24));
            network.address(index, two, subnet([10, 0, 0, 1], 24));
        }
        network.begin_survey();
        network.link(2, "eth", flags::UP, false);
        network.address(2, two, subnet([10, 0, 0, 1], 24));
        network.forget_unseen();
        assert_eq!(network.links.keys().collect::<Vec<_>>(), [&2]);
        assert_eq!(network.links[&2].addresses.keys().collect::<Vec<_>>(), [&two]);
    }

    #[test]
    fn nothing_is_kept_of_what_has_gone() {
        let mut network = Network::default();
        for k in 0..1000 {
            network.address(2, Ipv4Addr::from(k), subnet([10, 0, 0, 1], 24));
            network.address_gone(2, Ipv4Addr::from(k));
        }
        assert!(network.links[&2].addresses.is_empty());
    }
}
