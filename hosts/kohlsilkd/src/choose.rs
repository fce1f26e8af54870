//! Which links get the engine's places: it holds few, and a machine may have many that nobody needs.
use crate::network::{Link, Network};
use kohlsilk::LINKS;
use std::collections::{BTreeMap, BTreeSet};
use std::fmt;

/// Why a link has no place.
#[derive(Clone, Debug, PartialEq, Eq)]
pub enum LeftOut {
    NoMulticast,
    NotNamed,
    Port,
    NoAddress,
    Full,
    /// The group could not be joined on it, or the engine refused it.
    Failed(String),
}

impl fmt::Display for LeftOut {
    fn fmt(&self, f: &mut fmt::Formatter<'_>) -> fmt::Result {
        match self {
            LeftOut::NoMulticast => write!(f, "it cannot send to a group"),
            LeftOut::NotNamed => write!(f, "no --interface names it"),
            LeftOut::Port => write!(f, "it is a port of a bridge or a bond, which is served itself"),
            LeftOut::NoAddress => write!(f, "it has no IPv4 address"),
            LeftOut::Full => write!(f, "{LINKS} links are served, and there is no room for more; --interface chooses"),
            LeftOut::Failed(why) => write!(f, "{why}"),
        }
    }
}

/// The links to serve, and the others with the reason.
pub struct Choice {
    pub chosen: BTreeSet<u32>,
    pub left_out: BTreeMap<u32, LeftOut>,
}

/// Chooses among the links that can be served: first those that are up, then those that have a place already, then by index. `names`
/// are those that the user has chosen, all where there are none; `failed` are not tried again.
pub fn choose(network: &Network, names: &[String], failed: &BTreeMap<u32, String>, held: impl Fn(u32) -> bool) -> Choice {
    let mut left_out = BTreeMap::new();
    let mut able = vec![];
    for (index, link) in &network.links {
        match hindrance(link, names).or_else(|| failed.get(index).cloned().map(LeftOut::Failed)) {
            Some(why) => drop(left_out.insert(*index, why)),
            None => able.push((!link.is_up(), !held(*index), *index)),
        }
    }
    able.sort_unstable();
    let more = able.split_off(able.len().min(LINKS));
    left_out.extend(more.iter().map(|(_, _, index)| (*index, LeftOut::Full)));
    Choice { chosen: able.iter().map(|(_, _, index)| *index).collect(), left_out }
}

/// Why a link cannot be served, if that is so.
fn hindrance(link: &Link, names: &[String]) -> Option<LeftOut> {
    if !names.is_empty() && !names.contains(&link.name) {
        Some(LeftOut::NotNamed)
    } else if !link.has_multicast() {
        Some(LeftOut::NoMulticast)
    } else if link.is_port {
        Some(LeftOut::Port)
    } else if link.addresses.is_empty() {
        Some(LeftOut::NoAddress)
    } else {
        None
    }
}

#[cfg(test)]
mod tests {
    use super::*;
    use crate::network::Subnet;
    use kohlsilk::flags::{MULTICAST, RUNNING, UP};
    use std::net::Ipv4Addr;

    const WORKING: u32 = UP | RUNNING | MULTICAST;

    fn network(links: &[(u32, u32, bool, bool)]) -> Network {
        let mut network = Network::default();
        for (index, flags, is_port, has_address) in links {
            network.link(*index, &format!("eth{index}"), *flags, *is_port);
            if *has_address {
                let address = Ipv4Addr::from(*index);
                network.address(*index, address, Subnet { base: address, prefix: 24 });
            }
        }
        network
    }

    fn chosen(network: &Network, names: &[&str], failed: &[u32], held: &[u32]) -> Vec<u32> {
        let names: Vec<String> = names.iter().map(|name| name.to_string()).collect();
        let failed = failed.iter().map(|index| (*index, "why".into())).collect();
        choose(network, &names, &failed, |index| held.contains(&index)).chosen.into_iter().collect()
    }

    #[test]
    fn ports_and_links_without_an_address_take_no_place() {
        let network =
            network(&[(1, UP | RUNNING, false, true), (2, WORKING, true, true), (3, WORKING, false, false), (9, WORKING, false, true)]);
        assert_eq!(chosen(&network, &[], &[], &[]), [9]);
        let left_out = choose(&network, &[], &BTreeMap::new(), |_| false).left_out;
        assert_eq!(left_out.into_values().collect::<Vec<_>>(), [LeftOut::NoMulticast, LeftOut::Port, LeftOut::NoAddress]);
    }

    #[test]
    fn a_link_that_is_up_takes_the_place_of_one_that_is_down() {
        let mut links: Vec<_> = (2..6).map(|index| (index, WORKING, false, true)).collect();
        assert_eq!(chosen(&network(&links), &[], &[], &[]), [2, 3, 4]);
        assert_eq!(chosen(&network(&links), &[], &[], &[3, 4, 5]), [3, 4, 5], "none that works gives its place away");
        links[1].1 = UP | MULTICAST;
        assert_eq!(chosen(&network(&links), &[], &[], &[2, 3, 4]), [2, 4, 5]);
        assert_eq!(chosen(&network(&links), &[], &[4], &[]), [2, 3, 5]);
    }

    #[test]
    fn the_user_chooses() {
        let network = network(&(2..9).map(|index| (index, WORKING, false, true)).collect::<Vec<_>>());
        assert_eq!(chosen(&network, &["eth8", "eth7"], &[], &[2, 3, 4]), [7, 8]);
    }
}
