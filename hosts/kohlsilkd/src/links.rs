//! The links and addresses that the engine has accepted, and on which of them a record goes out.
use std::collections::BTreeMap;
use std::net::Ipv4Addr;

#[derive(Default)]
pub struct Links {
    held: BTreeMap<u32, Link>,
}

#[derive(Default)]
struct Link {
    up: bool,
    addresses: Vec<Ipv4Addr>,
}

impl Links {
    pub fn holds(&self, index: u32) -> bool {
        self.held.contains_key(&index)
    }

    pub fn indexes(&self) -> Vec<u32> {
        self.held.keys().copied().collect()
    }

    pub fn is_up(&self, index: u32) -> bool {
        self.held.get(&index).is_some_and(|link| link.up)
    }

    pub fn note_link(&mut self, index: u32, up: bool) {
        self.held.entry(index).or_default().up = up;
    }

    pub fn forget_link(&mut self, index: u32) {
        self.held.remove(&index);
    }

    pub fn addresses(&self, index: u32) -> &[Ipv4Addr] {
        self.held.get(&index).map_or(&[], |link| &link.addresses)
    }

    pub fn note_address(&mut self, index: u32, address: Ipv4Addr) {
        if let Some(link) = self.held.get_mut(&index) {
            if !link.addresses.contains(&address) {
                link.addresses.push(address);
            }
        }
    }

    pub fn forget_address(&mut self, index: u32, address: Ipv4Addr) {
        if let Some(link) = self.held.get_mut(&index) {
            link.addresses.retain(|held| *held != address);
        }
    }

    /// The link for the record number `turn` that goes to the group from this source: the engine sends one for each up link that has the
    /// address, by index. 0 where there is none.
    pub fn link_of(&self, source: Ipv4Addr, turn: usize) -> u32 {
        let has = |link: &Link| link.up && link.addresses.contains(&source);
        let holders: Vec<u32> = self.held.iter().filter(|(_, link)| has(link)).map(|(index, _)| *index).collect();
        holders.get(turn % holders.len().max(1)).copied().unwrap_or(0)
    }
}

#[cfg(test)]
mod tests {
    use super::*;

    #[test]
    fn the_link_of_a_source() {
        let [shared, single] = [1, 5].map(|k| Ipv4Addr::new(10, 0, 0, k));
        let mut links = Links::default();
        for (index, up) in [(2, true), (3, false), (5, true)] {
            links.note_link(index, up);
            links.note_address(index, shared);
        }
        links.note_address(5, single);
        assert_eq!([0, 1, 2].map(|turn| links.link_of(shared, turn)), [2, 5, 2]);
        assert_eq!(links.link_of(single, 3), 5);
        links.forget_address(5, single);
        assert_eq!(links.link_of(single, 0), 0);
        assert_eq!(links.addresses(5), [shared]);
    }
}
