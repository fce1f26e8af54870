//! What others announce, as it was heard last: so that a device is printed when it is new, has changed or leaves, and not at each notice.
use kohlsilk::Message;
use std::collections::BTreeMap;
use std::hash::{BuildHasher, RandomState};

/// As many places are remembered; of more, those heard longest ago are forgotten, and printed again when they are heard.
const REMEMBERED: usize = 1000;

/// A type with a name, and a location, each by its hash, since a stranger's texts may be long. A device that is there on two networks, or has two
/// addresses, has a location for each.
type Place = (u64, u64);

#[derive(Default)]
pub struct Found {
    /// With the number of the notice that told of it last.
    places: BTreeMap<Place, u64>,
    notices: u64,
    hashes: RandomState,
}

impl Found {
    /// Takes a notice or a reply in, and says whether it tells something new.
    pub fn is_news(&mut self, message: &Message) -> bool {
        self.notices += 1;
        match *message {
            Message::NotifyAlive { notification_type: kind, unique_service_name: name, location }
            | Message::Response { search_target: kind, unique_service_name: name, location } => {
                self.is_new((self.hashes.hash_one((kind, name)), self.hashes.hash_one(location)))
            }
            Message::NotifyByeBye { notification_type, unique_service_name } => self.was_there(notification_type, unique_service_name),
            Message::Search { .. } => false,
        }
    }

    fn is_new(&mut self, place: Place) -> bool {
        let is_new = self.places.insert(place, self.notices).is_none();
        if self.places.len() > REMEMBERED {
            let oldest = self.places.iter().min_by_key(|(_, notice)| **notice).map(|(place, _)| *place);
            oldest.map(|place| self.places.remove(&place));
        }
        is_new
    }

    /// Forgets a name in all its places, and says whether it was known.
    fn was_there(&mut self, kind: &str, name: &str) -> bool {
        let (before, gone) = (self.places.len(), self.hashes.hash_one((kind, name)));
        self.places.retain(|(held, _), _| *held != gone);
        self.places.len() < before
    }
}

#[cfg(test)]
mod tests {
    use super::*;

    fn there<'a>(name: &'a str, location: &'a str) -> Message<'a> {
        Message::NotifyAlive { notification_type: "t", unique_service_name: name, location }
    }

    #[test]
    fn new_changed_and_gone() {
        let gone = Message::NotifyByeBye { notification_type: "t", unique_service_name: "u" };
        let mut found = Found::default();
        let told = [there("u", "a"), there("u", "a"), there("v", "a"), there("u", "b"), there("u", "a"), gone, gone, there("u", "a")];
        assert_eq!(told.map(|message| found.is_news(&message)), [true, false, true, true, false, true, false, true]);
    }

    #[test]
    fn no_more_is_remembered_than_there_is_room_for() {
        let mut found = Found::default();
        for k in 0..3 * REMEMBERED {
            assert!(found.is_news(&there(&k.to_string(), "a")));
        }
        assert_eq!(found.places.len(), REMEMBERED);
        assert!(found.is_news(&there("0", "a")) && !found.is_news(&there(&(3 * REMEMBERED - 1).to_string(), "a")));
    }
}
