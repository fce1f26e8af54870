//! Document 01, 'Messages', as the unchanged message.rs answers it, with what the Rust does not have: the place of each
//! field in the datagram, and the refusals of `build_*`.
use crate::text::good;
use cotton_ssdp::message::{self, Error, Message};

/// Start and length.
#[derive(Clone, Copy, Debug, Default, PartialEq, Eq)]
pub struct Place {
    pub start: usize,
    pub len: usize,
}

/// What `parse` answers: 1 alive, 2 byebye, 3 search, 4 response, or the refusals 7 and 8.
#[derive(Clone, Copy, Debug, Default, PartialEq, Eq)]
pub struct Parsed {
    pub kind: u32,
    pub places: [Place; 3],
    pub mx: u8,
}

/// The Rust's answer, each of its texts at the place that it occupies.
pub fn parse(datagram: &[u8]) -> Parsed {
    let (kind, mx, fields) = match message::parse(datagram) {
        Err(Error::UnexpectedEof) => return Parsed { kind: 7, ..Parsed::default() },
        Err(_) => return Parsed { kind: 8, ..Parsed::default() },
        Ok(Message::NotifyAlive { notification_type, unique_service_name, location }) => {
            (1, 0, vec![("NT", notification_type), ("USN", unique_service_name), ("LOCATION", location)])
        }
        Ok(Message::NotifyByeBye { notification_type, unique_service_name }) => {
            (2, 0, vec![("NT", notification_type), ("USN", unique_service_name)])
        }
        Ok(Message::Search { search_target, maximum_wait_sec }) => (3, maximum_wait_sec, vec![("ST", search_target)]),
        Ok(Message::Response { search_target, unique_service_name, location }) => {
            (4, 0, vec![("ST", search_target), ("USN", unique_service_name), ("LOCATION", location)])
        }
    };
    let mut places = [Place::default(); 3];
    for (place, (key, text)) in places.iter_mut().zip(&fields) {
        *place = place_of(datagram, key);
        assert_eq!(text.as_bytes(), &datagram[place.start..][..place.len], "a place that holds another text");
    }
    Parsed { kind, places, mx }
}

/// 'The last line of a key wins'; 'an all-blank value has length 0 and starts right behind its colon'.
fn place_of(datagram: &[u8], key: &str) -> Place {
    let packet = std::str::from_utf8(datagram).unwrap();
    let offset = |part: &str| part.as_ptr() as usize - packet.as_ptr() as usize;
    let headers = packet.lines().skip(1).filter_map(|line| line.split_once(':'));
    let (_, value) = headers.filter(|(k, _)| k.to_ascii_uppercase() == key).last().unwrap();
    match value.trim() {
        "" => Place { start: offset(value), len: 0 },
        text => Place { start: offset(text), len: text.len() },
    }
}

/// The four messages that are built.
#[derive(Clone, Copy, Debug, PartialEq, Eq)]
pub enum Kind {
    Search,
    Response,
    Notify,
    ByeBye,
}

impl Kind {
    pub const ALL: [Kind; 4] = [Kind::Search, Kind::Response, Kind::Notify, Kind::ByeBye];

    /// The sizes of its texts: type 80, name 128, location 135.
    pub fn sizes(self) -> &'static [usize] {
        match self {
            Kind::Search => &[80],
            Kind::Response | Kind::Notify => &[80, 128, 135],
            Kind::ByeBye => &[80, 128],
        }
    }

    /// The Rust's text in a buffer that is long enough.
    pub fn text(self, texts: &[&str]) -> Vec<u8> {
        let mut buffer = vec![0; 1024];
        let length = match self {
            Kind::Search => message::build_search(&mut buffer, texts[0]),
            Kind::Response => message::build_response(&mut buffer, texts[0], texts[1], texts[2]),
            Kind::Notify => message::build_notify(&mut buffer, texts[0], texts[1], texts[2]),
            Kind::ByeBye => message::build_byebye(&mut buffer, texts[0], texts[1]),
        };
        buffer.truncate(length);
        buffer
    }

    /// Refusals 3, 4 and 6 in their order over all texts, or the Rust's text.
    pub fn build(self, texts: &[Vec<u8>], room: usize) -> Result<Vec<u8>, u32> {
        if texts.iter().zip(self.sizes()).any(|(text, size)| text.len() > *size) {
            return Err(3);
        }
        if !texts.iter().all(|text| good(text)) {
            return Err(4);
        }
        let texts: Vec<&str> = texts.iter().map(|text| std::str::from_utf8(text).unwrap()).collect();
        let text = self.text(&texts);
        if room < text.len() {
            return Err(6);
        }
        Ok(text)
    }
}
