//! Messages by themselves: reading a datagram, and building one.
use crate::abi::{self, Parsed, Written};
use crate::refusal::Refusal;

/// The longest message that a build writes.
pub const MESSAGE_MAX: usize = 506;

/// A message, its fields borrowed from the datagram.
#[derive(Clone, Copy, Debug, PartialEq, Eq)]
#[allow(missing_docs)]
pub enum Message<'a> {
    /// A service is there: NT, USN, LOCATION.
    NotifyAlive { notification_type: &'a str, unique_service_name: &'a str, location: &'a str },
    /// A service has gone: NT, USN.
    NotifyByeBye { notification_type: &'a str, unique_service_name: &'a str },
    /// Somebody searches for a type: ST, and MX, the most seconds that an answer may take.
    Search { search_target: &'a str, maximum_wait_sec: u8 },
    /// The answer to a search: ST, USN, LOCATION.
    Response { search_target: &'a str, unique_service_name: &'a str, location: &'a str },
}

/// Reads a datagram. Refused by 7 if it is empty and by 8 if it is no message.
///
/// ```
/// let search = kohlsilk::parse(b"M-SEARCH * HTTP/1.1\r\nST: upnp:rootdevice\r\nMX: 3\r\n\r\n");
/// assert_eq!(search, Ok(kohlsilk::Message::Search { search_target: "upnp:rootdevice", maximum_wait_sec: 3 }));
/// assert_eq!(kohlsilk::parse(b"").unwrap_err().number(), 7);
/// ```
pub fn parse(datagram: &[u8]) -> Result<Message<'_>, Refusal> {
    let Parsed { kind, mx, first, first_len, second, second_len, third, third_len } = abi::parse(datagram);
    let [a, b, c] = [(first, first_len), (second, second_len), (third, third_len)].map(|(start, len)| field(datagram, start, len));
    match kind {
        1 => Ok(Message::NotifyAlive { notification_type: a?, unique_service_name: b?, location: c? }),
        2 => Ok(Message::NotifyByeBye { notification_type: a?, unique_service_name: b? }),
        3 => Ok(Message::Search { search_target: a?, maximum_wait_sec: mx as u8 }),
        4 => Ok(Message::Response { search_target: a?, unique_service_name: b?, location: c? }),
        7 => Err(Refusal::DATAGRAM_EMPTY),
        _ => Err(Refusal::DATAGRAM_INVALID),
    }
}

/// A place that the library named: it lies in the datagram, which is UTF-8, so that the error never comes.
fn field(datagram: &[u8], start: usize, len: usize) -> Result<&str, Refusal> {
    let bytes = datagram.get(start..).and_then(|rest| rest.get(..len));
    bytes.and_then(|bytes| core::str::from_utf8(bytes).ok()).ok_or(Refusal::DATAGRAM_INVALID)
}

/// Builds a search at the start of the buffer.
pub fn build_search(buffer: &mut [u8], st: impl AsRef<[u8]>) -> Result<&[u8], Refusal> {
    let written = abi::build_search(buffer, st.as_ref());
    built(buffer, written)
}

/// Builds the answer to a search.
pub fn build_response(
    buffer: &mut [u8],
    st: impl AsRef<[u8]>,
    usn: impl AsRef<[u8]>,
    location: impl AsRef<[u8]>,
) -> Result<&[u8], Refusal> {
    let written = abi::build_response(buffer, st.as_ref(), usn.as_ref(), location.as_ref());
    built(buffer, written)
}

/// Builds the notice that a service is there.
pub fn build_notify(buffer: &mut [u8], nt: impl AsRef<[u8]>, usn: impl AsRef<[u8]>, location: impl AsRef<[u8]>) -> Result<&[u8], Refusal> {
    let written = abi::build_notify(buffer, nt.as_ref(), usn.as_ref(), location.as_ref());
    built(buffer, written)
}

/// Builds the notice that a service has gone.
pub fn build_byebye(buffer: &mut [u8], nt: impl AsRef<[u8]>, usn: impl AsRef<[u8]>) -> Result<&[u8], Refusal> {
    let written = abi::build_byebye(buffer, nt.as_ref(), usn.as_ref());
    built(buffer, written)
}

fn built(buffer: &[u8], written: Written) -> Result<&[u8], Refusal> {
    Refusal::check(written.refusal)?;
    buffer.get(..written.len).ok_or(Refusal::BUFFER_SHORT)
}
