//! A root device, which is announced under three names (UPnP Device Architecture 1.0, section 1.1.2): a client may search for any of them.
use crate::arguments::Advertisement;
use crate::print::Text;

/// The announcements of a root device: that it is one, its UUID, and its type. An error says what is wrong with the UUID.
pub fn announcements(uuid: &[u8], device_type: &[u8], location: &[u8]) -> Result<[Advertisement; 3], String> {
    // With '::' in it, it is one of the names that are made here.
    if !uuid.starts_with(b"uuid:") || uuid == b"uuid:" || uuid.windows(2).any(|two| two == b"::") {
        return Err(format!("'{}' is no UUID with uuid: in front, as uuid:4d696e69-444c-164e-9d41-b827eb54e939 is", Text(uuid)));
    }
    let announcement =
        |name: Vec<u8>, service_type: &[u8]| Advertisement { name, service_type: service_type.into(), location: location.into() };
    let under = |kind: &[u8]| announcement([uuid, b"::", kind].concat(), kind);
    Ok([under(b"upnp:rootdevice"), announcement(uuid.into(), uuid), under(device_type)])
}

#[cfg(test)]
mod tests {
    use super::*;

    #[test]
    fn three_names() {
        let three = announcements(b"uuid:1", b"urn:t:1", b"http://h/").unwrap();
        let texts = three.map(|one| [one.name, one.service_type, one.location].map(|text| String::from_utf8(text).unwrap()));
        assert_eq!(texts[0], ["uuid:1::upnp:rootdevice", "upnp:rootdevice", "http://h/"]);
        assert_eq!(texts[1], ["uuid:1", "uuid:1", "http://h/"]);
        assert_eq!(texts[2], ["uuid:1::urn:t:1", "urn:t:1", "http://h/"]);
    }

    #[test]
    fn no_uuids() {
        for wrong in ["", "1", "uuid:", "UUID:1", "4d696e69-444c-164e-9d41-b827eb54e939", "uuid:1::urn:t:1"] {
            let said = announcements(wrong.as_bytes(), b"t", b"http://h/").unwrap_err();
            assert!(said.starts_with(&format!("'{wrong}' is no UUID with uuid: in front")), "{said}");
        }
    }
}
