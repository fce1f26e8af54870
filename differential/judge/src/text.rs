//! Document 01, 'Text rules', '`target_match` and `rewrite_host`': written from the document, not from any code.

/// 'A number: optional `+`, one or more digits, leading zeros allowed, not above the width's largest.'
pub fn number(text: &[u8], largest: u64) -> Option<u64> {
    let digits = text.strip_prefix(b"+").unwrap_or(text);
    if digits.is_empty() || !digits.iter().all(u8::is_ascii_digit) {
        return None;
    }
    let mut value: u128 = 0;
    for digit in digits {
        value = (value * 10 + u128::from(digit - b'0')).min(1 << 64);
    }
    (value <= largest.into()).then_some(value as u64)
}

/// 'White space': the listed code points.
fn white(c: char) -> bool {
    matches!(c as u32, 0x9..=0xD | 0x20 | 0x85 | 0xA0 | 0x1680 | 0x2000..=0x200A | 0x2028 | 0x2029 | 0x202F | 0x205F | 0x3000)
}

/// Not refusal 4: UTF-8 that holds no byte 10 or 13 and neither starts nor ends in white space.
pub fn good(text: &[u8]) -> bool {
    let Ok(text) = std::str::from_utf8(text) else {
        return false;
    };
    !text.contains(['\n', '\r']) && !text.starts_with(white) && !text.ends_with(white)
}

/// 'Search matches candidate if the search is `ssdp:all`, or both are equal, or ..'
pub fn matches(search: &[u8], candidate: &[u8]) -> bool {
    search == b"ssdp:all" || search == candidate || version_serves(search, candidate)
}

/// '.. both split at their last colon with equal left parts and right parts that are 64-bit numbers, candidate's at least the search's.'
fn version_serves(search: &[u8], candidate: &[u8]) -> bool {
    let (Some(s), Some(c)) = (last_colon(search), last_colon(candidate)) else {
        return false;
    };
    if search[..s] != candidate[..c] {
        return false;
    }
    match (number(&search[s + 1..], u64::MAX), number(&candidate[c + 1..], u64::MAX)) {
        (Some(least), Some(held)) => held >= least,
        _ => false,
    }
}

fn last_colon(text: &[u8]) -> Option<usize> {
    text.iter().rposition(|b| *b == b':')
}

/// 'What follows the first `://` loses everything up to its first colon, if that is before the first slash, else up to its first slash; without a slash it all goes. The dotted address takes that place.'
pub fn rewrite(location: &[u8], address: std::net::Ipv4Addr) -> Vec<u8> {
    let Some(scheme) = location.windows(3).position(|w| w == b"://") else {
        return location.to_vec();
    };
    let (kept, rest) = location.split_at(scheme + 3);
    let slash = rest.iter().position(|b| *b == b'/');
    let colon = rest.iter().position(|b| *b == b':');
    let lost = match (colon, slash) {
        (Some(colon), Some(slash)) if colon < slash => colon,
        (_, Some(slash)) => slash,
        (_, None) => rest.len(),
    };
    [kept, address.to_string().as_bytes(), &rest[lost..]].concat()
}
