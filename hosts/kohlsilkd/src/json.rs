//! JSON (RFC 8259), as far as the status needs it.
use std::fmt;

#[derive(Clone, Debug, PartialEq, Eq)]
pub enum Json {
    Null,
    Bool(bool),
    Number(u64),
    Text(String),
    List(Vec<Json>),
    Object(Vec<(&'static str, Json)>),
}

impl Json {
    pub fn text(value: impl fmt::Display) -> Json {
        Json::Text(value.to_string())
    }

    pub fn list(values: impl IntoIterator<Item = Json>) -> Json {
        Json::List(values.into_iter().collect())
    }
}

impl fmt::Display for Json {
    fn fmt(&self, f: &mut fmt::Formatter<'_>) -> fmt::Result {
        match self {
            Json::Null => f.write_str("null"),
            Json::Bool(value) => write!(f, "{value}"),
            Json::Number(value) => write!(f, "{value}"),
            Json::Text(text) => quoted(f, text),
            Json::List(values) => {
                f.write_str("[")?;
                for (k, value) in values.iter().enumerate() {
                    write!(f, "{}{value}", comma(k))?;
                }
                f.write_str("]")
            }
            Json::Object(members) => {
                f.write_str("{")?;
                for (k, (name, value)) in members.iter().enumerate() {
                    write!(f, "{}\"{name}\":{value}", comma(k))?;
                }
                f.write_str("}")
            }
        }
    }
}

fn comma(k: usize) -> &'static str {
    match k {
        0 => "",
        _ => ",",
    }
}

/// A text between quotation marks. Control characters are written as numbers, those of Unicode too, so that they cannot act on a terminal.
fn quoted(f: &mut fmt::Formatter<'_>, text: &str) -> fmt::Result {
    f.write_str("\"")?;
    for c in text.chars() {
        match c {
            '"' | '\\' => write!(f, "\\{c}")?,
            c if c.is_control() => write!(f, "\\u{:04x}", u32::from(c))?,
            c => write!(f, "{c}")?,
        }
    }
    f.write_str("\"")
}

#[cfg(test)]
mod tests {
    use super::*;

    #[test]
    fn texts_are_escaped() {
        assert_eq!(Json::text("a\"b\\c\n\u{1b}\u{9b}\u{e9}").to_string(), "\"a\\\"b\\\\c\\u000a\\u001b\\u009b\u{e9}\"");
    }

    #[test]
    fn lists_and_objects() {
        let value = Json::Object(vec![
            ("a", Json::list([Json::Null, Json::Bool(true), Json::Number(u64::MAX)])),
            ("b", Json::Object(vec![])),
            ("c", Json::list([])),
        ]);
        assert_eq!(value.to_string(), "{\"a\":[null,true,18446744073709551615],\"b\":{},\"c\":[]}");
    }
}
