//! JSON, as far as it is written here.

use std::ffi::OsStr;
use std::fmt;

/// The keys of an object, in their order.
pub type Pairs = Vec<(&'static str, Json)>;

/// A value of JSON. Numbers are whole.
#[derive(Clone, Debug, PartialEq, Eq)]
pub enum Json {
    Null,
    Number(usize),
    Text(String),
    List(Vec<Json>),
    Object(Pairs),
}

impl From<usize> for Json {
    fn from(number: usize) -> Json {
        Json::Number(number)
    }
}

impl From<u32> for Json {
    fn from(number: u32) -> Json {
        Json::Number(number as usize)
    }
}

impl From<u8> for Json {
    fn from(number: u8) -> Json {
        Json::Number(number.into())
    }
}

/// A file's name. Bytes that are no UTF-8 are replaced, since JSON has none.
impl From<&OsStr> for Json {
    fn from(name: &OsStr) -> Json {
        Json::Text(name.to_string_lossy().into_owned())
    }
}

impl From<&str> for Json {
    fn from(text: &str) -> Json {
        Json::Text(text.to_string())
    }
}

impl From<String> for Json {
    fn from(text: String) -> Json {
        Json::Text(text)
    }
}

impl fmt::Display for Json {
    fn fmt(&self, out: &mut fmt::Formatter<'_>) -> fmt::Result {
        match self {
            Json::Null => out.write_str("null"),
            Json::Number(number) => write!(out, "{number}"),
            Json::Text(text) => write_text(out, text),
            Json::List(items) => {
                out.write_str("[")?;
                for (i, item) in items.iter().enumerate() {
                    let comma = if i == 0 { "" } else { "," };
                    write!(out, "{comma}{item}")?;
                }
                out.write_str("]")
            }
            Json::Object(pairs) => {
                out.write_str("{")?;
                for (i, (key, value)) in pairs.iter().enumerate() {
                    let comma = if i == 0 { "" } else { "," };
                    write!(out, "{comma}\"{key}\":{value}")?;
                }
                out.write_str("}")
            }
        }
    }
}

/// Text between quotes, with quotes, backslashes and control characters escaped.
fn write_text(out: &mut fmt::Formatter<'_>, text: &str) -> fmt::Result {
    out.write_str("\"")?;
    for letter in text.chars() {
        match letter {
            '"' => out.write_str("\\\"")?,
            '\\' => out.write_str("\\\\")?,
            '\n' => out.write_str("\\n")?,
            '\r' => out.write_str("\\r")?,
            '\t' => out.write_str("\\t")?,
            _ if letter.is_control() => write!(out, "\\u{:04x}", u32::from(letter))?,
            _ => write!(out, "{letter}")?,
        }
    }
    out.write_str("\"")
}

#[cfg(test)]
mod tests {
    use super::*;

    #[test]
    fn values() {
        let object = Json::Object(vec![
            ("file", "a".into()),
            ("verdict", Json::Null),
            ("answers", Json::List(vec![0u8.into(), 2u8.into()])),
            ("none", Json::List(vec![])),
        ]);
        let expected = r#"{"file":"a","verdict":null,"answers":[0,2],"none":[]}"#;
        assert_eq!(object.to_string(), expected);
        assert_eq!(Json::Object(vec![]).to_string(), "{}");
    }

    #[test]
    fn escapes() {
        let text = Json::from("a\"b\\c\nd\te\u{1}\u{7f}é/");
        assert_eq!(text.to_string(), r#""a\"b\\c\nd\te\u0001\u007fé/""#);
    }
}
