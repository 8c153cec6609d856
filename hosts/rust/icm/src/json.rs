// json.rs: what scripts are told, as JSON on one line.
use std::fmt;

pub enum Json {
    Null,
    True,
    Whole(u64),
    Double(f64),
    Text(String),
    List(Vec<Json>),
    Object(Fields),
}

/// The fields of an object, in the order in which they are written.
pub type Fields = Vec<(&'static str, Json)>;

impl Json {
    /// A string of what is printed.
    pub fn told(what: impl fmt::Display) -> Json {
        Json::Text(what.to_string())
    }
}

impl From<&str> for Json {
    fn from(text: &str) -> Json {
        Json::Text(text.to_string())
    }
}

impl From<usize> for Json {
    fn from(number: usize) -> Json {
        Json::Whole(number as u64)
    }
}

impl<T: Into<Json>> From<Option<T>> for Json {
    fn from(value: Option<T>) -> Json {
        value.map_or(Json::Null, Into::into)
    }
}

impl<T: Into<Json>> FromIterator<T> for Json {
    fn from_iter<I: IntoIterator<Item = T>>(items: I) -> Json {
        Json::List(items.into_iter().map(Into::into).collect())
    }
}

impl From<Fields> for Json {
    fn from(fields: Fields) -> Json {
        Json::Object(fields)
    }
}

impl fmt::Display for Json {
    fn fmt(&self, out: &mut fmt::Formatter<'_>) -> fmt::Result {
        match self {
            Json::Null => out.write_str("null"),
            Json::True => out.write_str("true"),
            Json::Whole(number) => write!(out, "{number}"),
            // with an exponent, and as short as tells the double from every other
            Json::Double(number) => write!(out, "{number:e}"),
            Json::Text(text) => write_text(text, out),
            Json::List(items) => write_all('[', items, ']', out, |item, out| item.fmt(out)),
            Json::Object(fields) => write_all('{', fields, '}', out, |(name, value), out| {
                write_text(name, out)?;
                write!(out, ":{value}")
            }),
        }
    }
}

fn write_all<T>(
    open: char,
    items: &[T],
    close: char,
    out: &mut fmt::Formatter<'_>,
    write_one: impl Fn(&T, &mut fmt::Formatter<'_>) -> fmt::Result,
) -> fmt::Result {
    write!(out, "{open}")?;
    for (index, item) in items.iter().enumerate() {
        if index > 0 {
            out.write_str(",")?;
        }
        write_one(item, out)?;
    }
    write!(out, "{close}")
}

/// A string of JSON. What a terminal would obey is told by its number too.
fn write_text(text: &str, out: &mut fmt::Formatter<'_>) -> fmt::Result {
    out.write_str("\"")?;
    for character in text.chars() {
        match character {
            '"' | '\\' => write!(out, "\\{character}")?,
            _ if character.is_control() => write!(out, "\\u{:04x}", u32::from(character))?,
            _ => write!(out, "{character}")?,
        }
    }
    out.write_str("\"")
}

#[cfg(test)]
mod tests {
    use super::*;

    #[test]
    fn strings_are_escaped() {
        let text = Json::from("a\"b\\c\t\n\u{1b}\u{7f}\u{9b}\u{e9}\u{fffd}");
        assert_eq!(text.to_string(), "\"a\\\"b\\\\c\\u0009\\u000a\\u001b\\u007f\\u009b\u{e9}\u{fffd}\"");
    }

    #[test]
    fn numbers_are_exact() {
        assert_eq!(Json::Double(4.5e-9).to_string(), "4.5e-9");
        assert_eq!(Json::Double(-1e22).to_string(), "-1e22");
        assert_eq!(Json::Double(0.0).to_string(), "0e0");
        assert_eq!(Json::Double(0.1 + 0.2).to_string(), "3.0000000000000004e-1");
        assert_eq!(Json::Whole(u64::MAX).to_string(), "18446744073709551615");
    }

    #[test]
    fn lists_and_objects() {
        let empty = Json::Object(vec![("a", Json::List(vec![])), ("b", Json::Object(vec![]))]);
        assert_eq!(empty.to_string(), "{\"a\":[],\"b\":{}}");
        let list: Json = [Some(1), None].into_iter().collect();
        assert_eq!(list.to_string(), "[1,null]");
    }
}
