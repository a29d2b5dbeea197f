//! JSON, as far as the program writes it.

use std::fmt::Write;

/// An object that is being written.
#[derive(Debug, Default)]
pub struct Object {
    fields: String,
}

impl Object {
    /// An object without fields.
    pub fn new() -> Self {
        Object::default()
    }

    /// With this field, whose value is JSON already.
    pub fn with(mut self, name: &str, value: impl ToString) -> Self {
        if !self.fields.is_empty() {
            self.fields.push(',');
        }
        let value = value.to_string();
        let _ = write!(self.fields, "{}:{value}", string(name));
        self
    }

    /// With this text as a field.
    pub fn with_text(self, name: &str, value: &str) -> Self {
        self.with(name, string(value))
    }

    /// The object as JSON.
    pub fn json(self) -> String {
        format!("{{{}}}", self.fields)
    }
}

/// A list of values that are JSON already.
pub fn list<T: ToString>(values: impl IntoIterator<Item = T>) -> String {
    let values: Vec<String> = values.into_iter().map(|value| value.to_string()).collect();
    format!("[{}]", values.join(","))
}

/// A text as a JSON string.
pub fn string(text: &str) -> String {
    let mut out = String::from('"');
    for character in text.chars() {
        match character {
            '"' => out.push_str("\\\""),
            '\\' => out.push_str("\\\\"),
            '\n' => out.push_str("\\n"),
            '\r' => out.push_str("\\r"),
            '\t' => out.push_str("\\t"),
            control if control < ' ' || control == '\x7f' => {
                let _ = write!(out, "\\u{:04x}", control as u32);
            }
            other => out.push(other),
        }
    }
    out.push('"');
    out
}

#[cfg(test)]
mod tests {
    use super::*;

    #[test]
    fn strings_are_escaped() {
        assert_eq!(string("a\"\\\n\u{1}ä"), "\"a\\\"\\\\\\n\\u0001ä\"");
    }

    #[test]
    fn objects_and_lists_are_joined() {
        let object = Object::new().with("a", 1).with_text("b", "c");
        assert_eq!(object.json(), "{\"a\":1,\"b\":\"c\"}");
        assert_eq!(list([1, 2]), "[1,2]");
        assert_eq!(list::<u32>([]), "[]");
    }
}
