//! A strict reader of JSON, as RFC 8259 has it, for numbers without fractions. What is not well formed is a panic that says so.

use std::collections::BTreeMap;

/// A value.
#[derive(Debug, Clone, PartialEq, Eq)]
pub enum Json {
    Null,
    Bool(bool),
    Number(u64),
    Text(String),
    List(Vec<Json>),
    Object(BTreeMap<String, Json>),
}

impl Json {
    /// A member of an object.
    pub fn at(&self, name: &str) -> &Json {
        match self {
            Json::Object(members) => members.get(name).unwrap_or_else(|| panic!("{name} is no member of {self:?}")),
            _ => panic!("{self:?} is no object"),
        }
    }

    pub fn number(&self) -> u64 {
        match self {
            Json::Number(number) => *number,
            _ => panic!("{self:?} is no number"),
        }
    }

    pub fn text(&self) -> &str {
        match self {
            Json::Text(text) => text,
            _ => panic!("{self:?} is no text"),
        }
    }

    pub fn list(&self) -> &[Json] {
        match self {
            Json::List(list) => list,
            _ => panic!("{self:?} is no list"),
        }
    }

    /// The names of an object's members.
    pub fn names(&self) -> Vec<&str> {
        match self {
            Json::Object(members) => members.keys().map(String::as_str).collect(),
            _ => panic!("{self:?} is no object"),
        }
    }
}

/// Reads a whole text.
pub fn read(text: &str) -> Json {
    let mut reader = Reader { rest: text };
    let value = reader.value();
    reader.blanks();
    assert!(reader.rest.is_empty(), "the text goes on: {:?}", reader.rest);
    value
}

struct Reader<'t> {
    rest: &'t str,
}

impl Reader<'_> {
    fn blanks(&mut self) {
        self.rest = self.rest.trim_start_matches([' ', '\t', '\n', '\r']);
    }

    /// Whether this comes next, and takes it.
    fn takes(&mut self, word: &str) -> bool {
        self.blanks();
        let rest = self.rest.strip_prefix(word);
        self.rest = rest.unwrap_or(self.rest);
        rest.is_some()
    }

    fn value(&mut self) -> Json {
        if self.takes("{") {
            let mut members = BTreeMap::new();
            if self.takes("}") {
                return Json::Object(members);
            }
            loop {
                let name = self.text();
                assert!(self.takes(":"), "a colon behind {name:?}: {:?}", self.rest);
                let value = self.value();
                assert!(members.insert(name.clone(), value).is_none(), "{name} stands twice");
                if self.takes("}") {
                    return Json::Object(members);
                }
                assert!(self.takes(","), "an object does not end: {:?}", self.rest);
            }
        }
        if self.takes("[") {
            let mut list = Vec::new();
            if self.takes("]") {
                return Json::List(list);
            }
            loop {
                list.push(self.value());
                if self.takes("]") {
                    return Json::List(list);
                }
                assert!(self.takes(","), "a list does not end: {:?}", self.rest);
            }
        }
        for (word, value) in [("null", Json::Null), ("true", Json::Bool(true)), ("false", Json::Bool(false))] {
            if self.takes(word) {
                return value;
            }
        }
        if self.rest.starts_with('"') {
            return Json::Text(self.text());
        }
        let digits: String = self.rest.chars().take_while(char::is_ascii_digit).collect();
        assert!(!digits.is_empty() && (digits.len() == 1 || !digits.starts_with('0')), "a number: {:?}", self.rest);
        self.rest = &self.rest[digits.len()..];
        Json::Number(digits.parse().expect("a number of 64 bits"))
    }

    fn text(&mut self) -> String {
        assert!(self.takes("\""), "a text: {:?}", self.rest);
        let mut out = String::new();
        let mut letters = self.rest.char_indices();
        loop {
            let (at, letter) = letters.next().unwrap_or_else(|| panic!("a text does not end"));
            match letter {
                '"' => {
                    self.rest = &self.rest[at + 1..];
                    return out;
                }
                '\\' => match letters.next().expect("an escape").1 {
                    'n' => out.push('\n'),
                    'u' => {
                        let digits: String = letters.by_ref().take(4).map(|(_, digit)| digit).collect();
                        out.push(u32::from_str_radix(&digits, 16).ok().and_then(char::from_u32).expect("a letter"));
                    }
                    other @ ('"' | '\\' | '/') => out.push(other),
                    other => panic!("\\{other} is no escape"),
                },
                control if (control as u32) < 0x20 => panic!("a control character in a text"),
                other => out.push(other),
            }
        }
    }
}
