//! Values as JSON, on one line a member of the outermost object: for programs, by the keys of juzvarola-json(5).

/// A value.
#[derive(Debug, Clone, PartialEq, Eq)]
pub enum Value {
    Null,
    Bool(bool),
    Number(u64),
    Signed(i64),
    Text(String),
    List(Vec<Value>),
    Object(Vec<(&'static str, Value)>),
}

impl Value {
    /// A number, or null.
    pub fn number(number: impl Into<Option<u64>>) -> Value {
        number.into().map_or(Value::Null, Value::Number)
    }

    /// A text.
    pub fn text(text: impl Into<String>) -> Value {
        Value::Text(text.into())
    }

    /// A text, or null.
    pub fn maybe(text: Option<String>) -> Value {
        text.map_or(Value::Null, Value::Text)
    }

    /// A list of these.
    pub fn list(values: impl IntoIterator<Item = Value>) -> Value {
        Value::List(values.into_iter().collect())
    }

    /// A list of numbers.
    pub fn numbers(numbers: impl IntoIterator<Item = u64>) -> Value {
        Value::list(numbers.into_iter().map(Value::Number))
    }

    /// An object with these members.
    pub fn object(members: impl IntoIterator<Item = (&'static str, Value)>) -> Value {
        Value::Object(members.into_iter().collect())
    }

    /// The whole text, with a line feed at its end.
    pub fn document(&self) -> String {
        match self {
            Value::Object(members) => {
                let lines: Vec<String> = members.iter().map(|(name, value)| format!("  {}: {}", quoted(name), value.inline())).collect();
                format!("{{\n{}\n}}\n", lines.join(",\n"))
            }
            other => other.inline() + "\n",
        }
    }

    /// The value without line feeds.
    fn inline(&self) -> String {
        let joined = |texts: Vec<String>| texts.join(", ");
        match self {
            Value::Null => "null".to_string(),
            Value::Bool(yes) => yes.to_string(),
            Value::Number(number) => number.to_string(),
            Value::Signed(number) => number.to_string(),
            Value::Text(text) => quoted(text),
            Value::List(values) => format!("[{}]", joined(values.iter().map(Value::inline).collect())),
            Value::Object(members) => {
                format!("{{{}}}", joined(members.iter().map(|(name, value)| format!("{}: {}", quoted(name), value.inline())).collect()))
            }
        }
    }
}

/// A text in quotes, with what JSON escapes.
fn quoted(text: &str) -> String {
    let mut out = String::from("\"");
    for letter in text.chars() {
        match letter {
            '"' => out.push_str("\\\""),
            '\\' => out.push_str("\\\\"),
            '\n' => out.push_str("\\n"),
            control if (control as u32) < 0x20 => out.push_str(&format!("\\u{:04x}", control as u32)),
            other => out.push(other),
        }
    }
    out.push('"');
    out
}
