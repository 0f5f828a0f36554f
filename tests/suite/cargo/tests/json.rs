//! As much of JSON as the suite has.
use std::collections::HashMap;

/// A value of JSON; a number is whole here.
#[derive(Debug)]
pub enum Value {
    Null,
    Bool(bool),
    Number(i64),
    Text(String),
    List(Vec<Value>),
    Object(HashMap<String, Value>),
}

impl Value {
    pub fn get(&self, key: &str) -> &Value {
        match self {
            Value::Object(fields) => fields.get(key).unwrap_or(&Value::Null),
            _ => &Value::Null,
        }
    }

    pub fn text(&self) -> &str {
        if let Value::Text(text) = self {
            text
        } else {
            ""
        }
    }

    pub fn list(&self) -> &[Value] {
        if let Value::List(values) = self {
            values
        } else {
            &[]
        }
    }

    pub fn number(&self) -> Option<i64> {
        if let Value::Number(number) = self {
            Some(*number)
        } else {
            None
        }
    }

    pub fn is_true(&self) -> bool {
        matches!(self, Value::Bool(true))
    }
}

/// Reads the value at a place, and moves past it.
pub fn value(text: &[u8], at: &mut usize) -> Value {
    blank(text, at);
    match text[*at] {
        b'{' => {
            let mut fields = HashMap::new();
            while !ends(text, at, b'}') {
                let key = value(text, at).text().to_string();
                blank(text, at);
                *at += 1;
                fields.insert(key, value(text, at));
            }
            Value::Object(fields)
        }
        b'[' => {
            let mut values = Vec::new();
            while !ends(text, at, b']') {
                values.push(value(text, at));
            }
            Value::List(values)
        }
        b'"' => string(text, at),
        _ => word(text, at),
    }
}

fn blank(text: &[u8], at: &mut usize) {
    while text.get(*at).is_some_and(u8::is_ascii_whitespace) {
        *at += 1;
    }
}

/// Moves past the bracket or the comma that stands here, and says whether another closes the list.
fn ends(text: &[u8], at: &mut usize, close: u8) -> bool {
    blank(text, at);
    if text[*at] != close {
        *at += 1;
        blank(text, at);
        if text[*at] != close {
            return false;
        }
    }
    *at += 1;
    true
}

fn string(text: &[u8], at: &mut usize) -> Value {
    let mut found = Vec::new();
    *at += 1;
    while text[*at] != b'"' {
        if text[*at] == b'\\' {
            *at += 1;
        }
        found.push(text[*at]);
        *at += 1;
    }
    *at += 1;
    Value::Text(String::from_utf8_lossy(&found).into_owned())
}

fn word(text: &[u8], at: &mut usize) -> Value {
    let start = *at;
    while text
        .get(*at)
        .is_some_and(|it| it.is_ascii_alphanumeric() || *it == b'-')
    {
        *at += 1;
    }
    match &text[start..*at] {
        b"true" => Value::Bool(true),
        b"false" => Value::Bool(false),
        b"null" => Value::Null,
        digits => std::str::from_utf8(digits)
            .ok()
            .and_then(|it| it.parse().ok())
            .map_or(Value::Null, Value::Number),
    }
}
