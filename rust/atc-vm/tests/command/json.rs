//! A reader of JSON, for what `--json` prints.

use std::collections::BTreeMap;

#[derive(Debug, Clone, PartialEq)]
pub enum Value {
    Null,
    Number(u64),
    Text(String),
    List(Vec<Value>),
    Object(BTreeMap<String, Value>),
}

impl Value {
    /// A member of an object, which must have it.
    pub fn at(&self, key: &str) -> &Value {
        match self {
            Value::Object(members) => members
                .get(key)
                .unwrap_or_else(|| panic!("no {key} in {self:?}")),
            _ => panic!("no object: {self:?}"),
        }
    }

    pub fn number(&self) -> u64 {
        match self {
            Value::Number(number) => *number,
            _ => panic!("no number: {self:?}"),
        }
    }

    pub fn text(&self) -> &str {
        match self {
            Value::Text(text) => text,
            _ => panic!("no text: {self:?}"),
        }
    }

    pub fn list(&self) -> &[Value] {
        match self {
            Value::List(items) => items,
            _ => panic!("no list: {self:?}"),
        }
    }

    pub fn numbers(&self) -> Vec<u64> {
        self.list().iter().map(Value::number).collect()
    }
}

/// One value and a line feed; no key twice.
pub fn parse(text: &str) -> Option<Value> {
    let mut rest = text.strip_suffix('\n')?;
    let value = value(&mut rest)?;
    rest.is_empty().then_some(value)
}

fn value(rest: &mut &str) -> Option<Value> {
    match rest.chars().next()? {
        '"' => string(rest).map(Value::Text),
        '[' => list(rest),
        '{' => object(rest),
        'n' => take(rest, "null").map(|()| Value::Null),
        _ => {
            let end = rest
                .find(|c: char| !c.is_ascii_digit())
                .unwrap_or(rest.len());
            let (digits, after) = rest.split_at(end);
            *rest = after;
            digits.parse().ok().map(Value::Number)
        }
    }
}

fn take(rest: &mut &str, word: &str) -> Option<()> {
    *rest = rest.strip_prefix(word)?;
    Some(())
}

fn list(rest: &mut &str) -> Option<Value> {
    take(rest, "[")?;
    let mut items = Vec::new();
    while take(rest, "]").is_none() {
        if !items.is_empty() {
            take(rest, ",")?;
        }
        items.push(value(rest)?);
    }
    Some(Value::List(items))
}

fn object(rest: &mut &str) -> Option<Value> {
    take(rest, "{")?;
    let mut members = BTreeMap::new();
    while take(rest, "}").is_none() {
        if !members.is_empty() {
            take(rest, ",")?;
        }
        let key = string(rest)?;
        take(rest, ":")?;
        let value = value(rest)?;
        if members.insert(key, value).is_some() {
            return None;
        }
    }
    Some(Value::Object(members))
}

fn string(rest: &mut &str) -> Option<String> {
    take(rest, "\"")?;
    let mut text = String::new();
    loop {
        let c = next(rest)?;
        match c {
            '"' => return Some(text),
            '\\' => text.push(escape(rest)?),
            c if c < ' ' => return None,
            c => text.push(c),
        }
    }
}

fn escape(rest: &mut &str) -> Option<char> {
    match next(rest)? {
        'n' => Some('\n'),
        'r' => Some('\r'),
        't' => Some('\t'),
        'u' => {
            let code = u32::from_str_radix(rest.get(..4)?, 16).ok()?;
            *rest = &rest[4..];
            char::from_u32(code)
        }
        c @ ('"' | '\\') => Some(c),
        _ => None,
    }
}

fn next(rest: &mut &str) -> Option<char> {
    let c = rest.chars().next()?;
    *rest = &rest[c.len_utf8()..];
    Some(c)
}
