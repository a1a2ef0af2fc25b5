//! Reads the JSON that the records use: objects, lists, texts and whole numbers.

use std::collections::BTreeMap;

pub enum Value {
    Number(u64),
    Text(String),
    List(Vec<Value>),
    Map(BTreeMap<String, Value>),
}

struct Reader<'a> {
    rest: &'a [u8],
}

impl Reader<'_> {
    fn take(&mut self) -> Option<u8> {
        let (first, rest) = self.rest.split_first()?;
        self.rest = rest;
        Some(*first)
    }

    fn text(&mut self) -> Option<String> {
        let end = self
            .rest
            .iter()
            .position(|b| *b == b'"' || *b == b'\\')
            .filter(|at| self.rest[*at] == b'"')?;
        let text = std::str::from_utf8(&self.rest[..end]).ok()?.to_string();
        self.rest = &self.rest[end + 1..];
        Some(text)
    }

    fn value(&mut self) -> Option<Value> {
        match self.take()? {
            b'"' => self.text().map(Value::Text),
            b'[' => {
                let mut items = Vec::new();
                while *self.rest.first()? != b']' {
                    items.push(self.value()?);
                    if *self.rest.first()? == b',' {
                        self.take();
                    }
                }
                self.take();
                Some(Value::List(items))
            }
            b'{' => {
                let mut members = BTreeMap::new();
                while self.take()? == b'"' {
                    let name = self.text()?;
                    (self.take()? == b':').then_some(())?;
                    members.insert(name, self.value()?);
                    match self.take()? {
                        b',' => {}
                        b'}' => return Some(Value::Map(members)),
                        _ => return None,
                    }
                }
                Some(Value::Map(members))
            }
            digit => {
                let mut number = u64::from(digit.checked_sub(b'0').filter(|n| *n < 10)?);
                while let Some(next) = self.rest.first().filter(|b| b.is_ascii_digit()) {
                    number = 10 * number + u64::from(next - b'0');
                    self.take();
                }
                Some(Value::Number(number))
            }
        }
    }
}

pub fn read(bytes: &[u8]) -> Option<Value> {
    Reader { rest: bytes }.value()
}

impl Value {
    pub fn get(&self, name: &str) -> Option<&Value> {
        match self {
            Value::Map(members) => members.get(name),
            _ => None,
        }
    }

    pub fn number(&self) -> Option<u64> {
        match self {
            Value::Number(number) => Some(*number),
            _ => None,
        }
    }

    pub fn text(&self) -> Option<&str> {
        match self {
            Value::Text(text) => Some(text),
            _ => None,
        }
    }

    pub fn list(&self) -> &[Value] {
        match self {
            Value::List(items) => items,
            _ => &[],
        }
    }
}
