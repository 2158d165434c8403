//! The part of TOML that site files use: keys, texts, whole numbers, lists, tables in one line, `[[table]]`, comments.
use std::collections::HashMap;

pub type Table = HashMap<String, Value>;

#[derive(Clone, Debug)]
pub enum Value {
    Number(i64),
    Text(String),
    List(Vec<Value>),
    Table(Table),
}

struct Reader<'a> {
    left: &'a [u8],
}

pub fn read(text: &str) -> Option<Table> {
    let mut reader = Reader { left: text.as_bytes() };
    let mut top = Table::new();
    let mut inner: Option<String> = None;
    loop {
        reader.skip();
        if reader.left.is_empty() {
            return Some(top);
        }
        if reader.takes(b"[[") {
            let key = reader.key()?;
            reader.takes(b"]]").then_some(())?;
            let Value::List(list) = top.entry(key.clone()).or_insert(Value::List(Vec::new())) else { return None };
            list.push(Value::Table(Table::new()));
            inner = Some(key);
            continue;
        }
        let (key, value) = reader.pair()?;
        let table = match &inner {
            None => &mut top,
            Some(name) => match top.get_mut(name) {
                Some(Value::List(list)) => match list.last_mut() {
                    Some(Value::Table(table)) => table,
                    _ => return None,
                },
                _ => return None,
            },
        };
        table.insert(key, value).is_none().then_some(())?;
    }
}

impl Reader<'_> {
    /// Passes over spaces, line ends and comments.
    fn skip(&mut self) {
        while let Some(byte) = self.left.first() {
            match byte {
                b'#' => self.left = &self.left[self.left.iter().position(|byte| *byte == b'\n').unwrap_or(self.left.len())..],
                b' ' | b'\t' | b'\r' | b'\n' => self.left = &self.left[1..],
                _ => return,
            }
        }
    }

    fn takes(&mut self, word: &[u8]) -> bool {
        self.skip();
        let Some(rest) = self.left.strip_prefix(word) else { return false };
        self.left = rest;
        true
    }

    fn word(&mut self) -> Option<&str> {
        self.skip();
        let is_part = |byte: &u8| byte.is_ascii_alphanumeric() || matches!(byte, b'_' | b'-' | b'+');
        let (word, rest) = self.left.split_at(self.left.iter().position(|byte| !is_part(byte)).unwrap_or(self.left.len()));
        self.left = rest;
        std::str::from_utf8(word).ok().filter(|word| !word.is_empty())
    }

    fn key(&mut self) -> Option<String> {
        self.word().map(String::from)
    }

    fn pair(&mut self) -> Option<(String, Value)> {
        let key = self.key()?;
        self.takes(b"=").then_some(())?;
        Some((key, self.value()?))
    }

    fn value(&mut self) -> Option<Value> {
        if self.takes(b"\"") {
            let end = self.left.iter().position(|byte| *byte == b'"')?;
            let text = String::from_utf8(self.left[..end].to_vec()).ok()?;
            self.left = &self.left[end + 1..];
            return Some(Value::Text(text));
        }
        if self.takes(b"[") {
            let mut list = Vec::new();
            while !self.takes(b"]") {
                list.push(self.value()?);
                self.takes(b",");
            }
            return Some(Value::List(list));
        }
        if self.takes(b"{") {
            let mut table = Table::new();
            while !self.takes(b"}") {
                let (key, value) = self.pair()?;
                table.insert(key, value);
                self.takes(b",");
            }
            return Some(Value::Table(table));
        }
        self.word()?.parse().ok().map(Value::Number)
    }
}
