//! JSON, of which the bodies of visits and stops are made.
use super::record::is_code;
use super::site::Site;
use std::collections::HashMap;

const MOST_DEPTH: usize = 127;
const MOST_POINTS: usize = 384;

enum Json {
    Text(String),
    /// A whole number without sign, point or power.
    Count(u64),
    List(Vec<Json>),
    Object(HashMap<String, Json>),
    Other,
}

pub struct Visit {
    pub code: String,
    pub number: u32,
    pub day: u32,
    pub engineer: String,
    pub points: Vec<usize>,
}

/// The code of a stop.
pub fn read_stop(body: &[u8]) -> Option<String> {
    match read(body)? {
        Json::Object(mut keys) if keys.len() == 1 => code(keys.remove("code")?),
        _ => None,
    }
}

pub fn read_visit(site: &Site, body: &[u8]) -> Option<Visit> {
    let Json::Object(mut keys) = read(body)? else { return None };
    let count = |value: Json| if let Json::Count(count) = value { u32::try_from(count).ok() } else { None };
    if keys.len() != 5 {
        return None;
    }
    let (Json::List(names), Json::Text(engineer)) = (keys.remove("points")?, keys.remove("engineer")?) else { return None };
    let is_name = |name: &[u8]| {
        let is_part = |byte: &u8| byte.is_ascii_lowercase() || byte.is_ascii_digit() || *byte == b'-';
        (1..=16).contains(&name.len()) && name[0].is_ascii_lowercase() && name.iter().all(is_part)
    };
    if names.len() > MOST_POINTS || !is_name(engineer.as_bytes()) {
        return None;
    }
    let points = names.iter().map(|name| if let Json::Text(name) = name { site.point(name.as_bytes()) } else { None }).collect::<Option<_>>()?;
    Some(Visit { code: code(keys.remove("code")?)?, number: count(keys.remove("visit")?)?, day: count(keys.remove("day")?)?, engineer, points })
}

fn code(value: Json) -> Option<String> {
    match value {
        Json::Text(text) if is_code(text.as_bytes()) => Some(text),
        _ => None,
    }
}

fn read(body: &[u8]) -> Option<Json> {
    let mut reader = Reader { text: std::str::from_utf8(body).ok()?, depth: 0 };
    let value = reader.value()?;
    reader.skip();
    reader.text.is_empty().then_some(value)
}

struct Reader<'a> {
    text: &'a str,
    depth: usize,
}

impl Reader<'_> {
    fn skip(&mut self) {
        self.text = self.text.trim_start_matches([' ', '\t', '\n', '\r']);
    }

    fn takes(&mut self, word: &str) -> bool {
        self.skip();
        let rest = self.text.strip_prefix(word);
        self.text = rest.unwrap_or(self.text);
        rest.is_some()
    }

    fn value(&mut self) -> Option<Json> {
        if self.takes("\"") {
            return self.string().map(Json::Text);
        }
        for word in ["null", "true", "false"] {
            if self.takes(word) {
                return Some(Json::Other);
            }
        }
        if self.text.starts_with(['[', '{']) {
            self.depth += 1;
            if self.depth > MOST_DEPTH {
                return None;
            }
            let value = if self.takes("[") { self.list().map(Json::List) } else { self.object().map(Json::Object) };
            self.depth -= 1;
            return value;
        }
        self.number()
    }

    fn list(&mut self) -> Option<Vec<Json>> {
        let mut list = Vec::new();
        if self.takes("]") {
            return Some(list);
        }
        loop {
            list.push(self.value()?);
            if self.takes("]") {
                return Some(list);
            }
            self.takes(",").then_some(())?;
        }
    }

    fn object(&mut self) -> Option<HashMap<String, Json>> {
        let mut keys = HashMap::new();
        self.takes("{").then_some(())?;
        if self.takes("}") {
            return Some(keys);
        }
        loop {
            self.takes("\"").then_some(())?;
            let key = self.string()?;
            self.takes(":").then_some(())?;
            keys.insert(key, self.value()?);
            if self.takes("}") {
                return Some(keys);
            }
            self.takes(",").then_some(())?;
        }
    }

    fn number(&mut self) -> Option<Json> {
        let end = self.text.find(|letter: char| !letter.is_ascii_digit() && !"+-.eE".contains(letter)).unwrap_or(self.text.len());
        let (word, rest) = self.text.split_at(end);
        self.text = rest;
        let whole = word.strip_prefix('-').unwrap_or(word);
        let digits = whole.find(|letter: char| !letter.is_ascii_digit()).unwrap_or(whole.len());
        let behind = &whole[digits..];
        let is_digits = |text: &str| !text.is_empty() && text.bytes().all(|byte| byte.is_ascii_digit());
        let is_power = |text: &str| text.is_empty() || text.strip_prefix(['e', 'E']).is_some_and(|it| is_digits(it.strip_prefix(['+', '-']).unwrap_or(it)));
        let is_form = match behind.strip_prefix('.') {
            None => is_power(behind),
            Some(part) => {
                let end = part.find(['e', 'E']).unwrap_or(part.len());
                is_digits(&part[..end]) && is_power(&part[end..])
            }
        };
        if digits == 0 || digits > 1 && whole.starts_with('0') || !is_form {
            return None;
        }
        match word.parse::<u64>() {
            Ok(count) => Some(Json::Count(count)),
            Err(_) => word.parse::<f64>().ok().filter(|number| number.is_finite()).map(|_| Json::Other),
        }
    }

    /// The rest of a text behind its first quotation mark.
    fn string(&mut self) -> Option<String> {
        let mut read = String::new();
        loop {
            let letter = self.letter()?;
            match letter {
                '"' => return Some(read),
                '\\' => read.push(self.escaped()?),
                '\0'..='\x1f' => return None,
                _ => read.push(letter),
            }
        }
    }

    fn letter(&mut self) -> Option<char> {
        let letter = self.text.chars().next()?;
        self.text = &self.text[letter.len_utf8()..];
        Some(letter)
    }

    fn escaped(&mut self) -> Option<char> {
        match self.letter()? {
            letter @ ('"' | '\\' | '/') => Some(letter),
            'b' => Some('\x08'),
            'f' => Some('\x0c'),
            'n' => Some('\n'),
            'r' => Some('\r'),
            't' => Some('\t'),
            'u' => {
                let first = self.four()?;
                if !(0xd800..0xdc00).contains(&first) {
                    return char::from_u32(first);
                }
                self.text = self.text.strip_prefix("\\u")?;
                let second = self.four()?;
                let is_low = (0xdc00..0xe000).contains(&second);
                is_low.then(|| char::from_u32(0x10000 + (first - 0xd800 << 10) + (second - 0xdc00)))?
            }
            _ => None,
        }
    }

    fn four(&mut self) -> Option<u32> {
        let digits = self.text.get(..4).filter(|text| text.bytes().all(|byte| byte.is_ascii_hexdigit()))?;
        self.text = &self.text[4..];
        u32::from_str_radix(digits, 16).ok()
    }
}
