//! The head of a request, looked at in place.
use super::record::number;

pub const MOST_HEAD: usize = 8_192;
pub const MOST_BODY: usize = 65_536;
const MOST_FIELDS: usize = 32;

#[derive(Clone, Copy, PartialEq)]
pub enum Route {
    Face(usize),
    Ticks,
    Table,
    Visits,
    Untested(u32),
    Stop,
}

pub enum Look {
    /// More is needed.
    Begun,
    Refused(u16),
    Whole {
        route: Route,
        head: usize,
        body: usize,
    },
}

/// A head that goes on behind the bytes that are there, or is none.
enum Halt {
    Begun,
    Bad,
}

struct Fields {
    is_encoded: bool,
    lengths: usize,
    length: Option<u64>,
}

/// What bytes say that may be the front of a request to a site of so many panels.
pub fn look(bytes: &[u8], panels: usize) -> Look {
    match read(bytes) {
        Err(Halt::Bad) => Look::Refused(400),
        Err(Halt::Begun) if bytes.len() < MOST_HEAD => Look::Begun,
        Err(Halt::Begun) => Look::Refused(400),
        Ok((_, _, _, head)) if head > MOST_HEAD => Look::Refused(400),
        Ok((method, target, fields, head)) => asks(method, target, &fields, head, panels),
    }
}

fn asks(method: &[u8], target: &[u8], fields: &Fields, head: usize, panels: usize) -> Look {
    let Some(route) = route(target, panels) else { return Look::Refused(404) };
    let is_post = matches!(route, Route::Ticks | Route::Visits | Route::Stop);
    if method != if is_post { &b"POST"[..] } else { b"GET" } {
        return Look::Refused(405);
    }
    match fields {
        Fields { is_encoded: true, .. } => Look::Refused(501),
        _ if !is_post => Look::Whole { route, head, body: 0 },
        Fields { lengths: 0, .. } => Look::Refused(411),
        Fields { lengths: 1, length: Some(length), .. } if *length <= MOST_BODY as u64 => Look::Whole { route, head, body: *length as usize },
        Fields { lengths: 1, length: Some(_), .. } => Look::Refused(413),
        _ => Look::Refused(400),
    }
}

fn route(target: &[u8], panels: usize) -> Option<Route> {
    match target.strip_prefix(b"/v1/")? {
        b"ticks" => Some(Route::Ticks),
        b"table" => Some(Route::Table),
        b"visits" => Some(Route::Visits),
        b"stop" => Some(Route::Stop),
        path => match path.strip_prefix(b"face/") {
            Some(panel) => number(panel).filter(|panel| (1..=panels as u64).contains(panel)).map(|panel| Route::Face(panel as usize - 1)),
            None => u32::try_from(number(path.strip_prefix(b"untested/")?)?).ok().map(Route::Untested),
        },
    }
}

fn is_token(byte: u8) -> bool {
    byte.is_ascii_alphanumeric() || b"!#$%&'*+-.^_`|~".contains(&byte)
}

/// Method, target, fields and the length of a head.
fn read(bytes: &[u8]) -> Result<(&[u8], &[u8], Fields, usize), Halt> {
    let mut at = 0;
    while let Some(b'\r' | b'\n') = bytes.get(at) {
        at = line_end(bytes, at)?;
    }
    let method = word(bytes, &mut at, is_token)?;
    let target = word(bytes, &mut at, |byte| byte > b' ' && byte != 127)?;
    for wanted in b"HTTP/1." {
        match bytes.get(at) {
            None => return Err(Halt::Begun),
            Some(byte) if byte != wanted => return Err(Halt::Bad),
            _ => at += 1,
        }
    }
    match bytes.get(at) {
        None => return Err(Halt::Begun),
        Some(b'0' | b'1') => at = line_end(bytes, at + 1)?,
        Some(_) => return Err(Halt::Bad),
    }
    let mut fields = Fields { is_encoded: false, lengths: 0, length: None };
    for _ in 0..=MOST_FIELDS {
        match bytes.get(at) {
            None => return Err(Halt::Begun),
            Some(b'\r' | b'\n') => return Ok((method, target, fields, line_end(bytes, at)?)),
            Some(_) => at = field(bytes, at, &mut fields)?,
        }
    }
    Err(Halt::Bad)
}

/// A word that is not empty and a space behind it.
fn word<'a>(bytes: &'a [u8], at: &mut usize, is_part: impl Fn(u8) -> bool) -> Result<&'a [u8], Halt> {
    let start = *at;
    let length = bytes[start..].iter().position(|byte| !is_part(*byte)).ok_or(Halt::Begun)?;
    *at = start + length + 1;
    if length > 0 && bytes[start + length] == b' ' { Ok(&bytes[start..start + length]) } else { Err(Halt::Bad) }
}

fn line_end(bytes: &[u8], at: usize) -> Result<usize, Halt> {
    match (bytes.get(at), bytes.get(at + 1)) {
        (Some(b'\n'), _) => Ok(at + 1),
        (Some(b'\r'), Some(b'\n')) => Ok(at + 2),
        (None, _) | (Some(b'\r'), None) => Err(Halt::Begun),
        _ => Err(Halt::Bad),
    }
}

/// Passes over a field, and notes what it says of the body.
fn field(bytes: &[u8], at: usize, fields: &mut Fields) -> Result<usize, Halt> {
    let length = bytes[at..].iter().position(|byte| !is_token(*byte)).ok_or(Halt::Begun)?;
    let name = &bytes[at..at + length];
    if length == 0 || bytes[at + length] != b':' {
        return Err(Halt::Bad);
    }
    let start = at + length + 1;
    let is_value = |byte: u8| byte == b'\t' || byte >= b' ' && byte != 127;
    let length = bytes[start..].iter().position(|byte| !is_value(*byte)).ok_or(Halt::Begun)?;
    let end = line_end(bytes, start + length)?;
    if name.eq_ignore_ascii_case(b"transfer-encoding") {
        fields.is_encoded = true;
    } else if name.eq_ignore_ascii_case(b"content-length") {
        fields.lengths += 1;
        fields.length = number(bytes[start..start + length].trim_ascii());
    }
    Ok(end)
}
