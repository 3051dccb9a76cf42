// A session's text, read line by line. Lines have no fault.
use std::borrow::Cow;

pub struct Record<'a> {
    pub size: u64,
    pub etag: &'a str,
    pub modified: u64,
}

#[derive(Clone)]
pub enum Point {
    Key(String),
    Group(String),
}

#[derive(Clone, Default)]
pub struct Query {
    pub prefix: String,
    pub delimiter: String,
    pub start_after: String,
    pub token: String,
    pub point: Option<Point>,
    pub max_keys: usize,
    pub url: bool,
}

pub enum Request<'a> {
    Put(Cow<'a, str>, Record<'a>),
    Delete(Cow<'a, str>),
    Head(Cow<'a, str>),
    List(Box<Query>),
    Next,
}

pub struct Asked<'a> {
    pub line: u32,
    pub request: Request<'a>,
}

fn digit(byte: u8) -> u8 {
    (byte as char).to_digit(16).expect("a hexadecimal digit") as u8
}

fn unescaped(text: &str) -> Cow<'_, str> {
    if !text.as_bytes().contains(&b'%') {
        return Cow::Borrowed(text);
    }
    let mut bytes = Vec::with_capacity(text.len());
    let mut left = text.as_bytes();
    while let [first, rest @ ..] = left {
        match (first, rest) {
            (b'%', [high, low, behind @ ..]) => {
                bytes.push(digit(*high) * 16 + digit(*low));
                left = behind;
            }
            _ => {
                bytes.push(*first);
                left = rest;
            }
        }
    }
    Cow::Owned(String::from_utf8(bytes).expect("UTF-8"))
}

fn query_of(text: &str) -> Query {
    let mut query = Query { max_keys: 1000, ..Query::default() };
    for piece in text.strip_prefix('?').unwrap_or(text).split('&').filter(|piece| !piece.is_empty()) {
        let (name, value) = piece.split_once('=').unwrap_or((piece, ""));
        let value = unescaped(value).into_owned();
        match name {
            "prefix" => query.prefix = value,
            "delimiter" => query.delimiter = value,
            "start-after" => query.start_after = value,
            "max-keys" => query.max_keys = value.parse::<usize>().expect("a number").min(1000),
            "encoding-type" => query.url = value == "url",
            "continuation-token" => query.token = value,
            _ => {}
        }
    }
    query.point = point_of(&query);
    query
}

fn request_of(line: &str) -> Option<Request<'_>> {
    let mut fields = line.split(' ');
    let verb = fields.next()?;
    let mut next = || fields.next().expect("a field");
    Some(match verb {
        "PUT" => {
            let key = unescaped(next());
            let size = next().parse().expect("a number");
            let etag = next().trim_matches('"');
            Request::Put(key, Record { size, etag, modified: next().parse().expect("a number") })
        }
        "DELETE" => Request::Delete(unescaped(next())),
        "HEAD" => Request::Head(unescaped(next())),
        "LIST" => Request::List(Box::new(query_of(fields.next().unwrap_or("")))),
        "NEXT" => Request::Next,
        _ => return None,
    })
}

/// The requests of each client.
pub fn read(input: &str) -> Vec<Vec<Asked<'_>>> {
    let mut clients: Vec<Vec<Asked>> = Vec::new();
    for (at, line) in input.split('\n').enumerate() {
        let line = line.strip_suffix('\r').unwrap_or(line);
        if line == "CLIENT" {
            clients.push(Vec::new());
        } else if let Some(request) = request_of(line) {
            let line = at as u32 + 1;
            clients.last_mut().expect("a client").push(Asked { line, request });
        }
    }
    clients
}

const LETTERS: &[u8; 64] = b"ABCDEFGHIJKLMNOPQRSTUVWXYZabcdefghijklmnopqrstuvwxyz0123456789-_";

fn base64(bytes: &[u8]) -> String {
    let mut text = String::with_capacity(bytes.len() * 4 / 3 + 3);
    for chunk in bytes.chunks(3) {
        let mut group = [0; 3];
        group[..chunk.len()].copy_from_slice(chunk);
        let bits = u32::from(group[0]) << 16 | u32::from(group[1]) << 8 | u32::from(group[2]);
        for place in 0..=chunk.len() {
            text.push(LETTERS[(bits >> (18 - 6 * place) & 63) as usize] as char);
        }
    }
    text
}

/// What stands before the text of a point in a token of the query: the form, the kind, and the prefix and the delimiter, each
/// after its length.
fn front_of(kind: u8, query: &Query) -> Vec<u8> {
    let (prefix, delimiter) = (&query.prefix, &query.delimiter);
    let mut bytes = vec![b'2', kind];
    for text in [prefix, delimiter] {
        bytes.extend_from_slice(format!("{:04}", text.len()).as_bytes());
        bytes.extend_from_slice(text.as_bytes());
    }
    bytes
}

/// The token of a point for the query, in base64.
pub fn token_of(point: &Point, query: &Query) -> String {
    let (kind, text) = match point {
        Point::Key(text) => (b'K', text),
        Point::Group(text) => (b'P', text),
    };
    let mut bytes = front_of(kind, query);
    bytes.extend_from_slice(text.as_bytes());
    base64(&bytes)
}

fn decoded(token: &str) -> Option<Vec<u8>> {
    let mut bytes = Vec::new();
    let (mut bits, mut count) = (0u32, 0);
    for letter in token.bytes() {
        bits = bits << 6 | LETTERS.iter().position(|other| *other == letter)? as u32;
        count += 6;
        if count >= 8 {
            count -= 8;
            bytes.push((bits >> count) as u8);
        }
    }
    (base64(&bytes) == token).then_some(bytes)
}

/// The point of the query's token, which names the query's prefix and delimiter, or none.
fn point_of(query: &Query) -> Option<Point> {
    let bytes = decoded(&query.token)?;
    let (kind, text) = match &bytes[..] {
        [b'2', kind, ..] => (*kind, bytes.strip_prefix(&front_of(*kind, query)[..])?),
        [kind, text @ ..] => (*kind, text),
        [] => return None,
    };
    let text = String::from_utf8(text.to_vec()).ok().filter(|text| !text.is_empty() && text.len() <= 1024)?;
    match kind {
        b'K' => Some(Point::Key(text)),
        b'P' => Some(Point::Group(text)),
        _ => None,
    }
}
