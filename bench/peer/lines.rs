// The lines of the answers, put together in one buffer.
use crate::Page;
use crate::session::{Query, Record};
use std::borrow::Cow;
use std::io::Write;

fn number(out: &mut Vec<u8>, label: &str, number: usize) {
    out.extend_from_slice(label.as_bytes());
    let mut digits = [0; 20];
    let (mut at, mut left) = (20, number);
    loop {
        at -= 1;
        digits[at] = b'0' + (left % 10) as u8;
        left /= 10;
        if left == 0 {
            break;
        }
    }
    out.extend_from_slice(&digits[at..]);
}

fn text(out: &mut Vec<u8>, label: &str, text: &str) {
    out.extend_from_slice(label.as_bytes());
    out.push(b'"');
    let bytes = text.as_bytes();
    // All bytes are looked at, so that many are looked at in one step.
    if !bytes.iter().fold(false, |any, byte| any | (*byte < 32) | (*byte == b'"') | (*byte == b'\\')) {
        out.extend_from_slice(bytes);
        out.push(b'"');
        return;
    }
    let mut done = 0;
    for (at, byte) in bytes.iter().enumerate() {
        let short = match byte {
            b'"' | b'\\' => *byte,
            8 => b'b',
            9 => b't',
            10 => b'n',
            12 => b'f',
            13 => b'r',
            0..=31 => b'u',
            _ => continue,
        };
        out.extend_from_slice(&bytes[done..at]);
        out.extend_from_slice(&[b'\\', short]);
        if short == b'u' {
            write!(out, "00{byte:02x}").unwrap();
        }
        done = at + 1;
    }
    out.extend_from_slice(&bytes[done..]);
    out.push(b'"');
}

fn shown(url: bool, text: &str) -> Cow<'_, str> {
    if !url {
        return Cow::Borrowed(text);
    }
    let mut escaped = String::new();
    for byte in text.bytes() {
        match byte {
            b'A'..=b'Z' | b'a'..=b'z' | b'0'..=b'9' | b'-' | b'.' | b'_' | b'~' | b'/' => escaped.push(byte as char),
            _ => escaped.push_str(&format!("%{byte:02X}")),
        }
    }
    Cow::Owned(escaped)
}

fn start(out: &mut Vec<u8>, at: Option<usize>, client: usize) {
    match at {
        Some(at) => number(out, "{\"At\":", at),
        None => out.extend_from_slice(b"{\"At\":null"),
    }
    number(out, ",\"Client\":", client);
}

fn end(out: &mut Vec<u8>, status: usize) {
    number(out, ",\"Status\":", status);
    out.extend_from_slice(b"}\n");
}

pub fn put(out: &mut Vec<u8>, at: usize, client: usize, line: u32, was: bool) {
    start(out, Some(at), client);
    number(out, ",\"Line\":", line as usize);
    out.extend_from_slice(if was { b",\"Replaced\":true" } else { b",\"Replaced\":false" });
    end(out, 200);
}

pub fn plain(out: &mut Vec<u8>, at: Option<usize>, client: usize, line: u32, status: usize) {
    start(out, at, client);
    number(out, ",\"Line\":", line as usize);
    end(out, status);
}

pub fn found(out: &mut Vec<u8>, at: usize, client: usize, line: u32, record: &Record) {
    start(out, Some(at), client);
    text(out, ",\"ETag\":", record.etag);
    number(out, ",\"LastModified\":", record.modified as usize);
    number(out, ",\"Line\":", line as usize);
    number(out, ",\"Size\":", record.size as usize);
    end(out, 200);
}

fn entries(out: &mut Vec<u8>, query: &Query, page: &Page) {
    out.extend_from_slice(b",\"CommonPrefixes\":[");
    for (at, group) in page.groups.iter().enumerate() {
        text(out, if at > 0 { ",{\"Prefix\":" } else { "{\"Prefix\":" }, &shown(query.url, group));
        out.push(b'}');
    }
    out.extend_from_slice(b"],\"Contents\":[");
    for (at, (key, record)) in page.keys.iter().enumerate() {
        text(out, if at > 0 { ",{\"ETag\":" } else { "{\"ETag\":" }, record.etag);
        text(out, ",\"Key\":", &shown(query.url, key));
        number(out, ",\"LastModified\":", record.modified as usize);
        number(out, ",\"Size\":", record.size as usize);
        out.push(b'}');
    }
    out.push(b']');
}

fn given(out: &mut Vec<u8>, label: &str, value: &str) {
    if !value.is_empty() {
        text(out, label, value);
    }
}

pub fn listed(out: &mut Vec<u8>, at: usize, client: usize, line: u32, query: &Query, page: &Page, token: &str) {
    start(out, Some(at), client);
    entries(out, query, page);
    given(out, ",\"ContinuationToken\":", &query.token);
    given(out, ",\"Delimiter\":", &shown(query.url, &query.delimiter));
    given(out, ",\"EncodingType\":", if query.url { "url" } else { "" });
    out.extend_from_slice(if page.truncated { b",\"IsTruncated\":true" } else { b",\"IsTruncated\":false" });
    number(out, ",\"KeyCount\":", page.groups.len() + page.keys.len());
    number(out, ",\"Line\":", line as usize);
    number(out, ",\"MaxKeys\":", query.max_keys);
    given(out, ",\"NextContinuationToken\":", token);
    text(out, ",\"Prefix\":", &shown(query.url, &query.prefix));
    given(out, ",\"StartAfter\":", &shown(query.url, &query.start_after));
    end(out, 200);
}

pub fn journal(out: &mut Vec<u8>, place: usize, client: usize, line: u32, key: &str, put: bool) {
    start(out, Some(place), client);
    text(out, ",\"Key\":", key);
    number(out, ",\"Line\":", line as usize);
    out.extend_from_slice(if put { b",\"Verb\":\"PUT\"}\n" } else { b",\"Verb\":\"DELETE\"}\n" });
}
