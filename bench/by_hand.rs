// The same lines of listings, handwritten in Rust: 1,000 keys, so many times. bench/lines compares.
use std::env;
use std::io::{self, Write};

struct Record {
    key: String,
    etag: String,
    size: u64,
    modified: u64,
}

fn push_text(out: &mut Vec<u8>, text: &str) {
    out.push(b'"');
    let bytes = text.as_bytes();
    let mut done = 0;
    for (at, byte) in bytes.iter().enumerate() {
        let escape: &[u8] = match byte {
            b'"' => b"\\\"",
            b'\\' => b"\\\\",
            0..=31 => b"\\u00",
            _ => continue,
        };
        out.extend_from_slice(&bytes[done..at]);
        out.extend_from_slice(escape);
        if *byte < 32 {
            write!(out, "{byte:02x}").unwrap();
        }
        done = at + 1;
    }
    out.extend_from_slice(&bytes[done..]);
    out.push(b'"');
}

fn push_number(out: &mut Vec<u8>, number: u64) {
    write!(out, "{number}").unwrap();
}

fn push_row(out: &mut Vec<u8>, record: &Record) {
    out.extend_from_slice(b"{\"ETag\":");
    push_text(out, &record.etag);
    out.extend_from_slice(b",\"Key\":");
    push_text(out, &record.key);
    out.extend_from_slice(b",\"LastModified\":");
    push_number(out, record.modified);
    out.extend_from_slice(b",\"Size\":");
    push_number(out, record.size);
    out.push(b'}');
}

fn line_of(records: &[Record], line: u64) -> Vec<u8> {
    let mut out = Vec::new();
    write!(out, "{{\"At\":{},\"Client\":0,\"CommonPrefixes\":[],\"Contents\":[", records.len()).unwrap();
    for (place, record) in records.iter().enumerate() {
        if place > 0 {
            out.push(b',');
        }
        push_row(&mut out, record);
    }
    write!(out, "],\"IsTruncated\":false,\"KeyCount\":{},\"Line\":{line},\"MaxKeys\":1000,\"Prefix\":\"\",\"Status\":200}}\n", records.len()).unwrap();
    out
}

fn main() -> io::Result<()> {
    let count: u64 = env::args().nth(1).and_then(|word| word.parse().ok()).unwrap_or(1);
    let records: Vec<Record> = (0..1000)
        .map(|k| Record { key: format!("k{k:06}"), etag: format!("e{k}"), size: k, modified: k })
        .collect();
    let mut out = io::stdout().lock();
    for line in 0..count {
        out.write_all(&line_of(&records, 1002 + line))?;
    }
    out.flush()
}
