// A whole session over std's BTreeMap behind a RwLock: the program that someone would write in Rust without any proof.
// It takes sessions without a fault, and writes the same text as bucketidx. bench/compare runs both.
mod lines;
mod session;

use session::{Asked, Point, Query, Record, Request};
use std::collections::BTreeMap;
use std::io::{self, Read, Write};
use std::ops::Bound;
use std::sync::RwLock;

/// One change: its client, its line, its key, and whether it is a put.
pub struct Update<'a> {
    client: usize,
    line: u32,
    key: &'a str,
    put: bool,
}

#[derive(Default)]
pub struct Shared<'a> {
    map: BTreeMap<&'a str, &'a Record<'a>>,
    journal: Vec<Update<'a>>,
}

/// What a page shows.
#[derive(Default)]
pub struct Page<'a> {
    groups: Vec<&'a str>,
    keys: Vec<(&'a str, &'a Record<'a>)>,
    truncated: bool,
    /// The last entry, and whether it is a group.
    last: Option<(&'a str, bool)>,
}

/// The group of a key: up to the first delimiter after the prefix.
fn group_of<'a>(query: &Query, key: &'a str) -> Option<&'a str> {
    if query.delimiter.is_empty() {
        return None;
    }
    let behind = &key[query.prefix.len()..];
    let at = behind.find(query.delimiter.as_str())?;
    Some(&key[..query.prefix.len() + at + query.delimiter.len()])
}

/// The first name after all that begin with this group; None where there is no such name.
fn behind_group(group: &str) -> Bound<Vec<u8>> {
    let mut bytes = group.as_bytes().to_vec();
    while let Some(last) = bytes.pop() {
        if last < 0xff {
            bytes.push(last + 1);
            return Bound::Included(bytes);
        }
    }
    Bound::Unbounded
}

/// Where the page begins: after what was listed, and from the prefix on.
fn first_bound(query: &Query) -> Bound<&str> {
    let point = match &query.point {
        Some(Point::Key(text)) | Some(Point::Group(text)) => text.as_str(),
        None => "",
    };
    let behind = query.start_after.as_str().max(point);
    if behind.is_empty() || behind < query.prefix.as_str() {
        Bound::Included(query.prefix.as_str())
    } else {
        Bound::Excluded(behind)
    }
}

/// The group that the listing goes on after; nothing begins with it where there is none.
fn left_out(query: &Query) -> Option<&str> {
    match &query.point {
        Some(Point::Group(text)) => Some(text),
        _ => None,
    }
}

fn page_of<'a>(map: &BTreeMap<&'a str, &'a Record<'a>>, query: &Query) -> Page<'a> {
    let mut page = Page::default();
    let mut room = query.max_keys;
    let left_out = left_out(query);
    let mut pairs = map.range::<str, _>((first_bound(query), Bound::Unbounded));
    while let Some((&key, &record)) = pairs.next() {
        if left_out.is_some_and(|group| key.starts_with(group)) {
            continue;
        }
        if !key.starts_with(query.prefix.as_str()) {
            break;
        }
        if room == 0 {
            page.truncated = query.max_keys > 0;
            break;
        }
        room -= 1;
        let Some(group) = group_of(query, key) else {
            page.keys.push((key, record));
            page.last = Some((key, false));
            continue;
        };
        page.groups.push(group);
        page.last = Some((group, true));
        // One search leaves the group, however many keys it has.
        match behind_group(group) {
            Bound::Included(bytes) => match String::from_utf8(bytes) {
                Ok(next) => pairs = map.range::<str, _>((Bound::Included(next.as_str()), Bound::Unbounded)),
                Err(_) => while pairs.clone().next().is_some_and(|(key, _)| key.starts_with(group)) {
                    pairs.next();
                },
            },
            _ => break,
        }
    }
    page
}

fn run_client<'a>(client: usize, asked: &'a [Asked<'a>], shared: &RwLock<Shared<'a>>) -> Vec<u8> {
    let mut out = Vec::new();
    let mut last: Option<Query> = None;
    for Asked { line, request } in asked {
        let line = *line;
        match request {
            Request::Put(key, record) => {
                let (at, was) = {
                    let mut all = shared.write().unwrap();
                    let was = all.map.insert(key, record).is_some();
                    all.journal.push(Update { client, line, key, put: true });
                    (all.journal.len(), was)
                };
                lines::put(&mut out, at, client, line, was);
            }
            Request::Delete(key) => {
                let at = {
                    let mut all = shared.write().unwrap();
                    if all.map.remove(key.as_ref()).is_some() {
                        all.journal.push(Update { client, line, key, put: false });
                    }
                    all.journal.len()
                };
                lines::plain(&mut out, Some(at), client, line, 204);
            }
            Request::Head(key) => {
                let all = shared.read().unwrap();
                let (at, found) = (all.journal.len(), all.map.get(key.as_ref()).copied());
                drop(all);
                match found {
                    Some(record) => lines::found(&mut out, at, client, line, record),
                    None => lines::plain(&mut out, Some(at), client, line, 404),
                }
            }
            Request::List(query) => last = list(&mut out, client, line, query.as_ref().clone(), shared),
            Request::Next => match last.take() {
                Some(query) => last = list(&mut out, client, line, query, shared),
                None => lines::plain(&mut out, None, client, line, 400),
            },
        }
    }
    out
}

/// Answers a listing, and gives the query of its next page.
fn list<'a>(out: &mut Vec<u8>, client: usize, line: u32, query: Query, shared: &RwLock<Shared<'a>>) -> Option<Query> {
    if !query.token.is_empty() && query.point.is_none() {
        lines::plain(out, None, client, line, 400);
        return None;
    }
    let (at, page) = {
        let all = shared.read().unwrap();
        (all.journal.len(), page_of(&all.map, &query))
    };
    let next = match page.last {
        Some((text, true)) if page.truncated => Some(Point::Group(text.to_string())),
        Some((text, false)) if page.truncated => Some(Point::Key(text.to_string())),
        _ => None,
    };
    let token = next.as_ref().map(|point| session::token_of(point, &query)).unwrap_or_default();
    lines::listed(out, at, client, line, &query, &page, &token);
    next.map(|point| Query { token, point: Some(point), ..query })
}

fn main() -> io::Result<()> {
    let mut input = String::new();
    io::stdin().read_to_string(&mut input)?;
    let clients = session::read(&input);
    let shared = RwLock::new(Shared::default());
    let texts: Vec<Vec<u8>> = std::thread::scope(|threads| {
        let running: Vec<_> = clients
            .iter()
            .enumerate()
            .map(|(client, asked)| {
                let shared = &shared;
                threads.spawn(move || run_client(client, asked, shared))
            })
            .collect();
        running.into_iter().map(|thread| thread.join().unwrap()).collect()
    });
    let mut out = io::stdout().lock();
    for text in &texts {
        out.write_all(text)?;
    }
    let all = shared.into_inner().unwrap();
    let mut line = Vec::new();
    for (place, update) in all.journal.iter().enumerate() {
        line.clear();
        lines::journal(&mut line, place + 1, update.client, update.line, update.key, update.put);
        out.write_all(&line)?;
    }
    writeln!(out, "{{\"Updates\":{}}}", all.journal.len())?;
    out.flush()?;
    // The system takes the memory back.
    std::process::exit(0)
}
