// The work of `crates/index_runs`, over a map of Rust's standard library behind one lock. The first word is `mutex` or
// `rwlock`, the numbers after it are the passes, keys, requests, updates, listings, page and seed of `index_runs`. Each
// update has a place and stands in a history, as in the index; a listing is made under the lock, so it is of one
// moment.
use std::collections::BTreeMap;
use std::env;
use std::sync::{Mutex, RwLock};
use std::thread;

struct Random(u64);

impl Random {
    fn below(&mut self, bound: u64) -> u64 {
        self.0 ^= self.0 << 13;
        self.0 ^= self.0 >> 7;
        self.0 ^= self.0 << 17;
        if bound == 0 { 0 } else { (self.0 >> 20) % bound }
    }
}

#[allow(dead_code)]
struct Update {
    client: u32,
    line: u32,
    key: u64,
    val: Option<u64>,
}

#[derive(Default)]
struct Index {
    map: BTreeMap<u64, u64>,
    history: Vec<Update>,
}

impl Index {
    fn update(&mut self, client: u32, line: u32, key: u64, val: Option<u64>) -> (usize, bool) {
        let was = match val {
            Some(val) => self.map.insert(key, val).is_some(),
            None => self.map.remove(&key).is_some(),
        };
        if was || val.is_some() {
            self.history.push(Update { client, line, key, val });
        }
        (self.history.len(), was)
    }

    fn listing(&self, from: u64, page: usize) -> Vec<(u64, u64)> {
        let mut pairs = Vec::with_capacity(page);
        pairs.extend(self.map.range(from..).take(page).map(|(key, val)| (*key, *val)));
        pairs
    }
}

enum Shared {
    Mutex(Mutex<Index>),
    RwLock(RwLock<Index>),
}

impl Shared {
    fn update(&self, client: u32, line: u32, key: u64, val: Option<u64>) -> (usize, bool) {
        match self {
            Shared::Mutex(index) => index.lock().unwrap().update(client, line, key, val),
            Shared::RwLock(index) => index.write().unwrap().update(client, line, key, val),
        }
    }

    fn listing(&self, from: u64, page: usize) -> Vec<(u64, u64)> {
        match self {
            Shared::Mutex(index) => index.lock().unwrap().listing(from, page),
            Shared::RwLock(index) => index.read().unwrap().listing(from, page),
        }
    }
}

fn work(shared: &Shared, client: u32, numbers: &[u64]) -> u64 {
    let &[_, keys, requests, updates, listings, page, seed, ..] = numbers else {
        panic!("seven numbers are wanted");
    };
    let mut random = Random((seed + u64::from(client)).wrapping_mul(0x9E37_79B9_7F4A_7C15) | 1);
    let mut seen = 0;
    for line in 1..=requests as u32 {
        let kind = random.below(100);
        if kind < updates {
            let key = random.below(keys);
            let val = (random.below(3) != 0).then(|| random.below(1_000_000));
            seen += shared.update(client, line, key, val).0 as u64;
        } else {
            let page = if kind - updates < listings { page as usize } else { 1 };
            seen += shared.listing(random.below(keys), page).len() as u64;
        }
    }
    seen
}

fn main() {
    let mut words = env::args().skip(1);
    let shared = match words.next().as_deref() {
        Some("mutex") => Shared::Mutex(Mutex::default()),
        Some("rwlock") => Shared::RwLock(RwLock::default()),
        _ => panic!("mutex or rwlock"),
    };
    let numbers: Vec<u64> = words.map(|word| word.parse().unwrap()).collect();
    let seen: u64 = thread::scope(|scope| {
        let threads: Vec<_> = (0..numbers[0] as u32)
            .map(|client| scope.spawn({ let (shared, numbers) = (&shared, &numbers); move || work(shared, client, numbers) }))
            .collect();
        threads.into_iter().map(|thread| thread.join().unwrap()).sum()
    });
    println!("{seen}");
}
