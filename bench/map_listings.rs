// The listings of `crates/listing_times`, of a map of Rust's standard library. The first word is `iterator`, `range`,
// `beside` or `beside_each`; then how many keys, and how many listings. It prints for each thread how much it made, and
// in how many nanoseconds. `iterator` goes through the map; `range` looks for each key anew. With `beside` three
// threads list under a lock that they hold for a whole listing, and another one puts all keys anew so many times; with
// `beside_each` the lock is held for one entry, so that a listing is not of one moment.
use std::collections::BTreeMap;
use std::env;
use std::hint::black_box;
use std::sync::RwLock;
use std::thread;
use std::time::Instant;

type Map = BTreeMap<u64, u64>;

/// The keys of `listing_times`, each with its line.
fn keys(count: u64) -> impl Iterator<Item = (u64, u64)> {
    let mut key = 0x9E37_79B9_7F4A_7C15u64;
    (0..count).map(move |line| {
        key ^= key << 13;
        key ^= key >> 7;
        key ^= key << 17;
        (key, line)
    })
}

fn first_from(map: &Map, key: u64) -> Option<(u64, u64)> {
    map.range(key..).next().map(|(key, val)| (*key, *val))
}

/// Lists by a search for each entry.
fn list_each(mut look: impl FnMut(u64) -> Option<(u64, u64)>) -> u64 {
    let (mut key, mut listed) = (0, 0);
    while let Some((found, val)) = look(key) {
        black_box(val);
        listed += 1;
        match found.checked_add(1) {
            Some(next) => key = next,
            None => break,
        }
    }
    listed
}

/// What is made so many times, and the nanoseconds.
fn timed(turns: u64, mut make: impl FnMut() -> u64) -> (u64, u128) {
    let start = Instant::now();
    let made = (0..turns).map(|_| make()).sum();
    (made, start.elapsed().as_nanos())
}

fn list(map: &Map) -> u64 {
    map.iter().map(|(key, val)| black_box((*key, *val))).count() as u64
}

fn main() {
    let words: Vec<String> = env::args().skip(1).collect();
    let (count, turns): (u64, u64) = (words[1].parse().unwrap(), words[2].parse().unwrap());
    // one by one, as `collect` would sort the keys and make full nodes of them
    let mut map = Map::new();
    keys(count).for_each(|(key, val)| {
        map.insert(key, val);
    });
    let made = match words[0].as_str() {
        "iterator" => vec![timed(turns, || list(&map))],
        "range" => vec![timed(turns, || list_each(|key| first_from(&map, key)))],
        word => {
            let shared = &RwLock::new(map);
            let each = word == "beside_each";
            thread::scope(|scope| {
                let mut threads = vec![scope.spawn(move || {
                    timed(turns, || keys(count).map(|(key, val)| shared.write().unwrap().insert(key, val)).count() as u64)
                })];
                for _ in 0..3 {
                    threads.push(scope.spawn(move || {
                        timed(turns, || match each {
                            true => list_each(|key| first_from(&shared.read().unwrap(), key)),
                            false => list(&shared.read().unwrap()),
                        })
                    }));
                }
                threads.into_iter().map(|thread| thread.join().unwrap()).collect()
            })
        }
    };
    for (number, (made, nanos)) in made.into_iter().enumerate() {
        println!("{number} {made} {nanos}");
    }
}
