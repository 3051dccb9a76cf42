// The stores and loads of a section, without a table: the own word is stored, the stamp loaded, what it held plus 1
// stored as announced, the stamp loaded again, the own word stored, and the announcement stored as 0, so many times. It
// prints how many sections, and in how many nanoseconds.
use std::env;
use std::hint::black_box;
use std::sync::atomic::{AtomicU64, Ordering::SeqCst};
use std::time::Instant;

fn main() {
    let turns: u64 = env::args().nth(1).and_then(|word| word.parse().ok()).expect("a number is wanted");
    let words: Vec<AtomicU64> = (0..30).map(|_| AtomicU64::new(0)).collect();
    let words = black_box(words.as_slice());
    let start = Instant::now();
    let mut found = 0;
    let mut own = 0;
    for _ in 0..turns {
        words[1].store(own + 1, SeqCst);
        let seen = words[0].load(SeqCst);
        words[3].store(seen + 1, SeqCst);
        found += words[0].load(SeqCst);
        own += 2;
        words[1].store(own, SeqCst);
        words[3].store(0, SeqCst);
    }
    let nanos = start.elapsed().as_nanos();
    black_box(found);
    println!("{turns} {nanos}");
}
