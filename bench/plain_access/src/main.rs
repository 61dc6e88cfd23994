//! The plain baseline of accesses by many threads: `plain_access THREADS own|spread|one CALLS`. It prints what `probe` prints of the row
//! `rate own|spread|one THREADS CALLS`.
//!
//! It is written as one would without proofs and without a journal: all words in one `Mutex<HashMap>`, four states, and sets that are
//! lists of locks. Nothing can be settled or checked of it afterwards.
use std::collections::HashMap;
use std::sync::Mutex;
use std::time::Instant;

const WORDS: u64 = 1024;

#[derive(Clone, Copy, PartialEq)]
enum Shape {
    Own,
    Spread,
    One,
}

impl Shape {
    fn shards(self) -> u64 {
        match self {
            Shape::Own => 4,
            Shape::Spread => 64,
            Shape::One => 1,
        }
    }

    fn word(self, thread: u64, call: u64) -> u64 {
        let page = match self {
            Shape::Own => thread % 4,
            Shape::Spread => (call / 16 + thread % 4 * 16) % 64,
            Shape::One => 0,
        };
        page * WORDS + call % WORDS
    }
}

enum State {
    Exclusive(u32),
    Shared(Vec<u32>),
    SharedModified(Vec<u32>),
}

struct Seat {
    thread: u32,
    held: Vec<u32>,
}

struct Detector {
    words: Mutex<HashMap<u64, State>>,
}

impl Detector {
    /// Whether the access is a race.
    fn access(&self, seat: &Seat, word: u64, write: bool) -> bool {
        let mut words = self.words.lock().unwrap();
        let Some(state) = words.get_mut(&word) else {
            words.insert(word, State::Exclusive(seat.thread));
            return false;
        };
        match state {
            State::Exclusive(owner) if *owner == seat.thread => false,
            State::Exclusive(_) => {
                let empty = seat.held.is_empty();
                *state = if write { State::SharedModified(seat.held.clone()) } else { State::Shared(seat.held.clone()) };
                write && empty
            }
            State::Shared(set) => {
                set.retain(|lock| seat.held.contains(lock));
                let empty = set.is_empty();
                if write {
                    *state = State::SharedModified(std::mem::take(set));
                }
                write && empty
            }
            State::SharedModified(set) => {
                let before = set.is_empty();
                set.retain(|lock| seat.held.contains(lock));
                !before && set.is_empty()
            }
        }
    }
}

fn make_calls(detector: &Detector, seat: &Seat, shape: Shape, calls: u64) -> u64 {
    (0..calls).filter(|call| detector.access(seat, shape.word(u64::from(seat.thread), *call), call % 2 == 1)).count() as u64
}

fn main() {
    let words: Vec<String> = std::env::args().collect();
    let threads: u32 = words[1].parse().unwrap();
    let shape = match words[2].as_str() {
        "own" => Shape::Own,
        "spread" => Shape::Spread,
        "one" => Shape::One,
        _ => panic!("own, spread or one"),
    };
    let calls: u64 = words[3].parse().unwrap();
    let detector = Detector { words: Mutex::new(HashMap::new()) };
    let first = Seat { thread: 0, held: vec![1] };
    for word in 0..shape.shards() * WORDS {
        detector.access(&first, word, true);
    }
    let start = Instant::now();
    let races: u64 = std::thread::scope(|scope| {
        let workers: Vec<_> = (1..=threads)
            .map(|thread| {
                let detector = &detector;
                scope.spawn(move || make_calls(detector, &Seat { thread, held: vec![1] }, shape, calls))
            })
            .collect();
        workers.into_iter().map(|worker| worker.join().unwrap()).sum()
    });
    let micros = start.elapsed().as_micros();
    println!("calls {}, races {races}", u64::from(threads) * calls);
    eprintln!("{micros} microseconds");
}
