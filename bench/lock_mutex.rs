//! What `crates/dkg_lock_bench` does, in plain Rust and through a mutex of its standard library. `bench/lock` builds and runs it.
use std::sync::{Barrier, Mutex};
use std::time::Instant;

struct Counter {
    count: u64,
    seed: u64,
    rounds: u64,
}

/// The seed after so many rounds, each of which needs the one before.
fn worked(mut seed: u64, rounds: u64) -> u64 {
    for _ in 0..rounds {
        seed = seed
            .wrapping_mul(6364136223846793005)
            .wrapping_add(1442695040888963407);
    }
    seed
}

impl Counter {
    fn turn(&mut self) -> (u64, u64) {
        self.seed = worked(self.seed, self.rounds);
        self.count = self.count.wrapping_add(1);
        (self.count, self.count)
    }
}

#[allow(dead_code)]
struct HistoryEntry {
    caller: u64,
    call: u64,
    reply: u64,
    ticket: u64,
}

struct Kept {
    counter: Counter,
    history: Vec<HistoryEntry>,
}

impl Kept {
    fn call(&mut self, call: u64) -> u64 {
        let ticket = self.history.len() as u64;
        let (kept, reply) = self.counter.turn();
        self.history.push(HistoryEntry { caller: 0, call, reply: kept, ticket });
        reply
    }
}

fn by_mutex(threads: u64, rounds: u64, calls: u64) -> (u64, u128, u64) {
    let counter = Counter { count: 0, seed: 1, rounds };
    let mutex = Mutex::new(Kept { counter, history: Vec::new() });
    let barrier = Barrier::new(threads as usize);
    let nanos = std::thread::scope(|scope| {
        let callers: Vec<_> = (0..threads)
            .map(|_| {
                scope.spawn(|| {
                    barrier.wait();
                    let start = Instant::now();
                    for i in 0..calls {
                        mutex.lock().unwrap().call(i);
                    }
                    start.elapsed().as_nanos()
                })
            })
            .collect();
        callers.into_iter().map(|caller| caller.join().unwrap()).max().unwrap()
    });
    let kept = mutex.into_inner().unwrap();
    (kept.history.len() as u64, nanos, kept.counter.seed)
}

fn alone(rounds: u64, calls: u64) -> (u64, u128, u64) {
    let mut seed = 1;
    let start = Instant::now();
    for _ in 0..calls {
        seed = worked(seed, rounds);
    }
    (calls, start.elapsed().as_nanos(), seed)
}

fn main() {
    let words: Vec<String> = std::env::args().skip(1).collect();
    let number = |i: usize| words[i].parse::<u64>().expect("a number");
    let (made, nanos, seed) = match words[0].as_str() {
        "mutex" => by_mutex(number(1), number(2), number(3)),
        "turns" => alone(number(2), number(3)),
        word => panic!("{word} is neither mutex nor turns"),
    };
    println!("{made}");
    eprintln!("{nanos} {seed}");
}
