//! The least time of a call, by the library and by Rust.

use crate::clock::thread_time;
use std::hint::black_box;

/// A round goes over its items as often as it takes to fill this time, in ns.
const SPAN: f64 = 1e6;

/// The least times of a call so far, in ns: the library's, and Rust's.
pub struct Timing {
    turns: usize,
    pub least: [f64; 2],
}

impl Timing {
    pub fn new() -> Timing {
        Timing { turns: 0, least: [f64::MAX; 2] }
    }

    /// One round: the library over all items, then Rust.
    pub fn round<T>(&mut self, items: &[T], library: impl Fn(&T) -> u64, rust: impl Fn(&T) -> u64) {
        if self.turns == 0 {
            let once = pass(items, 1, &library).max(pass(items, 1, &rust)) * items.len() as f64;
            self.turns = (SPAN / once).ceil() as usize;
        }
        self.least[0] = self.least[0].min(pass(items, self.turns, &library));
        self.least[1] = self.least[1].min(pass(items, self.turns, &rust));
    }
}

/// The time of a call.
fn pass<T>(items: &[T], turns: usize, call: &impl Fn(&T) -> u64) -> f64 {
    let before = thread_time();
    for _ in 0..turns {
        for item in items {
            black_box(call(black_box(item)));
        }
    }
    (thread_time() - before) / (turns * items.len()) as f64
}

/// Library, Rust, and the ratio.
pub fn columns([library, rust]: [f64; 2], unit: f64) -> String {
    format!("{:9.2} {:9.2} {:6.2}", library / unit, rust / unit, library / rust)
}
